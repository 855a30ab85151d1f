/*
 * A stream played a record at a time, in the memory of one record, and what can be said of each: its kind by name, why it was refused,
 * the bits of SYS_STAT and the pins by name.
 */
#ifndef TURNS_H
#define TURNS_H

#include "input.h"
#include "toralinge.h"

enum { TURN_HEADER = 4, TURN_MOST = TURN_HEADER + 65535, BITS = 7, PINS = 3, REASON_SIZE = 160 };

struct named {
    const char *name;
    unsigned weight;
};

extern const struct named bits_of_sys_stat[BITS]; /* the highest first */
extern const struct named pins_of_entry[PINS];    /* ALERT, CHG, DSG */

struct turn {
    struct input in;
    uint8_t chip[TORALINGE_CHIP_SIZE];
    unsigned part;                    /* of the chip that stands, or 0 */
    unsigned long long count;         /* how many records there were; the one at hand is count - 1 */
    uint8_t bytes[TURN_MOST];         /* the record at hand, */
    size_t length;                    /* as many bytes as there are of it, */
    uint8_t entry[TORALINGE_ENTRY_SIZE]; /* and its entry */
    int over;                         /* it is the last one: cut short, or refused with no chip standing */
};

/* Opens a stream; 0 where it cannot be read. */
int turn_open(struct turn *turn, const char *name);

/* Plays the next record; 0 where there is none. */
int turn_next(struct turn *turn);

/* Whether the record has its whole header, and the kind that it then is. */
int turn_has_kind(const struct turn *turn);
unsigned turn_kind(const struct turn *turn);

/* The name of its kind, or the kind as 0x0018, or `cut`. The text stands until the next call. */
const char *turn_name(const struct turn *turn);

/* Why it was refused, in words: `count 3 is 16,384, above 16,383`. */
void turn_reason(const struct turn *turn, char reason[REASON_SIZE]);

/* What is wrong with the stream where it ended, on standard error after the command's name; the command's status. */
int turn_end(const struct turn *turn, const char *me);

/* A number with commas between its thousands. The text stands until the fourth call after it. */
const char *grouped(long long number);

#endif
