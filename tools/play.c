/*
 * A stream of any length as lines for people or for a sheet, a record at a time over the proved library:
 *   play --words [FILE]    a line in words for each record
 *   play --csv [FILE]      a table with a column for each bit and each pin
 * `./play` builds and runs it.
 */
#include <stdio.h>
#include <string.h>
#include "turns.h"

static int is_done(const struct turn *turn)
{
    return turn->entry[TORALINGE_ENTRY_NUMBER] == TORALINGE_DONE;
}

static int is_up(const struct turn *turn, const struct named *bit)
{
    return (turn->entry[TORALINGE_ENTRY_SYS_STAT] & bit->weight) != 0;
}

static int is_on(const struct turn *turn, const struct named *pin)
{
    return (turn->entry[TORALINGE_ENTRY_PINS] & pin->weight) != 0;
}

/* What the bus said to an OUT or IN that was done; NULL else. */
static const char *bus_answer(const struct turn *turn)
{
    if (!turn->entry[TORALINGE_ENTRY_BUS_FLAG]) {
        return NULL;
    }
    if (turn_kind(turn) == TORALINGE_KIND_IN) {
        return "given";
    }
    return turn->entry[TORALINGE_ENTRY_BUS_BYTE] == 0 ? "acknowledged" : "not acknowledged";
}

/* The byte on the wire of such an OUT or IN: what the host sent, or what the chip gave. */
static unsigned bus_byte(const struct turn *turn)
{
    return turn_kind(turn) == TORALINGE_KIND_IN ? turn->entry[TORALINGE_ENTRY_BUS_BYTE] : turn->bytes[TURN_HEADER];
}

static void print_words(const struct turn *turn)
{
    char reason[REASON_SIZE];
    const char *answer = bus_answer(turn), *before = "; ";
    int at;
    printf("record %llu: %s", turn->count - 1, turn_name(turn));
    if (answer != NULL) {
        printf(", 0x%02X %s", bus_byte(turn), answer);
    } else if (!is_done(turn)) {
        turn_reason(turn, reason);
        printf(", refused, %u: %s", turn->entry[TORALINGE_ENTRY_NUMBER], reason);
    }
    for (at = 0; at < BITS; at++) {
        if (is_up(turn, &bits_of_sys_stat[at])) {
            printf("%s%s", before, bits_of_sys_stat[at].name);
            before = ", ";
        }
    }
    printf("%s up; ", turn->entry[TORALINGE_ENTRY_SYS_STAT] == 0 ? "; no bit" : "");
    printf("ALERT %s, CHG %s, DSG %s\n", is_on(turn, &pins_of_entry[0]) ? "up" : "down", is_on(turn, &pins_of_entry[1]) ? "on" : "off",
           is_on(turn, &pins_of_entry[2]) ? "on" : "off");
}

static void print_header(void)
{
    int at;
    printf("record,kind,number,reason,bus answer,bus byte");
    for (at = 0; at < BITS; at++) {
        printf(",%s", bits_of_sys_stat[at].name);
    }
    for (at = 0; at < PINS; at++) {
        printf(",%s", pins_of_entry[at].name);
    }
    printf("\n");
}

/* Where the bus said nothing its two columns stay empty. */
static void print_row(const struct turn *turn)
{
    char reason[REASON_SIZE];
    const char *answer = bus_answer(turn);
    int at;
    turn_reason(turn, reason);
    printf(strchr(reason, ',') == NULL ? "%llu,%s,%u,%s," : "%llu,%s,%u,\"%s\",", turn->count - 1, turn_name(turn),
           turn->entry[TORALINGE_ENTRY_NUMBER], reason);
    if (answer == NULL) {
        printf(",");
    } else {
        printf("%s,%u", answer, bus_byte(turn));
    }
    for (at = 0; at < BITS; at++) {
        printf(",%d", is_up(turn, &bits_of_sys_stat[at]));
    }
    for (at = 0; at < PINS; at++) {
        printf(",%d", is_on(turn, &pins_of_entry[at]));
    }
    printf("\n");
}

int main(int count, char **words)
{
    static struct turn turn;
    int csv = count > 1 && strcmp(words[1], "--csv") == 0;
    if (!turn_open(&turn, count > 2 ? words[2] : NULL)) {
        fprintf(stderr, "play: not a file that can be read: %s\n", words[2]);
        return 2;
    }
    if (csv) {
        print_header();
    }
    while (turn_next(&turn)) {
        (csv ? print_row : print_words)(&turn);
    }
    if (fflush(stdout) != 0) {
        return 1;
    }
    return turn_end(&turn, "play");
}
