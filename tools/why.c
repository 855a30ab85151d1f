/*
 * What happened to a chip and why, a sentence for each change of a bit of SYS_STAT, of ALERT or of a drive, and for each refusal:
 *   why [FILE]          of every record
 *   why FILE RECORD     of one record, with what then stands and since when
 * It plays the stream over the proved library, and takes its reasons from toralinge_why and toralinge_off. `./why` builds and runs it.
 */
#include <stdarg.h>
#include <stdio.h>
#include <stdlib.h>
#include <string.h>
#include "turns.h"

enum { SENTENCE = 240, CHG = 1, DSG = 2, FAULTS = 4, KINDS = 0x18, STATS = 0x100 };

/*
 * A question plays the stream again from its beginning. So the records are kept, and over all of them a question is asked once for each rise of a
 * judged fault; what depends on the kind of the record or on SYS_STAT alone is asked once for each. Where that would keep or play again more bytes
 * than these, the sentence says which record to ask for by itself.
 */
static const unsigned long long kept_most = 64ull << 20, replayed_most = 256ull << 20;

/* The four judged faults, and the bits of two registers that choose the limit of each. */
static const struct threshold {
    unsigned bit, address, bits, other, other_bits;
} thresholds[FAULTS] = {
    {TORALINGE_STAT_OV, TORALINGE_REG_OV_TRIP, 0xFF, TORALINGE_REG_OV_TRIP, 0},
    {TORALINGE_STAT_UV, TORALINGE_REG_UV_TRIP, 0xFF, TORALINGE_REG_UV_TRIP, 0},
    {TORALINGE_STAT_SCD, TORALINGE_REG_PROTECT1, 0x87, TORALINGE_REG_PROTECT1, 0},
    {TORALINGE_STAT_OCD, TORALINGE_REG_PROTECT2, 0x0F, TORALINGE_REG_PROTECT1, 0x80},
};

/* A row of toralinge_why. */
struct row {
    unsigned long long rose, first;
    unsigned cause, many, limit, input;
    long long value;
};

struct why {
    struct turn turn;
    int asked;                              /* one record is asked for: */
    unsigned long long record;              /* this one */
    uint8_t *stream;                        /* the records up to the one at hand, NULL where they are too many */
    size_t length, room;
    unsigned long long replayed;            /* how many bytes questions have played again */
    uint8_t cause[BITS][KINDS];             /* of a bit that is not judged, by the kind of its record; 0 where nobody has asked */
    uint8_t held[PINS][STATS];              /* the bits that hold a drive, by SYS_STAT, */
    uint8_t known[PINS][STATS];             /* where somebody has asked */
    uint8_t stat, pins;                     /* before the record at hand */
    unsigned long long since[BITS];         /* the record at which each bit rose that is up */
    uint8_t rose_then[PINS];                /* what rose at the record at which each drive went off, */
    const char *mover_then[PINS];           /* and who else may have moved it */
    unsigned threshold[FAULTS];             /* what chooses the limits, */
    unsigned long long moved[FAULTS];       /* the record at which it last changed, */
    unsigned long long moved_then[FAULTS];  /* and that of before the fault last rose */
    int wired;                              /* a wiring record was done: inputs are not cells */
    int crc, stage;                         /* of a frame that writes: 1 address, 2 pointer, 3 data, 4 CRC is next; else 0 */
    uint8_t pointer, data;
    int written;                            /* the record at hand was an accepted write of data at pointer */
};

/* Whether sentences of the record at hand are wanted. */
static int wanted(const struct why *why)
{
    return !why->asked || why->record == why->turn.count - 1;
}

/* A sentence of the record at hand. */
static void say(const struct why *why, const char *form, ...)
{
    va_list values;
    if (!wanted(why)) {
        return;
    }
    printf("record %llu: ", why->turn.count - 1);
    va_start(values, form);
    vprintf(form, values);
    va_end(values);
    printf("\n");
}

static uint8_t reg(const struct why *why, unsigned address)
{
    uint8_t value = 0;
    toralinge_register(why->turn.chip, sizeof why->turn.chip, address, &value);
    return value;
}

/* Keeps the record at hand behind those before it. */
static void keep(struct why *why)
{
    size_t wanted = why->length + why->turn.length;
    if (why->turn.count > 1 && why->stream == NULL) {
        return;
    }
    if (!why->asked && wanted > kept_most) {
        free(why->stream);
        why->stream = NULL;
        return;
    }
    if (wanted > why->room) {
        why->room = 2 * wanted;
        why->stream = realloc(why->stream, why->room);
        if (why->stream == NULL) {
            fprintf(stderr, "why: there is no memory for the records up to %llu\n", why->turn.count - 1);
            exit(1);
        }
    }
    memcpy(why->stream + why->length, why->turn.bytes, why->turn.length);
    why->length = wanted;
}

/* Whether there may be one question more. */
static int may_ask(struct why *why)
{
    if (why->stream == NULL || (!why->asked && why->replayed + why->length > replayed_most)) {
        return 0;
    }
    why->replayed += why->length;
    return 1;
}

static unsigned long long number_at(const uint8_t *bytes, int many)
{
    unsigned long long number = 0;
    while (many > 0) {
        many--;
        number = number << 8 | bytes[many];
    }
    return number;
}

/* Asks why a bit is up that is up after the record at hand; 0 where that is too much. */
static int ask_why(struct why *why, unsigned bit, struct row *row)
{
    uint8_t bytes[TORALINGE_WHY_SIZE];
    if (!may_ask(why) || toralinge_why(why->stream, why->length, why->turn.count - 1, bit, bytes, sizeof bytes) != 0) {
        return 0;
    }
    row->rose = number_at(bytes, 8);
    row->first = number_at(bytes + 8, 8);
    row->cause = (unsigned)number_at(bytes + 16, 4);
    row->many = (unsigned)number_at(bytes + 20, 4);
    row->limit = (unsigned)number_at(bytes + 24, 4);
    row->input = (unsigned)number_at(bytes + 28, 4);
    row->value = (long long)number_at(bytes + 32, 4);
    row->value -= row->value > 2147483647ll ? 4294967296ll : 0;
    return 1;
}

/* Asks which bits hold a drive that is off after the record at hand; 0 where that is too much. */
static int ask_held(struct why *why, int drive, unsigned *held)
{
    uint8_t bytes[TORALINGE_OFF_SIZE], stat = why->turn.entry[TORALINGE_ENTRY_SYS_STAT];
    if (!why->known[drive][stat]) {
        if (!may_ask(why) ||
            toralinge_off(why->stream, why->length, why->turn.count - 1, pins_of_entry[drive].weight, bytes, sizeof bytes) != 0) {
            return 0;
        }
        why->held[drive][stat] = (uint8_t)number_at(bytes + 8, 4);
        why->known[drive][stat] = 1;
    }
    *held = why->held[drive][stat];
    return 1;
}

/* Where the verdicts stand: records 9 to 12, or record 12. */
static void tell_records(const struct row *row, char text[64])
{
    if (row->first == row->rose) {
        snprintf(text, 64, "record %llu", row->rose);
    } else {
        snprintf(text, 64, "records %llu to %llu", row->first, row->rose);
    }
}

static void scan_reason(const struct why *why, const struct row *row, unsigned bit, int moved, char *reason)
{
    const char *some = why->wired ? "an input" : "a cell", *one = why->wired ? "input" : "cell";
    const char *than = bit == TORALINGE_STAT_OV ? "above" : "below";
    char records[64];
    tell_records(row, records);
    if (row->many == 1) {
        snprintf(reason, SENTENCE, "one scan with %s %s %s is enough; %s %u at %s", some, than, grouped(row->limit), one, row->input,
                 grouped(row->value));
    } else if (moved) {
        snprintf(reason, SENTENCE, "the last %u scans (%s) each had %s %s the limit then set; %s %u at %s, %s %s", row->many, records, some, than, one,
                 row->input, grouped(row->value), than, grouped(row->limit));
    } else {
        snprintf(reason, SENTENCE, "the last %u scans (%s) each had %s %s %s; %s %u at %s", row->many, records, some, than, grouped(row->limit), one,
                 row->input, grouped(row->value));
    }
}

static void tick_reason(const struct row *row, int moved, char *reason)
{
    char records[64];
    tell_records(row, records);
    if (row->many == 1) {
        snprintf(reason, SENTENCE, "one tick above %s microvolts is enough; it was at %s", grouped(row->limit), grouped(-row->value));
    } else if (moved) {
        snprintf(reason, SENTENCE, "the last %s ticks (%s) were each above the limit then set; the last at %s microvolts, above %s",
                 grouped(row->many), records, grouped(-row->value), grouped(row->limit));
    } else {
        snprintf(reason, SENTENCE, "the last %s ticks (%s) were each above %s microvolts; the last at %s", grouped(row->many), records,
                 grouped(row->limit), grouped(-row->value));
    }
}

/* A cause in words. */
static void row_reason(const struct why *why, const struct row *row, unsigned bit, char *reason)
{
    static const char *const causes[] = {"", "", "", "ALERT was pulled up from outside", "the outside level is 1", "XREADY was reported",
                                         "a count of charge came"};
    int fault, moved = 0;
    for (fault = 0; fault < FAULTS; fault++) {
        moved |= thresholds[fault].bit == bit && why->moved_then[fault] > row->first;
    }
    if (row->cause == TORALINGE_BY_SCANS) {
        scan_reason(why, row, bit, moved, reason);
    } else if (row->cause == TORALINGE_BY_TICKS) {
        tick_reason(row, moved, reason);
    } else {
        snprintf(reason, SENTENCE, "%s", causes[row->cause]);
    }
}

/* Why a bit rose at the record at hand. */
static void rise_reason(struct why *why, int at, char *reason)
{
    unsigned kind = turn_kind(&why->turn), bit = bits_of_sys_stat[at].weight;
    struct row row = {0, 0, 0, 0, 0, 0, 0};
    row.cause = kind < KINDS ? why->cause[at][kind] : 0;
    if (row.cause == 0 && !ask_why(why, bit, &row)) {
        snprintf(reason, SENTENCE, "./why FILE %llu says why", why->turn.count - 1);
        return;
    }
    if (row.many == 0 && kind < KINDS) {
        why->cause[at][kind] = (uint8_t)row.cause;
    }
    row_reason(why, &row, bit, reason);
}

/* Follows the frame: whether the record at hand was an accepted write, and of what. */
static void follow(struct why *why)
{
    unsigned kind = turn_kind(&why->turn);
    uint8_t byte = why->turn.bytes[TURN_HEADER];
    why->pointer += (uint8_t)why->written;
    why->written = 0;
    if (kind == TORALINGE_KIND_START || kind == TORALINGE_KIND_STOP) {
        why->stage = kind == TORALINGE_KIND_START;
    } else if (kind == TORALINGE_KIND_OUT && why->turn.entry[TORALINGE_ENTRY_BUS_BYTE] != 0) {
        why->stage = 0;
    } else if (kind == TORALINGE_KIND_OUT && why->stage == 1) {
        why->stage = byte & 1 ? 0 : 2;
    } else if (kind == TORALINGE_KIND_OUT && why->stage == 2) {
        why->pointer = byte;
        why->stage = 3;
    } else if (kind == TORALINGE_KIND_OUT && why->stage != 0) {
        why->data = why->stage == 3 ? byte : why->data;
        why->written = !why->crc || why->stage == 4;
        why->stage = why->written ? 3 : 4;
    }
}

/* Who moved what no fault moved. */
static const char *mover(const struct why *why, unsigned address)
{
    return why->written && why->pointer == address ? "the host" : "SHIP";
}

static void tell_bits(struct why *why)
{
    uint8_t stat = why->turn.entry[TORALINGE_ENTRY_SYS_STAT];
    char reason[SENTENCE];
    int at, fault;
    for (at = 0; at < BITS; at++) {
        const struct named *bit = &bits_of_sys_stat[at];
        if (stat & ~why->stat & bit->weight) {
            why->since[at] = why->turn.count - 1;
            for (fault = 0; fault < FAULTS; fault++) {
                why->moved_then[fault] = thresholds[fault].bit == bit->weight ? why->moved[fault] : why->moved_then[fault];
            }
            if (wanted(why)) {
                rise_reason(why, at, reason);
                say(why, "%s rose: %s", bit->name, reason);
            }
        } else if (~stat & why->stat & bit->weight) {
            say(why, "%s fell, by %s", bit->name, mover(why, TORALINGE_REG_SYS_STAT));
        }
    }
}

/* Some of the bits by name, each with the record at which it rose where that is wanted. */
static void list_bits(const struct why *why, unsigned bits, int since, char *text)
{
    size_t length = 0;
    int at;
    text[0] = '\0';
    for (at = 0; at < BITS; at++) {
        if (bits & bits_of_sys_stat[at].weight) {
            length += (size_t)snprintf(text + length, SENTENCE - length, length > 0 ? ", %s" : "%s", bits_of_sys_stat[at].name);
            if (since) {
                length += (size_t)snprintf(text + length, SENTENCE - length, " is up since record %llu", why->since[at]);
            }
        }
    }
}

/* A drive went off at the record at hand: by the bits that rose with it and hold it, or by who else moved it. */
static void tell_off(struct why *why, int drive)
{
    unsigned stat = why->turn.entry[TORALINGE_ENTRY_SYS_STAT], rose = stat & ~why->stat, held = 0;
    char by[SENTENCE];
    why->rose_then[drive] = (uint8_t)rose;
    why->mover_then[drive] = mover(why, TORALINGE_REG_SYS_CTRL2);
    if (!wanted(why)) {
        return;
    }
    if (rose != 0 && !ask_held(why, drive, &held)) {
        say(why, "%s off: ./why FILE %llu says by what", pins_of_entry[drive].name, why->turn.count - 1);
        return;
    }
    list_bits(why, rose & held, 0, by);
    say(why, "%s off, by %s", pins_of_entry[drive].name, by[0] != '\0' ? by : why->mover_then[drive]);
}

/* A drive was asked for at the record at hand, and stays off. */
static void tell_stays(struct why *why, int drive)
{
    unsigned held = 0;
    char text[SENTENCE];
    if (!wanted(why)) {
        return;
    }
    if (!ask_held(why, drive, &held)) {
        say(why, "%s stays off: ./why FILE %llu says why", pins_of_entry[drive].name, why->turn.count - 1);
        return;
    }
    list_bits(why, held, 1, text);
    say(why, "%s stays off: %s", pins_of_entry[drive].name, text);
}

static void tell_drive(struct why *why, int drive)
{
    const struct named *pin = &pins_of_entry[drive];
    unsigned on = why->turn.entry[TORALINGE_ENTRY_PINS] & pin->weight, was = why->pins & pin->weight;
    unsigned asking = drive == CHG ? TORALINGE_CTRL2_CHG_ON : TORALINGE_CTRL2_DSG_ON;
    if (on && !was) {
        say(why, "%s on, by %s", pin->name, mover(why, TORALINGE_REG_SYS_CTRL2));
    } else if (!on && was) {
        tell_off(why, drive);
    } else if (!on && why->written && why->pointer == TORALINGE_REG_SYS_CTRL2 && why->data & asking) {
        tell_stays(why, drive);
    }
}

/* Looks whether what chooses a limit is another after the record at hand. */
static void watch_thresholds(struct why *why)
{
    int fault;
    for (fault = 0; fault < FAULTS; fault++) {
        const struct threshold *of = &thresholds[fault];
        unsigned now = (reg(why, of->address) & of->bits) | (unsigned)(reg(why, of->other) & of->other_bits) << 8;
        if (now != why->threshold[fault]) {
            why->threshold[fault] = now;
            why->moved[fault] = why->turn.count - 1;
        }
    }
}

static void tell_record(struct why *why)
{
    const struct turn *turn = &why->turn;
    char reason[REASON_SIZE];
    keep(why);
    if (turn->entry[TORALINGE_ENTRY_NUMBER] != TORALINGE_DONE) {
        turn_reason(turn, reason);
        say(why, "%s refused, %u: %s", turn_name(turn), turn->entry[TORALINGE_ENTRY_NUMBER], reason);
        return;
    }
    follow(why);
    if (turn_kind(turn) == TORALINGE_KIND_SETUP) {
        why->crc = turn->bytes[TURN_HEADER + 1];
    } else if (turn_kind(turn) == TORALINGE_KIND_WIRING) {
        why->wired = 1;
    }
    if (turn_kind(turn) != TORALINGE_KIND_SENSE) {
        watch_thresholds(why);
    }
    tell_bits(why);
    if ((turn->entry[TORALINGE_ENTRY_PINS] ^ why->pins) & TORALINGE_PIN_ALERT) {
        say(why, "ALERT %s", turn->entry[TORALINGE_ENTRY_PINS] & TORALINGE_PIN_ALERT ? "up" : "down");
    }
    tell_drive(why, CHG);
    tell_drive(why, DSG);
    why->stat = turn->entry[TORALINGE_ENTRY_SYS_STAT];
    why->pins = turn->entry[TORALINGE_ENTRY_PINS];
}

/* What moved a drive that is off and that nothing holds. */
static void tell_left(struct why *why, int drive, unsigned long long since)
{
    const char *name = pins_of_entry[drive].name;
    uint8_t bytes[TORALINGE_OFF_SIZE];
    char by[SENTENCE] = "";
    if (why->rose_then[drive] != 0 &&
        toralinge_off(why->stream, why->length, since, pins_of_entry[drive].weight, bytes, sizeof bytes) == 0) {
        list_bits(why, why->rose_then[drive] & (unsigned)number_at(bytes + 8, 4), 0, by);
    }
    printf("%s is off since record %llu, by %s: nobody has asked for it since\n", name, since, by[0] != '\0' ? by : why->mover_then[drive]);
}

static void tell_standing_drive(struct why *why, int drive)
{
    const char *name = pins_of_entry[drive].name;
    uint8_t bytes[TORALINGE_OFF_SIZE];
    char text[SENTENCE];
    if (toralinge_off(why->stream, why->length, why->record, pins_of_entry[drive].weight, bytes, sizeof bytes) != 0) {
        printf("%s is on\n", name);
    } else if (number_at(bytes + 8, 4) != 0) {
        list_bits(why, (unsigned)number_at(bytes + 8, 4), 1, text);
        printf("%s is off: %s\n", name, text);
    } else if (number_at(bytes, 8) < why->turn.count) {
        tell_left(why, drive, number_at(bytes, 8));
    } else {
        printf("%s is off: nobody has asked for it\n", name);
    }
}

/* What stands after the record that was asked for. */
static void tell_standing(struct why *why)
{
    struct row row;
    char reason[SENTENCE];
    int at;
    printf("after record %llu:\n", why->record);
    for (at = 0; at < BITS; at++) {
        if (ask_why(why, bits_of_sys_stat[at].weight, &row)) {
            row_reason(why, &row, bits_of_sys_stat[at].weight, reason);
            printf("%s is up since record %llu: %s\n", bits_of_sys_stat[at].name, row.rose, reason);
        }
    }
    tell_standing_drive(why, CHG);
    tell_standing_drive(why, DSG);
}

int main(int count, char **words)
{
    static struct why why;
    why.asked = count > 2;
    why.record = count > 2 ? strtoull(words[2], NULL, 10) : 0;
    if (!turn_open(&why.turn, count > 1 ? words[1] : NULL)) {
        fprintf(stderr, "why: not a file that can be read: %s\n", words[1]);
        return 2;
    }
    while (turn_next(&why.turn)) {
        tell_record(&why);
        if (why.asked && why.record == why.turn.count - 1) {
            tell_standing(&why);
            return fflush(stdout) == 0 ? 0 : 1;
        }
    }
    if (fflush(stdout) != 0) {
        return 1;
    }
    if (why.asked) {
        fprintf(stderr, "why: there is no record %llu: the stream has %llu, from 0\n", why.record, why.turn.count);
        return 1;
    }
    return turn_end(&why.turn, "why");
}
