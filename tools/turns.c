#include <stdio.h>
#include <string.h>
#include "turns.h"

const struct named bits_of_sys_stat[BITS] = {
    {"CC_READY", TORALINGE_STAT_CC_READY}, {"XREADY", TORALINGE_STAT_XREADY}, {"OVRD_ALERT", TORALINGE_STAT_OVRD_ALERT},
    {"UV", TORALINGE_STAT_UV},             {"OV", TORALINGE_STAT_OV},         {"SCD", TORALINGE_STAT_SCD},
    {"OCD", TORALINGE_STAT_OCD},
};
const struct named pins_of_entry[PINS] = {{"ALERT", TORALINGE_PIN_ALERT}, {"CHG", TORALINGE_PIN_CHG}, {"DSG", TORALINGE_PIN_DSG}};

/* Each kind with the bytes of its payload: so many, and so many more for each part. */
static const struct kind {
    unsigned kind;
    const char *name;
    unsigned bytes, a_part;
} kinds[] = {
    {TORALINGE_KIND_SETUP, "SETUP", 7, 0},   {TORALINGE_KIND_POR, "POR", 0, 0},       {TORALINGE_KIND_BOOT, "BOOT", 0, 0},
    {TORALINGE_KIND_SCAN, "SCAN", 0, 10},    {TORALINGE_KIND_TEMP, "TEMP", 0, 2},     {TORALINGE_KIND_COUNT, "COUNT", 2, 0},
    {TORALINGE_KIND_SENSE, "SENSE", 4, 0},   {TORALINGE_KIND_PIN, "PIN", 0, 0},       {TORALINGE_KIND_LOAD, "LOAD", 1, 0},
    {TORALINGE_KIND_XREADY, "XREADY", 0, 0}, {TORALINGE_KIND_START, "START", 0, 0},   {TORALINGE_KIND_OUT, "OUT", 1, 0},
    {TORALINGE_KIND_IN, "IN", 1, 0},         {TORALINGE_KIND_STOP, "STOP", 0, 0},     {TORALINGE_KIND_TICKS, "TICKS", 6, 0},
    {TORALINGE_KIND_LEVEL, "LEVEL", 1, 0},   {TORALINGE_KIND_WIRING, "WIRING", 1, 0}, {TORALINGE_KIND_SOAK, "SOAK", 8, 0},
};

static unsigned pair_at(const uint8_t *bytes)
{
    return bytes[0] + 256u * bytes[1];
}

/* The payload of a record with a whole header, and how many bytes it is to have. */
static const uint8_t *payload(const struct turn *turn)
{
    return turn->bytes + TURN_HEADER;
}

static unsigned payload_length(const struct turn *turn)
{
    return pair_at(turn->bytes);
}

static const struct kind *kind_of(const struct turn *turn)
{
    size_t at;
    for (at = 0; turn_has_kind(turn) && at < sizeof kinds / sizeof *kinds; at++) {
        if (kinds[at].kind == turn_kind(turn)) {
            return &kinds[at];
        }
    }
    return NULL;
}

int turn_open(struct turn *turn, const char *name)
{
    memset(turn, 0, sizeof *turn);
    return input_open(&turn->in, name);
}

int turn_has_kind(const struct turn *turn)
{
    return turn->length >= TURN_HEADER;
}

unsigned turn_kind(const struct turn *turn)
{
    return pair_at(turn->bytes + 2);
}

int turn_next(struct turn *turn)
{
    int stands = turn->part != 0;
    if (turn->over) {
        return 0;
    }
    turn->length = input_take(&turn->in, turn->bytes, TURN_HEADER);
    if (turn->length == TURN_HEADER) {
        turn->length += input_take(&turn->in, turn->bytes + TURN_HEADER, payload_length(turn));
    }
    if (turn->length == 0 || turn->in.fault[0] != '\0') {
        return 0;
    }
    toralinge_feed(turn->chip, sizeof turn->chip, turn->bytes, turn->length, turn->entry, sizeof turn->entry);
    turn->count++;
    turn->over = turn->entry[TORALINGE_ENTRY_NUMBER] == TORALINGE_CUT || (!stands && turn->entry[TORALINGE_ENTRY_NUMBER] != TORALINGE_DONE);
    if (!stands && !turn->over) {
        turn->part = payload(turn)[0];
    }
    return 1;
}

const char *turn_name(const struct turn *turn)
{
    static char unknown[8];
    const struct kind *kind = kind_of(turn);
    if (kind != NULL || !turn_has_kind(turn)) {
        return kind != NULL ? kind->name : "cut";
    }
    snprintf(unknown, sizeof unknown, "0x%04X", turn_kind(turn));
    return unknown;
}

const char *grouped(long long number)
{
    static char texts[4][32];
    static unsigned next;
    unsigned long long rest = number < 0 ? 0ull - (unsigned long long)number : (unsigned long long)number;
    char *at = texts[next++ % 4] + sizeof texts[0] - 1;
    int digits = 0;
    *at = '\0';
    do {
        if (digits > 0 && digits % 3 == 0) {
            *--at = ',';
        }
        *--at = (char)('0' + rest % 10);
        digits++;
        rest /= 10;
    } while (rest > 0);
    if (number < 0) {
        *--at = '-';
    }
    return at;
}

static long long signed_at(const uint8_t *bytes)
{
    long long value = pair_at(bytes) + 65536ll * pair_at(bytes + 2);
    return value > 2147483647ll ? value - 4294967296ll : value;
}

static void setup_reason(const uint8_t *setup, char *reason)
{
    unsigned floor = pair_at(setup + 5);
    if (setup[0] < 1 || setup[0] > 3) {
        snprintf(reason, REASON_SIZE, "part %u is outside 1 to 3", setup[0]);
    } else if (setup[1] > 1) {
        snprintf(reason, REASON_SIZE, "CRC %u is neither 0 nor 1", setup[1]);
    } else if (setup[2] < 0x08 || setup[2] > 0x77) {
        snprintf(reason, REASON_SIZE, "address 0x%02X is outside 0x08 to 0x77", setup[2]);
    } else if (setup[3] > 31) {
        snprintf(reason, REASON_SIZE, "gain code %u is above 31", setup[3]);
    } else if (floor > 4095) {
        snprintf(reason, REASON_SIZE, "floor %s is above 4,095", grouped(floor));
    }
}

static void kind_reason(const struct turn *turn, char *reason)
{
    const struct kind *kind = kind_of(turn);
    if (turn->part == 0 && turn_kind(turn) != TORALINGE_KIND_SETUP) {
        snprintf(reason, REASON_SIZE, "the first record is not SETUP");
    } else if (turn->part != 0 && turn_kind(turn) == TORALINGE_KIND_SETUP) {
        snprintf(reason, REASON_SIZE, "SETUP is not the first record");
    } else if (kind == NULL) {
        snprintf(reason, REASON_SIZE, "there is no such kind");
    } else if (payload_length(turn) != kind->bytes + kind->a_part * turn->part) {
        snprintf(reason, REASON_SIZE, "its payload has %s byte%s in place of %u", grouped(payload_length(turn)), payload_length(turn) == 1 ? "" : "s",
                 kind->bytes + kind->a_part * turn->part);
    } else if (kind->kind == TORALINGE_KIND_WIRING) {
        snprintf(reason, REASON_SIZE, "WIRING is not straight after SETUP");
    }
}

static void count_reason(const struct turn *turn, char *reason)
{
    unsigned at;
    for (at = 0; 2 * at + 1 < payload_length(turn); at++) {
        if (pair_at(payload(turn) + 2 * at) > 16383) {
            snprintf(reason, REASON_SIZE, "count %u is %s, above 16,383", at + 1, grouped(pair_at(payload(turn) + 2 * at)));
            return;
        }
    }
}

static void sense_reason(const struct turn *turn, char *reason)
{
    long long value = signed_at(payload(turn));
    int soak = turn_kind(turn) == TORALINGE_KIND_SOAK;
    if (value < -500000 || value > 500000) {
        snprintf(reason, REASON_SIZE, "%s microvolts are outside -500,000 to 500,000", grouped(value));
    } else {
        long long repeat = pair_at(payload(turn) + 4) + (soak ? 65536ll * pair_at(payload(turn) + 6) : 0);
        snprintf(reason, REASON_SIZE, "repeat %s is outside 1 to %s", grouped(repeat), grouped(soak ? 16777216 : 4096));
    }
}

static void value_reason(const struct turn *turn, char *reason)
{
    switch (turn_kind(turn)) {
    case TORALINGE_KIND_SCAN:
    case TORALINGE_KIND_TEMP:
        count_reason(turn, reason);
        break;
    case TORALINGE_KIND_SENSE:
    case TORALINGE_KIND_TICKS:
    case TORALINGE_KIND_SOAK:
        sense_reason(turn, reason);
        break;
    default:
        snprintf(reason, REASON_SIZE, "%u is neither 0 nor 1", payload(turn)[0]);
    }
}

static void cut_reason(const struct turn *turn, char *reason)
{
    if (turn_has_kind(turn)) {
        snprintf(reason, REASON_SIZE, "cut after %s of %s bytes of its payload", grouped((long long)turn->length - TURN_HEADER),
                 grouped(payload_length(turn)));
    } else {
        snprintf(reason, REASON_SIZE, "cut after %u of the %d bytes of a header", (unsigned)turn->length, TURN_HEADER);
    }
}

void turn_reason(const struct turn *turn, char reason[REASON_SIZE])
{
    uint8_t number = turn->entry[TORALINGE_ENTRY_NUMBER];
    snprintf(reason, REASON_SIZE, "%s", toralinge_words(number));
    switch (number) {
    case TORALINGE_BAD_SETUP:
        setup_reason(payload(turn), reason);
        break;
    case TORALINGE_BAD_KIND:
        kind_reason(turn, reason);
        break;
    case TORALINGE_BAD_VALUE:
        value_reason(turn, reason);
        break;
    case TORALINGE_CUT:
        cut_reason(turn, reason);
        break;
    case TORALINGE_NO_ROW:
        snprintf(reason, REASON_SIZE, "part %u has no row for %u cells", turn->part, payload(turn)[0]);
        break;
    default:
        break;
    }
}

int turn_end(const struct turn *turn, const char *me)
{
    char reason[REASON_SIZE];
    if (turn->in.fault[0] != '\0') {
        fprintf(stderr, "%s: %s\n", me, turn->in.fault);
        return 1;
    }
    if (turn->over) {
        turn_reason(turn, reason);
        fprintf(stderr, "%s: record %llu is refused, %u: %s\n", me, turn->count - 1, turn->entry[TORALINGE_ENTRY_NUMBER], reason);
        return 1;
    }
    return 0;
}
