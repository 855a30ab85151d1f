/*
 * Answers from the libraries what the second sources of tests/vectors ask, a line each: a question ends with '=', and its line is printed again with the
 * answer after it; a line without '=' is done and printed again.
 *
 *   slot N                    from here on chip and report N, both zeroed
 *   feed HEX =                records fed to the chip, one at a time: number, bus byte or --, SYS_STAT and pins of each
 *   grow HEX =                how many scans the report has, grown by the records; they are then fed in one piece
 *   register AT =             what an address of the chip holds
 *   registers =               all 256 folded into one number
 *   voltage CELL =            of the chip, as `reading =`, `bleed MARGIN =` and `reply COMMAND MILLIOHMS =`, with four bytes of room
 *   rows =                    of the report, nine numbers for each cell
 *   join A B =                the reports of two slots joined: the number, and 0 with the whole in the slot that stands
 *   record KIND PART ROOM VALUE.. =  and  values PART HEX =
 *   crc HEX =, cell GAIN OFFSET COUNT =, cc READING =, ohms COUNT =, die COUNT =, over GAIN OFFSET MICROVOLTS =, under ..
 */
#define _XOPEN_SOURCE 700
#include "toralinge.h"

#include <inttypes.h>
#include <stdio.h>
#include <stdlib.h>
#include <string.h>

enum { SLOTS = 10, WORDS = 24, UNTOUCHED = 0xA5 };

static struct {
    uint8_t chip[TORALINGE_CHIP_SIZE], report[TORALINGE_REPORT_SIZE];
} slots[SLOTS], *now = slots;

static char *word[WORDS];
static int words;

static void wrong(const char *why)
{
    fprintf(stderr, "asked: %s: %s\n", why, words > 0 ? word[0] : "no word");
    exit(2);
}

static int64_t number(int at)
{
    char *end;
    if (at >= words)
        wrong("a number is missing");
    int64_t value = strtoll(word[at], &end, 0);
    if (*end != '\0')
        wrong("not a number");
    return value;
}

static unsigned digit(char c)
{
    const char *digits = "0123456789abcdef", *at = strchr(digits, c);
    if (c == '\0' || at == NULL)
        wrong("not hexadecimal");
    return (unsigned)(at - digits);
}

/* The bytes of a word of hexadecimal digits, '-' for none; they last till the next call. */
static const uint8_t *bytes(int at, size_t *length)
{
    static uint8_t *room;
    if (at >= words)
        wrong("bytes are missing");
    const char *digits = strcmp(word[at], "-") == 0 ? "" : word[at];
    *length = strlen(digits) / 2;
    room = realloc(room, *length + 1);
    for (size_t i = 0; room != NULL && i < *length; i++)
        room[i] = (uint8_t)(16 * digit(digits[2 * i]) + digit(digits[2 * i + 1]));
    if (room == NULL || strlen(digits) % 2 != 0)
        wrong("bytes that cannot be read");
    return room;
}

static void said(int64_t refusal, int64_t value)
{
    if (refusal != 0)
        printf(" refused %" PRId64, refusal);
    else
        printf(" %" PRId64, value);
}

static void hexes(const uint8_t *from, size_t many)
{
    for (size_t i = 0; i < many; i++)
        printf(" %02x", from[i]);
}

/* One record after the other, each by itself. */
static void feed(void)
{
    size_t length;
    const uint8_t *records = bytes(1, &length);
    for (size_t at = 0, size; at < length; at += size) {
        uint8_t entry[5];
        size = length - at < 4 ? length - at : 4u + records[at] + 256u * records[at + 1];
        size = size > length - at ? length - at : size;
        int64_t many = toralinge_feed(now->chip, sizeof now->chip, records + at, size, entry, sizeof entry);
        if (many != 1) {
            said(-many, many);
            return;
        }
        printf("%s %u ", at > 0 ? "," : "", entry[0]);
        printf(entry[1] ? "%02x" : "--", entry[2]);
        printf(" %02x %u%u%u", entry[3], entry[4] >> 2 & 1, entry[4] >> 1 & 1, entry[4] & 1);
    }
}

static void grow(void)
{
    static uint8_t entries[1 << 20];
    size_t length;
    const uint8_t *records = bytes(1, &length);
    int64_t scans = toralinge_grow(now->report, sizeof now->report, now->chip, sizeof now->chip, records, length);
    said(scans < 0 ? -scans : 0, scans);
    if (toralinge_feed(now->chip, sizeof now->chip, records, length, entries, sizeof entries) < 0)
        wrong("cannot be fed");
}

static void registers(void)
{
    uint32_t folded = 0;
    for (uint32_t at = 0; at < 256; at++) {
        uint8_t value = 0;
        if (toralinge_register(now->chip, sizeof now->chip, at, &value) != 0)
            wrong("no register");
        folded = (folded * 31 + value) % 65521;
    }
    printf(" %" PRIu32, folded);
}

static void reading(void)
{
    double of[4];
    uint8_t refusal = toralinge_reading_of(now->chip, sizeof now->chip, of, 4);
    if (refusal != 0) {
        said(refusal, 0);
        return;
    }
    for (int i = 0; i < 4; i++) {
        uint64_t bits;
        memcpy(&bits, &of[i], sizeof bits);
        printf(" %016" PRIx64, bits);
    }
}

static void rows(void)
{
    int64_t of[15 * TORALINGE_SEASON_SIZE];
    int64_t many = toralinge_rows(now->report, sizeof now->report, of, sizeof of / sizeof of[0]);
    if (many < 0)
        said(-many, 0);
    for (int64_t i = 0; i < many * TORALINGE_SEASON_SIZE; i++)
        printf("%s %" PRId64, i > 0 && i % TORALINGE_SEASON_SIZE == 0 ? "," : "", of[i]);
}

static void join(void)
{
    uint8_t whole[TORALINGE_REPORT_SIZE];
    const uint8_t *first = slots[number(1) % SLOTS].report, *second = slots[number(2) % SLOTS].report;
    uint8_t refusal = toralinge_join(first, sizeof whole, second, sizeof whole, whole, sizeof whole);
    if (refusal == 0)
        memcpy(now->report, whole, sizeof whole);
    printf(" %u", refusal);
}

static void record(void)
{
    int64_t values[WORDS];
    uint8_t out[36];
    memset(out, UNTOUCHED, sizeof out);
    for (int i = 4; i < words; i++)
        values[i - 4] = number(i);
    int64_t length = toralinge_record((uint32_t)number(1), (uint32_t)number(2), values, (size_t)(words - 4), out, (size_t)number(3));
    printf(" %" PRId64, length);
    hexes(out, sizeof out);
}

static void values(void)
{
    int64_t of[15];
    size_t length;
    uint32_t kind = 0;
    const uint8_t *from = bytes(2, &length);
    int64_t many = toralinge_values(from, length, (uint32_t)number(1), &kind, of, 15);
    if (many < 0) {
        said(-many, 0);
        return;
    }
    printf(" kind %04x", kind);
    for (int64_t i = 0; i < many; i++)
        printf(" %" PRId64, of[i]);
}

static void of_chip(void)
{
    uint8_t byte = 0, out[4] = {UNTOUCHED, UNTOUCHED, UNTOUCHED, UNTOUCHED};
    int64_t microvolts = 0;
    if (strcmp(word[0], "register") == 0) {
        uint8_t refusal = toralinge_register(now->chip, sizeof now->chip, (uint32_t)number(1), &byte);
        said(refusal, byte);
    } else if (strcmp(word[0], "voltage") == 0) {
        uint8_t refusal = toralinge_voltage(now->chip, sizeof now->chip, (uint32_t)number(1), &microvolts);
        said(refusal, microvolts);
    } else if (strcmp(word[0], "bleed") == 0) {
        printf(" %u", toralinge_bleed_of(now->chip, sizeof now->chip, (uint32_t)number(1), out, sizeof out));
        hexes(out, sizeof out);
    } else {
        printf(" %u", toralinge_reply_of(now->chip, sizeof now->chip, (uint32_t)number(1), (uint32_t)number(2), out, sizeof out));
        hexes(out, sizeof out);
    }
}

static void conversion(void)
{
    uint8_t code = 0, refusal;
    uint64_t ohms = 0;
    int64_t value = 0;
    uint32_t first = (uint32_t)number(1);
    if (strcmp(word[0], "cell") == 0) {
        refusal = toralinge_cell_microvolts(first, (uint8_t)number(2), (uint32_t)number(3), &value);
    } else if (strcmp(word[0], "cc") == 0) {
        refusal = 0;
        value = toralinge_cc_hundredths((uint16_t)first);
    } else if (strcmp(word[0], "ohms") == 0) {
        refusal = toralinge_thermistor_ohms(first, &ohms);
        value = (int64_t)ohms;
    } else if (strcmp(word[0], "die") == 0) {
        refusal = toralinge_die_temperature(first, &value);
    } else {
        refusal = (strcmp(word[0], "over") == 0 ? toralinge_over_voltage_code : toralinge_under_voltage_code)(first, (uint8_t)number(2), number(3), &code);
        value = code;
    }
    said(refusal, value);
}

static void crc(void)
{
    size_t length;
    const uint8_t *from = bytes(1, &length);
    printf(" %02x", toralinge_crc8(0, from, length));
}

static void slot(void)
{
    now = &slots[number(1) % SLOTS];
    memset(now, 0, sizeof *now);
}

static const struct {
    const char *name;
    void (*answer)(void);
} known[] = {{"slot", slot}, {"feed", feed}, {"grow", grow}, {"register", of_chip}, {"registers", registers}, {"voltage", of_chip}, {"reading", reading},
             {"bleed", of_chip}, {"reply", of_chip}, {"rows", rows}, {"join", join}, {"record", record}, {"values", values}, {"crc", crc},
             {"cell", conversion}, {"cc", conversion}, {"ohms", conversion}, {"die", conversion}, {"over", conversion}, {"under", conversion}};

static void line(char *text)
{
    size_t many = sizeof known / sizeof known[0], i = 0;
    words = 0;
    for (char *at = strtok(text, " \n"); at != NULL && words < WORDS; at = strtok(NULL, " \n"))
        word[words++] = at;
    for (int at = 0; at < words; at++)
        printf("%s%s", at > 0 ? " " : "", word[at]);
    if (words > 0 && strcmp(word[words - 1], "=") == 0)
        words--;
    while (i < many && (words == 0 || strcmp(known[i].name, word[0]) != 0))
        i++;
    if (i == many)
        wrong("no such question");
    known[i].answer();
    putchar('\n');
}

int main(void)
{
    char *text = NULL;
    size_t room = 0;
    while (getline(&text, &room, stdin) > 0)
        line(text);
    free(text);
    return 0;
}
