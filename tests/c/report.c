/*
 * Reports that are kept as bytes, through include/toralinge.h alone, with guard bytes round every buffer: grown while a chip is fed in any
 * pieces they are the report of the whole; joins of random splits equal it; their rows are toralinge_season's; 25 and 22 are reached; bytes
 * that are no report, zeroed, cut, of another version, with a setup out of range or with columns that no scans could have, are refused with
 * nothing changed.
 */
#include "check.h"
#include "guard.h"
#include "streams.h"
#include "toralinge.h"

#define SIZE TORALINGE_REPORT_SIZE
#define CHIP TORALINGE_CHIP_SIZE
#define ROWS (15 * TORALINGE_SEASON_SIZE)

static uint32_t seed = 1;

static uint32_t any(uint32_t below)
{
    seed = seed * 1664525u + 1013904223u;
    return (seed >> 8) % below;
}

/* A stream of a part that boots and scans, with ADC_EN off and SHIP among it. */
static struct stream scanned(uint8_t part, uint8_t gain_code, size_t scans)
{
    struct stream made = asleep(part);
    made.bytes[7] = gain_code;
    add_bare(&made, BOOT);
    while (scans > 0) {
        uint16_t words[15];
        size_t at;
        for (at = 0; at < 15; at++) {
            words[at] = (uint16_t)any(16384);
        }
        switch (any(6)) {
        case 0: add_write(&made, 0x04, any(2) ? 0x10 : 0x00); break;
        case 1: add_bare(&made, any(2) ? POR : BOOT); break;
        default: add_words(&made, SCAN, words, 5 * (size_t)part); break;
        }
        scans--;
    }
    return made;
}

/* How long the record at a place is. */
static size_t record_at(const struct stream *of, size_t at)
{
    return 4 + of->bytes[at] + 256 * (size_t)of->bytes[at + 1];
}

/* The report of a piece on a chip, in a buffer between guards; the chip is fed afterwards. */
static int64_t grow(uint8_t *report, uint8_t *chip, const uint8_t *records, size_t length)
{
    static uint8_t entries[TORALINGE_ENTRY_SIZE * 4096];
    struct guarded lent = guarded_new(SIZE + 7), held = guarded_new(CHIP + 7);
    int64_t answer;
    memcpy(lent.room, report, SIZE);
    memcpy(held.room, chip, CHIP);
    answer = toralinge_grow(lent.room, SIZE + 7, held.room, CHIP + 7, records, length);
    CHECK(guarded_kept(&lent, SIZE));
    CHECK(guarded_kept(&held, CHIP));
    CHECK(memcmp(held.room, chip, CHIP) == 0);
    if (answer < 0) {
        CHECK(memcmp(lent.room, report, SIZE) == 0);
    }
    memcpy(report, lent.room, SIZE);
    guarded_free(&lent);
    guarded_free(&held);
    CHECK(toralinge_feed(chip, CHIP, records, length, entries, sizeof entries) >= 0);
    return answer;
}

/* The report of a whole stream. */
static void whole_of(const struct stream *of, uint8_t *report)
{
    uint8_t chip[CHIP] = {0};
    memset(report, 0, SIZE);
    CHECK(grow(report, chip, of->bytes, of->length) >= 0);
}

/* Its rows are those of the stream, in every room. */
static void same_rows(const struct stream *of, const uint8_t *report)
{
    int64_t wanted[ROWS];
    int64_t cells = toralinge_season(of->bytes, of->length, wanted, ROWS);
    size_t room;
    CHECK(cells > 0);
    for (room = 0; room <= ROWS; room += 9) {
        size_t full = TORALINGE_SEASON_SIZE * (size_t)cells;
        struct guarded lent = guarded_new(sizeof(int64_t) * room);
        int64_t answer = toralinge_rows(report, SIZE, (int64_t *)(void *)lent.room, room);
        if (room < full) {
            CHECK(answer == -TORALINGE_NO_ROOM);
            CHECK(guarded_kept(&lent, 0));
        } else {
            CHECK(answer == cells);
            CHECK(memcmp(lent.room, wanted, sizeof(int64_t) * full) == 0);
            CHECK(guarded_kept(&lent, sizeof(int64_t) * full));
        }
        guarded_free(&lent);
    }
}

/* Written in a room that is large enough, and nothing else. */
static void joins(const uint8_t *first, const uint8_t *second, const uint8_t *wanted, int number)
{
    size_t room;
    for (room = 0; room <= SIZE + 3; room += room + 4 < SIZE ? 37 : 1) {
        struct guarded lent = guarded_new(room);
        uint8_t answer = toralinge_join(first, SIZE, second, SIZE, lent.room, room);
        if (number != 0 || room < SIZE) {
            CHECK(answer == (number != 0 ? number : TORALINGE_NO_ROOM));
            CHECK(guarded_kept(&lent, 0));
        } else {
            CHECK(answer == TORALINGE_DONE);
            CHECK(memcmp(lent.room, wanted, SIZE) == 0);
            CHECK(guarded_kept(&lent, SIZE));
        }
        guarded_free(&lent);
    }
}

/* Cut anywhere between records: grown piece by piece, and joined from two parts, it is the whole. */
static void split(uint8_t part)
{
    struct stream made = scanned(part, 10, 40 + any(60));
    uint8_t whole[SIZE], pieces[SIZE] = {0}, chip[CHIP] = {0}, first[SIZE], second[SIZE];
    size_t at = 0, from = 0, cut;
    whole_of(&made, whole);
    same_rows(&made, whole);
    while (at < made.length) {
        at += record_at(&made, at);
        if (at == made.length || any(3) == 0) {
            CHECK(grow(pieces, chip, made.bytes + from, at - from) >= 0);
            from = at;
        }
    }
    CHECK(memcmp(pieces, whole, SIZE) == 0);
    for (cut = record_at(&made, 0); cut < made.length; cut += record_at(&made, cut)) {
        uint8_t stands[CHIP] = {0};
        memset(first, 0, SIZE);
        memset(second, 0, SIZE);
        CHECK(grow(first, stands, made.bytes, cut) >= 0);
        CHECK(grow(second, stands, made.bytes + cut, made.length - cut) >= 0);
        joins(first, second, whole, 0);
    }
}

/* 25: another part, gain code, offset, floor or row, with scans or without; then 22. */
static void different(void)
{
    struct stream one = scanned(1, 10, 12), other = scanned(1, 11, 12), larger = scanned(2, 10, 12);
    uint8_t mine[SIZE], theirs[SIZE], twice[SIZE], chip[CHIP] = {0};
    whole_of(&one, mine);
    whole_of(&other, theirs);
    joins(mine, theirs, mine, TORALINGE_OTHER_CHIP);
    joins(theirs, mine, mine, TORALINGE_OTHER_CHIP);
    CHECK(grow(mine, chip, other.bytes, other.length) == -TORALINGE_OTHER_CHIP);
    whole_of(&larger, theirs);
    joins(mine, theirs, mine, TORALINGE_OTHER_CHIP);
    memcpy(theirs, mine, SIZE);
    theirs[3] ^= 1;
    joins(mine, theirs, mine, TORALINGE_OTHER_CHIP);
    memcpy(theirs, mine, SIZE);
    theirs[5] ^= 1;
    joins(mine, theirs, mine, TORALINGE_OTHER_CHIP);
    memcpy(theirs, mine, SIZE);
    theirs[4] = 4;
    joins(mine, theirs, mine, TORALINGE_OTHER_CHIP);
    CHECK(toralinge_join(mine, SIZE, mine, SIZE, twice, SIZE) == TORALINGE_DONE);
}

/* 65,535 scans by doubling, and not one more. */
static void full(void)
{
    struct stream one = asleep(1);
    uint8_t power[SIZE], sum[SIZE], next[SIZE], chip[CHIP];
    static uint8_t entries[64];
    int64_t rows[ROWS];
    int doubled;
    add_bare(&one, BOOT);
    add_five(&one, 16383, 1000, 0, 7, 8);
    whole_of(&one, power);
    memcpy(sum, power, SIZE);
    for (doubled = 0; doubled < 15; doubled++) {
        CHECK(toralinge_join(power, SIZE, power, SIZE, next, SIZE) == TORALINGE_DONE);
        memcpy(power, next, SIZE);
        CHECK(toralinge_join(sum, SIZE, power, SIZE, next, SIZE) == TORALINGE_DONE);
        memcpy(sum, next, SIZE);
    }
    CHECK(toralinge_rows(sum, SIZE, rows, ROWS) == 5);
    CHECK(rows[TORALINGE_SEASON_SCANS] == 65535);
    CHECK(rows[TORALINGE_SEASON_SUM] == (int64_t)65535 * 16383);
    joins(power, power, power, TORALINGE_SEASON_FULL);
    whole_of(&one, power);
    joins(sum, power, power, TORALINGE_SEASON_FULL);
    memset(chip, 0, CHIP);
    CHECK(toralinge_feed(chip, CHIP, one.bytes, 15, entries, sizeof entries) == 2);
    CHECK(grow(sum, chip, one.bytes + 15, one.length - 15) == -TORALINGE_SEASON_FULL);
}

/* Bytes that are no report, or none yet. */
static void hostile(void)
{
    struct stream one = scanned(3, 31, 9);
    uint8_t good[SIZE], bad[SIZE], zero[SIZE] = {0}, chip[CHIP] = {0}, whole[SIZE];
    static const struct { size_t at; uint8_t byte; } spoiled[] = {{0, 0}, {0, 2}, {0, 0x81}, {1, 0}, {1, 4}, {2, 32}, {4, 1}, {4, 10}, {4, 16}, {6, 0x10}};
    int64_t rows[ROWS];
    size_t i;
    whole_of(&one, good);
    for (i = 0; i < sizeof spoiled / sizeof spoiled[0]; i++) {
        memcpy(bad, good, SIZE);
        bad[spoiled[i].at] = spoiled[i].byte;
        CHECK(toralinge_rows(bad, SIZE, rows, ROWS) == -TORALINGE_NO_CHIP);
        joins(bad, good, good, TORALINGE_NO_CHIP);
        joins(good, bad, good, TORALINGE_NO_CHIP);
        CHECK(toralinge_grow(bad, SIZE, chip, CHIP, one.bytes, one.length) == -TORALINGE_NO_CHIP);
    }
    joins(zero, good, good, TORALINGE_NO_CHIP);
    joins(good, zero, good, TORALINGE_NO_CHIP);
    CHECK(toralinge_rows(zero, SIZE, rows, ROWS) == -TORALINGE_CUT);
    for (i = 0; i < SIZE; i++) {
        CHECK(toralinge_rows(good, i, rows, ROWS) == -TORALINGE_NO_CHIP);
        CHECK(toralinge_join(good, i, good, SIZE, whole, SIZE) == TORALINGE_NO_CHIP);
        CHECK(toralinge_join(good, SIZE, good, i, whole, SIZE) == TORALINGE_NO_CHIP);
        CHECK(toralinge_grow(good, i, chip, CHIP, one.bytes, one.length) == -TORALINGE_NO_ROOM);
    }
    CHECK(toralinge_grow(zero, SIZE, chip, CHIP, one.bytes, 0) == -TORALINGE_CUT);
    CHECK(toralinge_grow(zero, SIZE, chip, CHIP, one.bytes + 11, 4) == -TORALINGE_CUT);
    CHECK(toralinge_grow(zero, SIZE, chip, CHIP - 1, one.bytes, one.length) == -TORALINGE_NO_CHIP);
    chip[0] = 2;
    CHECK(toralinge_grow(zero, SIZE, chip, CHIP, one.bytes, one.length) == -TORALINGE_NO_CHIP);
    for (i = 0; i < SIZE; i++) {
        CHECK(zero[i] == 0);
    }
}

/* Where the i-th of the ten columns has the number of an input, both counted from 0. */
static size_t place(size_t column, size_t input)
{
    return 9 + 30 * column + 2 * input;
}

static void refused_with(const uint8_t *report, size_t at, uint16_t word)
{
    uint8_t bad[SIZE];
    int64_t rows[ROWS];
    memcpy(bad, report, SIZE);
    bad[at] = (uint8_t)(word % 256);
    bad[at + 1] = (uint8_t)(word / 256);
    CHECK(toralinge_rows(bad, SIZE, rows, ROWS) == -TORALINGE_NO_CHIP);
    joins(bad, report, report, TORALINGE_NO_CHIP);
}

/* Columns that no scans could have: of input 2 at 1,000 and 1,001 counts, of inputs that the part lacks, and of a report of no scans. */
static void contradicting(void)
{
    static const struct { size_t column; uint16_t word; } spoiled[] = {
        {0, 1002}, {0, 999}, {1, 0}, {1, 3}, {2, 999}, {2, 1002}, {3, 0}, {3, 3}, {4, 2000}, {4, 2002}, {5, 1},
        {6, 3}, {6, 1}, {7, 1}, {8, 2002}, {8, 1999}, {9, 1}};
    static const size_t zeros[] = {0, 2, 4, 5, 7, 8, 9};
    struct stream two = asleep(1);
    uint8_t report[SIZE], none[SIZE];
    size_t i, input;
    whole_of(&two, none);
    add_bare(&two, BOOT);
    add_five(&two, 16383, 1000, 0, 7, 8);
    add_five(&two, 16000, 1001, 0, 7, 9);
    whole_of(&two, report);
    for (i = 0; i < sizeof spoiled / sizeof spoiled[0]; i++) {
        refused_with(report, place(spoiled[i].column, 1), spoiled[i].word);
    }
    for (input = 5; input < 15; input++) {
        for (i = 0; i < sizeof zeros / sizeof zeros[0]; i++) {
            refused_with(report, place(zeros[i], input), 1);
        }
        refused_with(report, place(1, input), 0);
        refused_with(report, place(3, input), 3);
        refused_with(report, place(6, input), 3);
    }
    refused_with(report, place(2, 0), 16384);
    for (i = 0; i < 150; i++) {
        refused_with(none, place(0, i), 1);
    }
}

int main(void)
{
    int at;
    for (at = 0; at < 12; at++) {
        split((uint8_t)(1 + at % 3));
    }
    different();
    full();
    hostile();
    contradicting();
    printf("report: %lu checks of kept reports hold\n", checks);
    return 0;
}
