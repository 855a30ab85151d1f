/*
 * growth CALL RECORDS CALLS   plays a stream of so many records CALLS times: `play`, `season`, `plain`, `feed` (toralinge_feed of
 *                             the whole) or `each` (toralinge_feed of one record at a time)
 * growth CALL RECORDS clock   milliseconds that one call takes, the best of three
 * Of 20 records 19 are ticks and one is a scan; plain, which looks back at each over all before it, is given ticks alone.
 */
#define _XOPEN_SOURCE 700
#include "toralinge.h"

#include <stdio.h>
#include <stdlib.h>
#include <string.h>
#include <time.h>

enum { MOST = 1000000, SCAN = 34, TICK = 8 };

static uint8_t stream[15 + MOST / 20 * (SCAN + 19 * TICK)], entries[5 * (MOST + 2)];
static int64_t rows[15 * TORALINGE_SEASON_SIZE];
static size_t length;

static void bytes(const uint8_t *from, size_t many)
{
    memcpy(stream + length, from, many);
    length += many;
}

static void tick(unsigned i)
{
    uint32_t value = 5000u - i * 7919u % 25000u;
    uint8_t b[TICK] = {4, 0, 6, 0, (uint8_t)value, (uint8_t)(value >> 8), (uint8_t)(value >> 16), (uint8_t)(value >> 24)};
    bytes(b, sizeof b);
}

static void scan(unsigned i)
{
    uint8_t b[SCAN] = {30, 0, 3, 0};
    for (unsigned k = 0; k < 15; k++) {
        unsigned count = 8000u + (i * 37u + k * 101u) % 2000u;
        b[4 + 2 * k] = (uint8_t)count;
        b[5 + 2 * k] = (uint8_t)(count >> 8);
    }
    bytes(b, sizeof b);
}

static int64_t fed_each(void)
{
    uint8_t chip[TORALINGE_CHIP_SIZE] = {0};
    int64_t records = 0;
    for (size_t at = 0, size; at < length; at += size, records++) {
        size = 4u + stream[at] + 256u * stream[at + 1];
        if (toralinge_feed(chip, sizeof chip, stream + at, size, entries + 5 * records, 5) != 1)
            return -1;
    }
    return records;
}

static int64_t call(const char *name)
{
    uint8_t chip[TORALINGE_CHIP_SIZE] = {0};
    if (strcmp(name, "feed") == 0)
        return toralinge_feed(chip, sizeof chip, stream, length, entries, sizeof entries);
    if (strcmp(name, "each") == 0)
        return fed_each();
    if (strcmp(name, "season") == 0)
        return toralinge_season(stream, length, rows, sizeof rows / sizeof rows[0]);
    if (strcmp(name, "plain") == 0)
        return toralinge_plain(stream, length, entries, sizeof entries);
    return toralinge_play(stream, length, entries, sizeof entries);
}

static double milliseconds(const char *name)
{
    double best = 0;
    for (int i = 0; i < 3; i++) {
        struct timespec from, to;
        clock_gettime(CLOCK_MONOTONIC, &from);
        call(name);
        clock_gettime(CLOCK_MONOTONIC, &to);
        double took = (double)(to.tv_sec - from.tv_sec) * 1e3 + (double)(to.tv_nsec - from.tv_nsec) / 1e6;
        if (i == 0 || took < best)
            best = took;
    }
    return best;
}

int main(int argc, char **argv)
{
    static const uint8_t begin[] = {7, 0, 0, 0, 3, 0, 8, 10, 30, 0xE8, 3, 0, 0, 2, 0};
    if (argc < 4)
        return 2;
    unsigned records = (unsigned)atoi(argv[2]);
    if (records > MOST)
        return 2;
    bytes(begin, sizeof begin);
    for (unsigned i = 0; i < records; i++) {
        if (i % 20 == 19 && strcmp(argv[1], "plain") != 0)
            scan(i);
        else
            tick(i);
    }
    if (call(argv[1]) < 0)
        return 1;
    if (strcmp(argv[3], "clock") == 0) {
        printf("%.3f\n", milliseconds(argv[1]));
        return 0;
    }
    for (int calls = atoi(argv[3]); calls > 0; calls--)
        call(argv[1]);
    return 0;
}
