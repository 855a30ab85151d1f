/*
 * bench KIND ENGINE CALLS   plays the stream of a kind of work CALLS times with an engine, `proved` or `byhand`
 * bench KIND same           1 where the two engines' entries differ, else 0 and the count of records
 * bench KIND stack ENGINE   bytes of stack that one call takes
 * bench KIND clock ENGINE   nanoseconds a record, the best of many calls
 * The streams come from a fixed seed: every run counts the same instructions.
 */
#define _XOPEN_SOURCE 700
#include "byhand.h"
#include "toralinge.h"

#include <stdio.h>
#include <stdlib.h>
#include <string.h>
#include <time.h>
#include <ucontext.h>

enum { MOST = 1 << 20, ADDRESS = 0x08 };

static uint8_t stream[MOST], entries[2][2 * MOST];
static size_t length;
static uint32_t seed = 1;

static unsigned below(unsigned n)
{
    seed = seed * 1664525u + 1013904223u;
    return (seed >> 8) % n;
}

static void record(unsigned kind, const uint8_t *payload, unsigned size)
{
    uint8_t head[4] = {(uint8_t)size, (uint8_t)(size >> 8), (uint8_t)kind, (uint8_t)(kind >> 8)};
    memcpy(stream + length, head, 4);
    memcpy(stream + length + 4, payload, size);
    length += 4 + size;
}

static void bare(unsigned kind)
{
    record(kind, stream, 0);
}

static void one(unsigned kind, unsigned byte)
{
    uint8_t b = (uint8_t)byte;
    record(kind, &b, 1);
}

static uint8_t crc_on(uint8_t crc, unsigned byte)
{
    crc = (uint8_t)(crc ^ byte);
    for (int i = 0; i < 8; i++)
        crc = (uint8_t)(crc & 0x80 ? crc << 1 ^ 7 : crc << 1);
    return crc;
}

static void begin(unsigned crc)
{
    uint8_t setup[7] = {3, (uint8_t)crc, ADDRESS, 10, 30, 0xE8, 0x03};
    record(0x00, setup, 7);
    bare(0x02);
}

static void scan(void)
{
    uint8_t b[30];
    unsigned high = below(16) == 0 ? 11500 : 10900, low = below(16) == 0 ? 6000 : 6600;
    for (int i = 0; i < 15; i++) {
        unsigned count = low + below(high - low);
        b[2 * i] = (uint8_t)count;
        b[2 * i + 1] = (uint8_t)(count >> 8);
    }
    record(0x03, b, 30);
}

static void tick(void)
{
    uint32_t value = 5000u - below(25000);
    uint8_t b[4] = {(uint8_t)value, (uint8_t)(value >> 8), (uint8_t)(value >> 16), (uint8_t)(value >> 24)};
    record(0x06, b, 4);
}

/* A block read with its CRCs: START, address, pointer, START, read address, then data and CRC. */
static void block_read(unsigned at, unsigned many)
{
    bare(0x10);
    one(0x11, 2 * ADDRESS);
    one(0x11, at);
    bare(0x10);
    one(0x11, 2 * ADDRESS + 1);
    for (unsigned i = 1; i < 2 * many; i++)
        one(0x12, 0);
    one(0x12, 1);
    bare(0x13);
}

static void block_write(unsigned at, const uint8_t *bytes, unsigned many)
{
    uint8_t crc = crc_on(crc_on(0, 2 * ADDRESS), at);
    bare(0x10);
    one(0x11, 2 * ADDRESS);
    one(0x11, at);
    for (unsigned i = 0; i < many; i++) {
        one(0x11, bytes[i]);
        one(0x11, crc_on(crc, bytes[i]));
        crc = 0;
    }
    bare(0x13);
}

static void scans(void)
{
    begin(0);
    for (int i = 0; i < 4000; i++)
        scan();
}

static void ticks(void)
{
    begin(0);
    for (int i = 0; i < 8000; i++)
        tick();
}

static void reads(void)
{
    begin(1);
    for (int i = 0; i < 100; i++) {
        scan();
        block_read(0x0C, 40);
    }
}

static void writes(void)
{
    begin(1);
    for (int i = 0; i < 300; i++) {
        uint8_t bytes[12];
        for (int k = 0; k < 12; k++)
            bytes[k] = (uint8_t)below(256);
        bytes[4] = (uint8_t)(0x10 | below(2) << 3);
        block_write(0x00, bytes, 12);
    }
}

/* A host that polls: scans, ticks, faults cleared, drives put on, cells and status read. */
static void mixed(void)
{
    uint8_t clear[1] = {0xFF}, drives[1] = {0x43}, counts[6] = {0x10, 0x20, 0x30, 0x21, 0x50, 0x22};
    begin(1);
    for (int i = 0; i < 200; i++) {
        scan();
        record(0x04, counts, 6);
        record(0x05, counts + below(4), 2);
        for (int k = 0; k < 8; k++)
            tick();
        one(0x08, below(2));
        if (below(20) == 0)
            bare(0x07 + 2 * below(2));
        block_read(0x00, 1);
        block_write(0x00, clear, 1);
        block_write(0x05, drives, 1);
        block_read(0x0C, 15);
        one(0x12, 0);
    }
}

static const struct {
    const char *name;
    void (*make)(void);
} kinds[] = {{"scans", scans}, {"ticks", ticks}, {"reads", reads}, {"writes", writes}, {"mixed", mixed}};

typedef int64_t play(const uint8_t *, size_t, uint8_t *, size_t);

static play *engine_of(const char *name)
{
    return strcmp(name, "proved") == 0 ? toralinge_play : byhand_play;
}

static int same(void)
{
    int64_t n = toralinge_play(stream, length, entries[0], sizeof entries[0]);
    int64_t m = byhand_play(stream, length, entries[1], sizeof entries[1]);
    if (n != m || n < 0 || memcmp(entries[0], entries[1], sizeof entries[0]) != 0)
        return 1;
    printf("%lld\n", (long long)n);
    return 0;
}

enum { STACK = 1 << 18, PAINT = 0xA5 };
static uint8_t stack[STACK];
static ucontext_t here, there;
static play *played;

static void call(void)
{
    if (played)
        played(stream, length, entries[0], sizeof entries[0]);
}

static long depth(play *engine)
{
    long untouched = 0;
    memset(stack, PAINT, sizeof stack);
    played = engine;
    getcontext(&there);
    there.uc_stack.ss_sp = stack;
    there.uc_stack.ss_size = sizeof stack;
    there.uc_link = &here;
    makecontext(&there, call, 0);
    swapcontext(&here, &there);
    while (untouched < STACK && stack[untouched] == PAINT)
        untouched++;
    return STACK - untouched;
}

static double now(void)
{
    struct timespec t;
    clock_gettime(CLOCK_MONOTONIC, &t);
    return (double)t.tv_sec * 1e9 + (double)t.tv_nsec;
}

static double quickest(play *engine)
{
    double best = 0;
    for (int i = 0; i < 200; i++) {
        double before = now();
        int64_t records = engine(stream, length, entries[0], sizeof entries[0]);
        double each = (now() - before) / (double)records;
        if (i == 0 || each < best)
            best = each;
    }
    return best;
}

int main(int argc, char **argv)
{
    size_t kind = 0;
    while (kind < 5 && (argc < 3 || strcmp(kinds[kind].name, argv[1]) != 0))
        kind++;
    if (kind == 5)
        return 2;
    kinds[kind].make();
    if (strcmp(argv[2], "same") == 0)
        return same();
    if (argc < 4)
        return 2;
    if (strcmp(argv[2], "stack") == 0) {
        printf("%ld\n", depth(engine_of(argv[3])) - depth(NULL));
        return 0;
    }
    if (strcmp(argv[2], "clock") == 0) {
        printf("%.1f\n", quickest(engine_of(argv[3])));
        return 0;
    }
    play *engine = engine_of(argv[2]);
    for (int calls = atoi(argv[3]); calls > 0; calls--)
        engine(stream, length, entries[0], sizeof entries[0]);
    return 0;
}
