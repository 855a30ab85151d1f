/*
 * Two threads with a chip each, fed the same streams at once, record by record: each has the entries of toralinge_play, whatever the other
 * does. The streams are one of each part, with scans that raise OV and a host that clears it.
 */
#include <pthread.h>
#include <stdio.h>
#include <string.h>
#include "toralinge.h"

enum { ROUNDS = 200, MOST = 4096, SCANS = 40 };

struct worker {
    uint8_t part;
    unsigned long records, wrong;
};

/* Adds a record to a stream, and gives the place after it. */
static size_t add(uint8_t *stream, size_t at, uint16_t kind, const uint8_t *payload, size_t length)
{
    stream[at] = (uint8_t)length;
    stream[at + 1] = 0;
    stream[at + 2] = (uint8_t)(kind & 0xFF);
    stream[at + 3] = (uint8_t)(kind >> 8);
    memcpy(stream + at + 4, payload, length);
    return at + 4 + length;
}

/* SETUP and BOOT, then scans of which every second group of five is over, with a host that clears OV between. */
static size_t make(uint8_t *stream, uint8_t part)
{
    static const uint8_t clear[] = {0x10, TORALINGE_REG_SYS_STAT, 0xFF};
    const uint8_t setup[] = {part, 0, 0x08, 10, 30, 0xE8, 0x03};
    uint8_t counts[30];
    size_t at = add(stream, 0, TORALINGE_KIND_SETUP, setup, sizeof setup), scan, cell, byte;

    at = add(stream, at, TORALINGE_KIND_BOOT, setup, 0);
    for (scan = 0; scan < SCANS; scan++) {
        unsigned count = scan / 5 % 2 == 0 ? 9000u + (unsigned)scan : 10953u;
        for (cell = 0; cell < 5u * part; cell++) {
            counts[2 * cell] = (uint8_t)(count & 0xFF);
            counts[2 * cell + 1] = (uint8_t)(count >> 8);
        }
        at = add(stream, at, TORALINGE_KIND_SCAN, counts, 10u * part);
        if (scan % 7 == 6) {
            at = add(stream, at, TORALINGE_KIND_START, setup, 0);
            for (byte = 0; byte < sizeof clear; byte++) {
                at = add(stream, at, TORALINGE_KIND_OUT, clear + byte, 1);
            }
            at = add(stream, at, TORALINGE_KIND_STOP, setup, 0);
        }
    }
    return at;
}

static void *work(void *mine)
{
    struct worker *worker = mine;
    uint8_t stream[MOST], wanted[MOST * 2];
    size_t length = make(stream, worker->part);
    int64_t count = toralinge_play(stream, length, wanted, sizeof wanted);
    int round;

    for (round = 0; round < ROUNDS; round++) {
        uint8_t chip[TORALINGE_CHIP_SIZE] = {0}, entry[TORALINGE_ENTRY_SIZE];
        size_t at = 0;
        int64_t record;
        for (record = 0; record < count; record++) {
            size_t size = 4 + stream[at];
            int64_t given = toralinge_feed(chip, sizeof chip, stream + at, size, entry, sizeof entry);
            worker->records++;
            if (given != 1 || memcmp(entry, wanted + TORALINGE_ENTRY_SIZE * (size_t)record, sizeof entry) != 0) {
                worker->wrong++;
            }
            at += size;
        }
        if (at != length) {
            worker->wrong++;
        }
    }
    return NULL;
}

int main(void)
{
    struct worker workers[2] = {{1, 0, 0}, {3, 0, 0}};
    pthread_t threads[2];
    unsigned long records, wrong;
    int one;

    for (one = 0; one < 2; one++) {
        if (pthread_create(&threads[one], NULL, work, &workers[one]) != 0) {
            fprintf(stderr, "threads: cannot start a thread\n");
            return 2;
        }
    }
    for (one = 0; one < 2; one++) {
        pthread_join(threads[one], NULL);
    }
    records = workers[0].records + workers[1].records;
    wrong = workers[0].wrong + workers[1].wrong;
    printf("threads: two chips at once, %lu records fed one by one, %lu wrong\n", records, wrong);
    return wrong == 0 && records > 0 ? 0 : 1;
}
