/*
 * The chip of ./bench: one kept chip of include/toralinge.h behind a pair of pipes, so that the proved calls, which are for x86-64,
 * also serve a bench on another machine, under an emulator.
 *
 *   chip [DESCRIPTOR]   DESCRIPTOR: an open file that every record fed is appended to
 *
 * A request is a letter, the length of what follows (4 bytes) and that; an answer is a result (8 bytes), a length (4) and that; all
 * numbers are little-endian. It ends with its input. The letters:
 *
 *   F  records: feeds them. The result is the number of entries, which follow. They are in the file before the answer is given.
 *   P  the same of a copy of the chip: nothing is kept or written.
 *   W  kind (4), part (4), values (8 each): toralinge_record's answer and the record.
 *   S  the 256 registers, then a number and microvolts (8) for each of fifteen cells.
 *
 * A result below UNWRITTEN is UNWRITTEN minus errno: the file took no record, and the chip stands as before.
 */
#define _POSIX_C_SOURCE 200809L
#include <errno.h>
#include <signal.h>
#include <stdbool.h>
#include <stdio.h>
#include <stdlib.h>
#include <string.h>
#include <sys/types.h>
#include <unistd.h>

#include "toralinge.h"

enum { UNWRITTEN = -1000, REGISTERS = 256, CELLS = 15, VALUES = 16 };

static uint8_t chip[TORALINGE_CHIP_SIZE];
static int file = -1;

static uint64_t number_at(const uint8_t *bytes, int size)
{
    uint64_t number = 0;
    for (int i = size; i-- > 0;)
        number = number << 8 | bytes[i];
    return number;
}

static void put_number(uint8_t *bytes, uint64_t number, int size)
{
    for (int i = 0; i < size; i++)
        bytes[i] = (uint8_t)(number >> 8 * i);
}

static void fail(const char *why)
{
    fprintf(stderr, "bench: the chip ends: %s\n", why);
    exit(1);
}

static void *room_for(size_t size)
{
    void *room = malloc(size ? size : 1);
    if (room == NULL)
        fail("no memory");
    return room;
}

/* One write, so that a reader finds whole records; what a full disk cuts is taken back. 0, or an errno. */
static int append(const uint8_t *records, size_t length)
{
    off_t end = lseek(file, 0, SEEK_END);
    for (size_t done = 0; done < length;) {
        ssize_t more = write(file, records + done, length - done);
        if (more >= 0) {
            done += (size_t)more;
        } else if (errno != EINTR) {
            int why = errno;
            if (end < 0 || ftruncate(file, end) != 0)
                fail("the record file cannot be mended");
            return why;
        }
    }
    return 0;
}

static void answer(int64_t result, const void *bytes, size_t length)
{
    uint8_t head[12];
    put_number(head, (uint64_t)result, 8);
    put_number(head + 8, length, 4);
    if (fwrite(head, 1, sizeof head, stdout) != sizeof head || fwrite(bytes, 1, length, stdout) != length || fflush(stdout) != 0)
        exit(1);
}

static void feed(const uint8_t *records, size_t length, bool keep)
{
    uint8_t next[TORALINGE_CHIP_SIZE];
    size_t room = (length / 4 + 1) * TORALINGE_ENTRY_SIZE;
    uint8_t *entries = room_for(room);
    memcpy(next, chip, sizeof next);
    int64_t count = toralinge_feed(next, sizeof next, records, length, entries, room);
    if (count > 0 && keep) {
        int why = file < 0 ? 0 : append(records, length);
        if (why != 0)
            count = UNWRITTEN - why;
        else
            memcpy(chip, next, sizeof chip);
    }
    answer(count, entries, count > 0 ? (size_t)count * TORALINGE_ENTRY_SIZE : 0);
    free(entries);
}

static void write_record(const uint8_t *bytes, size_t length)
{
    int64_t values[VALUES + 1] = {0};
    uint8_t record[64];
    size_t count = length < 8 ? 0 : (length - 8) / 8;
    if (length < 8 || count > VALUES)
        fail("no record has so many values");
    for (size_t i = 0; i < count; i++)
        values[i] = (int64_t)number_at(bytes + 8 + 8 * i, 8);
    int64_t size = toralinge_record((uint32_t)number_at(bytes, 4), (uint32_t)number_at(bytes + 4, 4), values, count, record, sizeof record);
    answer(size, record, size > 0 ? (size_t)size : 0);
}

static void state(void)
{
    uint8_t all[REGISTERS + 9 * CELLS] = {0};
    for (uint32_t at = 0; at < REGISTERS; at++)
        toralinge_register(chip, sizeof chip, at, &all[at]);
    for (uint32_t cell = 0; cell < CELLS; cell++) {
        int64_t microvolts = 0;
        all[REGISTERS + 9 * cell] = toralinge_voltage(chip, sizeof chip, cell + 1, &microvolts);
        put_number(all + REGISTERS + 9 * cell + 1, (uint64_t)microvolts, 8);
    }
    answer(0, all, sizeof all);
}

static void serve(int letter, const uint8_t *bytes, size_t length)
{
    if (letter == 'F' || letter == 'P') {
        feed(bytes, length, letter == 'F');
    } else if (letter == 'W') {
        write_record(bytes, length);
    } else if (letter == 'S') {
        state();
    } else {
        fail("a request of an unknown kind");
    }
}

int main(int count, char **words)
{
    uint8_t head[5];
    signal(SIGXFSZ, SIG_IGN);
    if (count > 1)
        file = atoi(words[1]);
    while (fread(head, 1, sizeof head, stdin) == sizeof head) {
        size_t length = (size_t)number_at(head + 1, 4);
        uint8_t *bytes = room_for(length);
        if (fread(bytes, 1, length, stdin) != length)
            break;
        serve(head[0], bytes, length);
        free(bytes);
    }
    return 0;
}
