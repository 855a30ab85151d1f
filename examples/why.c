/*
 * Why a bit of SYS_STAT is up, from C: four scans above the limit raise OV, and the row of toralinge_why says so in numbers.
 * Built with ./library: gcc -Iinclude examples/why.c target/libtoralinge.a -o why
 */
#include <stdio.h>
#include "toralinge.h"

enum { LAST = 5 };

/* A number of so many bytes, the low one first. */
static unsigned long long number(const uint8_t *bytes, int many)
{
    unsigned long long read = 0;
    while (many > 0) {
        many--;
        read = read << 8 | bytes[many];
    }
    return read;
}

/* Adds a record for part 1, and gives the stream's new length. */
static size_t add(uint8_t *stream, size_t room, size_t length, uint32_t kind, const int64_t *values, size_t count)
{
    int64_t written = toralinge_record(kind, 1, values, count, stream + length, room - length);
    return written < 0 ? length : length + (size_t)written;
}

int main(void)
{
    static const int64_t setup[] = {1, 0, 0x08, 10, 30, 1000}, scan[] = {9000, 9000, 9000, 9000, 10953};
    uint8_t stream[256], row[TORALINGE_WHY_SIZE], off[TORALINGE_OFF_SIZE];
    size_t length = add(stream, sizeof stream, 0, TORALINGE_KIND_SETUP, setup, 6);
    int record;
    length = add(stream, sizeof stream, length, TORALINGE_KIND_BOOT, setup, 0);
    for (record = 2; record <= LAST; record++) {
        length = add(stream, sizeof stream, length, TORALINGE_KIND_SCAN, scan, 5);
    }
    if (toralinge_why(stream, length, LAST, TORALINGE_STAT_OV, row, sizeof row) == TORALINGE_DONE) {
        printf("OV rose at record %llu: %llu scans, from record %llu on, had an input above %llu; input %llu at %llu\n", number(row, 8),
               number(row + 20, 4), number(row + 8, 8), number(row + 24, 4), number(row + 28, 4), number(row + 32, 4));
    }
    if (toralinge_off(stream, length, LAST, TORALINGE_PIN_CHG, off, sizeof off) == TORALINGE_DONE) {
        printf("CHG is off, held by 0x%02llX\n", number(off + 8, 4));
    }
    printf("UV: %s\n", toralinge_words(toralinge_why(stream, length, LAST, TORALINGE_STAT_UV, row, sizeof row)));
    printf("record 6: %s\n", toralinge_words(toralinge_why(stream, length, 6, TORALINGE_STAT_OV, row, sizeof row)));
    return 0;
}
