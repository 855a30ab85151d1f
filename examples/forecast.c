/*
 * What forecasting takes from a stream of records on standard input, one table for a sheet:
 *   forecast --season    the totals of each cell over every scan that was stored
 *   forecast --reading   the pack's voltages as they stand at the end
 *   forecast --scans     each scan that was stored, in microvolts
 * Where there is nothing to give it says the number and its words on standard error and ends with 1. `./forecast` builds and runs it.
 */
#include <inttypes.h>
#include <stdio.h>
#include <stdlib.h>
#include <string.h>
#include "toralinge.h"

#define MOST_CELLS 15
#define HEADER 4 /* bytes of a record before its payload: payload length, kind */

/* All of standard input; NULL where there is no memory for it. */
static uint8_t *read_all(size_t *length)
{
    size_t room = 1 << 16;
    uint8_t *bytes = malloc(room), *more;
    *length = 0;
    while (bytes != NULL && (*length += fread(bytes + *length, 1, room - *length, stdin)) == room) {
        room *= 2;
        more = realloc(bytes, room);
        if (more == NULL) {
            free(bytes);
        }
        bytes = more;
    }
    return bytes;
}

/* Says that there is no table, and why. */
static int refused(const char *what, int64_t number)
{
    fprintf(stderr, "forecast: no %s, %d: %s\n", what, (int)number, toralinge_words(number));
    return 1;
}

/* Each double is a whole number. */
static int print_reading(const uint8_t *stream, size_t length)
{
    double reading[TORALINGE_READING_SIZE];
    uint8_t number = toralinge_reading(stream, length, reading, TORALINGE_READING_SIZE);
    if (number != TORALINGE_DONE) {
        return refused("reading", number);
    }
    printf("least cell in microvolts,greatest cell in microvolts,total in microvolts,coulomb counter in hundredths of a microvolt\n");
    printf("%.0f,%.0f,%.0f,%.0f\n", reading[TORALINGE_READING_LEAST], reading[TORALINGE_READING_GREATEST],
           reading[TORALINGE_READING_TOTAL], reading[TORALINGE_READING_CC]);
    return 0;
}

/* A line a cell. Without scans there is no least and no greatest, and their places stay empty. */
static void print_cell(int cell, const int64_t *row)
{
    printf("%d,%" PRId64 ",", cell, row[TORALINGE_SEASON_SCANS]);
    if (row[TORALINGE_SEASON_PRESENT]) {
        printf("%" PRId64 ",%" PRId64 ",%" PRId64 ",%" PRId64, row[TORALINGE_SEASON_LEAST], row[TORALINGE_SEASON_LEAST_SCAN],
               row[TORALINGE_SEASON_GREATEST], row[TORALINGE_SEASON_GREATEST_SCAN]);
    } else {
        printf(",,,");
    }
    printf(",%" PRId64 ",%" PRId64 ",%" PRId64 "\n", row[TORALINGE_SEASON_SUM], row[TORALINGE_SEASON_CONNECTED],
           row[TORALINGE_SEASON_MICROVOLTS]);
}

static int print_season(const uint8_t *stream, size_t length)
{
    int64_t rows[MOST_CELLS * TORALINGE_SEASON_SIZE];
    int64_t cells = toralinge_season(stream, length, rows, MOST_CELLS * TORALINGE_SEASON_SIZE);
    int cell;
    if (cells < 0) {
        return refused("season", -cells);
    }
    printf("cell,scans,least count,scan of least count,greatest count,scan of greatest count,sum of counts,scans connected,"
           "sum in microvolts\n");
    for (cell = 1; cell <= cells; cell++) {
        print_cell(cell, rows + (cell - 1) * TORALINGE_SEASON_SIZE);
    }
    return 0;
}

/* The length of the record at a place, or 0 where it is cut short. */
static size_t record_at(const uint8_t *stream, size_t length, size_t at)
{
    size_t whole = length - at < HEADER ? 0 : HEADER + stream[at] + 256u * stream[at + 1];
    return whole <= length - at ? whole : 0;
}

static unsigned kind_at(const uint8_t *stream, size_t at)
{
    return stream[at + 2] + 256u * stream[at + 3];
}

/* How many cells the pack has, or minus a number. A season that is full has them before its first BOOT, where no scan is stored yet. */
static int64_t cells_of(const uint8_t *stream, size_t length)
{
    int64_t rows[MOST_CELLS * TORALINGE_SEASON_SIZE];
    int64_t cells = toralinge_season(stream, length, rows, MOST_CELLS * TORALINGE_SEASON_SIZE);
    size_t at = 0;
    if (cells != -TORALINGE_SEASON_FULL) {
        return cells;
    }
    while (kind_at(stream, at) != TORALINGE_KIND_BOOT || record_at(stream, length, at) != HEADER) {
        at += record_at(stream, length, at);
    }
    return toralinge_season(stream, at, rows, MOST_CELLS * TORALINGE_SEASON_SIZE);
}

/* Whether the chip has just stored the scan that it was fed. */
static int is_stored(const uint8_t *chip, const uint8_t *entry)
{
    uint8_t ctrl1 = 0;
    toralinge_register(chip, TORALINGE_CHIP_SIZE, TORALINGE_REG_SYS_CTRL1, &ctrl1);
    return entry[TORALINGE_ENTRY_NUMBER] == TORALINGE_DONE && (ctrl1 & TORALINGE_CTRL1_ADC_EN) != 0;
}

/* The voltages that a chip has, as the end of a line. A cell that is not connected has an empty place. */
static void print_voltages(const uint8_t *chip, int64_t cells)
{
    int64_t cell, microvolts;
    for (cell = 1; cell <= cells; cell++) {
        if (toralinge_voltage(chip, TORALINGE_CHIP_SIZE, (uint32_t)cell, &microvolts) == TORALINGE_DONE) {
            printf(",%" PRId64, microvolts);
        } else {
            printf(",");
        }
    }
    printf("\n");
}

static int print_scans(const uint8_t *stream, size_t length)
{
    uint8_t chip[TORALINGE_CHIP_SIZE] = {0}, entry[TORALINGE_ENTRY_SIZE];
    int64_t cells = cells_of(stream, length), cell, record, scan = 0;
    size_t at = 0, size;
    if (cells < 0) {
        return refused("scans", -cells);
    }
    printf("scan,record");
    for (cell = 1; cell <= cells; cell++) {
        printf(",cell %d in microvolts", (int)cell);
    }
    printf("\n");
    for (record = 0; (size = record_at(stream, length, at)) > 0; record++, at += size) {
        toralinge_feed(chip, sizeof chip, stream + at, size, entry, sizeof entry);
        if (kind_at(stream, at) == TORALINGE_KIND_SCAN && is_stored(chip, entry)) {
            printf("%" PRId64 ",%" PRId64, ++scan, record);
            print_voltages(chip, cells);
        }
    }
    return 0;
}

int main(int count, char **words)
{
    size_t length;
    const char *table = count > 1 ? words[1] : "--season";
    uint8_t *stream = read_all(&length);
    int status;
    if (stream == NULL) {
        fprintf(stderr, "forecast: no memory for the stream\n");
        return 1;
    }
    if (strcmp(table, "--reading") == 0) {
        status = print_reading(stream, length);
    } else {
        status = strcmp(table, "--scans") == 0 ? print_scans(stream, length) : print_season(stream, length);
    }
    free(stream);
    return fflush(stdout) == 0 ? status : 1;
}
