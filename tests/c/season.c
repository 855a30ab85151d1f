/*
 * The season of a stream from C: totals worked by hand from CHIP T1 to T7, W2 and W7, refusals in their order, the 65,535th scan
 * and the next, through include/toralinge.h alone, with guard bytes round every buffer that is lent.
 */
#include "check.h"
#include "guard.h"
#include "streams.h"
#include "toralinge.h"

#define MOST_SCANS 65535
#define FIVE TORALINGE_SEASON_SIZE * 5

/* The rows stand at the start and nothing else is touched; in any smaller room nothing is. */
static void given(const struct stream *of, const int64_t *wanted, size_t cells)
{
    size_t full = TORALINGE_SEASON_SIZE * cells;
    size_t room;
    for (room = 0; room <= full + 5; room++) {
        struct guarded lent = guarded_new(sizeof(int64_t) * room);
        int64_t answer = toralinge_season(of->bytes, of->length, (int64_t *)(void *)lent.room, room);
        if (room < full) {
            CHECK(answer == -TORALINGE_NO_ROOM);
            CHECK(guarded_kept(&lent, 0));
        } else {
            CHECK(answer == (int64_t)cells);
            CHECK(memcmp(lent.room, wanted, sizeof(int64_t) * full) == 0);
            CHECK(guarded_kept(&lent, sizeof(int64_t) * full));
        }
        guarded_free(&lent);
    }
}

/* Nothing is written, whatever the room. */
static void refused(const uint8_t *stream, size_t length, int number)
{
    size_t room;
    for (room = 0; room <= FIVE; room += 9) {
        struct guarded lent = guarded_new(sizeof(int64_t) * room);
        CHECK(toralinge_season(stream, length, (int64_t *)(void *)lent.room, room) == -number);
        CHECK(guarded_kept(&lent, 0));
        guarded_free(&lent);
    }
}

/* Three stored scans among those that are not: asleep, ADC_EN 0, a count too high. Equal counts are the first scan's, and SHIP is within the season. */
static void season(void)
{
    static const int64_t wanted[FIVE] = {
        3, 1, 6144, 1, 7952, 2, 20240, 3, 7254960, /* 354 x 20,240 + 90,000 */
        3, 1, 999, 2, 7000, 1, 14999, 2, 5016000,  /* scan 2 is below the floor: 354 x 14,000 + 60,000 */
        3, 1, 0, 1, 0, 1, 0, 0, 0,                 /* never connected */
        3, 1, 1000, 1, 1002, 3, 3003, 3, 1153062,  /* at the floor and above: 354 x 3,003 + 90,000 */
        3, 1, 16381, 3, 16383, 1, 49146, 3, 17487684,
    };
    struct stream made = asleep(1);
    add_five(&made, 1, 1, 1, 1, 1);
    add_bare(&made, BOOT);
    add_five(&made, 6144, 7000, 0, 1000, 16383);
    add_write(&made, 0x04, 0x00);
    add_five(&made, 2, 2, 2, 2, 2);
    add_write(&made, 0x04, 0x10);
    add_five(&made, 7952, 999, 0, 1001, 16382);
    add_five(&made, 3, 3, 3, 3, 16384);
    add_bare(&made, POR);
    add_five(&made, 4, 4, 4, 4, 4);
    add_bare(&made, BOOT);
    add_five(&made, 6144, 7000, 0, 1002, 16381);
    given(&made, wanted, 5);
    made.length--; /* the last scan is cut short */
    CHECK(toralinge_season(made.bytes, made.length, (int64_t[FIVE]){0}, FIVE) == 5);
}

/* A pack of three cells on inputs 1, 2 and 5: its rows are theirs, and each is connected whatever its count. */
static void packed(void)
{
    static const int64_t wanted[TORALINGE_SEASON_SIZE * 3] = {
        1, 1, 5, 1, 5, 1, 5, 1, 31770, /* 354 x 5 + 30,000 */
        1, 1, 0, 1, 0, 1, 0, 1, 30000,
        1, 1, 8000, 1, 8000, 1, 8000, 1, 2862000,
    };
    struct stream made = asleep(1);
    add_byte(&made, WIRES, 3);
    add_bare(&made, BOOT);
    add_five(&made, 5, 0, 9, 9, 8000);
    given(&made, wanted, 3);
}

static void no_scans(void)
{
    static const int64_t wanted[FIVE];
    struct stream made = asleep(1);
    given(&made, wanted, 5);
    add_bare(&made, BOOT);
    given(&made, wanted, 5);
    made = asleep(3);
    CHECK(toralinge_season(made.bytes, made.length, (int64_t[135]){0}, 134) == -TORALINGE_NO_ROOM);
    CHECK(toralinge_season(made.bytes, made.length, (int64_t[135]){0}, 135) == 15);
}

static void no_chip(void)
{
    static const uint8_t bad[7] = {4, 0, 0x08, 0x0A, 0x1E, 0xE8, 0x03};
    struct stream made;
    made.length = 0;
    refused(made.bytes, made.length, TORALINGE_CUT);
    add_bare(&made, BOOT);
    refused(made.bytes, made.length, TORALINGE_BAD_KIND);
    made.length = 0;
    add(&made, SETUP, bad, sizeof bad);
    refused(made.bytes, made.length, TORALINGE_BAD_SETUP);
    made.length--;
    refused(made.bytes, made.length, TORALINGE_CUT);
}

/* 65,535 scans: the first at 2,000, all others at 16,383; then one more. */
static void full(void)
{
    struct stream start = asleep(1);
    struct stream low, high;
    size_t record = 14, scan;
    uint8_t *bytes = malloc(4096 + 14 * (size_t)(MOST_SCANS + 1));
    int64_t rows[FIVE];
    size_t length;
    CHECK(bytes != NULL);
    add_bare(&start, BOOT);
    low.length = high.length = 0;
    add_five(&low, 2000, 2000, 2000, 2000, 2000);
    add_five(&high, 16383, 16383, 16383, 16383, 16383);
    memcpy(bytes, start.bytes, start.length);
    length = start.length;
    for (scan = 0; scan <= MOST_SCANS; scan++) {
        memcpy(bytes + length + record * scan, scan == 0 ? low.bytes : high.bytes, record);
    }
    CHECK(toralinge_season(bytes, length + record * MOST_SCANS, rows, FIVE) == 5);
    for (scan = 0; scan < 5; scan++) {
        const int64_t *row = rows + TORALINGE_SEASON_SIZE * scan;
        CHECK(row[TORALINGE_SEASON_SCANS] == 65535 && row[TORALINGE_SEASON_PRESENT] == 1);
        CHECK(row[TORALINGE_SEASON_LEAST] == 2000 && row[TORALINGE_SEASON_LEAST_SCAN] == 1);
        CHECK(row[TORALINGE_SEASON_GREATEST] == 16383 && row[TORALINGE_SEASON_GREATEST_SCAN] == 2);
        CHECK(row[TORALINGE_SEASON_SUM] == 1073645522); /* 2,000 + 65,534 x 16,383 */
        CHECK(row[TORALINGE_SEASON_CONNECTED] == 65535);
        CHECK(row[TORALINGE_SEASON_MICROVOLTS] == 382036564788); /* 354 x the sum + 30,000 x 65,535 */
    }
    refused(bytes, length + record * (MOST_SCANS + 1), TORALINGE_SEASON_FULL);
    free(bytes);
}

int main(void)
{
    season();
    packed();
    no_scans();
    no_chip();
    full();
    printf("season: %lu checks of seasons hold, called from C\n", checks);
    return 0;
}
