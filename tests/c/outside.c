/*
 * The library as a C program sees it: worked examples, both sides of each line and refusals, through
 * include/toralinge.h alone, with guard bytes round every buffer that is lent.
 */
#include "check.h"
#include "guard.h"
#include "streams.h"
#include "toralinge.h"

/* SETUP of CHIP X8: part 1, address 0x08, gain code 10, offset 30, floor 1,000. */
static void add_setup(struct stream *to, uint8_t crc)
{
    uint8_t payload[7] = {1, 0, 0x08, 0x0A, 0x1E, 0xE8, 0x03};
    payload[1] = crc;
    add(to, SETUP, payload, sizeof payload);
}

static struct stream awake(uint8_t crc)
{
    struct stream made;
    made.length = 0;
    add_setup(&made, crc);
    add_bare(&made, BOOT);
    return made;
}

/* A scan of five inputs: four quiet ones at 8,200 and the last as given. */
static void add_scan(struct stream *to, uint16_t last)
{
    add_five(to, 8200, 8200, 8200, 8200, last);
}

static void add_sense(struct stream *to, int32_t microvolts)
{
    uint32_t bits = (uint32_t)microvolts;
    uint8_t payload[4];
    int place;
    for (place = 0; place < 4; place++) {
        payload[place] = (uint8_t)(bits >> (8 * place));
    }
    add(to, SENSE, payload, sizeof payload);
}

/* Ticks of one value: four bytes, and the repeat number in `size` bytes. */
static void add_ticks(struct stream *to, unsigned kind, int32_t microvolts, uint32_t repeat, size_t size)
{
    uint32_t bits = (uint32_t)microvolts;
    uint8_t payload[8];
    size_t place;
    for (place = 0; place < 4; place++) {
        payload[place] = (uint8_t)(bits >> (8 * place));
        payload[4 + place] = (uint8_t)(repeat >> (8 * place));
    }
    add(to, kind, payload, 4 + size);
}

/* ---- playing */

static uint8_t played[4096 * TORALINGE_ENTRY_SIZE];

/* Plays with just enough room, more room and too little; leaves the entries in `played`. */
static int64_t play(const struct stream *from)
{
    struct guarded lent = guarded_new(from->length);
    struct guarded most = guarded_new(sizeof played);
    int64_t count;
    size_t full, room;
    memcpy(lent.room, from->bytes, from->length);
    count = toralinge_play(lent.room, lent.size, most.room, most.size);
    CHECK(count >= 0 && count <= 4096);
    full = TORALINGE_ENTRY_SIZE * (size_t)count;
    CHECK(guarded_kept(&most, full));
    memcpy(played, most.room, full);
    guarded_free(&most);
    for (room = full > 12 ? full - 12 : 0; room <= full + 2; room++) {
        struct guarded entries = guarded_new(room);
        int64_t given = toralinge_play(lent.room, lent.size, entries.room, entries.size);
        if (room < full) {
            CHECK(given == -5);
            CHECK(guarded_kept(&entries, 0));
        } else {
            CHECK(given == count);
            CHECK(guarded_kept(&entries, full));
            CHECK(memcmp(entries.room, played, full) == 0);
        }
        guarded_free(&entries);
    }
    CHECK(memcmp(lent.room, from->bytes, from->length) == 0);
    CHECK(guarded_kept(&lent, lent.size));
    guarded_free(&lent);
    return count;
}

static int entry_is(int64_t record, uint8_t number, uint8_t flag, uint8_t byte, uint8_t stat, uint8_t pins)
{
    const uint8_t *entry = played + TORALINGE_ENTRY_SIZE * (size_t)record;
    return entry[TORALINGE_ENTRY_NUMBER] == number && entry[TORALINGE_ENTRY_BUS_FLAG] == flag &&
           entry[TORALINGE_ENTRY_BUS_BYTE] == byte && entry[TORALINGE_ENTRY_SYS_STAT] == stat &&
           entry[TORALINGE_ENTRY_PINS] == pins;
}

static uint8_t last_status(const struct stream *from)
{
    int64_t count = play(from);
    CHECK(count > 0);
    return played[TORALINGE_ENTRY_SIZE * (size_t)(count - 1) + TORALINGE_ENTRY_SYS_STAT];
}

static void the_example(void)
{
    struct stream example = awake(0);
    add_bare(&example, START);
    add_byte(&example, OUT, 0x10);
    add_byte(&example, OUT, 0x05);
    add_byte(&example, OUT, 0x03);
    add_bare(&example, STOP);
    add_bare(&example, XREADY);
    CHECK(play(&example) == 8);
    CHECK(entry_is(0, 0, 0, 0, 0x00, 0));
    CHECK(entry_is(1, 0, 0, 0, 0x00, 0));
    CHECK(entry_is(2, 0, 0, 0, 0x00, 0));
    CHECK(entry_is(3, 0, 1, 0, 0x00, 0));
    CHECK(entry_is(4, 0, 1, 0, 0x00, 0));
    CHECK(entry_is(5, 0, 1, 0, 0x00, TORALINGE_PIN_CHG | TORALINGE_PIN_DSG));
    CHECK(entry_is(6, 0, 0, 0, 0x00, TORALINGE_PIN_CHG | TORALINGE_PIN_DSG));
    CHECK(entry_is(7, 0, 0, 0, 0x20, TORALINGE_PIN_ALERT));
}

static void crc_frames(void)
{
    struct stream good = awake(1), bad = awake(1);
    add_bare(&good, START);
    add_byte(&good, OUT, 0x10);
    add_byte(&good, OUT, 0x05);
    add_byte(&good, OUT, 0x03);
    add_byte(&good, OUT, 0xEA);
    add_byte(&good, OUT, 0x03); /* to 0x06: threshold code 3 */
    add_byte(&good, OUT, 0x09);
    add_bare(&good, START);
    add_byte(&good, OUT, 0x10);
    add_byte(&good, OUT, 0x00);
    add_bare(&good, START);
    add_byte(&good, OUT, 0x11);
    add_byte(&good, IN, 0);
    add_byte(&good, IN, 1);
    CHECK(play(&good) == 16);
    CHECK(entry_is(5, 0, 1, 0, 0x00, 0)); /* the data byte waits for its CRC */
    CHECK(entry_is(6, 0, 1, 0, 0x00, 3));
    CHECK(entry_is(8, 0, 1, 0, 0x00, 3));
    CHECK(entry_is(14, 0, 1, 0x00, 0x00, 3));
    CHECK(entry_is(15, 0, 1, 0x42, 0x00, 3));
    add_bare(&bad, START);
    add_byte(&bad, OUT, 0x10);
    add_byte(&bad, OUT, 0x05);
    add_byte(&bad, OUT, 0x03);
    add_byte(&bad, OUT, 0xEB);
    add_byte(&bad, OUT, 0x03);
    CHECK(play(&bad) == 8);
    CHECK(entry_is(5, 0, 1, 0, 0x00, 0));
    CHECK(entry_is(6, 0, 1, 1, 0x00, 0)); /* wrong: not acknowledged, and nothing is stored */
    CHECK(entry_is(7, 0, 1, 1, 0x00, 0)); /* the bus is idle */
}

static void refused_first_records(void)
{
    static const struct {
        uint8_t bytes[11];
        size_t length;
        uint8_t number;
    } first[] = {
        {{7, 0, 0, 0, 0, 0, 0x08, 10, 30, 0xE8, 0x03}, 11, 1},  /* part 0 */
        {{7, 0, 0, 0, 4, 0, 0x08, 10, 30, 0xE8, 0x03}, 11, 1},  /* part 4 */
        {{7, 0, 0, 0, 1, 2, 0x08, 10, 30, 0xE8, 0x03}, 11, 1},  /* CRC 2 */
        {{7, 0, 0, 0, 1, 0, 0x07, 10, 30, 0xE8, 0x03}, 11, 1},  /* address 0x07 */
        {{7, 0, 0, 0, 1, 0, 0x78, 10, 30, 0xE8, 0x03}, 11, 1},  /* address 0x78 */
        {{7, 0, 0, 0, 1, 0, 0x08, 32, 30, 0xE8, 0x03}, 11, 1},  /* gain code 32 */
        {{7, 0, 0, 0, 1, 0, 0x08, 10, 30, 0x00, 0x10}, 11, 1},  /* floor 4,096 */
        {{6, 0, 0, 0, 1, 0, 0x08, 10, 30, 0xE8}, 10, 2},        /* six bytes */
        {{0, 0, 2, 0}, 4, 2},                                   /* BOOT */
        {{0, 0, 0x0A, 0}, 4, 2},                                /* no such kind */
        {{7, 0, 0}, 3, 9},                                      /* a cut header */
        {{1, 0, 0x0A, 0}, 4, 9},                                /* a cut payload, though the kind is unknown */
        {{7, 0, 0, 0, 1, 0, 0x08, 10, 30, 0xE8}, 10, 9},        /* SETUP without its last byte */
    };
    size_t at;
    for (at = 0; at < sizeof first / sizeof first[0]; at++) {
        struct stream made;
        struct guarded reading = guarded_new(TORALINGE_READING_SIZE * sizeof(double));
        made.length = first[at].length;
        memcpy(made.bytes, first[at].bytes, made.length);
        if (first[at].number != 9) {
            add_bare(&made, BOOT); /* never reached */
        }
        CHECK(play(&made) == 1);
        CHECK(entry_is(0, first[at].number, 0, 0, 0, 0));
        CHECK(toralinge_reading(made.bytes, made.length, (double *)(void *)reading.room, 4) == first[at].number);
        CHECK(toralinge_reading(made.bytes, made.length, (double *)(void *)reading.room, 0) == first[at].number);
        CHECK(guarded_kept(&reading, 0));
        guarded_free(&reading);
    }
}

static void refused_later_records(void)
{
    struct stream made;
    made.length = 0;
    CHECK(play(&made) == 0);
    add_setup(&made, 0);
    add_scan(&made, 8200);      /* 1: asleep, 4 */
    add_scan(&made, 16384);     /* 2: out of range before asleep, 3 */
    add_byte(&made, SCAN, 0);   /* 3: wrong length, 2 */
    add_byte(&made, OUT, 0x10); /* 4: done, not acknowledged */
    add_byte(&made, IN, 0);     /* 5: done, 0xFF */
    add_byte(&made, IN, 2);     /* 6: 3 */
    add_bare(&made, BOOT);      /* 7 */
    add_setup(&made, 0);        /* 8: SETUP again, 2 */
    add_bare(&made, 0x0A);      /* 9: no such kind, 2 */
    add_sense(&made, -500001);  /* 10: 3 */
    add_sense(&made, INT32_MIN);/* 11: 3 */
    add_sense(&made, -500000);  /* 12 */
    add_byte(&made, LOAD, 2);   /* 13: 3 */
    add_bare(&made, XREADY);    /* 14 */
    made.bytes[made.length++] = 0; /* 15: a cut header, 9; the chip still stands */
    CHECK(play(&made) == 16);
    CHECK(entry_is(0, 0, 0, 0, 0, 0));
    CHECK(entry_is(1, TORALINGE_ASLEEP, 0, 0, 0, 0));
    CHECK(entry_is(2, TORALINGE_BAD_VALUE, 0, 0, 0, 0));
    CHECK(entry_is(3, TORALINGE_BAD_KIND, 0, 0, 0, 0));
    CHECK(entry_is(4, 0, 1, 1, 0, 0));
    CHECK(entry_is(5, 0, 1, 0xFF, 0, 0));
    CHECK(entry_is(6, TORALINGE_BAD_VALUE, 0, 0, 0, 0));
    CHECK(entry_is(7, 0, 0, 0, 0, 0));
    CHECK(entry_is(8, TORALINGE_BAD_KIND, 0, 0, 0, 0));
    CHECK(entry_is(9, TORALINGE_BAD_KIND, 0, 0, 0, 0));
    CHECK(entry_is(10, TORALINGE_BAD_VALUE, 0, 0, 0, 0));
    CHECK(entry_is(11, TORALINGE_BAD_VALUE, 0, 0, 0, 0));
    CHECK(entry_is(12, 0, 0, 0, 0, 0));
    CHECK(entry_is(13, TORALINGE_BAD_VALUE, 0, 0, 0, 0));
    CHECK(entry_is(14, 0, 0, 0, 0x20, TORALINGE_PIN_ALERT));
    CHECK(entry_is(15, TORALINGE_CUT, 0, 0, 0x20, TORALINGE_PIN_ALERT));
}

static uint8_t status_after_scans(uint16_t count, int scans)
{
    struct stream made = awake(0);
    while (scans-- > 0) {
        add_scan(&made, count);
    }
    return last_status(&made);
}

static uint8_t status_after_ticks(int32_t microvolts, int ticks)
{
    struct stream made = awake(0);
    while (ticks-- > 0) {
        add_sense(&made, microvolts);
    }
    return last_status(&made);
}

static void both_sides_of_each_line(void)
{
    CHECK(status_after_scans(10952, 4) == 0x00);
    CHECK(status_after_scans(10953, 3) == 0x00);
    CHECK(status_after_scans(10953, 4) == 0x04);
    CHECK(status_after_scans(6512, 4) == 0x00);
    CHECK(status_after_scans(6511, 3) == 0x00);
    CHECK(status_after_scans(6511, 4) == 0x08);
    CHECK(status_after_scans(1000, 4) == 0x08); /* the floor itself is a cell */
    CHECK(status_after_scans(999, 4) == 0x00);  /* below the floor there is none */
    CHECK(status_after_ticks(-18500, 3) == 0x00);
    CHECK(status_after_ticks(-18501, 2) == 0x00);
    CHECK(status_after_ticks(-18501, 3) == 0x02);
    CHECK(status_after_ticks(18501, 3) == 0x00);
    CHECK(status_after_ticks(-9501, 255) == 0x00);
    CHECK(status_after_ticks(-9501, 256) == 0x01);
    CHECK(status_after_ticks(-9500, 256) == 0x00);
}

/* A second protector holds ALERT up: cleared in vain, drives off, until it lets go; SHIP forgets it. */
static void outside_level(void)
{
    struct stream made;
    made.length = 0;
    add_setup(&made, 0);
    add_byte(&made, LEVEL, 1);      /* 1: asleep, 4 */
    add_byte(&made, LEVEL, 2);      /* 2: out of range before asleep, 3 */
    add_bare(&made, LEVEL);         /* 3: wrong length, 2 */
    add_bare(&made, BOOT);          /* 4 */
    add_write(&made, 0x05, 0x03);   /* 5 to 9 */
    add_byte(&made, LEVEL, 1);      /* 10 */
    add_write(&made, 0x00, 0xFF);   /* 11 to 15: up again at the end of 14 */
    add_write(&made, 0x05, 0x03);   /* 16 to 20 */
    add_bare(&made, XREADY);        /* 21 */
    add_write(&made, 0x00, 0x10);   /* 22 to 26: XREADY is still up */
    add_write(&made, 0x00, 0x20);   /* 27 to 31 */
    add_byte(&made, LEVEL, 0);      /* 32: latched */
    add_write(&made, 0x00, 0x10);   /* 33 to 37 */
    add_byte(&made, LEVEL, 1);      /* 38 */
    add_bare(&made, POR);           /* 39 */
    add_bare(&made, BOOT);          /* 40 */
    CHECK(play(&made) == 41);
    CHECK(entry_is(1, TORALINGE_ASLEEP, 0, 0, 0, 0));
    CHECK(entry_is(2, TORALINGE_BAD_VALUE, 0, 0, 0, 0));
    CHECK(entry_is(3, TORALINGE_BAD_KIND, 0, 0, 0, 0));
    CHECK(entry_is(9, 0, 0, 0, 0x00, TORALINGE_PIN_CHG | TORALINGE_PIN_DSG));
    CHECK(entry_is(10, 0, 0, 0, 0x10, TORALINGE_PIN_ALERT));
    CHECK(entry_is(14, 0, 1, 0, 0x10, TORALINGE_PIN_ALERT));
    CHECK(entry_is(20, 0, 0, 0, 0x10, TORALINGE_PIN_ALERT));
    CHECK(entry_is(21, 0, 0, 0, 0x30, TORALINGE_PIN_ALERT));
    CHECK(entry_is(25, 0, 1, 0, 0x20, TORALINGE_PIN_ALERT));
    CHECK(entry_is(30, 0, 1, 0, 0x10, TORALINGE_PIN_ALERT));
    CHECK(entry_is(32, 0, 0, 0, 0x10, TORALINGE_PIN_ALERT));
    CHECK(entry_is(36, 0, 1, 0, 0x00, 0));
    CHECK(entry_is(38, 0, 0, 0, 0x10, TORALINGE_PIN_ALERT));
    CHECK(entry_is(39, 0, 0, 0, 0x00, 0));
    CHECK(entry_is(40, 0, 0, 0, 0x00, 0));
}

/* A record of ticks leaves what as many SENSE leave, in one entry; two of them leave what one of both together does. */
static void repeated_ticks(void)
{
    struct stream made = awake(0);
    int tick;
    add_write(&made, 0x05, 0x02);               /* 2 to 6: discharge on */
    add_ticks(&made, TICKS, -9501, 255, 2);     /* 7 */
    add_ticks(&made, TICKS, -9501, 1, 2);       /* 8: OCD at 256 */
    add_ticks(&made, TICKS, 0, 4096, 2);        /* 9: the run ends, the bit stays */
    add_write(&made, 0x00, 0x01);               /* 10 to 14 */
    add_ticks(&made, TICKS, -9501, 100, 2);     /* 15 */
    for (tick = 0; tick < 155; tick++) {
        add_sense(&made, -9501);                /* 16 to 170 */
    }
    add_ticks(&made, TICKS, -9501, 0, 2);       /* 171: 3 */
    add_ticks(&made, TICKS, -9501, 4097, 2);    /* 172: 3 */
    add_ticks(&made, TICKS, -500001, 1, 2);     /* 173: 3 */
    add_ticks(&made, TICKS, -500001, 0, 1);     /* 174: 2 before 3 */
    add_ticks(&made, TICKS, -9501, 1, 4);       /* 175: 2 */
    add_sense(&made, -9501);                    /* 176: OCD */
    add_bare(&made, POR);                       /* 177 */
    add_ticks(&made, TICKS, -9501, 4096, 2);    /* 178: 4 */
    add_ticks(&made, TICKS, -9501, 4097, 2);    /* 179: 3 before 4 */
    CHECK(play(&made) == 180);
    CHECK(entry_is(7, 0, 0, 0, 0x00, TORALINGE_PIN_DSG));
    CHECK(entry_is(8, 0, 0, 0, 0x01, TORALINGE_PIN_ALERT));
    CHECK(entry_is(9, 0, 0, 0, 0x01, TORALINGE_PIN_ALERT));
    CHECK(entry_is(15, 0, 0, 0, 0x00, 0));
    CHECK(entry_is(170, 0, 0, 0, 0x00, 0));
    CHECK(entry_is(171, TORALINGE_BAD_VALUE, 0, 0, 0x00, 0));
    CHECK(entry_is(172, TORALINGE_BAD_VALUE, 0, 0, 0x00, 0));
    CHECK(entry_is(173, TORALINGE_BAD_VALUE, 0, 0, 0x00, 0));
    CHECK(entry_is(174, TORALINGE_BAD_KIND, 0, 0, 0x00, 0));
    CHECK(entry_is(175, TORALINGE_BAD_KIND, 0, 0, 0x00, 0));
    CHECK(entry_is(176, 0, 0, 0, 0x01, TORALINGE_PIN_ALERT));
    CHECK(entry_is(178, TORALINGE_ASLEEP, 0, 0, 0x00, 0));
    CHECK(entry_is(179, TORALINGE_BAD_VALUE, 0, 0, 0x00, 0));
}

/* The same with four bytes of repeat number: an hour of ticks in one record. */
static void ticks_by_the_hour(void)
{
    struct stream made = awake(0);
    add_write(&made, 0x07, 0x70);                    /* 2 to 6: OCD delay 40,960 */
    add_ticks(&made, SOAK, -9500, 16777216, 4);      /* 7: not over */
    add_ticks(&made, SOAK, -9501, 40959, 4);         /* 8 */
    add_ticks(&made, TICKS, -9501, 1, 2);            /* 9: OCD at 40,960 */
    add_write(&made, 0x00, 0x01);                    /* 10 to 14 */
    add_ticks(&made, SOAK, 0, 1, 4);                 /* 15: the run ends */
    add_ticks(&made, SOAK, -9501, 16777216, 4);      /* 16 */
    add_ticks(&made, SOAK, -9501, 0, 4);             /* 17: 3 */
    add_ticks(&made, SOAK, -9501, 16777217, 4);      /* 18: 3 */
    add_ticks(&made, SOAK, -9501, UINT32_MAX, 4);    /* 19: 3 */
    add_ticks(&made, SOAK, -500001, 1, 4);           /* 20: 3 */
    add_ticks(&made, SOAK, -9501, 1, 2);             /* 21: 2 */
    add_ticks(&made, SOAK, -500001, 0, 3);           /* 22: 2 before 3 */
    add_bare(&made, 0x15);                           /* 23: 2 */
    add_bare(&made, POR);                            /* 24 */
    add_ticks(&made, SOAK, -9501, 16777216, 4);      /* 25: 4 */
    add_ticks(&made, SOAK, -9501, 0, 4);             /* 26: 3 before 4 */
    CHECK(play(&made) == 27);
    CHECK(entry_is(7, 0, 0, 0, 0x00, 0));
    CHECK(entry_is(8, 0, 0, 0, 0x00, 0));
    CHECK(entry_is(9, 0, 0, 0, 0x01, TORALINGE_PIN_ALERT));
    CHECK(entry_is(15, 0, 0, 0, 0x00, 0));
    CHECK(entry_is(16, 0, 0, 0, 0x01, TORALINGE_PIN_ALERT));
    CHECK(entry_is(17, TORALINGE_BAD_VALUE, 0, 0, 0x01, TORALINGE_PIN_ALERT));
    CHECK(entry_is(18, TORALINGE_BAD_VALUE, 0, 0, 0x01, TORALINGE_PIN_ALERT));
    CHECK(entry_is(19, TORALINGE_BAD_VALUE, 0, 0, 0x01, TORALINGE_PIN_ALERT));
    CHECK(entry_is(20, TORALINGE_BAD_VALUE, 0, 0, 0x01, TORALINGE_PIN_ALERT));
    CHECK(entry_is(21, TORALINGE_BAD_KIND, 0, 0, 0x01, TORALINGE_PIN_ALERT));
    CHECK(entry_is(22, TORALINGE_BAD_KIND, 0, 0, 0x01, TORALINGE_PIN_ALERT));
    CHECK(entry_is(23, TORALINGE_BAD_KIND, 0, 0, 0x01, TORALINGE_PIN_ALERT));
    CHECK(entry_is(25, TORALINGE_ASLEEP, 0, 0, 0x00, 0));
    CHECK(entry_is(26, TORALINGE_BAD_VALUE, 0, 0, 0x00, 0));
}

static int doubles_are(const uint8_t *room, double least, double greatest, double total, double cc)
{
    double wanted[TORALINGE_READING_SIZE];
    wanted[TORALINGE_READING_LEAST] = least;
    wanted[TORALINGE_READING_GREATEST] = greatest;
    wanted[TORALINGE_READING_TOTAL] = total;
    wanted[TORALINGE_READING_CC] = cc;
    return memcmp(room, wanted, sizeof wanted) == 0;
}

static void readings(void)
{
    static const uint8_t cc[2] = {0x50, 0xC3};
    struct stream made;
    size_t room;
    struct guarded lent = guarded_new(6 * sizeof(double));
    double *reading = (double *)(void *)lent.room;
    made.length = 0;
    CHECK(toralinge_reading(made.bytes, 0, reading, 4) == TORALINGE_CUT);
    CHECK(toralinge_reading(made.bytes, 0, reading, 3) == TORALINGE_CUT);
    add_setup(&made, 0);
    CHECK(toralinge_reading(made.bytes, made.length, reading, 4) == TORALINGE_ASLEEP);
    CHECK(toralinge_reading(made.bytes, made.length, reading, 0) == TORALINGE_ASLEEP); /* 4 before 5 */
    add_bare(&made, BOOT);
    for (room = 0; room <= TORALINGE_READING_SIZE; room++) { /* counts of 0: no cell is connected, which comes before 5 */
        CHECK(toralinge_reading(made.bytes, made.length, reading, room) == TORALINGE_NOT_CONNECTED);
    }
    add_scan(&made, 6144);
    for (room = 0; room < TORALINGE_READING_SIZE; room++) {
        CHECK(toralinge_reading(made.bytes, made.length, reading, room) == TORALINGE_NO_ROOM);
    }
    CHECK(guarded_kept(&lent, 0));
    add_write(&made, 0x05, 0x40);
    add(&made, COUNT, cc, sizeof cc);
    CHECK(toralinge_reading(made.bytes, made.length, reading, 6) == TORALINGE_DONE);
    CHECK(doubles_are(lent.room, 2204976.0, 2932800.0, 13936176.0, -13112384.0));
    CHECK(guarded_kept(&lent, 4 * sizeof(double)));
    made.bytes[made.length++] = 0xFF; /* a cut header ends the stream, and the chip stands as before */
    CHECK(toralinge_reading(made.bytes, made.length, reading, 4) == TORALINGE_DONE);
    CHECK(doubles_are(lent.room, 2204976.0, 2932800.0, 13936176.0, -13112384.0));
    guarded_free(&lent);
}

/* Without a wiring record a count below the floor, 1,000, is no cell: the reading is that of the others. */
static void not_connected(void)
{
    static const uint8_t scan[10] = {0x00, 0x18, 0xE7, 0x03, 0x5A, 0x00, 0xE8, 0x03, 0x10, 0x1F}; /* 6144 999 90 1000 7952 */
    static const uint8_t none[10] = {0xE7, 0x03, 0x00, 0x00, 0x5A, 0x00, 0x01, 0x00, 0xE7, 0x03};
    struct stream made = awake(0);
    double reading[4] = {1.0, 2.0, 3.0, 4.0};
    add(&made, SCAN, none, sizeof none);
    CHECK(toralinge_reading(made.bytes, made.length, reading, 4) == TORALINGE_NOT_CONNECTED);
    CHECK(doubles_are((const uint8_t *)reading, 1.0, 2.0, 3.0, 4.0));
    add(&made, SCAN, scan, sizeof scan);
    CHECK(toralinge_reading(made.bytes, made.length, reading, 4) == TORALINGE_DONE);
    CHECK(doubles_are((const uint8_t *)reading, 384000.0, 2845008.0, 5433984.0, 0.0));
}

/* The number of a stream's last entry. */
static uint8_t last_number(const struct stream *made)
{
    uint8_t entries[64 * TORALINGE_ENTRY_SIZE];
    int64_t count = toralinge_play(made->bytes, made->length, entries, sizeof entries);
    CHECK(count > 0);
    return entries[(count - 1) * TORALINGE_ENTRY_SIZE + TORALINGE_ENTRY_NUMBER];
}

/* A pack of three cells on five inputs: 3 and 4 are shorted, and the reading is that of inputs 1, 2 and 5, also after SHIP. */
static void packs(void)
{
    static const uint8_t scan[10] = {0x00, 0x18, 0x00, 0x1B, 0x5A, 0x00, 0x00, 0x30, 0x10, 0x1F}; /* 6144 6912 90 12288 7952 */
    struct stream made;
    double reading[4];
    made.length = 0;
    add_byte(&made, WIRES, 3); /* the first record is no SETUP */
    CHECK(last_number(&made) == TORALINGE_BAD_KIND);
    made.length = 0;
    add_setup(&made, 0);
    add_byte(&made, WIRES, 6); /* a row of another part */
    CHECK(last_number(&made) == TORALINGE_NO_ROW);
    add_bare(&made, WIRES);
    CHECK(last_number(&made) == TORALINGE_BAD_KIND);
    add(&made, SCAN, scan, sizeof scan);
    CHECK(last_number(&made) == TORALINGE_ASLEEP);
    add_byte(&made, WIRES, 3);
    CHECK(last_number(&made) == TORALINGE_DONE);
    add_byte(&made, WIRES, 6);
    CHECK(last_number(&made) == TORALINGE_BAD_KIND);
    add_bare(&made, BOOT);
    add(&made, SCAN, scan, sizeof scan);
    CHECK(toralinge_reading(made.bytes, made.length, reading, 4) == TORALINGE_DONE);
    CHECK(doubles_are((const uint8_t *)reading, 2204976.0, 2845008.0, 7526832.0, 0.0));
    add_bare(&made, POR);
    add_byte(&made, WIRES, 4);
    CHECK(last_number(&made) == TORALINGE_BAD_KIND);
    add_bare(&made, BOOT);
    CHECK(toralinge_reading(made.bytes, made.length, reading, 4) == TORALINGE_DONE);
    CHECK(doubles_are((const uint8_t *)reading, 30000.0, 30000.0, 90000.0, 0.0));
}

/* ---- conversions */

struct lent_value {
    uint8_t before[GUARD_WIDTH];
    union {
        int64_t wide;
        uint64_t ohms;
        uint8_t code;
        uint8_t bytes[8];
    } value;
    uint8_t after[GUARD_WIDTH];
};

static struct lent_value lent;

/* Makes the value anew, all of it guard bytes. */
static void lend(void)
{
    memset(&lent, GUARD_BYTE, sizeof lent);
}

static int value_kept(size_t written)
{
    const uint8_t *bytes = (const uint8_t *)&lent;
    size_t start = offsetof(struct lent_value, value);
    size_t at;
    for (at = 0; at < sizeof lent; at++) {
        if ((at < start || at >= start + written) && bytes[at] != GUARD_BYTE) {
            return 0;
        }
    }
    return 1;
}

static void cell_is(uint32_t gain_code, uint8_t offset, uint32_t count, uint8_t number, int64_t microvolts)
{
    lend();
    CHECK(toralinge_cell_microvolts(gain_code, offset, count, &lent.value.wide) == number);
    CHECK(value_kept(number == 0 ? 8 : 0));
    CHECK(number != 0 || lent.value.wide == microvolts);
}

static void ohms_are(uint32_t count, uint8_t number, uint64_t ohms)
{
    lend();
    CHECK(toralinge_thermistor_ohms(count, &lent.value.ohms) == number);
    CHECK(value_kept(number == 0 ? 8 : 0));
    CHECK(number != 0 || lent.value.ohms == ohms);
}

static void die_is(uint32_t count, uint8_t number, int64_t half_thousandths)
{
    lend();
    CHECK(toralinge_die_temperature(count, &lent.value.wide) == number);
    CHECK(value_kept(number == 0 ? 8 : 0));
    CHECK(number != 0 || lent.value.wide == half_thousandths);
}

typedef uint8_t code_call(uint32_t gain_code, uint8_t offset, int64_t wanted, uint8_t *code);

static void code_is(code_call *call, uint32_t gain_code, uint8_t offset, int64_t wanted, uint8_t number, uint8_t code)
{
    lend();
    CHECK(call(gain_code, offset, wanted, &lent.value.code) == number);
    CHECK(value_kept(number == 0 ? 1 : 0));
    CHECK(number != 0 || lent.value.code == code);
}

static void conversions(void)
{
    cell_is(10, 30, 6144, 0, 2204976);
    cell_is(10, 30, 7952, 0, 2845008);
    cell_is(0, 0x80, 0, 0, -128000);
    cell_is(31, 0x80, 0, 0, -128000);
    cell_is(31, 0x7F, 16383, 0, 375 * 16383 + 127000);
    cell_is(31, 0, 16384, TORALINGE_BAD_VALUE, 0);
    cell_is(32, 0, 0, TORALINGE_BAD_SETUP, 0);
    cell_is(255, 255, 65535, TORALINGE_BAD_SETUP, 0);
    cell_is(266, 30, 6144, TORALINGE_BAD_SETUP, 0); /* 10 with 256 more */
    cell_is(10, 30, 65536 + 6144, TORALINGE_BAD_VALUE, 0);
    ohms_are(0, 0, 0);
    ohms_are(4661, 0, 9999);
    ohms_are(9322, 0, 2749990000u);
    ohms_are(9323, TORALINGE_OPEN_SENSOR, 0);
    ohms_are(16384, TORALINGE_OPEN_SENSOR, 0);
    ohms_are(65535, TORALINGE_OPEN_SENSOR, 0);
    ohms_are(65536, TORALINGE_OPEN_SENSOR, 0);
    die_is(0, 0, 680000);
    die_is(3842, 0, -34);
    die_is(16383, 0, 680000 - 177 * 16383);
    die_is(16384, TORALINGE_BAD_VALUE, 0);
    die_is(65536, TORALINGE_BAD_VALUE, 0);
    code_is(toralinge_over_voltage_code, 10, 30, 4300000, 0, 0xF1);
    code_is(toralinge_under_voltage_code, 10, 30, 2500000, 0, 0xB4);
    code_is(toralinge_over_voltage_code, 0, 0, 344 * 8192 - 1, TORALINGE_NO_CODE, 0);
    code_is(toralinge_over_voltage_code, 0, 0, 344 * 8192, 0, 0x00);
    code_is(toralinge_over_voltage_code, 0, 0, 344 * 12288 - 1, 0, 0xFF);
    code_is(toralinge_over_voltage_code, 0, 0, 344 * 12288, TORALINGE_NO_CODE, 0);
    code_is(toralinge_under_voltage_code, 31, 0x80, 375 * 4096 - 128001, TORALINGE_NO_CODE, 0);
    code_is(toralinge_under_voltage_code, 31, 0x80, 375 * 4096 - 128000, 0, 0x00);
    code_is(toralinge_under_voltage_code, 31, 0x80, 375 * 8192 - 128001, 0, 0xFF);
    code_is(toralinge_under_voltage_code, 31, 0x80, 375 * 8192 - 128000, TORALINGE_NO_CODE, 0);
    code_is(toralinge_over_voltage_code, 32, 30, 4300000, TORALINGE_BAD_SETUP, 0);
    code_is(toralinge_over_voltage_code, 266, 30, 4300000, TORALINGE_BAD_SETUP, 0);
    code_is(toralinge_under_voltage_code, 32, 30, INT64_MAX, TORALINGE_BAD_SETUP, 0);
    code_is(toralinge_over_voltage_code, 0, 0x80, INT64_MAX, TORALINGE_NO_CODE, 0);
    code_is(toralinge_over_voltage_code, 0, 0x7F, INT64_MIN, TORALINGE_NO_CODE, 0);
    code_is(toralinge_under_voltage_code, 31, 0x80, INT64_MAX, TORALINGE_NO_CODE, 0);
    code_is(toralinge_under_voltage_code, 31, 0x7F, INT64_MIN, TORALINGE_NO_CODE, 0);
    CHECK(toralinge_cc_hundredths(0xC350) == -13112384);
    CHECK(toralinge_cc_hundredths(0xFFFF) == -844);
    CHECK(toralinge_cc_hundredths(0x0000) == 0);
    CHECK(toralinge_cc_hundredths(0x7FFF) == 27655348);
    CHECK(toralinge_cc_hundredths(0x8000) == -27656192);
}

static uint8_t crc_of(uint8_t start, const char *text, size_t length)
{
    struct guarded bytes = guarded_new(length);
    uint8_t sum;
    if (length > 0) {
        memcpy(bytes.room, text, length);
    }
    sum = toralinge_crc8(start, bytes.room, length);
    CHECK(guarded_kept(&bytes, length));
    CHECK(memcmp(bytes.room, text, length) == 0);
    guarded_free(&bytes);
    return sum;
}

static void sums(void)
{
    CHECK(crc_of(0, "", 0) == 0x00);
    CHECK(crc_of(0x5A, "", 0) == 0x5A);
    CHECK(crc_of(0, "\x10\x05\x03", 3) == 0xEA);
    CHECK(crc_of(0, "\x03", 1) == 0x09);
    CHECK(crc_of(0, "\x11\x00", 2) == 0x42);
    CHECK(crc_of(0, "123456789", 9) == 0xF4);
    CHECK(crc_of(crc_of(0, "1234", 4), "56789", 5) == 0xF4);
}

int main(void)
{
    the_example();
    crc_frames();
    refused_first_records();
    refused_later_records();
    both_sides_of_each_line();
    outside_level();
    repeated_ticks();
    ticks_by_the_hour();
    readings();
    not_connected();
    packs();
    conversions();
    sums();
    printf("outside: %lu checks of the library hold, called from C\n", checks);
    return 0;
}
