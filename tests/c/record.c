/*
 * Records from kinds and values, and back, through include/toralinge.h alone, with guard bytes round every buffer: each kind at each part is
 * the record that is packed by hand, in every room; what is written is read back; refusals in their order, values of 64 bits included.
 */
#include "check.h"
#include "guard.h"
#include "streams.h"
#include "toralinge.h"

#define MOST_VALUES 15

static const int64_t setup[6] = {1, 0, 0x08, 10, 30, 1000};

/* Written in no smaller room, and read back as it was given, whatever follows. */
static void written(uint32_t kind, uint32_t part, const int64_t *values, size_t count, const struct stream *wanted)
{
    uint32_t stands = kind == TORALINGE_KIND_SETUP ? 0 : part;
    size_t room;
    for (room = 0; room <= wanted->length + 3; room++) {
        struct guarded lent = guarded_new(room);
        int64_t answer = toralinge_record(kind, part, values, count, lent.room, room);
        if (room < wanted->length) {
            CHECK(answer == -TORALINGE_NO_ROOM);
            CHECK(guarded_kept(&lent, 0));
        } else {
            CHECK(answer == (int64_t)wanted->length);
            CHECK(memcmp(lent.room, wanted->bytes, wanted->length) == 0);
            CHECK(guarded_kept(&lent, wanted->length));
        }
        guarded_free(&lent);
    }
    for (room = 0; room <= count + 3; room++) {
        struct guarded lent = guarded_new(sizeof(int64_t) * room);
        uint32_t read = 0xA5A5A5A5;
        int64_t answer = toralinge_values(wanted->bytes, wanted->length + 3, stands, &read, (int64_t *)(void *)lent.room, room);
        if (room < count) {
            CHECK(answer == -TORALINGE_NO_ROOM);
            CHECK(read == 0xA5A5A5A5);
            CHECK(guarded_kept(&lent, 0));
        } else {
            CHECK(answer == (int64_t)count);
            CHECK(read == kind);
            CHECK(memcmp(lent.room, values, sizeof(int64_t) * count) == 0);
            CHECK(guarded_kept(&lent, sizeof(int64_t) * count));
        }
        guarded_free(&lent);
    }
    for (room = 0; room < wanted->length; room++) {
        uint32_t read = 7;
        int64_t back[MOST_VALUES];
        CHECK(toralinge_values(wanted->bytes, room, stands, &read, back, MOST_VALUES) == -TORALINGE_CUT);
        CHECK(toralinge_values(wanted->bytes, wanted->length, 4, &read, back, MOST_VALUES) == -TORALINGE_BAD_SETUP);
        CHECK(read == 7);
    }
}

/* Nothing is written, whatever the room. */
static void refused(uint32_t kind, uint32_t part, const int64_t *values, size_t count, int number)
{
    size_t room;
    for (room = 0; room <= 34; room += 17) {
        struct guarded lent = guarded_new(room);
        CHECK(toralinge_record(kind, part, values, count, lent.room, room) == -number);
        CHECK(guarded_kept(&lent, 0));
        guarded_free(&lent);
    }
}

static struct stream nothing(void)
{
    struct stream made;
    made.length = 0;
    memset(made.bytes, 0x5A, sizeof made.bytes);
    return made;
}

static void bare(void)
{
    static const uint32_t kinds[] = {TORALINGE_KIND_POR, TORALINGE_KIND_BOOT, TORALINGE_KIND_PIN, TORALINGE_KIND_XREADY, TORALINGE_KIND_START, TORALINGE_KIND_STOP};
    size_t at;
    for (at = 0; at < sizeof kinds / sizeof kinds[0]; at++) {
        struct stream wanted = nothing();
        add_bare(&wanted, kinds[at]);
        written(kinds[at], 1 + (uint32_t)at % 3, setup, 0, &wanted);
        refused(kinds[at], 1, setup, 1, TORALINGE_BAD_KIND);
        refused(kinds[at], 0, setup, 1, TORALINGE_BAD_SETUP);
    }
}

/* SCAN and TEMP: as many counts as the part has inputs, or groups of five. */
static void counted(void)
{
    uint32_t part;
    for (part = 1; part <= 3; part++) {
        int64_t values[MOST_VALUES + 1];
        uint16_t words[MOST_VALUES];
        size_t at, many = 5 * (size_t)part;
        struct stream wanted = nothing(), warm = nothing();
        for (at = 0; at <= MOST_VALUES; at++) {
            values[at] = at == 0 ? 0 : at == 1 ? 16383 : (int64_t)(1000 * at + part);
            if (at < MOST_VALUES) {
                words[at] = (uint16_t)values[at];
            }
        }
        add_words(&wanted, TORALINGE_KIND_SCAN, words, many);
        written(TORALINGE_KIND_SCAN, part, values, many, &wanted);
        add_words(&warm, TORALINGE_KIND_TEMP, words, part);
        written(TORALINGE_KIND_TEMP, part, values, part, &warm);
        for (at = 0; at <= MOST_VALUES + 1; at++) {
            if (at != many) {
                refused(TORALINGE_KIND_SCAN, part, values, at, TORALINGE_BAD_KIND);
            }
            if (at != part) {
                refused(TORALINGE_KIND_TEMP, part, values, at, TORALINGE_BAD_KIND);
            }
        }
        for (at = 0; at < many; at++) {
            static const int64_t far[] = {16384, -1, 65536 + 5, INT64_MAX, INT64_MIN};
            size_t i;
            for (i = 0; i < sizeof far / sizeof far[0]; i++) {
                int64_t kept = values[at];
                values[at] = far[i];
                refused(TORALINGE_KIND_SCAN, part, values, many, TORALINGE_BAD_VALUE);
                values[at] = kept;
            }
        }
    }
}

/* One value: both ends, and one past each. */
static void single(uint32_t kind, int64_t most, size_t bytes, int number)
{
    static const int64_t far[] = {-1, INT64_MAX, INT64_MIN};
    int64_t value;
    size_t at;
    for (value = 0; value <= most; value += most) {
        struct stream wanted = nothing();
        uint8_t payload[2];
        payload[0] = (uint8_t)(value & 0xFF);
        payload[1] = (uint8_t)(value >> 8);
        add(&wanted, kind, payload, bytes);
        written(kind, 2, &value, 1, &wanted);
    }
    value = most + 1;
    refused(kind, 2, &value, 1, number);
    for (at = 0; at < sizeof far / sizeof far[0]; at++) {
        refused(kind, 2, &far[at], 1, number);
    }
    refused(kind, 2, far, 0, TORALINGE_BAD_KIND);
    refused(kind, 2, far, 2, TORALINGE_BAD_KIND);
    refused(kind, 2 + ((uint32_t)1 << 8), far, 1, TORALINGE_BAD_SETUP);
}

static void put32(uint8_t *to, int64_t value)
{
    size_t at;
    for (at = 0; at < 4; at++) {
        to[at] = (uint8_t)((uint64_t)value >> (8 * at));
    }
}

/* SENSE, and ticks of it. */
static void currents(void)
{
    static const int64_t ends[] = {-500000, -18501, -1, 0, 1, 500000};
    static const int64_t far[] = {-500001, 500001, ((int64_t)1 << 32) - 1, INT64_MIN, INT64_MAX};
    static const int64_t most[] = {4096, 16777216};
    static const uint32_t kinds[] = {TORALINGE_KIND_TICKS, TORALINGE_KIND_SOAK};
    size_t at, k;
    for (at = 0; at < sizeof ends / sizeof ends[0]; at++) {
        struct stream wanted = nothing();
        uint8_t payload[8];
        put32(payload, ends[at]);
        add(&wanted, TORALINGE_KIND_SENSE, payload, 4);
        written(TORALINGE_KIND_SENSE, 3, &ends[at], 1, &wanted);
        for (k = 0; k < 2; k++) {
            int64_t values[2];
            struct stream ticks = nothing();
            values[0] = ends[at];
            values[1] = at % 2 == 0 ? 1 : most[k];
            put32(payload + 4, values[1]);
            add(&ticks, kinds[k], payload, k == 0 ? 6 : 8);
            written(kinds[k], 1, values, 2, &ticks);
            values[1] = 0;
            refused(kinds[k], 1, values, 2, TORALINGE_BAD_VALUE);
            values[1] = most[k] + 1;
            refused(kinds[k], 1, values, 2, TORALINGE_BAD_VALUE);
            refused(kinds[k], 1, values, 1, TORALINGE_BAD_KIND);
        }
    }
    for (at = 0; at < sizeof far / sizeof far[0]; at++) {
        int64_t values[2];
        values[0] = far[at];
        values[1] = 1;
        refused(TORALINGE_KIND_SENSE, 3, values, 1, TORALINGE_BAD_VALUE);
        refused(TORALINGE_KIND_TICKS, 3, values, 2, TORALINGE_BAD_VALUE);
        refused(TORALINGE_KIND_SOAK, 3, values, 2, TORALINGE_BAD_VALUE);
    }
}

/* SETUP: its own part, whatever is given; both ends of each value. */
static void setups(void)
{
    static const int64_t least[6] = {1, 0, 0x08, 0, 0, 0};
    static const int64_t most[6] = {3, 1, 0x77, 31, 255, 4095};
    size_t at;
    for (at = 0; at < 2; at++) {
        const int64_t *values = at == 0 ? least : most;
        struct stream wanted = nothing();
        uint8_t payload[7];
        size_t i;
        for (i = 0; i < 5; i++) {
            payload[i] = (uint8_t)values[i];
        }
        payload[5] = (uint8_t)(values[5] & 0xFF);
        payload[6] = (uint8_t)(values[5] >> 8);
        add(&wanted, TORALINGE_KIND_SETUP, payload, sizeof payload);
        written(TORALINGE_KIND_SETUP, at == 0 ? 0 : 0xFFFFFFFF, values, 6, &wanted);
    }
    for (at = 0; at < 6; at++) {
        int64_t values[6];
        memcpy(values, setup, sizeof values);
        values[at] = most[at] + 1;
        refused(TORALINGE_KIND_SETUP, 1, values, 6, TORALINGE_BAD_SETUP);
        values[at] = least[at] - 1;
        refused(TORALINGE_KIND_SETUP, 1, values, 6, TORALINGE_BAD_SETUP);
        values[at] = ((int64_t)1 << 32) + 1;
        refused(TORALINGE_KIND_SETUP, 1, values, 6, TORALINGE_BAD_SETUP);
    }
    refused(TORALINGE_KIND_SETUP, 1, setup, 5, TORALINGE_BAD_KIND);
}

/* WIRING: the rows of each part. */
static void wirings(void)
{
    uint32_t part;
    int64_t cells;
    for (part = 1; part <= 3; part++) {
        for (cells = -2; cells <= 300; cells++) {
            int64_t from = part == 1 ? 3 : part == 2 ? 6 : 11;
            if (from <= cells && cells <= 5 * (int64_t)part) {
                struct stream wanted = nothing();
                add_byte(&wanted, TORALINGE_KIND_WIRING, (uint8_t)cells);
                written(TORALINGE_KIND_WIRING, part, &cells, 1, &wanted);
            } else {
                refused(TORALINGE_KIND_WIRING, part, &cells, 1, TORALINGE_NO_ROW);
            }
        }
    }
}

/* Kinds that there are not, also where 16 bits of them are one. */
static void unknown(void)
{
    static const uint32_t kinds[] = {0x000A, 0x000F, 0x0018, 0xFFFF, 0x10001, 0x80000002};
    size_t at;
    for (at = 0; at < sizeof kinds / sizeof kinds[0]; at++) {
        refused(kinds[at], 1, setup, 0, TORALINGE_BAD_KIND);
        refused(kinds[at], 4, setup, 0, TORALINGE_BAD_SETUP);
    }
}

int main(void)
{
    bare();
    counted();
    single(TORALINGE_KIND_COUNT, 65535, 2, TORALINGE_BAD_VALUE);
    single(TORALINGE_KIND_OUT, 255, 1, TORALINGE_BAD_VALUE);
    single(TORALINGE_KIND_LOAD, 1, 1, TORALINGE_BAD_VALUE);
    single(TORALINGE_KIND_LEVEL, 1, 1, TORALINGE_BAD_VALUE);
    single(TORALINGE_KIND_IN, 1, 1, TORALINGE_BAD_VALUE);
    currents();
    setups();
    wirings();
    unknown();
    printf("record: %lu checks hold\n", checks);
    return 0;
}
