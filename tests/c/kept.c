/*
 * A chip that is kept as bytes between calls, through include/toralinge.h alone, with guard bytes round every buffer: fed in any pieces
 * of whole records it gives the entries of the whole stream; what is asked of it is what is asked of the stream; bytes that are no
 * chip, zeroed, cut, of another version or with any bit flipped, are refused with nothing changed, or are another chip's own.
 */
#include "check.h"
#include "guard.h"
#include "streams.h"
#include "toralinge.h"

#define MOST_ENTRIES (TORALINGE_ENTRY_SIZE * 4096)

static uint32_t seed = 1;

static uint32_t any(uint32_t below)
{
    seed = seed * 1664525u + 1013904223u;
    return (seed >> 8) % below;
}

/* A record of a random kind; one in eight is damaged. */
static void add_any(struct stream *to, uint8_t part)
{
    static const uint8_t addresses[] = {0x00, 0x01, 0x04, 0x05, 0x05, 0x06, 0x07, 0x08, 0x09, 0x0A, 0x0C};
    uint8_t payload[34];
    uint16_t words[15];
    size_t at, from = to->length;
    for (at = 0; at < sizeof payload; at++) {
        payload[at] = (uint8_t)any(256);
    }
    for (at = 0; at < 15; at++) {
        words[at] = (uint16_t)(any(4) == 0 ? any(16384) : 8000 + any(3500));
    }
    switch (any(15)) {
    case 0: add_bare(to, TORALINGE_KIND_BOOT); break;
    case 1:
    case 2: add_words(to, TORALINGE_KIND_SCAN, words, 5 * (size_t)part); break;
    case 3: add_words(to, TORALINGE_KIND_TEMP, words, part); break;
    case 4: add_words(to, TORALINGE_KIND_COUNT, words, 1); break;
    case 5:
        payload[2] = payload[3] = 0xFF;
        add(to, TORALINGE_KIND_SENSE, payload, 4);
        break;
    case 6:
        payload[2] = payload[3] = 0xFF;
        payload[5] = 0;
        add(to, TORALINGE_KIND_TICKS, payload, 6);
        break;
    case 7:
        payload[2] = payload[3] = 0xFF;
        payload[6] = payload[7] = 0;
        add(to, TORALINGE_KIND_SOAK, payload, 8);
        break;
    case 8: add_byte(to, TORALINGE_KIND_LEVEL, (uint8_t)any(2)); break;
    case 9: add_bare(to, any(2) ? TORALINGE_KIND_PIN : TORALINGE_KIND_XREADY); break;
    case 10: add_byte(to, TORALINGE_KIND_WIRING, (uint8_t)any(16)); break;
    case 11: add_byte(to, TORALINGE_KIND_IN, (uint8_t)any(2)); break;
    case 12: add_byte(to, TORALINGE_KIND_OUT, payload[0]); break;
    case 13:
        add_bare(to, TORALINGE_KIND_START);
        add_byte(to, TORALINGE_KIND_OUT, any(2) ? 0x10 : 0x11);
        break;
    default: add_write(to, addresses[any(sizeof addresses)], payload[0]); break;
    }
    if (any(8) == 0) {
        to->bytes[from + 2] = (uint8_t)any(32);
    }
}

static size_t frame(const struct stream *of, size_t at)
{
    return 4 + (size_t)of->bytes[at] + 256 * (size_t)of->bytes[at + 1];
}

static int zero(const uint8_t *chip)
{
    size_t at;
    for (at = 0; at < TORALINGE_CHIP_SIZE; at++) {
        if (chip[at] != 0) {
            return 0;
        }
    }
    return 1;
}

/* The part of a stream from a record on, fed; the entries are put where they belong. */
static int64_t feed(struct guarded *chip, const uint8_t *records, size_t length, uint8_t *entries, size_t room)
{
    struct guarded lent = guarded_new(room);
    int64_t count = toralinge_feed(chip->room, chip->size, records, length, lent.room, room);
    size_t wrote = count > 0 ? TORALINGE_ENTRY_SIZE * (size_t)count : 0;
    CHECK(guarded_kept(&lent, wrote));
    memcpy(entries, lent.room, wrote);
    guarded_free(&lent);
    return count;
}

static struct guarded no_chip(size_t size)
{
    struct guarded made = guarded_new(size);
    memset(made.room, 0, size < TORALINGE_CHIP_SIZE ? size : TORALINGE_CHIP_SIZE);
    return made;
}

/* Fed in random pieces of whole records, the entries are those of the whole. */
static void in_pieces(const struct stream *of)
{
    static uint8_t played[MOST_ENTRIES], fed[MOST_ENTRIES];
    struct guarded chip = no_chip(TORALINGE_CHIP_SIZE + any(9));
    int64_t count = toralinge_play(of->bytes, of->length, played, sizeof played);
    size_t from = 0, at = 0, done = 0;
    CHECK(count >= 0);
    while (at < of->length && done < (size_t)count) {
        at += frame(of, at);
        if (at > of->length || any(3) == 0 || at == of->length) {
            size_t end = at < of->length ? at : of->length;
            int64_t more = feed(&chip, of->bytes + from, end - from, fed + TORALINGE_ENTRY_SIZE * done,
                                sizeof fed - TORALINGE_ENTRY_SIZE * done);
            CHECK(more >= 0);
            done += (size_t)more;
            from = end;
        }
    }
    CHECK(done == (size_t)count);
    CHECK(memcmp(played, fed, TORALINGE_ENTRY_SIZE * done) == 0);
    CHECK(guarded_kept(&chip, TORALINGE_CHIP_SIZE));
    guarded_free(&chip);
}

/* What is asked of the kept chip is what is asked of its stream. */
static void asked(const struct stream *of)
{
    static uint8_t entries[MOST_ENTRIES];
    static const uint32_t commands[] = {0x07, 0x08, 0x09, 0x0A, 0x109, 0xFFFFFF09};
    struct guarded chip = no_chip(TORALINGE_CHIP_SIZE);
    double here[TORALINGE_READING_SIZE], there[TORALINGE_READING_SIZE];
    uint8_t mine[3], theirs[3];
    size_t at, room;
    CHECK(feed(&chip, of->bytes, of->length, entries, sizeof entries) >= 0);
    if (zero(chip.room)) {
        guarded_free(&chip);
        return;
    }
    for (room = 3; room <= TORALINGE_READING_SIZE; room++) {
        uint8_t number = toralinge_reading_of(chip.room, chip.size, here, room);
        CHECK(number == toralinge_reading(of->bytes, of->length, there, room));
        CHECK(number != TORALINGE_DONE || memcmp(here, there, sizeof here) == 0);
    }
    for (room = 2; room <= 3; room++) {
        uint32_t margin = any(3) ? any(40) : 65536 + any(40);
        uint8_t number = toralinge_bleed_of(chip.room, chip.size, margin, mine, room);
        CHECK(number == toralinge_bleed(of->bytes, of->length, margin, theirs, room));
        CHECK(number != TORALINGE_DONE || memcmp(mine, theirs, sizeof mine) == 0);
        for (at = 0; at < sizeof commands / sizeof *commands; at++) {
            uint32_t milliohms = any(20);
            number = toralinge_reply_of(chip.room, chip.size, commands[at], milliohms, mine, room);
            CHECK(commands[at] <= 0xFF || number == TORALINGE_BAD_COMMAND);
            CHECK(number == toralinge_reply(of->bytes, of->length, commands[at], milliohms, theirs, room));
            CHECK(number != TORALINGE_DONE || memcmp(mine, theirs, sizeof mine) == 0);
        }
    }
    CHECK(guarded_kept(&chip, TORALINGE_CHIP_SIZE));
    guarded_free(&chip);
}

/* Refused everywhere, with nothing changed. */
static void no_chip_at_all(const uint8_t *bytes, size_t size)
{
    static const uint8_t boot[4] = {0, 0, TORALINGE_KIND_BOOT, 0};
    struct guarded chip = guarded_new(size);
    struct guarded lent = guarded_new(64);
    double reading[TORALINGE_READING_SIZE];
    int64_t microvolts = 77;
    uint8_t value = 77;
    memcpy(chip.room, bytes, size);
    CHECK(toralinge_feed(chip.room, size, boot, sizeof boot, lent.room, 64) ==
          (size < TORALINGE_CHIP_SIZE ? -TORALINGE_NO_ROOM : -TORALINGE_NO_CHIP));
    CHECK(toralinge_register(chip.room, size, 0, &value) == TORALINGE_NO_CHIP && value == 77);
    CHECK(toralinge_register(chip.room, size, 256, &value) == TORALINGE_NO_CHIP && value == 77);
    CHECK(toralinge_voltage(chip.room, size, 0, &microvolts) == TORALINGE_NO_CHIP && microvolts == 77);
    CHECK(toralinge_reading_of(chip.room, size, reading, 0) == TORALINGE_NO_CHIP);
    CHECK(toralinge_bleed_of(chip.room, size, 0, lent.room, 64) == TORALINGE_NO_CHIP);
    CHECK(toralinge_reply_of(chip.room, size, 0, 0, lent.room, 64) == TORALINGE_NO_CHIP);
    CHECK(memcmp(chip.room, bytes, size) == 0 && guarded_kept(&chip, size) && guarded_kept(&lent, 0));
    guarded_free(&chip);
    guarded_free(&lent);
}

/* Bytes with one bit flipped are refused, or are a chip whose bytes they are: nothing fed leaves them alone. */
static void flipped(const uint8_t *bytes)
{
    uint8_t chip[TORALINGE_CHIP_SIZE], copy[TORALINGE_CHIP_SIZE], entries[8];
    size_t bit;
    for (bit = 0; bit < 8 * TORALINGE_CHIP_SIZE; bit++) {
        int64_t count;
        memcpy(chip, bytes, sizeof chip);
        chip[bit / 8] ^= (uint8_t)(1u << bit % 8);
        memcpy(copy, chip, sizeof chip);
        count = toralinge_feed(chip, sizeof chip, copy, 0, entries, 0);
        CHECK(count == 0 || count == -TORALINGE_NO_CHIP);
        CHECK(memcmp(chip, copy, sizeof chip) == 0);
        if (bit < 8 || count != 0) {
            no_chip_at_all(copy, sizeof copy);
        }
    }
}

static void hostile(const struct stream *of)
{
    static uint8_t entries[MOST_ENTRIES];
    struct guarded chip = no_chip(TORALINGE_CHIP_SIZE);
    uint8_t other[TORALINGE_CHIP_SIZE];
    size_t size;
    CHECK(feed(&chip, of->bytes, of->length, entries, sizeof entries) >= 0);
    CHECK(!zero(chip.room) && chip.room[0] == 1);
    flipped(chip.room);
    for (size = 0; size < TORALINGE_CHIP_SIZE; size++) {
        no_chip_at_all(chip.room, size);
    }
    memcpy(other, chip.room, sizeof other);
    other[0] = 2; /* another version */
    no_chip_at_all(other, sizeof other);
    other[0] = 0;
    no_chip_at_all(other, sizeof other);
    memset(other, 0xFF, sizeof other);
    no_chip_at_all(other, sizeof other);
    guarded_free(&chip);
}

/* No chip yet: 9 where a chip is asked; a refused first record leaves none; too little room changes nothing. */
static void not_yet(void)
{
    struct stream made = asleep(1);
    struct guarded chip = no_chip(TORALINGE_CHIP_SIZE);
    uint8_t entries[16], value = 77;
    int64_t microvolts = 77;
    double reading[TORALINGE_READING_SIZE];
    CHECK(toralinge_register(chip.room, chip.size, 256, &value) == TORALINGE_CUT && value == 77);
    CHECK(toralinge_voltage(chip.room, chip.size, 0, &microvolts) == TORALINGE_CUT && microvolts == 77);
    CHECK(toralinge_reading_of(chip.room, chip.size, reading, 0) == TORALINGE_CUT);
    CHECK(toralinge_bleed_of(chip.room, chip.size, 0, entries, 0) == TORALINGE_CUT);
    CHECK(toralinge_reply_of(chip.room, chip.size, 0, 0, entries, 0) == TORALINGE_CUT);
    made.bytes[4] = 4; /* no such part */
    CHECK(feed(&chip, made.bytes, made.length, entries, sizeof entries) == 1 && entries[0] == TORALINGE_BAD_SETUP);
    CHECK(zero(chip.room));
    CHECK(feed(&chip, made.bytes, made.length - 1, entries, sizeof entries) == 1 && entries[0] == TORALINGE_CUT);
    CHECK(zero(chip.room));
    made.bytes[4] = 1;
    CHECK(feed(&chip, made.bytes, made.length, entries, 4) == -TORALINGE_NO_ROOM && zero(chip.room));
    CHECK(feed(&chip, made.bytes, made.length, entries, 5) == 1 && entries[0] == TORALINGE_DONE && !zero(chip.room));
    CHECK(guarded_kept(&chip, TORALINGE_CHIP_SIZE));
    guarded_free(&chip);
}

/* A record that is cut leaves the chip, and can be fed whole later. */
static void cut(void)
{
    struct stream made = asleep(1);
    struct guarded chip = no_chip(TORALINGE_CHIP_SIZE);
    uint8_t before[TORALINGE_CHIP_SIZE], entries[16], value;
    size_t at;
    CHECK(feed(&chip, made.bytes, made.length, entries, sizeof entries) == 1);
    made.length = 0;
    add_bare(&made, TORALINGE_KIND_BOOT);
    memcpy(before, chip.room, sizeof before);
    for (at = 1; at < made.length; at++) {
        CHECK(feed(&chip, made.bytes, at, entries, sizeof entries) == 1 && entries[0] == TORALINGE_CUT);
        CHECK(memcmp(before, chip.room, sizeof before) == 0);
    }
    CHECK(feed(&chip, made.bytes, made.length, entries, sizeof entries) == 1 && entries[0] == TORALINGE_DONE);
    CHECK(memcmp(before, chip.room, sizeof before) != 0);
    CHECK(toralinge_register(chip.room, chip.size, TORALINGE_REG_SYS_CTRL1, &value) == TORALINGE_DONE &&
          value == TORALINGE_CTRL1_ADC_EN);
    guarded_free(&chip);
}

/* Registers and voltages: both sides of each refusal, worked by hand. */
static void values(void)
{
    struct stream made = asleep(1);
    uint8_t chip[TORALINGE_CHIP_SIZE] = {0}, entries[128], value = 0;
    int64_t microvolts = 0;
    CHECK(toralinge_feed(chip, sizeof chip, made.bytes, made.length, entries, sizeof entries) == 1);
    CHECK(toralinge_register(chip, sizeof chip, TORALINGE_REG_OV_TRIP, &value) == TORALINGE_DONE && value == 0xAC);
    CHECK(toralinge_register(chip, sizeof chip, TORALINGE_REG_ADCOFFSET, &value) == TORALINGE_DONE && value == 30);
    CHECK(toralinge_register(chip, sizeof chip, 0xFF, &value) == TORALINGE_DONE && value == 0);
    CHECK(toralinge_register(chip, sizeof chip, 0x109, &value) == TORALINGE_BAD_VALUE && value == 0);
    CHECK(toralinge_voltage(chip, sizeof chip, 0, &microvolts) == TORALINGE_ASLEEP && microvolts == 0);
    made.length = 0;
    add_bare(&made, TORALINGE_KIND_BOOT);
    add_five(&made, 6144, 999, 7952, 1000, 16383);
    CHECK(toralinge_feed(chip, sizeof chip, made.bytes, made.length, entries, sizeof entries) == 2);
    CHECK(toralinge_voltage(chip, sizeof chip, 0, &microvolts) == TORALINGE_NO_CELL && microvolts == 0);
    CHECK(toralinge_voltage(chip, sizeof chip, 6, &microvolts) == TORALINGE_NO_CELL && microvolts == 0);
    CHECK(toralinge_voltage(chip, sizeof chip, 257, &microvolts) == TORALINGE_NO_CELL && microvolts == 0);
    CHECK(toralinge_voltage(chip, sizeof chip, 0xFFFFFF01, &microvolts) == TORALINGE_NO_CELL && microvolts == 0);
    CHECK(toralinge_voltage(chip, sizeof chip, 2, &microvolts) == TORALINGE_NOT_CONNECTED && microvolts == 0);
    CHECK(toralinge_voltage(chip, sizeof chip, 1, &microvolts) == TORALINGE_DONE && microvolts == 2204976);
    CHECK(toralinge_voltage(chip, sizeof chip, 3, &microvolts) == TORALINGE_DONE && microvolts == 2845008);
    CHECK(toralinge_register(chip, sizeof chip, TORALINGE_REG_VC1, &value) == TORALINGE_DONE && value == 6144 / 256);
    CHECK(toralinge_register(chip, sizeof chip, TORALINGE_REG_VC1 + 5, &value) == TORALINGE_DONE && value == 7952 % 256);
}

int main(void)
{
    unsigned long round;
    not_yet();
    cut();
    values();
    for (round = 0; round < 400; round++) {
        uint8_t part = (uint8_t)(1 + any(3));
        struct stream made = asleep(part);
        while (made.length + 64 < sizeof made.bytes && any(90) != 0) {
            add_any(&made, part);
        }
        if (any(4) == 0) {
            made.length -= 1;
        }
        in_pieces(&made);
        asked(&made);
        if (round % 20 == 0 && made.length > 11) {
            hostile(&made);
        }
    }
    printf("kept: %lu checks of chips that are kept as bytes hold, called from C\n", checks);
    return 0;
}
