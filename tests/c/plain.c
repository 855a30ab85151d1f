/*
 * The engine that keeps no runs, as a C program sees it: what the rules say of runs, stated here by hand; 24 before 5; the
 * longest stream and one byte more; and each scene named on the command line as the other engine plays it. Guard bytes stand round every buffer.
 */
#include "check.h"
#include "guard.h"
#include "streams.h"
#include "toralinge.h"

#define OV 0x04
#define UV 0x08
#define SCD 0x02
#define OCD 0x01
#define OVRD 0x10

static struct stream now;
static uint8_t longest[TORALINGE_PLAIN_MOST + 1];

/* SETUP (part 1, no CRC, address 0x08, gain code 10, offset 30, floor 1,000) and BOOT. */
static void begin(void)
{
    static const uint8_t setup[] = {1, 0, 8, 10, 30, 0xE8, 3};
    now.length = 0;
    add(&now, SETUP, setup, sizeof setup);
    add_bare(&now, BOOT);
}

static void scan(uint16_t last)
{
    uint8_t payload[10] = {0x08, 0x20, 0x08, 0x20, 0x08, 0x20, 0x08, 0x20, 0, 0};
    payload[8] = (uint8_t)last;
    payload[9] = (uint8_t)(last >> 8);
    add(&now, SCAN, payload, sizeof payload);
}

/* SENSE of a value, or that many ticks of it as kind 0014 or 0017 has them. */
static void ticks(unsigned kind, int32_t value, uint32_t repeat)
{
    uint8_t payload[8];
    size_t place;
    for (place = 0; place < 4; place++) {
        payload[place] = (uint8_t)((uint32_t)value >> (8 * place));
        payload[4 + place] = (uint8_t)(repeat >> (8 * place));
    }
    add(&now, kind, payload, kind == SENSE ? 4 : kind == TICKS ? 6 : 8);
}

static void write_register(uint8_t at, uint8_t value)
{
    add_bare(&now, START);
    add_byte(&now, OUT, 0x10);
    add_byte(&now, OUT, at);
    add_byte(&now, OUT, value);
    add_bare(&now, STOP);
}

/* Both engines, in the room that is needed, in more and in less. Answers how many entries there are. */
static int64_t both(const uint8_t *stream, size_t length)
{
    size_t most = TORALINGE_ENTRY_SIZE * (length / 4 + 1), full, room;
    struct guarded base = guarded_new(most);
    int64_t count = toralinge_play(stream, length, base.room, most);
    CHECK(count >= 0);
    full = TORALINGE_ENTRY_SIZE * (size_t)count;
    for (room = full < 7 ? 0 : full - 7; room <= full + 7; room += 7) {
        struct guarded lent = guarded_new(room);
        int64_t given = toralinge_plain(stream, length, lent.room, room);
        CHECK(given == (room < full ? -TORALINGE_NO_ROOM : count));
        CHECK(guarded_kept(&lent, room < full ? 0 : full));
        CHECK(room < full || memcmp(lent.room, base.room, full) == 0);
        guarded_free(&lent);
    }
    guarded_free(&base);
    return count;
}

/* SYS_STAT after the last record. */
static uint8_t status(void)
{
    static uint8_t entries[TORALINGE_ENTRY_SIZE * 1024];
    int64_t count = toralinge_plain(now.bytes, now.length, entries, sizeof entries);
    CHECK(count > 0);
    CHECK(both(now.bytes, now.length) == count);
    return entries[TORALINGE_ENTRY_SIZE * (count - 1) + TORALINGE_ENTRY_SYS_STAT];
}

static void scans(void)
{
    int number;
    begin();
    for (number = 0; number < 3; number++) {
        scan(10953);
        CHECK(status() == 0); /* three over scans, no OV */
    }
    write_register(0x00, 0xFF);
    CHECK(status() == 0); /* clearing bits ends no run */
    scan(10953);
    CHECK(status() == OV); /* the fourth */
    begin();
    scan(10953);
    scan(10953);
    scan(10952); /* not over: the run ends */
    scan(10953);
    scan(10953);
    scan(10953);
    CHECK(status() == 0);
    scan(10953);
    CHECK(status() == OV);
    begin();
    for (number = 0; number < 3; number++) {
        scan(6511);
    }
    add_bare(&now, POR);
    add_bare(&now, BOOT);
    scan(6511);
    CHECK(status() == 0); /* SHIP between them: a new spell */
    for (number = 0; number < 3; number++) {
        scan(6511);
    }
    CHECK(status() == UV);
}

/* Only settings standing at a scan count for it: over by the new line, by the old one not, and the other way round. */
static void settings(void)
{
    begin();
    scan(10953);
    scan(10953);
    write_register(0x09, 0xAD);
    scan(10968);
    scan(10968);
    CHECK(status() == 0);
    begin();
    scan(10960);
    scan(10960);
    write_register(0x09, 0xAD);
    scan(10969);
    scan(10969);
    CHECK(status() == OV);
    begin();
    scan(10953);
    write_register(0x05, 0x80); /* DELAY_DIS: one scan */
    CHECK(status() == 0);
    scan(10953);
    CHECK(status() == OV);
}

static void currents(void)
{
    begin();
    ticks(SENSE, -18501, 1);
    ticks(SENSE, -18501, 1);
    CHECK(status() == 0);
    ticks(SENSE, -18501, 1);
    CHECK(status() == SCD);
    begin();
    ticks(TICKS, -9501, 255);
    CHECK(status() == 0);
    ticks(SENSE, -9501, 1);
    CHECK(status() == OCD);
    begin();
    ticks(TICKS, -9501, 200);
    write_register(0x07, 0x10); /* OCD delay code 1: 640 ticks */
    ticks(SOAK, -9501, 439);
    CHECK(status() == 0);
    ticks(SENSE, -9501, 1);
    CHECK(status() == OCD);
    begin();
    write_register(0x07, 0x70); /* code 7: 40,960 ticks */
    ticks(SOAK, -9501, 40959);
    CHECK(status() == 0);
    ticks(SENSE, -9501, 1);
    CHECK(status() == OCD);
    begin();
    ticks(SOAK, -9501, 16777216);
    CHECK(status() == OCD);
}

/* The outside level and a wiring record. */
static void requests(void)
{
    begin();
    add_byte(&now, LEVEL, 1);
    CHECK(status() == OVRD);
    write_register(0x00, OVRD);
    CHECK(status() == OVRD);
    ticks(TICKS, -18501, 3);
    CHECK(status() == (OVRD | SCD));
    now.length = 11; /* after SETUP */
    add_byte(&now, WIRES, 4);
    add_bare(&now, BOOT);
    scan(10953);
    scan(10953);
    scan(10953);
    add_byte(&now, WIRES, 3);
    CHECK(status() == 0);
    scan(10953);
    CHECK(status() == OV);
}

static void lengths(void)
{
    static const size_t rooms[] = {0, 4, 5, 4096, 5 * (TORALINGE_PLAIN_MOST / 4 + 1)};
    uint8_t none[1];
    size_t which, at;
    begin();
    memcpy(longest, now.bytes, now.length);
    for (at = now.length; at + 4 <= TORALINGE_PLAIN_MOST; at += 4) {
        longest[at + 2] = BOOT;
    }
    CHECK(at == TORALINGE_PLAIN_MOST - 1);
    CHECK(both(longest, TORALINGE_PLAIN_MOST) == 16383); /* SETUP, 16,381 BOOTs and a cut header */
    CHECK(both(longest, 0) == 0);
    for (which = 0; which < sizeof rooms / sizeof rooms[0]; which++) {
        struct guarded lent = guarded_new(rooms[which]);
        CHECK(toralinge_plain(longest, TORALINGE_PLAIN_MOST + 1, lent.room, rooms[which]) == -TORALINGE_TOO_LONG); /* 24 before 5 */
        CHECK(guarded_kept(&lent, 0));
        guarded_free(&lent);
    }
    longest[0] = 0; /* no SETUP: one entry, and 24 all the same */
    CHECK(both(longest, TORALINGE_PLAIN_MOST) == 1);
    CHECK(toralinge_plain(longest, TORALINGE_PLAIN_MOST + 1, none, 0) == -TORALINGE_TOO_LONG);
}

/* A scene: hex text, white space between the bytes, '#' begins a comment. */
static void scene(const char *name)
{
    FILE *file = fopen(name, "r");
    unsigned value;
    int next;
    CHECK(file != NULL);
    now.length = 0;
    while ((next = fgetc(file)) != EOF) {
        if (next == '#') {
            while (next != '\n' && next != EOF) {
                next = fgetc(file);
            }
        } else if (next > ' ') {
            ungetc(next, file);
            if (fscanf(file, "%2x", &value) != 1 || now.length == sizeof now.bytes) {
                fprintf(stderr, "plain: %s is no scene\n", name);
                exit(2);
            }
            now.bytes[now.length++] = (uint8_t)value;
        }
    }
    fclose(file);
    both(now.bytes, now.length);
}

int main(int count, char **names)
{
    int place;
    scans();
    settings();
    currents();
    requests();
    lengths();
    for (place = 1; place < count; place++) {
        scene(names[place]);
    }
    printf("plain: %lu checks hold, %d scenes play alike\n", checks, count - 1);
    return 0;
}
