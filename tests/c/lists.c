/*
 * Command lists as a C program turns them into records: every room up to what is needed, refusals in their order, and a list played on
 * a chip, through include/toralinge.h alone, with guard bytes round every buffer that is lent.
 */
#include "check.h"
#include "guard.h"
#include "toralinge.h"

static int64_t turn(const char *line, uint8_t *records, size_t room)
{
    return toralinge_list((const uint8_t *)line, strlen(line), records, room);
}

/* The records stand at the start and nothing else is touched; in any smaller room nothing is. */
static void taken(const char *line, const uint8_t *wanted, size_t size)
{
    size_t room;
    for (room = 0; room <= size + 8; room++) {
        struct guarded lent = guarded_new(room);
        if (room < size) {
            CHECK(turn(line, lent.room, room) == -TORALINGE_NO_ROOM);
            CHECK(guarded_kept(&lent, 0));
        } else {
            CHECK(turn(line, lent.room, room) == (int64_t)size);
            CHECK(memcmp(lent.room, wanted, size) == 0);
            CHECK(guarded_kept(&lent, size));
        }
        guarded_free(&lent);
    }
}

/* Nothing is written, whatever the room. */
static void refused(const char *line, int number)
{
    size_t room;
    for (room = 0; room <= 512; room += 64) {
        struct guarded lent = guarded_new(room);
        CHECK(turn(line, lent.room, room) == -number);
        CHECK(guarded_kept(&lent, 0));
        guarded_free(&lent);
    }
}

static void records(void)
{
    static const uint8_t writing[] = {0, 0, 0x10, 0,  1, 0, 0x11, 0, 0x10,  1, 0, 0x11, 0, 0x04,  1, 0, 0x11, 0, 0x19,
                                      0, 0, 0x13, 0};
    static const uint8_t reading[] = {0, 0, 0x10, 0,  1, 0, 0x11, 0, 0xEE,  1, 0, 0x11, 0, 0xFF,
                                      0, 0, 0x10, 0,  1, 0, 0x11, 0, 0xEF,  1, 0, 0x12, 0, 0,  1, 0, 0x12, 0, 1,
                                      0, 0, 0x13, 0};
    taken("w2@0x08 0x04 0x19", writing, sizeof writing);
    taken("w1@0x77 0xfF r2@0x77", reading, sizeof reading);
}

static void order(void)
{
    refused("", 20);
    refused("w1@0x08", 20);
    refused("r1@0x08\n", 20);
    refused("r1@0x78 r65@0x08", 20); /* 20 before 21 */
    refused("r1@0x08 r64@0x78", 21); /* 21 before 5 */
    refused("r1@0x07", 21);
}

/* SETUP, BOOT, then a list that writes SYS_CTRL2 and reads it back. */
static void played(void)
{
    static const uint8_t start[] = {7, 0, 0, 0, 1, 0, 8, 10, 30, 0xE8, 3,  0, 0, 2, 0};
    uint8_t stream[256];
    uint8_t entries[64 * TORALINGE_ENTRY_SIZE];
    int64_t size;
    memcpy(stream, start, sizeof start);
    size = turn("w2@0x08 0x05 0x03 w1@0x08 0x05 r1@0x08", stream + sizeof start, sizeof stream - sizeof start);
    CHECK(size == 51);
    CHECK(toralinge_play(stream, sizeof start + (size_t)size, entries, sizeof entries) == 13);
    CHECK(entries[5 * 5 + TORALINGE_ENTRY_PINS] == (TORALINGE_PIN_CHG | TORALINGE_PIN_DSG));
    CHECK(entries[5 * 11 + TORALINGE_ENTRY_BUS_BYTE] == 0x03);
}

int main(void)
{
    records();
    order();
    played();
    printf("lists: %lu checks of command lists hold, called from C\n", checks);
    return 0;
}
