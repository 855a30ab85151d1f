/*
 * What workshops and chargers ask from C: cells to bleed and Smart Battery words, worked by hand from CHIP E1 to E5 and C1 to C6, their
 * refusals in their order, and every room up to what is needed, through include/toralinge.h alone, with guard bytes round every buffer.
 */
#include "check.h"
#include "guard.h"
#include "streams.h"
#include "toralinge.h"

static struct stream awake(uint8_t part)
{
    struct stream made = asleep(part);
    add_bare(&made, BOOT);
    return made;
}

/* Command 0 asks for cells to bleed. */
static uint8_t ask(const struct stream *of, uint32_t command, uint32_t with, uint8_t *out, size_t room)
{
    if (command == 0) {
        return toralinge_bleed(of->bytes, of->length, with, out, room);
    }
    return toralinge_reply(of->bytes, of->length, command, with, out, room);
}

/* The three bytes stand at the start and nothing else is touched; in any smaller room nothing is. */
static void given(const struct stream *of, uint32_t command, uint32_t with, uint8_t one, uint8_t two, uint8_t three)
{
    size_t room;
    for (room = 0; room <= TORALINGE_REPLY_SIZE + 8; room++) {
        struct guarded lent = guarded_new(room);
        if (room < TORALINGE_REPLY_SIZE) {
            CHECK(ask(of, command, with, lent.room, room) == TORALINGE_NO_ROOM);
            CHECK(guarded_kept(&lent, 0));
        } else {
            CHECK(ask(of, command, with, lent.room, room) == TORALINGE_DONE);
            CHECK(lent.room[0] == one && lent.room[1] == two && lent.room[2] == three);
            CHECK(guarded_kept(&lent, TORALINGE_REPLY_SIZE));
        }
        guarded_free(&lent);
    }
}

/* Nothing is written, whatever the room. */
static void refused(const struct stream *of, uint32_t command, uint32_t with, uint8_t number)
{
    size_t room;
    for (room = 0; room <= TORALINGE_REPLY_SIZE + 2; room++) {
        struct guarded lent = guarded_new(room);
        CHECK(ask(of, command, with, lent.room, room) == number);
        CHECK(guarded_kept(&lent, 0));
        guarded_free(&lent);
    }
}

/* Of one group: the larger total, of equal ones the smaller number, the margin itself enough. */
static void one_group(void)
{
    struct stream made = awake(1);
    add_five(&made, 8000, 8012, 8020, 8009, 8000); /* inputs 2 and 4: 21, input 3: 20 */
    given(&made, 0, 1, 0x0A, 0, 0);
    given(&made, 0, 9, 0x0A, 0, 0);
    given(&made, 0, 10, 0x04, 0, 0); /* input 4 stands 9 above the lowest, and input 2 alone has 12 */
    given(&made, 0, 20, 0x04, 0, 0);
    given(&made, 0, 21, 0, 0, 0);
    given(&made, 0, 16383, 0, 0, 0);
    add_five(&made, 8000, 8012, 8020, 8008, 8000); /* 20 and 20: 01010 or 00100 */
    given(&made, 0, 1, 0x04, 0, 0);
    add_five(&made, 8000, 8000, 8000, 8030, 8030); /* neighbours, equal */
    given(&made, 0, 30, 0x08, 0, 0);
    add_five(&made, 8030, 8031, 8030, 8000, 8001); /* 30 + 30 before 31 */
    given(&made, 0, 1, 0x15, 0, 0);
}

/* Of three groups: the last input of one and the first of the next may be bled together; the lowest is of all. */
static void three_groups(void)
{
    static const uint16_t counts[15] = {7000, 7000, 7000, 7000, 7100, 7100, 7000, 7000, 7000, 7100, 7100, 7099, 7000, 7000, 16383};
    struct stream made = awake(3);
    add_words(&made, SCAN, counts, 15);
    given(&made, 0, 100, 0x10, 0x11, 0x11);
    given(&made, 0, 101, 0, 0, 0x10);
    given(&made, 0, 9383, 0, 0, 0x10);
    given(&made, 0, 9384, 0, 0, 0);
}

/* Without a wiring record a cell below the floor is not connected; with one the row alone decides. */
static void connected(void)
{
    struct stream made = awake(1);
    struct stream wired = asleep(1);
    add_five(&made, 999, 1000, 0, 1500, 1400);
    given(&made, 0, 400, 0x08, 0, 0); /* the lowest connected is 1000 */
    given(&made, 0, 500, 0x08, 0, 0);
    given(&made, 0, 501, 0, 0, 0);
    add_five(&made, 999, 0, 5, 100, 999);
    refused(&made, 0, 1, TORALINGE_NOT_CONNECTED);
    refused(&made, TORALINGE_VOLTAGE, 1, TORALINGE_NOT_CONNECTED);
    add_byte(&wired, WIRES, 3); /* inputs 3 and 4 are shorted */
    add_bare(&wired, BOOT);
    add_five(&wired, 999, 0, 16383, 16383, 900);
    given(&wired, 0, 900, 0x11, 0, 0);
    given(&wired, TORALINGE_VOLTAGE, 1, 0xFA, 0x02, 0xF3); /* 354 x 1,899 + 90,000 = 762,246 */
}

/* PEC bytes are those of CRC-8/SMBUS. */
static void words(void)
{
    static const uint16_t warm[1] = {3000};
    static const uint16_t hot[1] = {6929};
    static const uint16_t charge[1] = {0xC350};
    static const uint16_t most[1] = {0x8000};
    static const uint16_t least[1] = {0xFFFF};
    struct stream made = awake(1);
    given(&made, TORALINGE_TEMPERATURE, 1, 0xF3, 0x17, 0x33); /* 1,226,300 / 200 = 6,131.5 */
    add_words(&made, TEMP, warm, 1);
    given(&made, TORALINGE_TEMPERATURE, 100, 0x94, 0x0D, 0xEB); /* 695,300 / 200 = 3,476.5 */
    add_words(&made, TEMP, hot, 1);
    refused(&made, TORALINGE_TEMPERATURE, 1, TORALINGE_NO_FIT); /* 1,226,300 is less than 177 x 6,929 */
    add_five(&made, 8000, 8012, 8020, 8009, 8000);
    given(&made, TORALINGE_VOLTAGE, 1, 0xF4, 0x37, 0xAE); /* 14,324,514 */
    given(&made, TORALINGE_CURRENT, 1, 0, 0, 0x51);
    add_words(&made, COUNT, charge, 1); /* CC_EN is 0: nothing is stored */
    given(&made, TORALINGE_CURRENT, 1, 0, 0, 0x51);
    add_write(&made, 0x05, 0x40);
    add_words(&made, COUNT, charge, 1);
    given(&made, TORALINGE_CURRENT, 10, 0xC8, 0xCC, 0x7E); /* -13,112,384 / 1,000 = -13,112.384, toward zero */
    refused(&made, TORALINGE_CURRENT, 4, TORALINGE_NO_FIT); /* -32,780 */
    add_words(&made, COUNT, most, 1);
    refused(&made, TORALINGE_CURRENT, 8, TORALINGE_NO_FIT); /* -34,570 */
    given(&made, TORALINGE_CURRENT, 9, 0xF7, 0x87, 0xB2); /* -30,729.1 */
    add_words(&made, COUNT, least, 1);
    given(&made, TORALINGE_CURRENT, 9, 0, 0, 0x51); /* -844 / 900 */
    given(&made, TORALINGE_CURRENT, 8, 0xFF, 0xFF, 0x75); /* -844 / 800 */
    add_write(&made, 0x04, 0x18);
    refused(&made, TORALINGE_TEMPERATURE, 1, TORALINGE_EXTERNAL);
    given(&made, TORALINGE_VOLTAGE, 1, 0xF4, 0x37, 0xAE);
}

/* Each refusal before those that come after it. */
static void order(void)
{
    struct stream made = asleep(1);
    refused(&made, 0, 0, TORALINGE_BAD_VALUE); /* 3 before 4 */
    refused(&made, 0, 16384, TORALINGE_BAD_VALUE);
    refused(&made, 0, 65537, TORALINGE_BAD_VALUE); /* 1 with 65,536 more */
    refused(&made, 0, 1, TORALINGE_ASLEEP);
    refused(&made, 0x07, 0, TORALINGE_BAD_COMMAND); /* 23 before 3 */
    refused(&made, 0x109, 10, TORALINGE_BAD_COMMAND); /* and no command is cut to a byte */
    refused(&made, 0x0B, 1, TORALINGE_BAD_COMMAND);
    refused(&made, TORALINGE_TEMPERATURE, 0, TORALINGE_BAD_VALUE);
    refused(&made, TORALINGE_VOLTAGE, 101, TORALINGE_BAD_VALUE);
    refused(&made, TORALINGE_CURRENT, 65546, TORALINGE_BAD_VALUE); /* 10 with 65,536 more */
    refused(&made, TORALINGE_CURRENT, 1, TORALINGE_ASLEEP);
    add_bare(&made, BOOT);
    refused(&made, 0, 1, TORALINGE_NOT_CONNECTED); /* no scan yet: every count is 0, below the floor */
    refused(&made, TORALINGE_VOLTAGE, 1, TORALINGE_NOT_CONNECTED);
    add_bare(&made, POR);
    refused(&made, 0, 1, TORALINGE_ASLEEP);
}

/* Where no chip stands the first record's number comes before anything asked. */
static void no_chip(void)
{
    static const uint8_t bad[7] = {4, 0, 0x08, 0x0A, 0x1E, 0xE8, 0x03};
    struct stream made;
    made.length = 0;
    refused(&made, 0, 0, TORALINGE_CUT);
    refused(&made, 0x07, 0, TORALINGE_CUT);
    add_bare(&made, BOOT);
    refused(&made, 0, 0, TORALINGE_BAD_KIND);
    refused(&made, TORALINGE_CURRENT, 1, TORALINGE_BAD_KIND);
    made.length = 0;
    add(&made, SETUP, bad, sizeof bad);
    refused(&made, 0, 1, TORALINGE_BAD_SETUP);
    refused(&made, 0x07, 1, TORALINGE_BAD_SETUP);
    made.length--;
    refused(&made, 0, 1, TORALINGE_CUT);
    refused(&made, TORALINGE_VOLTAGE, 0, TORALINGE_CUT);
}

/* A stream that is cut at its end: the chip that stands is asked. */
static void cut(void)
{
    struct stream made = awake(1);
    add_five(&made, 8000, 8012, 8020, 8009, 8000);
    add_bare(&made, POR);
    made.length--;
    given(&made, 0, 1, 0x0A, 0, 0);
}

int main(void)
{
    one_group();
    three_groups();
    connected();
    words();
    order();
    no_chip();
    cut();
    printf("asks: %lu checks of cells to bleed and Smart Battery words hold, called from C\n", checks);
    return 0;
}
