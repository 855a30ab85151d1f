/*
 * Why a bit of SYS_STAT is up and since when a drive is off, from C (CHIP P17 and P18): worked by hand from CHIP J1 to J16 and L1 to L5, the
 * refusals in their order, and every room up to what is needed, through include/toralinge.h alone, with guard bytes round every buffer.
 */
#include "check.h"
#include "guard.h"
#include "streams.h"
#include "toralinge.h"

#define NEVER 18446744073709551615u
#define LAST(stream) ((stream).many - 1)

/* A stream that counts its records. */
struct told {
    struct stream of;
    uint64_t many;
};

static struct told awake(uint8_t part)
{
    struct told made;
    made.of = asleep(part);
    add_bare(&made.of, BOOT);
    made.many = 2;
    return made;
}

static void happens(struct told *to, unsigned kind)
{
    add_bare(&to->of, kind);
    to->many++;
}

static void happens_with(struct told *to, unsigned kind, uint8_t byte)
{
    add_byte(&to->of, kind, byte);
    to->many++;
}

static void scans(struct told *to, uint16_t a, uint16_t b, uint16_t c, uint16_t d, uint16_t e)
{
    add_five(&to->of, a, b, c, d, e);
    to->many++;
}

/* A scan with input 5 at a count, the others quiet. */
static void scans_fifth(struct told *to, uint16_t count)
{
    scans(to, 8200, 8200, 8200, 8200, count);
}

/* A write over the bus: START, three OUT, STOP. The third OUT, two records before the next, is the one that writes. */
static void writes(struct told *to, uint8_t at, uint8_t value)
{
    add_write(&to->of, at, value);
    to->many += 5;
}

static uint64_t written(const struct told *in)
{
    return in->many - 2;
}

/* SENSE, or TICKS or SOAK by how many bytes the repeat number has. */
static void ticks(struct told *to, int32_t microvolts, uint32_t repeat, size_t bytes)
{
    uint8_t payload[8];
    uint32_t value = (uint32_t)microvolts;
    size_t at;
    for (at = 0; at < 4; at++) {
        payload[at] = (uint8_t)(value >> 8 * at);
        payload[4 + at] = (uint8_t)(repeat >> 8 * at);
    }
    add(&to->of, bytes == 0 ? SENSE : bytes == 2 ? TICKS : SOAK, payload, 4 + bytes);
    to->many++;
}

static uint64_t number_at(const uint8_t *bytes, size_t many)
{
    uint64_t number = 0;
    while (many > 0) {
        many--;
        number = number << 8 | bytes[many];
    }
    return number;
}

struct row {
    uint64_t rose, first;
    uint32_t cause, many, limit, input;
    int32_t value;
};

/* The row stands at the start and nothing else is touched; in any smaller room nothing is. */
static void why_is(const struct told *of, uint64_t record, uint32_t bit, struct row wanted)
{
    size_t room;
    for (room = 0; room <= TORALINGE_WHY_SIZE + 4; room++) {
        struct guarded lent = guarded_new(room);
        int64_t answer = toralinge_why(of->of.bytes, of->of.length, record, bit, lent.room, room);
        if (room < TORALINGE_WHY_SIZE) {
            CHECK(answer == -TORALINGE_NO_ROOM && guarded_kept(&lent, 0));
        } else {
            CHECK(answer == 0 && guarded_kept(&lent, TORALINGE_WHY_SIZE));
            CHECK(number_at(lent.room, 8) == wanted.rose);
            CHECK(number_at(lent.room + 8, 8) == wanted.first);
            CHECK(number_at(lent.room + 16, 4) == wanted.cause);
            CHECK(number_at(lent.room + 20, 4) == wanted.many);
            CHECK(number_at(lent.room + 24, 4) == wanted.limit);
            CHECK(number_at(lent.room + 28, 4) == wanted.input);
            CHECK((uint32_t)number_at(lent.room + 32, 4) == (uint32_t)wanted.value);
        }
        guarded_free(&lent);
    }
}

/* A bit that is not judged: it has no verdicts, and nothing was outside. */
static void why_bare(const struct told *of, uint64_t record, uint32_t bit, uint64_t rose, uint32_t cause)
{
    struct row wanted = {0, 0, 0, 0, 0, 0, 0};
    wanted.rose = wanted.first = rose;
    wanted.cause = cause;
    why_is(of, record, bit, wanted);
}

static void why_judged(const struct told *of, uint64_t record, uint32_t bit, uint64_t first, uint64_t rose, uint32_t many, uint32_t limit,
                       uint32_t input, int32_t value)
{
    struct row wanted;
    wanted.rose = rose;
    wanted.first = first;
    wanted.cause = input == 0 ? TORALINGE_BY_TICKS : TORALINGE_BY_SCANS;
    wanted.many = many;
    wanted.limit = limit;
    wanted.input = input;
    wanted.value = value;
    why_is(of, record, bit, wanted);
}

static void off_is(const struct told *of, uint64_t record, uint32_t drive, uint64_t since, uint32_t held)
{
    size_t room;
    for (room = 0; room <= TORALINGE_OFF_SIZE + 4; room++) {
        struct guarded lent = guarded_new(room);
        int64_t answer = toralinge_off(of->of.bytes, of->of.length, record, drive, lent.room, room);
        if (room < TORALINGE_OFF_SIZE) {
            CHECK(answer == -TORALINGE_NO_ROOM && guarded_kept(&lent, 0));
        } else {
            CHECK(answer == 0 && guarded_kept(&lent, TORALINGE_OFF_SIZE));
            CHECK(number_at(lent.room, 8) == since);
            CHECK(number_at(lent.room + 8, 4) == held);
        }
        guarded_free(&lent);
    }
}

/* Nothing is written, whatever the room. */
static void refused(const struct told *of, uint64_t record, uint32_t bit, uint32_t drive, int64_t number)
{
    size_t room;
    for (room = 0; room <= TORALINGE_WHY_SIZE + 2; room++) {
        struct guarded lent = guarded_new(room);
        CHECK(toralinge_why(of->of.bytes, of->of.length, record, bit, lent.room, room) == -number);
        CHECK(toralinge_off(of->of.bytes, of->of.length, record, drive, lent.room, room) == -number);
        CHECK(guarded_kept(&lent, 0));
        guarded_free(&lent);
    }
}

/* Only the one of a bit. */
static void not_up(const struct told *of, uint64_t record, uint32_t bit)
{
    struct guarded lent = guarded_new(TORALINGE_WHY_SIZE);
    CHECK(toralinge_why(of->of.bytes, of->of.length, record, bit, lent.room, TORALINGE_WHY_SIZE) == -TORALINGE_NOT_SO);
    CHECK(toralinge_why(of->of.bytes, of->of.length, record, bit, lent.room, 0) == -TORALINGE_NOT_SO);
    CHECK(guarded_kept(&lent, 0));
    guarded_free(&lent);
}

/* And of a drive. */
static void not_off(const struct told *of, uint64_t record, uint32_t drive)
{
    struct guarded lent = guarded_new(TORALINGE_OFF_SIZE);
    CHECK(toralinge_off(of->of.bytes, of->of.length, record, drive, lent.room, TORALINGE_OFF_SIZE) == -TORALINGE_NOT_SO);
    CHECK(toralinge_off(of->of.bytes, of->of.length, record, drive, lent.room, 0) == -TORALINGE_NOT_SO);
    CHECK(guarded_kept(&lent, 0));
    guarded_free(&lent);
}

/* At reset four scans above 8,200 + 16 x 0xAC = 10,952 raise OV. Records 9 to 12 are over; the lowest input outside is named, at the last scan. */
static void four_scans(void)
{
    struct told made = awake(1);
    uint64_t record;
    writes(&made, TORALINGE_REG_SYS_CTRL2, 3); /* records 2 to 6, both drives on at 5 */
    CHECK(written(&made) == 5);
    scans_fifth(&made, 10953);
    scans_fifth(&made, 10952); /* record 8 is not over */
    scans(&made, 10953, 8200, 8200, 8200, 8200);
    scans(&made, 8200, 16383, 8200, 8200, 8200);
    scans(&made, 8200, 8200, 10953, 8200, 8200);
    not_up(&made, LAST(made), TORALINGE_STAT_OV);
    not_off(&made, LAST(made), TORALINGE_PIN_CHG);
    scans(&made, 8200, 10952, 8200, 10953, 10960);
    CHECK(LAST(made) == 12);
    writes(&made, TORALINGE_REG_SYS_CTRL2, 3); /* it asks for CHG, and OV holds it */
    scans_fifth(&made, 9000);
    for (record = 12; record < made.many; record++) {
        why_judged(&made, record, TORALINGE_STAT_OV, 9, 12, 4, 10952, 4, 10953);
        off_is(&made, record, TORALINGE_PIN_CHG, 12, TORALINGE_STAT_OV);
        not_off(&made, record, TORALINGE_PIN_DSG);
    }
    off_is(&made, 4, TORALINGE_PIN_CHG, NEVER, 0);
    not_off(&made, 5, TORALINGE_PIN_CHG);
}

/* What stood then is told, not what stands now: another limit, another delay, and DELAY_DIS afterwards move nothing. */
static void as_it_was_then(void)
{
    struct told made = awake(1);
    int scan;
    for (scan = 0; scan < 4; scan++) {
        scans_fifth(&made, 10953);
    }
    writes(&made, TORALINGE_REG_OV_TRIP, 0xFF);
    writes(&made, TORALINGE_REG_PROTECT3, 0x30);
    writes(&made, TORALINGE_REG_SYS_CTRL2, TORALINGE_CTRL2_DELAY_DIS);
    scans_fifth(&made, 12281);
    why_judged(&made, LAST(made), TORALINGE_STAT_OV, 2, 5, 4, 10952, 5, 10953);
}

/* The limit is that of the last verdict: three scans over 10,952, then one over 8,200 + 16 x 0xFF = 12,280. A changed limit ends no run (CHIP J10). */
static void limit_of_the_last(void)
{
    struct told made = awake(1);
    int scan;
    for (scan = 0; scan < 3; scan++) {
        scans_fifth(&made, 10953);
    }
    writes(&made, TORALINGE_REG_OV_TRIP, 0xFF);
    scans_fifth(&made, 12281);
    why_judged(&made, LAST(made), TORALINGE_STAT_OV, 2, LAST(made), 4, 12280, 5, 12281);
}

/* A shorter delay acts at the next scan that is over: the newest four of six (CHIP J10). */
static void shorter_delay(void)
{
    struct told made = awake(1);
    int scan;
    writes(&made, TORALINGE_REG_PROTECT3, 0x10); /* OV delay code 1: eight scans */
    for (scan = 0; scan < 5; scan++) {
        scans_fifth(&made, 10953); /* records 7 to 11 */
    }
    writes(&made, TORALINGE_REG_PROTECT3, 0x00);
    not_up(&made, LAST(made), TORALINGE_STAT_OV);
    scans_fifth(&made, 10953);
    CHECK(LAST(made) == 17);
    why_judged(&made, 17, TORALINGE_STAT_OV, 9, 17, 4, 10952, 5, 10953);
    writes(&made, TORALINGE_REG_SYS_STAT, 0xFF);
    not_up(&made, LAST(made), TORALINGE_STAT_OV);
    writes(&made, TORALINGE_REG_SYS_CTRL2, TORALINGE_CTRL2_DELAY_DIS);
    scans_fifth(&made, 11000); /* one scan is enough (CHIP J8) */
    why_judged(&made, LAST(made), TORALINGE_STAT_OV, LAST(made), LAST(made), 1, 10952, 5, 11000);
    why_judged(&made, 17, TORALINGE_STAT_OV, 9, 17, 4, 10952, 5, 10953); /* and that it rose before is still told of then */
}

/* Clearing does not end a run (CHIP J11): the next over scan raises the bit, and the newest four are the last three of before and it. */
static void after_clearing(void)
{
    struct told made = awake(1);
    int scan;
    for (scan = 0; scan < 4; scan++) {
        scans_fifth(&made, 10953); /* records 2 to 5 */
    }
    writes(&made, TORALINGE_REG_SYS_STAT, TORALINGE_STAT_OV); /* 6 to 10 */
    not_up(&made, written(&made), TORALINGE_STAT_OV);
    why_judged(&made, written(&made) - 1, TORALINGE_STAT_OV, 2, 5, 4, 10952, 5, 10953);
    scans_fifth(&made, 10954);
    why_judged(&made, LAST(made), TORALINGE_STAT_OV, 3, 11, 4, 10952, 5, 10954);
}

/* What does not judge adds nothing and ends nothing: a refused scan, TEMP, the load (CHIP J12). A scan with ADC_EN 0 ends the run (CHIP J4). */
static void between_scans(void)
{
    static const uint16_t temperature[1] = {5000};
    struct told made = awake(1);
    scans_fifth(&made, 10953); /* record 2 */
    writes(&made, TORALINGE_REG_SYS_CTRL1, 0x00);
    scans_fifth(&made, 10953); /* not stored */
    writes(&made, TORALINGE_REG_SYS_CTRL1, TORALINGE_CTRL1_ADC_EN);
    scans_fifth(&made, 10953); /* record 14: the first of four */
    scans_fifth(&made, 16384); /* refused with 3, and an entry of its own */
    add_words(&made.of, TEMP, temperature, 1);
    made.many++;
    happens_with(&made, LOAD, 1);
    scans_fifth(&made, 10953);
    scans_fifth(&made, 10953);
    not_up(&made, LAST(made), TORALINGE_STAT_OV);
    scans_fifth(&made, 10953);
    CHECK(LAST(made) == 20);
    why_judged(&made, 20, TORALINGE_STAT_OV, 14, 20, 4, 10952, 5, 10953);
}

/* Under 4,096 + 16 x 0x97 = 6,512, and not below the floor, 1,000: what is below it is no cell (CHIP J3). UV holds DSG alone. */
static void under_with_a_floor(void)
{
    struct told made = awake(1);
    int scan;
    writes(&made, TORALINGE_REG_SYS_CTRL2, 3);
    for (scan = 0; scan < 3; scan++) {
        scans(&made, 999, 6512, 8200, 1000, 8200); /* records 7 to 9 */
    }
    scans(&made, 999, 6512, 6511, 1000, 8200);
    why_judged(&made, LAST(made), TORALINGE_STAT_UV, 7, 10, 4, 6512, 3, 6511);
    off_is(&made, LAST(made), TORALINGE_PIN_DSG, 10, TORALINGE_STAT_UV);
    not_off(&made, LAST(made), TORALINGE_PIN_CHG);
    not_up(&made, LAST(made), TORALINGE_STAT_OV);
}

/* Both at one scan, of fifteen inputs. */
static void both_at_once(void)
{
    static const uint16_t counts[15] = {8200, 8200, 8200, 8200, 8200, 8200, 6511, 8200, 8200, 8200, 8200, 8200, 8200, 1000, 10953};
    struct told made = awake(3);
    int scan;
    for (scan = 0; scan < 4; scan++) {
        add_words(&made.of, SCAN, counts, 15);
        made.many++;
    }
    why_judged(&made, LAST(made), TORALINGE_STAT_OV, 2, 5, 4, 10952, 15, 10953);
    why_judged(&made, LAST(made), TORALINGE_STAT_UV, 2, 5, 4, 6512, 7, 6511);
}

/* At reset three ticks above 18,500 microvolts raise SCD. Ticks of one record count one by one, and the delay is reached in its middle. */
static void ticks_one_by_one(void)
{
    struct told made = awake(1);
    writes(&made, TORALINGE_REG_SYS_CTRL2, 3);
    ticks(&made, -18500, 1, 0); /* record 7 is not over */
    ticks(&made, -18501, 1, 0); /* record 8: the first of three */
    happens_with(&made, LOAD, 1);
    ticks(&made, -20000, 5, 2); /* record 10: with its second tick */
    why_judged(&made, 10, TORALINGE_STAT_SCD, 8, 10, 3, 18500, 0, -20000);
    off_is(&made, 10, TORALINGE_PIN_DSG, 10, TORALINGE_STAT_SCD);
    not_off(&made, 10, TORALINGE_PIN_CHG);
    writes(&made, TORALINGE_REG_SYS_STAT, 0xFF);
    ticks(&made, -30000, 1, 0); /* the newest three: the last two of record 10, and this */
    why_judged(&made, LAST(made), TORALINGE_STAT_SCD, 10, 16, 3, 18500, 0, -30000);
    writes(&made, TORALINGE_REG_SYS_STAT, 0xFF);
    ticks(&made, 0, 1, 0);
    ticks(&made, -500000, 100, 2); /* the first three of its hundred */
    why_judged(&made, LAST(made), TORALINGE_STAT_SCD, 23, 23, 3, 18500, 0, -500000);
}

/* OCD at reset: 256 ticks above 9,500 microvolts. A value between the two limits is over for OCD alone. */
static void two_hundred_ticks(void)
{
    struct told made = awake(1);
    ticks(&made, -9501, 1, 0);    /* record 2 */
    ticks(&made, -9600, 254, 2);  /* 255 with these */
    not_up(&made, LAST(made), TORALINGE_STAT_OCD);
    ticks(&made, -9700, 4096, 2); /* its first tick is the 256th */
    why_judged(&made, 4, TORALINGE_STAT_OCD, 2, 4, 256, 9500, 0, -9700);
    not_up(&made, 4, TORALINGE_STAT_SCD);
    writes(&made, TORALINGE_REG_SYS_STAT, 0xFF);
    ticks(&made, -9800, 1, 0); /* the newest 256 are 255 of record 4, and this */
    why_judged(&made, LAST(made), TORALINGE_STAT_OCD, 4, 10, 256, 9500, 0, -9800);
}

/* The longest delay, 40,960 ticks above 48,000 microvolts, over SOAK; the limit of RSNS 1 is another. */
static void soaked(void)
{
    struct told made = awake(1);
    writes(&made, TORALINGE_REG_PROTECT2, 0x7F);
    ticks(&made, -48000, 16777216, 4);
    ticks(&made, -48001, 40959, 4); /* record 8 */
    not_up(&made, LAST(made), TORALINGE_STAT_OCD);
    ticks(&made, -48001, 1, 0);
    why_judged(&made, LAST(made), TORALINGE_STAT_OCD, 8, 9, 40960, 48000, 0, -48001);
    writes(&made, TORALINGE_REG_SYS_STAT, 0xFF); /* 10 to 14 */
    writes(&made, TORALINGE_REG_PROTECT1, 0x80); /* 15 to 19: RSNS 1, OCD above 94,000, SCD above 37,000 */
    ticks(&made, -94001, 16777216, 4);
    why_judged(&made, LAST(made), TORALINGE_STAT_OCD, 8, 20, 40960, 94000, 0, -94001); /* with its first tick: 40,958 of record 8, 9, and it */
    why_judged(&made, LAST(made), TORALINGE_STAT_SCD, 8, 20, 3, 37000, 0, -94001);
    ticks(&made, 1, 1, 0);
    ticks(&made, -94001, 16777216, 4);
    why_judged(&made, LAST(made), TORALINGE_STAT_OCD, 8, 20, 40960, 94000, 0, -94001); /* it has been up since */
}
/* CHIP J14 and L1 to L4: PIN for a moment, or a level that is held. */
static void from_outside(void)
{
    struct told made = awake(1);
    happens(&made, PIN); /* record 2 */
    why_bare(&made, 2, TORALINGE_STAT_OVRD_ALERT, 2, TORALINGE_BY_PIN);
    happens_with(&made, LEVEL, 1);
    writes(&made, TORALINGE_REG_SYS_STAT, 0xFF); /* the level holds it: it has been up throughout (CHIP L3) */
    why_bare(&made, LAST(made), TORALINGE_STAT_OVRD_ALERT, 2, TORALINGE_BY_PIN);
    happens(&made, XREADY); /* record 9 */
    why_bare(&made, LAST(made), TORALINGE_STAT_XREADY, 9, TORALINGE_BY_XREADY);
    writes(&made, TORALINGE_REG_SYS_STAT, TORALINGE_STAT_OVRD_ALERT); /* 10 to 14: XREADY stays */
    not_up(&made, 13, TORALINGE_STAT_OVRD_ALERT);
    writes(&made, TORALINGE_REG_SYS_STAT, TORALINGE_STAT_XREADY); /* 15 to 19: the last bit goes, and the level raises OVRD_ALERT at 18 */
    not_up(&made, 18, TORALINGE_STAT_XREADY);
    why_bare(&made, LAST(made), TORALINGE_STAT_OVRD_ALERT, 18, TORALINGE_BY_LEVEL);
    happens_with(&made, LEVEL, 0); /* letting go lowers nothing (CHIP L4) */
    why_bare(&made, LAST(made), TORALINGE_STAT_OVRD_ALERT, 18, TORALINGE_BY_LEVEL);
    writes(&made, TORALINGE_REG_SYS_STAT, 0xFF);
    not_up(&made, LAST(made), TORALINGE_STAT_OVRD_ALERT);
    happens_with(&made, LEVEL, 1);
    why_bare(&made, LAST(made), TORALINGE_STAT_OVRD_ALERT, LAST(made), TORALINGE_BY_LEVEL);
}

/* CHIP J15 and J16. A second XREADY while the bit is up moves nothing; CC_READY holds no drive. */
static void reported_and_counted(void)
{
    static const uint16_t reading[1] = {0xC350};
    struct told made = awake(1);
    writes(&made, TORALINGE_REG_SYS_CTRL2, 3);
    add_words(&made.of, COUNT, reading, 1); /* neither CC_EN nor CC_ONESHOT */
    made.many++;
    not_up(&made, LAST(made), TORALINGE_STAT_CC_READY);
    writes(&made, TORALINGE_REG_SYS_CTRL2, 3 | TORALINGE_CTRL2_CC_EN); /* 8 to 12 */
    add_words(&made.of, COUNT, reading, 1);
    made.many++;
    why_bare(&made, 13, TORALINGE_STAT_CC_READY, 13, TORALINGE_BY_COUNT);
    not_off(&made, 13, TORALINGE_PIN_CHG);
    happens(&made, XREADY); /* record 14 */
    happens(&made, XREADY);
    why_bare(&made, 15, TORALINGE_STAT_XREADY, 14, TORALINGE_BY_XREADY);
    why_bare(&made, 15, TORALINGE_STAT_CC_READY, 13, TORALINGE_BY_COUNT);
    off_is(&made, 15, TORALINGE_PIN_CHG, 14, TORALINGE_STAT_XREADY);
    off_is(&made, 15, TORALINGE_PIN_DSG, 14, TORALINGE_STAT_XREADY);
}

/* CHIP J13, G9 and G10: which bits hold which drive, and since when it is off. */
static void drives(void)
{
    struct told made = awake(1);
    off_is(&made, 0, TORALINGE_PIN_CHG, NEVER, 0); /* in SHIP */
    off_is(&made, 1, TORALINGE_PIN_DSG, NEVER, 0);
    ticks(&made, -500000, 3, 2); /* record 2: SCD */
    off_is(&made, 2, TORALINGE_PIN_CHG, NEVER, 0);
    off_is(&made, 2, TORALINGE_PIN_DSG, NEVER, TORALINGE_STAT_SCD);
    writes(&made, TORALINGE_REG_SYS_CTRL2, 3); /* 3 to 7: CHG comes on at 6, DSG does not */
    off_is(&made, 5, TORALINGE_PIN_CHG, NEVER, 0);
    not_off(&made, 6, TORALINGE_PIN_CHG);
    off_is(&made, 7, TORALINGE_PIN_DSG, NEVER, TORALINGE_STAT_SCD);
    happens(&made, XREADY); /* record 8 */
    off_is(&made, 8, TORALINGE_PIN_CHG, 8, TORALINGE_STAT_XREADY);
    off_is(&made, 8, TORALINGE_PIN_DSG, NEVER, TORALINGE_STAT_SCD | TORALINGE_STAT_XREADY);
    writes(&made, TORALINGE_REG_SYS_STAT, 0xFF); /* 9 to 13: cleared, and nobody has asked since */
    off_is(&made, 11, TORALINGE_PIN_CHG, 8, TORALINGE_STAT_XREADY);
    off_is(&made, 12, TORALINGE_PIN_CHG, 8, 0);
    off_is(&made, 12, TORALINGE_PIN_DSG, NEVER, 0);
    writes(&made, TORALINGE_REG_SYS_CTRL2, 3); /* on at 17 */
    not_off(&made, 17, TORALINGE_PIN_DSG);
    writes(&made, TORALINGE_REG_SYS_CTRL2, 1); /* the host puts DSG off at 22 */
    off_is(&made, LAST(made), TORALINGE_PIN_DSG, 22, 0);
    not_off(&made, LAST(made), TORALINGE_PIN_CHG);
    happens(&made, PIN); /* record 24: OVRD_ALERT holds both */
    off_is(&made, 24, TORALINGE_PIN_DSG, 22, TORALINGE_STAT_OVRD_ALERT);
    off_is(&made, 24, TORALINGE_PIN_CHG, 24, TORALINGE_STAT_OVRD_ALERT);
}

/* SHIP lowers every bit and puts the drives off, and what came before it counts no more (CHIP M3). */
static void over_ship(void)
{
    struct told made = awake(1);
    int scan;
    writes(&made, TORALINGE_REG_SYS_CTRL2, 2); /* DSG on at 5 */
    for (scan = 0; scan < 4; scan++) {
        scans_fifth(&made, 10953); /* 7 to 10 */
    }
    happens(&made, POR); /* record 11 */
    not_up(&made, 11, TORALINGE_STAT_OV);
    off_is(&made, 11, TORALINGE_PIN_DSG, 11, 0);
    off_is(&made, 11, TORALINGE_PIN_CHG, NEVER, 0);
    scans_fifth(&made, 10953); /* refused with 4 */
    happens(&made, BOOT);
    for (scan = 0; scan < 3; scan++) {
        scans_fifth(&made, 10953); /* 14 to 16 */
    }
    not_up(&made, LAST(made), TORALINGE_STAT_OV);
    scans_fifth(&made, 10953);
    why_judged(&made, LAST(made), TORALINGE_STAT_OV, 14, 17, 4, 10952, 5, 10953);
    why_judged(&made, 10, TORALINGE_STAT_OV, 7, 10, 4, 10952, 5, 10953);
    off_is(&made, LAST(made), TORALINGE_PIN_DSG, 11, 0);
}

/* 27 before 28 before 5; a bit that is none, and two bits at once, are never up, and only CHG and DSG are drives. */
static void numbers(void)
{
    static const uint32_t no_bits[] = {0, 3, 0x40, 0x24, 0x7F, 0xFF, 0x100, 0x120, 0x80000020u, 0xFFFFFFFFu};
    static const uint32_t no_drives[] = {0, 3, 4, 6, 0x101, 0x102, 0x80000001u, 0xFFFFFFFFu};
    struct told made = awake(1);
    size_t at;
    happens(&made, XREADY); /* record 2, the last */
    for (at = 0; at < sizeof no_bits / sizeof *no_bits; at++) {
        not_up(&made, 2, no_bits[at]);
        refused(&made, 3, no_bits[at], TORALINGE_PIN_CHG, TORALINGE_NO_RECORD);
    }
    for (at = 0; at < sizeof no_drives / sizeof *no_drives; at++) {
        not_off(&made, 2, no_drives[at]);
        refused(&made, 3, TORALINGE_STAT_XREADY, no_drives[at], TORALINGE_NO_RECORD);
    }
    refused(&made, NEVER, TORALINGE_STAT_XREADY, TORALINGE_PIN_CHG, TORALINGE_NO_RECORD);
    refused(&made, 4294967298u, TORALINGE_STAT_XREADY, TORALINGE_PIN_CHG, TORALINGE_NO_RECORD);
    refused(&made, 2, TORALINGE_STAT_OV, 0, TORALINGE_NOT_SO);
    why_bare(&made, 2, TORALINGE_STAT_XREADY, 2, TORALINGE_BY_XREADY);
    made.of.length -= 1; /* the last record is cut short: it is an entry, and XREADY did not happen */
    not_up(&made, 2, TORALINGE_STAT_XREADY);
    off_is(&made, 2, TORALINGE_PIN_CHG, NEVER, 0);
    refused(&made, 3, TORALINGE_STAT_XREADY, TORALINGE_PIN_CHG, TORALINGE_NO_RECORD);
}

/* A cut record after a bit rose shows the chip that stands; without a chip nothing is up, and both drives are off. */
static void at_the_ends(void)
{
    struct told made = awake(1);
    happens(&made, XREADY);
    happens(&made, BOOT);
    made.of.length -= 2;
    why_bare(&made, 3, TORALINGE_STAT_XREADY, 2, TORALINGE_BY_XREADY);
    off_is(&made, 3, TORALINGE_PIN_DSG, NEVER, TORALINGE_STAT_XREADY);
    made.of.length = 0; /* no record at all */
    refused(&made, 0, TORALINGE_STAT_XREADY, TORALINGE_PIN_CHG, TORALINGE_NO_RECORD);
    made = awake(4); /* the first record is refused with 1, and is the only entry */
    not_up(&made, 0, TORALINGE_STAT_XREADY);
    off_is(&made, 0, TORALINGE_PIN_CHG, NEVER, 0);
    refused(&made, 1, TORALINGE_STAT_XREADY, TORALINGE_PIN_CHG, TORALINGE_NO_RECORD);
}

int main(void)
{
    four_scans();
    as_it_was_then();
    limit_of_the_last();
    shorter_delay();
    after_clearing();
    between_scans();
    under_with_a_floor();
    both_at_once();
    ticks_one_by_one();
    two_hundred_ticks();
    soaked();
    from_outside();
    reported_and_counted();
    drives();
    over_ship();
    numbers();
    at_the_ends();
    printf("why: %lu checks hold\n", checks);
    return 0;
}
