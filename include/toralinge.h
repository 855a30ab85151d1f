/*
 * toralinge.h - a software stand-in for the battery monitors MS9920T, MS9930T and MS9940T.
 *
 * Link with target/libtoralinge.a, for x86-64 Linux; `./library` proves every call and writes it. A
 * program that wants less links with single ones, in any number, which `./library` leaves beside it as
 * target/staticlib/libNAME.a, where NAME is i2c_lists for toralinge_list, chip_c for toralinge_bleed,
 * toralinge_reply and the calls that read a kept chip, feed for toralinge_feed, season_stream for
 * toralinge_season, season_scans for toralinge_scans, season_c for reports that are kept, plain for
 * toralinge_plain, record_c for toralinge_record and toralinge_values, values_c for the conversions and
 * the CRC, why for toralinge_why and toralinge_off, and stream for all other calls.
 *
 * The rules stand in docs/CHIP.md, each with a number. Every call here answers for every value of its
 * arguments, and is proved to answer exactly as these rules say.
 *
 * What every call asks of its caller:
 *   - no pointer is NULL, also where its length or room is 0;
 *   - a length counts the bytes (a room of doubles or int64_t: these) that stand behind its pointer;
 *   - what a call may write overlaps nothing else that the same call is lent.
 * No call keeps a pointer, allocates, or has a state of its own: two threads may call at once.
 */
#ifndef TORALINGE_H
#define TORALINGE_H

#include <stddef.h>
#include <stdint.h>

#ifdef __cplusplus
extern "C" {
#endif

/* The version of this header, as text and as 10,000 x major + 100 x minor + patch. */
#define TORALINGE_VERSION "1.2.3"
#define TORALINGE_VERSION_NUMBER 10203

/* The version of the library that is linked, as text: to be compared with TORALINGE_VERSION. */
const char *toralinge_version(void);

/* A line of text for a number of the list below, with either sign; "unknown number" for any other. */
const char *toralinge_words(int64_t number);

/* 0 for done, or why a record or a call is refused. */
enum toralinge_number {
    TORALINGE_DONE = 0,
    TORALINGE_BAD_SETUP = 1,    /* a value of SETUP, or a gain code, is out of range */
    TORALINGE_BAD_KIND = 2,     /* kind unknown, SETUP not first, first not SETUP, wrong length, or a
                                   wiring record that is not straight after SETUP */
    TORALINGE_BAD_VALUE = 3,    /* a payload value, a count, a margin or a resistor is out of range */
    TORALINGE_ASLEEP = 4,       /* the chip is in SHIP */
    TORALINGE_NO_ROOM = 5,      /* the output buffer is too short */
    TORALINGE_NO_CELL = 6,      /* no such cell */
    TORALINGE_OPEN_SENSOR = 7,  /* thermistor count 9,323 or more */
    TORALINGE_NO_CODE = 8,      /* the wanted threshold lies outside its window */
    TORALINGE_CUT = 9,          /* a record is cut short, or there is none */
    TORALINGE_NOT_CONNECTED = 10, /* no cell is connected: there is no reading, proposal or total */
    TORALINGE_NO_FIT = 11,      /* a value does not fit its Smart Battery word */
    TORALINGE_EXTERNAL = 12,    /* a temperature is asked for with TEMP_SEL 1 */
    TORALINGE_NO_ROW = 13,      /* a wiring record with a number of cells that the part has no row for */
    TORALINGE_NO_LIST = 20,     /* a line is no list of the grammar */
    TORALINGE_BAD_ADDRESS = 21, /* a list has an address outside 0x08 to 0x77 */
    TORALINGE_SEASON_FULL = 22, /* a season would have more than 65,535 scans */
    TORALINGE_BAD_COMMAND = 23, /* another Smart Battery command */
    TORALINGE_TOO_LONG = 24,    /* a stream is longer than toralinge_plain or toralinge_why takes */
    TORALINGE_OTHER_CHIP = 25,  /* reports of different chips: part, gain, offset, row or floor */
    TORALINGE_NO_CHIP = 26,     /* bytes that are no chip, or no report */
    TORALINGE_NO_RECORD = 27,   /* the stream has no such record */
    TORALINGE_NOT_SO = 28       /* the bit that is asked about is not up, the drive not off */
};

/* The kinds of records. */
enum toralinge_kind {
    TORALINGE_KIND_SETUP = 0x0000,
    TORALINGE_KIND_POR = 0x0001,
    TORALINGE_KIND_BOOT = 0x0002,
    TORALINGE_KIND_SCAN = 0x0003,
    TORALINGE_KIND_TEMP = 0x0004,
    TORALINGE_KIND_COUNT = 0x0005,
    TORALINGE_KIND_SENSE = 0x0006,
    TORALINGE_KIND_PIN = 0x0007,
    TORALINGE_KIND_LOAD = 0x0008,
    TORALINGE_KIND_XREADY = 0x0009,
    TORALINGE_KIND_START = 0x0010,
    TORALINGE_KIND_OUT = 0x0011,
    TORALINGE_KIND_IN = 0x0012,
    TORALINGE_KIND_STOP = 0x0013,
    TORALINGE_KIND_TICKS = 0x0014,
    TORALINGE_KIND_LEVEL = 0x0015,
    TORALINGE_KIND_WIRING = 0x0016,
    TORALINGE_KIND_SOAK = 0x0017
};

/* The addresses of the registers; of a word that of its high byte. VC1 is input 1, and each further one is two on. */
enum toralinge_address {
    TORALINGE_REG_SYS_STAT = 0x00,
    TORALINGE_REG_CELLBAL1 = 0x01,
    TORALINGE_REG_CELLBAL2 = 0x02,
    TORALINGE_REG_CELLBAL3 = 0x03,
    TORALINGE_REG_SYS_CTRL1 = 0x04,
    TORALINGE_REG_SYS_CTRL2 = 0x05,
    TORALINGE_REG_PROTECT1 = 0x06,
    TORALINGE_REG_PROTECT2 = 0x07,
    TORALINGE_REG_PROTECT3 = 0x08,
    TORALINGE_REG_OV_TRIP = 0x09,
    TORALINGE_REG_UV_TRIP = 0x0A,
    TORALINGE_REG_CC_CFG = 0x0B,
    TORALINGE_REG_VC1 = 0x0C,
    TORALINGE_REG_BAT = 0x2A,
    TORALINGE_REG_TS1 = 0x2C,
    TORALINGE_REG_CC = 0x32,
    TORALINGE_REG_ADCGAIN1 = 0x50,
    TORALINGE_REG_ADCOFFSET = 0x51,
    TORALINGE_REG_ADCGAIN2 = 0x59
};

/* The bits of SYS_STAT. Writing ones clears them. */
enum toralinge_stat {
    TORALINGE_STAT_OCD = 0x01,        /* over-current in discharge */
    TORALINGE_STAT_SCD = 0x02,        /* short circuit in discharge */
    TORALINGE_STAT_OV = 0x04,         /* over-voltage */
    TORALINGE_STAT_UV = 0x08,         /* under-voltage */
    TORALINGE_STAT_OVRD_ALERT = 0x10, /* ALERT pulled up from outside */
    TORALINGE_STAT_XREADY = 0x20,     /* an internal fault */
    TORALINGE_STAT_CC_READY = 0x80    /* a coulomb count is there */
};

/* The bits of SYS_CTRL1. */
enum toralinge_ctrl1 {
    TORALINGE_CTRL1_SHUT_B = 0x01,
    TORALINGE_CTRL1_SHUT_A = 0x02,
    TORALINGE_CTRL1_TEMP_SEL = 0x08,
    TORALINGE_CTRL1_ADC_EN = 0x10,
    TORALINGE_CTRL1_LOAD_PRESENT = 0x80
};

/* The bits of SYS_CTRL2. */
enum toralinge_ctrl2 {
    TORALINGE_CTRL2_CHG_ON = 0x01,
    TORALINGE_CTRL2_DSG_ON = 0x02,
    TORALINGE_CTRL2_CC_ONESHOT = 0x20,
    TORALINGE_CTRL2_CC_EN = 0x40,
    TORALINGE_CTRL2_DELAY_DIS = 0x80
};

/* An entry of toralinge_play: five bytes, in this order. */
enum toralinge_entry {
    TORALINGE_ENTRY_NUMBER = 0,   /* 0, or the number that refuses the record */
    TORALINGE_ENTRY_BUS_FLAG = 1, /* 1 for an OUT or IN that was done, else 0 */
    TORALINGE_ENTRY_BUS_BYTE = 2, /* OUT: 0 acknowledged, 1 not; IN: the byte given; else 0 */
    TORALINGE_ENTRY_SYS_STAT = 3, /* register 0x00 after the record; 0 where no chip stands */
    TORALINGE_ENTRY_PINS = 4,     /* the three pins below; 0 where no chip stands */
    TORALINGE_ENTRY_SIZE = 5
};

enum toralinge_pins {
    TORALINGE_PIN_DSG = 1,
    TORALINGE_PIN_CHG = 2,
    TORALINGE_PIN_ALERT = 4
};

/* The four doubles of toralinge_reading, in this order. */
enum toralinge_reading_place {
    TORALINGE_READING_LEAST = 0,      /* least cell voltage, microvolts */
    TORALINGE_READING_GREATEST = 1,   /* greatest cell voltage, microvolts */
    TORALINGE_READING_TOTAL = 2,      /* sum of the cell voltages, microvolts */
    TORALINGE_READING_CC = 3,         /* coulomb counter, hundredths of a microvolt */
    TORALINGE_READING_SIZE = 4
};

/* The Smart Battery commands that toralinge_reply answers. */
enum toralinge_command {
    TORALINGE_TEMPERATURE = 0x08, /* tenths of a kelvin, unsigned */
    TORALINGE_VOLTAGE = 0x09,     /* mV, unsigned */
    TORALINGE_CURRENT = 0x0A      /* mA, signed */
};

/* The three bytes of toralinge_bleed: CELLBAL1 to 3; and of toralinge_reply: low byte, high byte, PEC. */
enum { TORALINGE_CELLBAL_SIZE = 3, TORALINGE_REPLY_SIZE = 3 };

/*
 * A chip that lives between calls is kept by the caller as this many bytes. They hold no pointer: they may be
 * copied, saved and mapped. Byte 0 is the layout's version, 1. All zero: no chip yet. Two chips that differ have
 * different bytes, and bytes that are no chip are refused with 26 by every call that takes one.
 */
enum { TORALINGE_CHIP_SIZE = 96 };

/*
 * A season's report that lives between calls is kept as this many bytes, likewise: byte 0 is the layout's version, 1, then
 * whose scans they are (part, gain code, offset, cells, floor), how many, and the columns. All zero: none yet. Two reports
 * that differ have different bytes, and bytes that are no report (another version, a part, gain code, floor or number of
 * cells that no chip has, or columns that no scans could have) are refused with 26. Of each input the columns are held
 * against each other: a least count above the greatest, a greatest above 16,383, the number of a scan that is not there, a
 * sum that no counts between the two come to, more scans or a greater sum connected than in all, and anything but 0 counts
 * where the part lacks the input or there are no scans.
 */
enum { TORALINGE_REPORT_SIZE = 309 };

/* The nine numbers of a cell in toralinge_season and toralinge_rows, in this order. */
enum toralinge_season_place {
    TORALINGE_SEASON_SCANS = 0,          /* how many scans were stored */
    TORALINGE_SEASON_PRESENT = 1,        /* 1, or 0 where there are no scans and so no least and no greatest */
    TORALINGE_SEASON_LEAST = 2,          /* least count */
    TORALINGE_SEASON_LEAST_SCAN = 3,     /* the first scan that had it, numbered from 1 */
    TORALINGE_SEASON_GREATEST = 4,       /* greatest count */
    TORALINGE_SEASON_GREATEST_SCAN = 5,  /* the first scan that had it */
    TORALINGE_SEASON_SUM = 6,            /* sum of counts */
    TORALINGE_SEASON_CONNECTED = 7,      /* in how many scans the cell was connected */
    TORALINGE_SEASON_MICROVOLTS = 8,     /* sum of its microvolts over these */
    TORALINGE_SEASON_SIZE = 9
};

/* The seventeen numbers of a scan in toralinge_scans, in this order. */
enum toralinge_scan_place {
    TORALINGE_SCAN_RECORD = 0,       /* the number of its record, from 0 as the entries of toralinge_play */
    TORALINGE_SCAN_CONNECTED = 1,    /* the connected cells as bits, cell 1 the lowest */
    TORALINGE_SCAN_MICROVOLTS = 2,   /* the microvolts of cells 1 to 15, 0 where not connected or no such cell */
    TORALINGE_SCAN_SIZE = 17
};

/* Why a bit of SYS_STAT rose, in toralinge_why. */
enum toralinge_cause {
    TORALINGE_BY_SCANS = 1,  /* OV, UV: scans in a row */
    TORALINGE_BY_TICKS = 2,  /* SCD, OCD: ticks in a row */
    TORALINGE_BY_PIN = 3,    /* OVRD_ALERT: a record PIN */
    TORALINGE_BY_LEVEL = 4,  /* OVRD_ALERT: the outside level */
    TORALINGE_BY_XREADY = 5, /* XREADY: a record XREADY */
    TORALINGE_BY_COUNT = 6   /* CC_READY: a coulomb count */
};

/* The bytes of a row of toralinge_why, and of toralinge_off. */
#define TORALINGE_WHY_SIZE 36
#define TORALINGE_OFF_SIZE 12

/* The longest stream that toralinge_why takes, in bytes. */
#define TORALINGE_WHY_MOST 4294967295

/*
 * Plays a whole stream of records on a new chip and writes one entry of five bytes for each record.
 *
 * stream, length   the records: payload length (2 bytes), kind (2 bytes), payload, little-endian.
 *                  Kinds 0000 to 0013 are in the table of docs/CHIP.md, with these:
 *                    0014  ticks of one value: 4 bytes signed, as SENSE has them, and a repeat number of
 *                          2 bytes, 1 to 4,096; one entry for the whole
 *                    0015  the outside level, one byte: while it is 1 a second protector holds ALERT
 *                          up, so a clearing write may end with OVRD_ALERT up again
 *                    0016  the pack's number of cells, one byte: 3 to 5 for part 1, 6 to 10 for part 2,
 *                          11 to 15 for part 3. It is taken straight after SETUP, refused records
 *                          between them left aside, and outlives SHIP
 *                    0017  as 0014, with a repeat number of 4 bytes, 1 to 16,777,216
 * entries, room    where the entries go, and how many bytes may stand there
 *
 * Returns how many entries there are. They stand one after the other from entries[0]; every later
 * byte of the buffer keeps its value. A refused first record, or a record that is cut short
 * (number 9), is the last entry; an empty stream has none.
 *
 * Returns -5, and writes no byte, where five bytes for each of the entries do not fit into room.
 * One entry for every four bytes of the stream, and one more, is always enough.
 */
int64_t toralinge_play(const uint8_t *stream, size_t length, uint8_t *entries, size_t room);

/*
 * Plays records on a chip that the caller keeps. (In libfeed.a.)
 *
 * chip, size        the chip, and how many bytes may stand there; those after TORALINGE_CHIP_SIZE keep their
 *                   values. Zeroed bytes are no chip yet: the first record then has to be a good SETUP
 * records, length   the records, as toralinge_play takes them; none at all is fine
 * entries, room     where the entries go, and how many bytes may stand there
 *
 * Returns how many entries there are, as toralinge_play does, and leaves the chip as the records leave it. Fed in
 * any pieces of whole records, the entries are those of toralinge_play of the whole; toralinge_play is feeding no
 * chip yet. A record that is cut short at the end gives its entry (number 9) and leaves the chip as before it, so
 * it can be fed whole later. With no chip yet a refused first record is the only entry, and there is still none.
 *
 * Otherwise changes neither buffer and returns, looked at in this order: -5 (size is below TORALINGE_CHIP_SIZE),
 * -26 (the bytes are no chip), -5 (the entries do not fit into room).
 */
int64_t toralinge_feed(uint8_t *chip, size_t size, const uint8_t *records, size_t length, uint8_t *entries,
                       size_t room);

/*
 * What an address of a kept chip holds, the bus undisturbed: the byte that a read over the bus would give; in SHIP
 * the reset values. (In libchip_c.a, as the four calls after it.)
 *
 * Returns 0 and writes *value, or leaves it alone and returns, looked at in this order: 26 (the bytes are no chip,
 * or size is below TORALINGE_CHIP_SIZE), 9 (no chip yet), 3 (address above 0xFF).
 */
uint8_t toralinge_register(const uint8_t *chip, size_t size, uint32_t address, uint8_t *value);

/*
 * The voltage of a cell of the pack of a kept chip in microvolts, cell 1 first; without a wiring record the cells
 * are the part's inputs. Exact; may be negative.
 *
 * Returns 0 and writes *microvolts, or leaves it alone and returns, looked at in this order: 26, 9 (both as
 * toralinge_register), 4 (the chip is in SHIP), 6 (cell is 0 or past the pack's), 10 (the cell is not connected).
 */
uint8_t toralinge_voltage(const uint8_t *chip, size_t size, uint32_t cell, int64_t *microvolts);

/*
 * toralinge_reading, toralinge_bleed and toralinge_reply of a kept chip.
 *
 * Each returns 0 and writes what its namesake writes, or writes nothing and returns 26 or 9 (as toralinge_register),
 * then, in its namesake's order: 4, 10, 5 for the reading; 3, 4, 10, 5 for the cells to bleed; 23, 3, 4, 12, 10, 11, 5
 * for the reply.
 */
uint8_t toralinge_reading_of(const uint8_t *chip, size_t size, double *reading, size_t room);
uint8_t toralinge_bleed_of(const uint8_t *chip, size_t size, uint32_t margin, uint8_t *cellbal, size_t room);
uint8_t toralinge_reply_of(const uint8_t *chip, size_t size, uint32_t command, uint32_t milliohms, uint8_t *reply,
                           size_t room);

/*
 * Plays a whole stream as toralinge_play does, by an engine that keeps no count of scans or ticks: whether OV, UV,
 * SCD or OCD rises at one of them it decides by looking back over the records before it, each with the settings
 * that stood at it. That decision and the look back are its own. It shares with toralinge_play how a record is read,
 * thresholds and delays, where counts are stored, what a bit puts off, and all that other records do. It is there to
 * be read, and slow: its time grows with the square of the stream, to some seconds. (In libplain.a.)
 *
 * Returns -24, and writes no byte, for a stream of more than TORALINGE_PLAIN_MOST bytes; otherwise returns
 * and writes, for every stream and every room, exactly what toralinge_play does.
 */
#define TORALINGE_PLAIN_MOST 65536
int64_t toralinge_plain(const uint8_t *stream, size_t length, uint8_t *entries, size_t room);

/*
 * Plays a whole stream on a new chip and gives forecasting's reading of the chip as it then stands.
 *
 * reading, room   where the four doubles go, and how many doubles may stand there
 *
 * Returns 0 and writes reading[0] to reading[3]: least, greatest and total voltage of the pack's cells
 * (without a wiring record: of the inputs whose count is not below the floor) in microvolts, and the
 * coulomb counter in hundredths of a microvolt. Each is a whole number, held exactly. Later doubles keep
 * their values.
 *
 * Otherwise writes nothing and returns, looked at in this order:
 *   9         the stream is empty
 *   1, 2, 9   the number that refuses the first record, so that no chip stands
 *   4         the chip is in SHIP at the end of the stream
 *   10        no cell is connected
 *   5         room is below 4
 */
uint8_t toralinge_reading(const uint8_t *stream, size_t length, double *reading, size_t room);

/*
 * Plays a whole stream on a new chip and proposes which cells to bleed by the counts then in its cell
 * registers. (In libchip_c.a.)
 *
 * margin          1 to 16,383 counts
 * cellbal, room   where the three CELLBAL bytes go, and how many bytes may stand there
 *
 * Returns 0 and writes cellbal[0] to cellbal[2], for registers 0x01 to 0x03: bit 0 of the first is input 1.
 * A cell may be bled if it is connected (as for toralinge_reading) and stands at least the margin above the
 * lowest connected one, and no two neighbours within inputs 1 to 5, 6 to 10 or 11 to 15 are bled together. Of
 * all such choices it is the one with the largest total excess over that lowest cell, and of equal ones the
 * smallest as a number with input 1 lowest; three zero bytes where no cell may be bled. Later bytes keep
 * their values.
 *
 * Otherwise writes nothing and returns, looked at in this order:
 *   9         the stream is empty
 *   1, 2, 9   the number that refuses the first record, so that no chip stands
 *   3         the margin is out of range
 *   4         the chip is in SHIP at the end of the stream
 *   10        no cell is connected
 *   5         room is below 3
 */
uint8_t toralinge_bleed(const uint8_t *stream, size_t length, uint32_t margin, uint8_t *cellbal, size_t room);

/*
 * Plays a whole stream on a new chip and replies to a Smart Battery command for the chip as it then stands.
 * (In libchip_c.a.)
 *
 * command         0x08 Temperature(), tenths of a kelvin: (h + 546,300) / 200 rounded down, h the die value of
 *                 TS1 as toralinge_die_temperature gives it; 0x09 Voltage(), mV: the total of the connected
 *                 cells in microvolts / 1,000 rounded down; 0x0A Current(), mA: 844 x CC / (100 x milliohms)
 *                 rounded toward zero
 * milliohms       the sense resistor, 1 to 100; judged for every command
 * reply, room     where the reply goes, and how many bytes may stand there
 *
 * Returns 0 and writes reply[0] to reply[2]: low byte, high byte and the SMBus PEC over 0x16, the command, 0x17
 * and both. Later bytes keep their values.
 *
 * Otherwise writes nothing and returns, looked at in this order:
 *   9         the stream is empty
 *   1, 2, 9   the number that refuses the first record, so that no chip stands
 *   23        another command
 *   3         milliohms is out of range
 *   4         the chip is in SHIP at the end of the stream
 *   12        a temperature is asked for and TEMP_SEL is 1
 *   10        a voltage is asked for and no cell is connected
 *   11        the value does not fit its word
 *   5         room is below 3
 */
uint8_t toralinge_reply(const uint8_t *stream, size_t length, uint32_t command, uint32_t milliohms, uint8_t *reply,
                        size_t room);

/*
 * Plays a whole stream on a new chip and gives the totals of the scans that it stored. (In libseason_stream.a.)
 *
 * rows, room      where nine numbers for each cell of the pack go, and how many int64_t may stand there; 135
 *                 are always enough
 *
 * Returns how many cells the pack has (without a wiring record: as many as the part has inputs), and writes nine
 * numbers for each from rows[0] on, cell 1 first; every later number keeps its value. A scan is stored that is
 * done with ADC_EN 1. Scan numbers go on over SHIP. Of no scans all numbers are 0. A cell is connected in a scan
 * as for toralinge_reading; the counts are over all scans.
 *
 * Otherwise writes nothing and returns minus a number, looked at in this order:
 *   9         the stream is empty
 *   1, 2, 9   the number that refuses the first record, so that no chip stands
 *   22        a scan would be the 65,536th
 *   5         room is below nine for each cell
 */
int64_t toralinge_season(const uint8_t *stream, size_t length, int64_t *rows, size_t room);

/*
 * Plays a whole stream on a new chip and gives each scan that it stored. (In libseason_scans.a.)
 *
 * rows, room      where seventeen numbers for each scan go, and how many int64_t may stand there
 *
 * Returns how many scans were stored, and writes seventeen numbers for each from rows[0] on, the first scan
 * first; every later number keeps its value. A scan is stored and a cell is connected as for toralinge_season.
 *
 * Otherwise writes nothing and returns minus a number, looked at in this order:
 *   9         the stream is empty
 *   1, 2, 9   the number that refuses the first record, so that no chip stands
 *   5         room is below seventeen for each scan
 */
int64_t toralinge_scans(const uint8_t *stream, size_t length, int64_t *rows, size_t room);

/*
 * Since when and why a bit of SYS_STAT is up that is up after a record. (In libwhy.a, as the call after it.)
 *
 * bytes, length   the stream
 * record          which record, from 0 as the entries of toralinge_play
 * bit             TORALINGE_STAT_OV, .. : the weight of one of the seven bits; no other is ever up
 * row, room       where the row goes, and how many bytes may stand there
 *
 * Returns 0 and writes TORALINGE_WHY_SIZE bytes from row[0] on, each number with its low byte first; every later byte keeps
 * its value:
 *   0 to 7     the record at which the bit rose, after which it stayed up to this record
 *   8 to 15    the record of the first of the verdicts that made it due; the record at which it rose where it is not judged
 *   16 to 19   why it rose: enum toralinge_cause
 *   20 to 23   how many verdicts made it due, as many as the delay then set: the newest of that waking spell, all of them
 *              outside the limits; ticks in one record are counted one by one. Here and below 0 where it is not judged
 *   24 to 27   the limit at the last of them: counts for OV and UV, microvolts for SCD and OCD
 *   28 to 31   the lowest input outside at the last scan, from 1; 0 for ticks
 *   32 to 35   that input's count, or the value of the tick, with its sign
 *
 * Otherwise writes nothing and returns minus a number, looked at in this order:
 *   24        length is above TORALINGE_WHY_MOST
 *   27        the stream has no such record
 *   28        the bit is not up after it
 *   5         room is below TORALINGE_WHY_SIZE
 */
int64_t toralinge_why(const uint8_t *bytes, size_t length, uint64_t record, uint32_t bit, uint8_t *row, size_t room);

/*
 * Since when a drive is off that is off after a record, and which bits of SYS_STAT hold it.
 *
 * drive           TORALINGE_PIN_CHG or TORALINGE_PIN_DSG
 *
 * Returns 0 and writes TORALINGE_OFF_SIZE bytes from row[0] on, each number with its low byte first; every later byte keeps
 * its value:
 *   0 to 7     the record at which the drive went off, after which it stayed off up to this record; all bits 1 where it has
 *              never been on
 *   8 to 11    the bits of SYS_STAT that are up after this record and hold the drive: OVRD_ALERT and XREADY both drives, OV
 *              CHG, UV, SCD and OCD DSG. 0: none, and nobody has asked for the drive since none does
 *
 * Otherwise writes nothing and returns minus a number, looked at in this order:
 *   27        the stream has no such record
 *   28        there is no such drive, or it is on after this record
 *   5         room is below TORALINGE_OFF_SIZE
 */
int64_t toralinge_off(const uint8_t *bytes, size_t length, uint64_t record, uint32_t drive, uint8_t *row, size_t room);

/*
 * Adds to a kept report the scans that feeding these records to this chip stores. The chip is only looked at: call this
 * before toralinge_feed with the same chip and records. (In libseason_c.a, as the two calls after it.)
 *
 * report, size        the report, and how many bytes may stand there; those after TORALINGE_REPORT_SIZE keep their values
 * chip, chip_size     the chip, as toralinge_feed takes it; zeroed bytes are no chip yet, so that a zeroed report and a
 *                     zeroed chip give the report of a whole stream
 * records, length     the records
 *
 * Returns how many scans the report then has. A report that has no scans becomes one of the chip that stands after the
 * records; where none stands it stays as it was.
 *
 * Otherwise changes nothing and returns minus a number, looked at in this order:
 *   5         size is below TORALINGE_REPORT_SIZE
 *   26        the bytes are no report, or no chip
 *   22        these records alone store more than 65,535 scans
 *   9         neither a report nor, after the records, a chip
 *   25        the report is another chip's: part, gain code, offset, cells or floor differ
 *   22        the two together have more than 65,535 scans
 */
int64_t toralinge_grow(uint8_t *report, size_t size, const uint8_t *chip, size_t chip_size, const uint8_t *records,
                       size_t length);

/*
 * Joins the reports of two consecutive parts of a season: it is the report of the whole, with the second part's scan
 * numbers moved on. The parts stay as they are; whole may be neither of them.
 *
 * Returns 0 and writes TORALINGE_REPORT_SIZE bytes from whole[0] on, or writes nothing and returns, looked at in this
 * order: 26 (a part is no report, or none yet), 25 (the parts are of different chips: part, gain code, offset, cells or
 * floor differ), 22 (together they have more than 65,535 scans), 5 (room is below TORALINGE_REPORT_SIZE).
 */
uint8_t toralinge_join(const uint8_t *first, size_t first_size, const uint8_t *second, size_t second_size,
                       uint8_t *whole, size_t room);

/*
 * The rows of a kept report, as toralinge_season gives those of a stream: nine numbers for each cell of the pack.
 *
 * Returns how many cells there are, or writes nothing and returns minus a number, looked at in this order: 26 (the bytes
 * are no report), 9 (none yet), 5 (room is below nine for each cell).
 */
int64_t toralinge_rows(const uint8_t *report, size_t size, int64_t *rows, size_t room);

/*
 * Writes the record of a kind from its values, so that nobody packs bytes by hand. (In librecord_c.a, as the call after it.)
 *
 * kind            one of enum toralinge_kind
 * part            1 to 3: the part of the chip that the record is for; any for SETUP, which has its own
 * values, count   SETUP: part, CRC, address, gain code, offset as a byte (0 to 255), floor. SCAN: a count for each input of
 *                 the part. TEMP: one for each five. COUNT, SENSE, OUT, WIRING (cells): one value. LOAD, LEVEL, IN: 0 or 1.
 *                 TICKS, SOAK: value and repeat number. Others: none
 * record, room    where the record goes, and how many bytes may stand there; 34 are always enough
 *
 * Returns how many bytes the record has, from record[0] on; every later byte keeps its value.
 *
 * Otherwise writes nothing and returns minus a number, looked at in this order:
 *   1         part is not 1 to 3 (for SETUP: its own is a value)
 *   2         the kind is unknown, or has another number of values
 *   1, 13, 3  a value is out of range: of SETUP, of WIRING (no row for so many cells), of another kind
 *   5         the record does not fit into room
 */
int64_t toralinge_record(uint32_t kind, uint32_t part, const int64_t *values, size_t count, uint8_t *record, size_t room);

/*
 * The record that bytes begin with, back as its kind and values: what toralinge_record wrote is read back as it was given,
 * whatever bytes follow.
 *
 * record, length  the bytes; those after the record are not looked at
 * part            of the chip that stands, 1 to 3; 0 where none does yet, and SETUP alone is taken
 * kind            where the kind goes
 * values, room    where the values go, and how many int64_t may stand there; 15 are always enough
 *
 * Returns how many values there are, writes *kind and the values from values[0] on; every later number keeps its value.
 *
 * Otherwise writes nothing and returns minus a number, looked at in this order:
 *   1         part is above 3
 *   9         the record is cut short
 *   2         the kind is unknown or wrong where it stands, or its payload has another length
 *   1, 3      a value is out of range: of SETUP, of another kind
 *   5         the values do not fit into room
 */
int64_t toralinge_values(const uint8_t *record, size_t length, uint32_t part, uint32_t *kind, int64_t *values, size_t room);

/*
 * Cell voltage in microvolts: (344 + gain_code) x count + 1,000 x offset, offset as a signed byte.
 * Exact; may be negative.
 *
 * Returns 0 and writes *microvolts, or leaves it alone and returns 1 (gain code above 31), then
 * 3 (count above 16,383).
 */
uint8_t toralinge_cell_microvolts(uint32_t gain_code, uint8_t offset, uint32_t count, int64_t *microvolts);

/*
 * Thermistor resistance in ohms: 10,000 x V / (3,300,000 - V) with V = 354 x count, rounded down.
 *
 * Returns 0 and writes *ohms, or leaves it alone and returns 7 (count 9,323 or more).
 */
uint8_t toralinge_thermistor_ohms(uint32_t count, uint64_t *ohms);

/*
 * Die temperature in half thousandths of a degree C (2,000 for each degree): 680,000 - 177 x count.
 *
 * Returns 0 and writes *half_thousandths, or leaves it alone and returns 3 (count above 16,383).
 */
uint8_t toralinge_die_temperature(uint32_t count, int64_t *half_thousandths);

/*
 * The OV_TRIP or UV_TRIP code for a wanted threshold in microvolts:
 * full = (wanted - 1,000 x offset) / (344 + gain_code), offset as a signed byte, rounded down;
 * code = (full - start of the window) / 16, rounded down.
 * The window of full is 8,192 to 12,287 for over-voltage and 4,096 to 8,191 for under-voltage.
 *
 * Returns 0 and writes *code, or leaves it alone and returns 1 (gain code above 31), then 8 (full
 * outside the window, however far: wanted may be any number).
 */
uint8_t toralinge_over_voltage_code(uint32_t gain_code, uint8_t offset, int64_t wanted, uint8_t *code);
uint8_t toralinge_under_voltage_code(uint32_t gain_code, uint8_t offset, int64_t wanted, uint8_t *code);

/* The coulomb counter in hundredths of a microvolt: reading, as a signed 16-bit number, x 844. */
int64_t toralinge_cc_hundredths(uint16_t reading);

/*
 * The bus's CRC-8 (x^8 + x^2 + x + 1, high bit first, nothing inverted) of length bytes, going on
 * from start: 0 to begin, or the CRC of what came before.
 */
uint8_t toralinge_crc8(uint8_t start, const uint8_t *bytes, size_t length);

/*
 * Turns a command list of i2ctransfer into records that toralinge_play takes. (In libi2c_lists.a.)
 *
 * line, length    one list, without the end of its line: messages wN@ADDR followed by N bytes, and
 *                 rN@ADDR; N from 1 to 64 in decimal without leading zeros, addresses and bytes as 0x
 *                 and one or two hex digits of either case, one space between words and none elsewhere
 * records, room   where the records go, and how many bytes may stand there
 *
 * Returns how many bytes the records are, from records[0] on; every later byte keeps its value. Each
 * message is START, OUT of its address byte, and an OUT or IN for each of its bytes; in a read every
 * byte is acknowledged but the last. STOP comes after the last message. No SETUP is written. Playing goes
 * on after a byte that is not acknowledged, where an adapter of Linux stops.
 *
 * Otherwise writes nothing and returns, looked at in this order: -20 (not a list of this grammar),
 * -21 (an address outside 0x08 to 0x77), -5 (the records do not fit into room). A message takes 9 bytes
 * and 5 for each of its bytes, so 329 at most, and STOP takes 4.
 */
int64_t toralinge_list(const uint8_t *line, size_t length, uint8_t *records, size_t room);

#ifdef __cplusplus
}
#endif

#endif
