/* The rules of docs/CHIP.md in plain C: one chip, changed in place. Nothing here is proved. */
#include "byhand.h"

#include <stdbool.h>
#include <string.h>

enum { CC_READY = 128, XREADY = 32, OVRD = 16, UV = 8, OV = 4, SCD = 2, OCD = 1 };
enum { ADC_EN = 16, SHUT_A = 2, SHUT_B = 1 };
enum { DELAY_DIS = 128, CC_EN = 64, ONESHOT = 32, DSG = 2, CHG = 1 };
enum { STAT = 0, BALANCE = 1, CTRL1 = 4, CTRL2, PROTECT1, PROTECT2, PROTECT3, OV_TRIP, UV_TRIP, CC_CFG };
enum { CELLS = 0x0C, BAT = 0x2A, TS = 0x2C, CC = 0x32, GAIN1 = 0x50, OFFSET, GAIN2 = 0x59 };

enum phase { IDLE, ADDRESS, POINTING, WRITING, CHECKING, READING, SUMMING };

struct chip {
    uint8_t part, address, gain, offset;
    bool crc, awake, load, outside, kept;
    uint16_t floor;
    enum phase phase;
    uint8_t pointer, sum, value, low;
    uint16_t ov, uv, scd, ocd;
    uint8_t reg[256];
};

static const uint32_t scd_limit[2][8] = {
    {18500, 29000, 39000, 49000, 59000, 69500, 79500, 91000},
    {37000, 59000, 78500, 98000, 119000, 139000, 159000, 181500},
};
static const uint32_t ocd_limit[2][16] = {
    {9500, 11500, 14500, 17500, 19500, 22500, 25000, 28000, 31500, 33000, 36500, 40500, 42000, 44500, 46000, 48000},
    {18500, 22500, 28500, 34500, 38500, 44500, 49500, 56500, 62500, 65000, 72500, 80500, 83500, 88500, 90500, 94000},
};
static const uint8_t ov_scans[4] = {4, 8, 16, 32};
static const uint8_t uv_scans[4] = {4, 16, 32, 64};
static const uint8_t scd_ticks[4] = {3, 4, 7, 13};
static const uint16_t ocd_ticks[8] = {256, 640, 1280, 2560, 5120, 10240, 20480, 40960};

static const uint8_t crc_table[256] = {
    0x00, 0x07, 0x0E, 0x09, 0x1C, 0x1B, 0x12, 0x15, 0x38, 0x3F, 0x36, 0x31, 0x24, 0x23, 0x2A, 0x2D,
    0x70, 0x77, 0x7E, 0x79, 0x6C, 0x6B, 0x62, 0x65, 0x48, 0x4F, 0x46, 0x41, 0x54, 0x53, 0x5A, 0x5D,
    0xE0, 0xE7, 0xEE, 0xE9, 0xFC, 0xFB, 0xF2, 0xF5, 0xD8, 0xDF, 0xD6, 0xD1, 0xC4, 0xC3, 0xCA, 0xCD,
    0x90, 0x97, 0x9E, 0x99, 0x8C, 0x8B, 0x82, 0x85, 0xA8, 0xAF, 0xA6, 0xA1, 0xB4, 0xB3, 0xBA, 0xBD,
    0xC7, 0xC0, 0xC9, 0xCE, 0xDB, 0xDC, 0xD5, 0xD2, 0xFF, 0xF8, 0xF1, 0xF6, 0xE3, 0xE4, 0xED, 0xEA,
    0xB7, 0xB0, 0xB9, 0xBE, 0xAB, 0xAC, 0xA5, 0xA2, 0x8F, 0x88, 0x81, 0x86, 0x93, 0x94, 0x9D, 0x9A,
    0x27, 0x20, 0x29, 0x2E, 0x3B, 0x3C, 0x35, 0x32, 0x1F, 0x18, 0x11, 0x16, 0x03, 0x04, 0x0D, 0x0A,
    0x57, 0x50, 0x59, 0x5E, 0x4B, 0x4C, 0x45, 0x42, 0x6F, 0x68, 0x61, 0x66, 0x73, 0x74, 0x7D, 0x7A,
    0x89, 0x8E, 0x87, 0x80, 0x95, 0x92, 0x9B, 0x9C, 0xB1, 0xB6, 0xBF, 0xB8, 0xAD, 0xAA, 0xA3, 0xA4,
    0xF9, 0xFE, 0xF7, 0xF0, 0xE5, 0xE2, 0xEB, 0xEC, 0xC1, 0xC6, 0xCF, 0xC8, 0xDD, 0xDA, 0xD3, 0xD4,
    0x69, 0x6E, 0x67, 0x60, 0x75, 0x72, 0x7B, 0x7C, 0x51, 0x56, 0x5F, 0x58, 0x4D, 0x4A, 0x43, 0x44,
    0x19, 0x1E, 0x17, 0x10, 0x05, 0x02, 0x0B, 0x0C, 0x21, 0x26, 0x2F, 0x28, 0x3D, 0x3A, 0x33, 0x34,
    0x4E, 0x49, 0x40, 0x47, 0x52, 0x55, 0x5C, 0x5B, 0x76, 0x71, 0x78, 0x7F, 0x6A, 0x6D, 0x64, 0x63,
    0x3E, 0x39, 0x30, 0x37, 0x22, 0x25, 0x2C, 0x2B, 0x06, 0x01, 0x08, 0x0F, 0x1A, 0x1D, 0x14, 0x13,
    0xAE, 0xA9, 0xA0, 0xA7, 0xB2, 0xB5, 0xBC, 0xBB, 0x96, 0x91, 0x98, 0x9F, 0x8A, 0x8D, 0x84, 0x83,
    0xDE, 0xD9, 0xD0, 0xD7, 0xC2, 0xC5, 0xCC, 0xCB, 0xE6, 0xE1, 0xE8, 0xEF, 0xFA, 0xFD, 0xF4, 0xF3,
};

static uint8_t crc_byte(uint8_t crc, uint8_t byte)
{
    return crc_table[crc ^ byte];
}

static uint16_t get16(const uint8_t *b)
{
    return (uint16_t)(b[0] | b[1] << 8);
}

static int32_t get32(const uint8_t *b)
{
    return (int32_t)((uint32_t)get16(b) | (uint32_t)get16(b + 2) << 16);
}

static void put_word(struct chip *c, unsigned at, uint16_t word)
{
    c->reg[at] = (uint8_t)(word >> 8);
    c->reg[at + 1] = (uint8_t)word;
}

static void enter_ship(struct chip *c)
{
    memset(c->reg, 0, sizeof c->reg);
    c->reg[CTRL1] = ADC_EN;
    c->reg[OV_TRIP] = 0xAC;
    c->reg[UV_TRIP] = 0x97;
    c->reg[CC_CFG] = 0x17;
    c->reg[GAIN1] = (uint8_t)(c->gain >> 3 << 2);
    c->reg[OFFSET] = c->offset;
    c->reg[GAIN2] = (uint8_t)((c->gain & 7) << 5);
    c->ov = c->uv = c->scd = c->ocd = 0;
    c->awake = c->load = c->outside = c->kept = false;
    c->phase = IDLE;
    c->pointer = 0;
}

static void raise(struct chip *c, uint8_t faults)
{
    c->reg[STAT] |= faults;
    if (faults & (OV | OVRD | XREADY))
        c->reg[CTRL2] &= (uint8_t)~CHG;
    if (faults & (UV | OCD | SCD | OVRD | XREADY))
        c->reg[CTRL2] &= (uint8_t)~DSG;
}

/* The outside level: only a clearing write and its own record can find it at 1 and SYS_STAT at 0. */
static void look_outside(struct chip *c)
{
    if (c->outside && c->reg[STAT] == 0)
        raise(c, OVRD);
}

/* A run after one more verdict, and whether it is long enough. */
static bool longer(uint16_t *run, bool verdict, uint16_t need, uint16_t longest)
{
    if (!verdict)
        *run = 0;
    else if (*run < longest)
        ++*run;
    return *run >= need;
}

static void scan(struct chip *c, const uint8_t *counts)
{
    if (!(c->reg[CTRL1] & ADC_EN)) {
        c->ov = c->uv = 0;
        return;
    }
    unsigned over_line = 8200 + 16u * c->reg[OV_TRIP];
    unsigned under_line = 4096 + 16u * c->reg[UV_TRIP];
    unsigned inputs = 5u * c->part, sum = 0;
    bool over = false, under = false;
    for (unsigned i = 0; i < inputs; i++) {
        uint16_t count = get16(counts + 2 * i);
        put_word(c, CELLS + 2 * i, count);
        sum += count;
        over |= count > over_line;
        under |= count >= c->floor && count < under_line;
    }
    put_word(c, BAT, (uint16_t)(sum / 4));
    bool hasty = c->reg[CTRL2] & DELAY_DIS;
    uint8_t faults = 0;
    if (longer(&c->ov, over, hasty ? 1 : ov_scans[c->reg[PROTECT3] >> 4 & 3], 32))
        faults |= OV;
    if (longer(&c->uv, under, hasty ? 1 : uv_scans[c->reg[PROTECT3] >> 6], 64))
        faults |= UV;
    if (faults)
        raise(c, faults);
}

static void sense(struct chip *c, int32_t value)
{
    unsigned range = c->reg[PROTECT1] >> 7;
    bool short_circuit = -value > (int32_t)scd_limit[range][c->reg[PROTECT1] & 7];
    bool overload = -value > (int32_t)ocd_limit[range][c->reg[PROTECT2] & 15];
    bool hasty = c->reg[CTRL2] & DELAY_DIS;
    uint8_t faults = 0;
    if (longer(&c->scd, short_circuit, hasty ? 1 : scd_ticks[c->reg[PROTECT1] >> 3 & 3], 13))
        faults |= SCD;
    if (longer(&c->ocd, overload, hasty ? 1 : ocd_ticks[c->reg[PROTECT2] >> 4], 40960))
        faults |= OCD;
    if (faults)
        raise(c, faults);
}

/* An accepted write of SYS_CTRL1; true where it ships. */
static bool write_ctrl1(struct chip *c, uint8_t value)
{
    uint8_t pair = value & (SHUT_A | SHUT_B);
    bool held = c->reg[CTRL1] & SHUT_B;
    if (held && pair == SHUT_A) {
        enter_ship(c);
        return true;
    }
    c->reg[CTRL1] = (uint8_t)((value & 0x18) | (!held && pair == SHUT_B ? SHUT_B : 0));
    return false;
}

static void write_ctrl2(struct chip *c, uint8_t value)
{
    uint8_t stat = c->reg[STAT], keep = DELAY_DIS | CC_EN;
    if (!(stat & (OV | OVRD | XREADY)))
        keep |= CHG;
    if (!(stat & (UV | OCD | SCD | OVRD | XREADY)))
        keep |= DSG;
    if (!(value & CC_EN) && !(stat & CC_READY))
        keep |= ONESHOT;
    c->reg[CTRL2] = value & keep;
}

/* An accepted data byte. */
static void store(struct chip *c, uint8_t value)
{
    switch (c->pointer) {
    case STAT:
        c->reg[STAT] &= (uint8_t)~value;
        look_outside(c);
        break;
    case BALANCE:
    case BALANCE + 1:
    case BALANCE + 2:
        if (c->pointer <= c->part)
            c->reg[c->pointer] = value & 0x1F;
        break;
    case CTRL1:
        if (write_ctrl1(c, value))
            return;
        break;
    case CTRL2:
        write_ctrl2(c, value);
        break;
    case PROTECT1:
        c->reg[PROTECT1] = value & 0x9F;
        break;
    case PROTECT2:
        c->reg[PROTECT2] = value & 0x7F;
        break;
    case PROTECT3:
        c->reg[PROTECT3] = value & 0xF0;
        break;
    case OV_TRIP:
    case UV_TRIP:
        c->reg[c->pointer] = value;
        break;
    case CC_CFG:
        c->reg[CC_CFG] = value & 0x3F;
        break;
    }
    c->pointer++;
    c->phase = WRITING;
    c->sum = 0;
}

/* OUT: 0 acknowledged, 1 not. */
static uint8_t bus_out(struct chip *c, uint8_t byte)
{
    switch (c->phase) {
    case ADDRESS:
        if (byte >> 1 != c->address)
            break;
        c->sum = crc_byte(0, byte);
        c->kept = false;
        c->phase = byte & 1 ? READING : POINTING;
        return 0;
    case POINTING:
        c->pointer = byte;
        c->sum = crc_byte(c->sum, byte);
        c->phase = WRITING;
        return 0;
    case WRITING:
        if (!c->crc) {
            store(c, byte);
            return 0;
        }
        c->value = byte;
        c->sum = crc_byte(c->sum, byte);
        c->phase = CHECKING;
        return 0;
    case CHECKING:
        if (byte != c->sum)
            break;
        store(c, c->value);
        return 0;
    default:
        break;
    }
    c->phase = IDLE;
    return 1;
}

static uint8_t reads(const struct chip *c, uint8_t at)
{
    uint8_t byte = c->reg[at];
    if (at == CTRL1 && c->load && !(c->reg[CTRL2] & CHG))
        byte |= 0x80;
    return byte;
}

/* IN: the byte given. */
static uint8_t bus_in(struct chip *c, bool nack)
{
    uint8_t byte;
    if (c->phase == READING) {
        byte = c->kept ? c->low : reads(c, c->pointer);
        c->kept = c->pointer % 2 == 0 && c->pointer >= CELLS && c->pointer <= CC;
        if (c->kept)
            c->low = c->reg[c->pointer + 1];
        c->pointer++;
        c->sum = crc_byte(c->sum, byte);
        if (c->crc)
            c->phase = SUMMING;
        else
            c->sum = 0;
    } else if (c->phase == SUMMING) {
        byte = c->sum;
        c->sum = 0;
        c->phase = READING;
    } else {
        return 0xFF;
    }
    if (nack)
        c->phase = IDLE;
    return byte;
}

static uint8_t set_up(struct chip *c, const uint8_t *b, unsigned size)
{
    if (size != 7)
        return 2;
    if (b[0] < 1 || b[0] > 3 || b[1] > 1 || b[2] < 0x08 || b[2] > 0x77 || b[3] > 31 || get16(b + 5) > 4095)
        return 1;
    c->part = b[0];
    c->crc = b[1];
    c->address = b[2];
    c->gain = b[3];
    c->offset = b[4];
    c->floor = get16(b + 5);
    enter_ship(c);
    return 0;
}

static bool all_counts(const uint8_t *b, unsigned size)
{
    for (unsigned i = 0; i < size; i += 2)
        if (get16(b + i) > 16383)
            return false;
    return true;
}

/* One record after SETUP: its number, and for an OUT or IN the flag and the byte. */
static uint8_t step(struct chip *c, unsigned kind, const uint8_t *b, unsigned size, uint8_t *flag, uint8_t *byte)
{
    switch (kind) {
    case 0x01:
        if (size != 0)
            return 2;
        enter_ship(c);
        return 0;
    case 0x02:
        if (size != 0)
            return 2;
        c->awake = true;
        return 0;
    case 0x03:
        if (size != 10u * c->part)
            return 2;
        if (!all_counts(b, size))
            return 3;
        if (!c->awake)
            return 4;
        scan(c, b);
        return 0;
    case 0x04:
        if (size != 2u * c->part)
            return 2;
        if (!all_counts(b, size))
            return 3;
        if (!c->awake)
            return 4;
        if (c->reg[CTRL1] & ADC_EN)
            for (unsigned i = 0; i < c->part; i++)
                put_word(c, TS + 2 * i, get16(b + 2 * i));
        return 0;
    case 0x05:
        if (size != 2)
            return 2;
        if (!c->awake)
            return 4;
        if (c->reg[CTRL2] & (CC_EN | ONESHOT)) {
            put_word(c, CC, get16(b));
            c->reg[STAT] |= CC_READY;
            c->reg[CTRL2] &= (uint8_t)~ONESHOT;
        }
        return 0;
    case 0x06:
        if (size != 4)
            return 2;
        if (get32(b) > 500000 || get32(b) < -500000)
            return 3;
        if (!c->awake)
            return 4;
        sense(c, get32(b));
        return 0;
    case 0x07:
        if (size != 0)
            return 2;
        if (!c->awake)
            return 4;
        if (c->reg[STAT] == 0)
            raise(c, OVRD);
        return 0;
    case 0x08:
    case 0x15:
        if (size != 1)
            return 2;
        if (b[0] > 1)
            return 3;
        if (!c->awake)
            return 4;
        if (kind == 0x08) {
            c->load = b[0];
        } else {
            c->outside = b[0];
            look_outside(c);
        }
        return 0;
    case 0x09:
        if (size != 0)
            return 2;
        if (!c->awake)
            return 4;
        raise(c, XREADY);
        memset(c->reg + BALANCE, 0, 3);
        return 0;
    case 0x10:
        if (size != 0)
            return 2;
        if (c->awake)
            c->phase = ADDRESS;
        return 0;
    case 0x11:
        if (size != 1)
            return 2;
        *flag = 1;
        *byte = c->awake ? bus_out(c, b[0]) : 1;
        return 0;
    case 0x12:
        if (size != 1)
            return 2;
        if (b[0] > 1)
            return 3;
        *flag = 1;
        *byte = c->awake ? bus_in(c, b[0]) : 0xFF;
        return 0;
    case 0x13:
        if (size != 0)
            return 2;
        if (c->awake)
            c->phase = IDLE;
        return 0;
    default:
        return 2;
    }
}

static void note(uint8_t *entry, const struct chip *c, uint8_t number, uint8_t flag, uint8_t byte)
{
    entry[0] = number;
    entry[1] = flag;
    entry[2] = byte;
    entry[3] = c->reg[STAT];
    entry[4] = (uint8_t)((c->reg[STAT] ? 4 : 0) | (c->reg[CTRL2] & CHG ? 2 : 0) | (c->reg[CTRL2] & DSG ? 1 : 0));
}

/* How many entries a stream has, by its framing and its first record. */
static size_t count(const uint8_t *s, size_t length)
{
    struct chip c;
    size_t at = 0, n = 0;
    while (at < length) {
        n++;
        if (length - at < 4 || length - at - 4 < get16(s + at))
            break;
        if (n == 1 && (get16(s + 2) != 0 || set_up(&c, s + 4, get16(s)) != 0))
            break;
        at += 4u + get16(s + at);
    }
    return n;
}

int64_t byhand_play(const uint8_t *s, size_t length, uint8_t *entries, size_t room)
{
    struct chip c;
    size_t n = count(s, length), at = 0;
    if (room / 5 < n)
        return -5;
    memset(&c, 0, sizeof c);
    for (size_t i = 0; i < n; i++) {
        uint8_t number, flag = 0, byte = 0;
        if (length - at < 4 || length - at - 4 < get16(s + at)) {
            note(entries + 5 * i, &c, 9, 0, 0);
            break;
        }
        unsigned size = get16(s + at), kind = get16(s + at + 2);
        if (c.part != 0)
            number = step(&c, kind, s + at + 4, size, &flag, &byte);
        else
            number = kind == 0 ? set_up(&c, s + at + 4, size) : 2;
        note(entries + 5 * i, &c, number, flag, byte);
        at += 4 + size;
    }
    return (int64_t)n;
}
