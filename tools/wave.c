/*
 * A run as waves, in the format VCD that GTKWave and PulseView read: `wave [FILE]`; `./wave` builds and runs it. It has one-bit signals
 * alone: ALERT, CHG, DSG, each bit of SYS_STAT, REFUSED, and SCL and SDA as they move inside frames, from a START to the STOP after it.
 *
 * Time is the order of records, not the chip's: record N has the STEP microseconds from STEP x N on. SCL and SDA move inside them, and
 * the last of them shows what all other signals are after the record.
 */
#include <stdio.h>
#include "turns.h"

enum { STEP = 32, BIT = 3, SIGNALS = PINS + BITS + 3, REFUSED = PINS + BITS, SCL, SDA };

struct wave {
    int levels[SIGNALS];         /* what was written last */
    unsigned long long written;  /* the time that was written last */
    int framed;                  /* a START came, and no STOP since */
};

static const char *signal_name(int signal)
{
    static const char *const others[] = {"REFUSED", "SCL", "SDA"};
    if (signal < PINS) {
        return pins_of_entry[signal].name;
    }
    return signal < REFUSED ? bits_of_sys_stat[signal - PINS].name : others[signal - REFUSED];
}

static void begin(struct wave *wave)
{
    int signal;
    printf("$version Toralinge " TORALINGE_VERSION " $end\n");
    printf("$comment record N has the time from %d x N us on: the order of records, not the chip's time $end\n", STEP);
    printf("$timescale 1 us $end\n$scope module chip $end\n");
    for (signal = 0; signal < SIGNALS; signal++) {
        printf("$var wire 1 %c %s $end\n", '!' + signal, signal_name(signal));
    }
    printf("$upscope $end\n$enddefinitions $end\n#0\n$dumpvars\n");
    for (signal = 0; signal < SIGNALS; signal++) {
        wave->levels[signal] = signal == SCL || signal == SDA;
        printf("%d%c\n", wave->levels[signal], '!' + signal);
    }
    printf("$end\n");
}

static void put(struct wave *wave, unsigned long long time, int signal, int level)
{
    if (wave->levels[signal] == level) {
        return;
    }
    if (wave->written != time) {
        printf("#%llu\n", time);
        wave->written = time;
    }
    printf("%d%c\n", level, '!' + signal);
    wave->levels[signal] = level;
}

/* SDA falls while SCL is up, after both were brought up where a frame stands. SCL stays up until the first byte. */
static void put_start(struct wave *wave, unsigned long long time)
{
    put(wave, time, SDA, 1);
    put(wave, time + 1, SCL, 1);
    put(wave, time + 2, SDA, 0);
    wave->framed = 1;
}

/* SDA rises while SCL is up. */
static void put_stop(struct wave *wave, unsigned long long time)
{
    put(wave, time, SDA, 0);
    put(wave, time + 1, SCL, 1);
    put(wave, time + 2, SDA, 1);
    wave->framed = 0;
}

/* The high bit first, then 0 for an acknowledgement or 1 for none. */
static void put_byte(struct wave *wave, unsigned long long time, unsigned byte, unsigned unacknowledged)
{
    unsigned nine = 2 * byte + unacknowledged;
    int bit;
    put(wave, time++, SCL, 0);
    for (bit = 8; bit >= 0; bit--, time += BIT) {
        put(wave, time, SDA, nine >> bit & 1);
        put(wave, time + 1, SCL, 1);
        put(wave, time + 2, SCL, 0);
    }
}

static void put_bus(struct wave *wave, const struct turn *turn, unsigned long long time)
{
    unsigned answer = turn->entry[TORALINGE_ENTRY_BUS_BYTE];
    if (turn_kind(turn) == TORALINGE_KIND_START) {
        put_start(wave, time);
    } else if (!wave->framed) {
        return;
    } else if (turn_kind(turn) == TORALINGE_KIND_STOP) {
        put_stop(wave, time);
    } else if (turn_kind(turn) == TORALINGE_KIND_OUT) {
        put_byte(wave, time, turn->bytes[TURN_HEADER], answer);
    } else if (turn_kind(turn) == TORALINGE_KIND_IN) {
        put_byte(wave, time, answer, turn->bytes[TURN_HEADER]);
    }
}

static void put_record(struct wave *wave, const struct turn *turn)
{
    unsigned long long time = (turn->count - 1) * STEP;
    int refused = turn->entry[TORALINGE_ENTRY_NUMBER] != TORALINGE_DONE, at;
    if (!refused) {
        put_bus(wave, turn, time + 1);
    }
    for (at = 0; at < PINS; at++) {
        put(wave, time + STEP - 1, at, (turn->entry[TORALINGE_ENTRY_PINS] & pins_of_entry[at].weight) != 0);
    }
    for (at = 0; at < BITS; at++) {
        put(wave, time + STEP - 1, PINS + at, (turn->entry[TORALINGE_ENTRY_SYS_STAT] & bits_of_sys_stat[at].weight) != 0);
    }
    put(wave, time + STEP - 1, REFUSED, refused);
}

int main(int count, char **words)
{
    static struct turn turn;
    static struct wave wave;
    if (!turn_open(&turn, count > 1 ? words[1] : NULL)) {
        fprintf(stderr, "wave: not a file that can be read: %s\n", words[1]);
        return 2;
    }
    begin(&wave);
    while (turn_next(&turn)) {
        put_record(&wave, &turn);
    }
    printf("#%llu\n", turn.count * STEP);
    if (fflush(stdout) != 0) {
        return 1;
    }
    return turn_end(&turn, "wave");
}
