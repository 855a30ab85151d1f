/*
 * A host in a closed loop with a chip that stays: it enables both drives over the bus, scans a pack whose third cell is charged until OV
 * rises, clears it, and reads the cells. Build and run it with
 *   ./library && gcc -Iinclude examples/closed-loop.c target/libtoralinge.a -o closed-loop && ./closed-loop
 */
#include <inttypes.h>
#include <stdio.h>
#include <stdlib.h>
#include <string.h>
#include "toralinge.h"

#define CELLS 5

static uint8_t chip[TORALINGE_CHIP_SIZE]; /* zeroed: no chip yet */

/* One record to the chip; its entry back. */
static const uint8_t *send(unsigned kind, const uint8_t *payload, size_t size)
{
    static uint8_t entry[TORALINGE_ENTRY_SIZE];
    uint8_t record[64] = {(uint8_t)size, 0, (uint8_t)kind, 0};
    memcpy(record + 4, payload, size);
    if (toralinge_feed(chip, sizeof chip, record, 4 + size, entry, sizeof entry) != 1 ||
        entry[TORALINGE_ENTRY_NUMBER] != TORALINGE_DONE) {
        fprintf(stderr, "closed-loop: the chip refuses record kind %04X\n", kind);
        exit(1);
    }
    return entry;
}

static void write_register(uint8_t address, uint8_t value)
{
    const uint8_t bytes[3] = {0x08 * 2, address, value};
    size_t at;
    send(TORALINGE_KIND_START, bytes, 0);
    for (at = 0; at < sizeof bytes; at++) {
        send(TORALINGE_KIND_OUT, bytes + at, 1);
    }
    send(TORALINGE_KIND_STOP, bytes, 0);
}

static void show(const char *when)
{
    uint8_t status = 0, drives = 0;
    toralinge_register(chip, sizeof chip, TORALINGE_REG_SYS_STAT, &status);
    toralinge_register(chip, sizeof chip, TORALINGE_REG_SYS_CTRL2, &drives);
    printf("%s: SYS_STAT %02X, charge %s, discharge %s\n", when, status, drives & TORALINGE_CTRL2_CHG_ON ? "on" : "off",
           drives & TORALINGE_CTRL2_DSG_ON ? "on" : "off");
}

int main(void)
{
    /* Part 1, no CRC, address 0x08, gain code 10, offset 30, floor 1,000. */
    static const uint8_t setup[7] = {1, 0, 0x08, 10, 30, 0xE8, 3};
    uint16_t counts[CELLS] = {10400, 10410, 10600, 10420, 10430};
    uint8_t payload[2 * CELLS], status = 0;
    uint32_t cell;
    int scans = 0;
    send(TORALINGE_KIND_SETUP, setup, sizeof setup);
    send(TORALINGE_KIND_BOOT, setup, 0);
    write_register(TORALINGE_REG_SYS_CTRL2, TORALINGE_CTRL2_CHG_ON | TORALINGE_CTRL2_DSG_ON);
    show("enabled");
    while (!(status & TORALINGE_STAT_OV)) {
        for (cell = 0; cell < CELLS; cell++) {
            payload[2 * cell] = (uint8_t)(counts[cell] & 0xFF);
            payload[2 * cell + 1] = (uint8_t)(counts[cell] >> 8);
        }
        status = send(TORALINGE_KIND_SCAN, payload, sizeof payload)[TORALINGE_ENTRY_SYS_STAT];
        scans++;
        counts[2] += 100; /* the third cell takes charge */
    }
    printf("over-voltage after %d scans\n", scans);
    show("risen");
    write_register(TORALINGE_REG_SYS_STAT, TORALINGE_STAT_OV);
    show("cleared");
    for (cell = 1; cell <= CELLS; cell++) {
        int64_t microvolts = 0;
        if (toralinge_voltage(chip, sizeof chip, cell, &microvolts) == TORALINGE_DONE) {
            printf("cell %" PRIu32 ": %" PRId64 " microvolts\n", cell, microvolts);
        }
    }
    return 0;
}
