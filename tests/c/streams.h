/* Streams of records put together by hand. */
#ifndef STREAMS_H
#define STREAMS_H

#include <stddef.h>
#include <stdint.h>
#include <string.h>

enum kind {
    SETUP = 0x00, POR, BOOT, SCAN, TEMP, COUNT, SENSE, PIN, LOAD, XREADY,
    START = 0x10, OUT, IN, STOP, TICKS, LEVEL, WIRES, SOAK
};

struct stream {
    uint8_t bytes[4096];
    size_t length;
};

static inline void add(struct stream *to, unsigned kind, const uint8_t *payload, size_t size)
{
    uint8_t *at = to->bytes + to->length;
    at[0] = (uint8_t)(size & 0xFF);
    at[1] = (uint8_t)(size >> 8);
    at[2] = (uint8_t)(kind & 0xFF);
    at[3] = (uint8_t)(kind >> 8);
    if (size > 0) {
        memcpy(at + 4, payload, size);
    }
    to->length += 4 + size;
}

static inline void add_bare(struct stream *to, unsigned kind)
{
    add(to, kind, NULL, 0);
}

static inline void add_byte(struct stream *to, unsigned kind, uint8_t byte)
{
    add(to, kind, &byte, 1);
}

/* SETUP: no CRC, address 0x08, gain code 10, offset 30, floor 1,000. */
static inline struct stream asleep(uint8_t part)
{
    uint8_t payload[7] = {1, 0, 0x08, 0x0A, 0x1E, 0xE8, 0x03};
    struct stream made;
    payload[0] = part;
    made.length = 0;
    add(&made, SETUP, payload, sizeof payload);
    return made;
}

/* Numbers of two bytes each. */
static inline void add_words(struct stream *to, unsigned kind, const uint16_t *words, size_t many)
{
    uint8_t payload[30];
    size_t at;
    for (at = 0; at < many; at++) {
        payload[2 * at] = (uint8_t)(words[at] & 0xFF);
        payload[2 * at + 1] = (uint8_t)(words[at] >> 8);
    }
    add(to, kind, payload, 2 * many);
}

/* A scan of five inputs. */
static inline void add_five(struct stream *to, uint16_t a, uint16_t b, uint16_t c, uint16_t d, uint16_t e)
{
    uint16_t words[5];
    words[0] = a;
    words[1] = b;
    words[2] = c;
    words[3] = d;
    words[4] = e;
    add_words(to, SCAN, words, 5);
}

/* A register written over the bus. */
static inline void add_write(struct stream *to, uint8_t at, uint8_t value)
{
    add_bare(to, START);
    add_byte(to, OUT, 0x10);
    add_byte(to, OUT, at);
    add_byte(to, OUT, value);
    add_bare(to, STOP);
}

#endif
