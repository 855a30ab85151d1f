/* Buffers between guard bytes, so that a byte written outside of what was lent, or kept back, is seen. */
#ifndef GUARD_H
#define GUARD_H

#include <stdint.h>
#include <stdio.h>
#include <stdlib.h>
#include <string.h>

#define GUARD_WIDTH 64
#define GUARD_BYTE 0xA5

struct guarded {
    uint8_t *whole;
    uint8_t *room;
    size_t size;
};

static inline struct guarded guarded_new(size_t size)
{
    struct guarded made;
    made.whole = malloc(size + 2 * GUARD_WIDTH);
    if (made.whole == NULL) {
        fprintf(stderr, "out of memory\n");
        exit(2);
    }
    memset(made.whole, GUARD_BYTE, size + 2 * GUARD_WIDTH);
    made.room = made.whole + GUARD_WIDTH;
    made.size = size;
    return made;
}

/* True where every byte but the first `written` of the room is as it was made. */
static inline int guarded_kept(const struct guarded *buffer, size_t written)
{
    size_t at;
    for (at = 0; at < GUARD_WIDTH; at++) {
        if (buffer->whole[at] != GUARD_BYTE) {
            return 0;
        }
    }
    for (at = GUARD_WIDTH + written; at < buffer->size + 2 * GUARD_WIDTH; at++) {
        if (buffer->whole[at] != GUARD_BYTE) {
            return 0;
        }
    }
    return 1;
}

static inline void guarded_free(struct guarded *buffer)
{
    free(buffer->whole);
}

#endif
