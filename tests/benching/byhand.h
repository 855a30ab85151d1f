/* The stand-in written by hand in plain C, state in place: what the proved one is held against for speed. */
#ifndef BYHAND_H
#define BYHAND_H

#include <stddef.h>
#include <stdint.h>

int64_t byhand_play(const uint8_t *stream, size_t length, uint8_t *entries, size_t room);

#endif
