/* Copies bytes and sums their words: the least that writing a font takes, beside which cuts are timed. */
#ifndef COPY_AND_SUM_H
#define COPY_AND_SUM_H

#include "../tests/lib/files.h"

/* Fills the room with `size` bytes of the font, from its front on and over again, and returns the sum of their
   big-endian 32-bit words, the last one filled with zeros. The room has four more bytes for that. */
static uint32_t copy_and_sum(unsigned char *room, size_t size, const unsigned char *font, size_t length)
{
    for (size_t at = 0; at < size; at += length)
        memcpy(room + at, font, size - at < length ? size - at : length);
    memset(room + size, 0, 4);
    return sum_of(room, size);
}

#endif
