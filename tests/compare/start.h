/*
 * Where a case starts: the four buffers in one piece of memory, with gaps
 * around them. The gaps are compared too, so that a write beside a buffer
 * shows, and they have odd lengths, so that every alignment is met.
 */
#ifndef START_H
#define START_H

#include <stdbool.h>
#include <stddef.h>
#include <stdint.h>

#include "v850.h"

enum buffer { BLOCK, MEMORY, MARKS, REPORT, BUFFERS };

#define LONGEST_MEMORY (V850_MEMORY_MAX + 64u)
#define ROOM (2u * LONGEST_MEMORY + 2048u)

struct start {
    size_t at[BUFFERS], length[BUFFERS], total;
    uint32_t budget;
    uint8_t bytes[ROOM];
};

/* Throws the gaps and fills everything with dice, but for the marks, which are 0. */
void start_lay_out(struct start *s, const size_t length[BUFFERS]);
void start_copy(struct start *to, const struct start *from);

/* The same start but for one length; what is common stays. */
void start_resize(struct start *s, enum buffer which, size_t length);

static inline uint8_t *in(struct start *s, enum buffer which)
{
    return s->bytes + s->at[which];
}

static inline uint32_t get_word(const uint8_t *at)
{
    return (uint32_t)at[0] | (uint32_t)at[1] << 8 | (uint32_t)at[2] << 16 | (uint32_t)at[3] << 24;
}

static inline void put_word(uint8_t *at, uint32_t word)
{
    for (unsigned k = 0; k < 4; k++) at[k] = (uint8_t)(word >> (8u * k));
}

/* Words and bytes of the block. */
static inline uint32_t word_of(struct start *s, size_t at)
{
    return get_word(in(s, BLOCK) + at);
}

static inline void set_word(struct start *s, size_t at, uint32_t word)
{
    put_word(in(s, BLOCK) + at, word);
}

static inline void set_byte(struct start *s, size_t at, uint32_t byte)
{
    in(s, BLOCK)[at] = (uint8_t)byte;
}

#endif
