/*
 * The dice: one stream for each case, so that any case can be thrown again by
 * itself. SplitMix64: short, the same on every machine, good from any seed.
 *
 * C leaves it to the compiler which of two operands, arguments or initializers
 * it works out first. So no expression throws in two of them: each throw gets
 * a name of its own, in the order in which they are to fall.
 */
#ifndef DICE_H
#define DICE_H

#include <stdbool.h>
#include <stdint.h>

extern uint64_t dice_state;

static inline uint64_t dice_mixed(uint64_t x)
{
    x = (x ^ (x >> 30)) * 0xBF58476D1CE4E5B9u;
    x = (x ^ (x >> 27)) * 0x94D049BB133111EBu;
    return x ^ (x >> 31);
}

static inline void dice_start(uint64_t seed, uint64_t number)
{
    dice_state = dice_mixed(dice_mixed(seed) + number);
}

/* 64 of them. */
static inline uint64_t dice_bits(void)
{
    dice_state += 0x9E3779B97F4A7C15u;
    return dice_mixed(dice_state);
}

/* 0 to sides - 1; sides is not 0. */
static inline uint32_t dice(uint32_t sides)
{
    return (uint32_t)((dice_bits() >> 32) * sides >> 32);
}

static inline bool one_in(uint32_t sides)
{
    return dice(sides) == 0;
}

/* One element of an array. */
#define ONE_OF(list) ((list)[dice((uint32_t)(sizeof(list) / sizeof((list)[0])))])

#endif
