/* What the walks share: the sum over the answers, whose factor crates/walk_sum/src/lib.rt explains. */
#ifndef WALK_H
#define WALK_H

#include <inttypes.h>
#include <stdint.h>

#define LENGTH(list) (sizeof(list) / sizeof((list)[0]))

static inline uint32_t mix(uint32_t sum, uint32_t n)
{
    return sum * 1664525u + n;
}

#endif
