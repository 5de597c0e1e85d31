/* Where an address lies in the lent memory. */
#ifndef MEMORY_H
#define MEMORY_H

#include "machine.h"

/*
 * The region in which the size bytes from address lie and that has the right,
 * or NULL. Regions are multiples of 4 and operands are aligned, so an operand
 * lies wholly in one region or in none. Unused regions have length 0.
 */
static inline const struct region *find(const struct machine *m,
                                        uint32_t address, uint32_t size,
                                        uint32_t right)
{
    for (uint32_t k = 0; k < 4; k++) {
        const struct region *g = &m->region[k];
        const uint32_t in = address - g->base; /* wraps if address < base */
        if (in < g->length && g->length - in >= size && (g->rights & right) == right)
            return g;
    }
    return NULL;
}

static inline size_t offset_in(const struct region *g, uint32_t address)
{
    return (size_t)g->offset + (address - g->base);
}

/* A nonzero byte means marked. */
static inline uint32_t byte_mark(const struct machine *m, size_t at)
{
    if (FAULT_IS(13)) return m->marks[at] & 1u; /* fault: only bit 0 counts */
    return m->marks[at] != 0;
}

#endif
