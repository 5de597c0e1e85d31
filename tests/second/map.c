/* MAP of 01, "What comes back": the sums are exact, so 64 bits wide. */
#include "machine.h"

static bool used(const struct region *g)
{
    return g->length != 0;
}

static bool region_good(const struct region *g, size_t memory_len)
{
    uint64_t end = (uint64_t)g->base + g->length;
    const uint64_t offset_end = (uint64_t)g->offset + g->length;
    if (FAULT_IS(14) && !used(g)) return true; /* fault: unused fields not tested */
    if (!used(g)) return g->base == 0 && g->offset == 0 && g->rights == 0;
    if (FAULT_IS(15)) end &= UINT32_MAX; /* fault: sum in 32 bits */
    if (FAULT_IS(16) && g->rights == 0) return false; /* fault: no rights is bad */
    if (FAULT_IS(17) && g->offset % 4 != 0) return false; /* fault: aligned offsets */
    if (FAULT_IS(18) && end == 0x1000000u) return false; /* fault: 2^24 is too much */
    if (g->base % 4 != 0 || g->length % 4 != 0) return false;
    return end <= 0x1000000u && offset_end <= memory_len &&
           (g->rights <= 7 || FAULT_IS(19)); /* fault: rights not tested */
}

/* Touching is not overlapping. */
static bool apart(uint64_t a, uint64_t a_len, uint64_t b, uint64_t b_len)
{
    if (FAULT_IS(20)) return a + a_len < b || b + b_len < a; /* fault: touching is overlapping */
    return a + a_len <= b || b + b_len <= a;
}

static bool regions_apart(const struct region *a, const struct region *b)
{
    if (!used(a) || !used(b)) return true;
    return apart(a->base, a->length, b->base, b->length) &&
           (apart(a->offset, a->length, b->offset, b->length) ||
            FAULT_IS(21)); /* fault: offsets may overlap */
}

bool second_map_good(const struct region region[4], size_t memory_len)
{
    for (int k = 0; k < 4; k++) {
        if (!region_good(&region[k], memory_len)) return false;
        for (int j = 0; j < k; j++)
            if (!regions_apart(&region[j], &region[k])) return false;
    }
    return true;
}
