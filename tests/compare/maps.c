/*
 * Good maps. The regions form a chain in the addresses, with or without gaps,
 * that is then turned to a place: at 0, up to 2^24, around 2^24 (so that code
 * may run from FFFFFEH to 0), or anywhere. In the memory they lie in another
 * order, at offsets of any alignment.
 */
#include "maps.h"

#include <string.h>

#include "dice.h"

#define TOP 0x1000000u

struct map map;

static void swap(uint32_t *a, uint32_t *b)
{
    const uint32_t c = *a;
    *a = *b;
    *b = c;
}

static void shuffle(uint32_t list[4], uint32_t count)
{
    for (uint32_t k = 0; k < count; k++) list[k] = k;
    for (uint32_t k = count; k > 1; k--) swap(&list[k - 1], &list[dice(k)]);
}

/* A length for each, in sum no more than the memory; a roomy map has shares of about the same length. */
static uint32_t throw_lengths(uint32_t memory, bool roomy)
{
    uint32_t words = memory / 4, sum = 0;
    map.count = 1 + dice(4);
    if (map.count > words) map.count = words;
    for (uint32_t k = 0; k < map.count; k++) {
        const uint32_t left = map.count - 1 - k, fair = words / (left + 1), most = words - left;
        uint32_t length = one_in(3) ? fair : 1 + dice(one_in(4) ? most : fair);
        if (roomy) length = fair - dice(fair / 4 + 1);
        map.region[k].length = 4 * length;
        words -= length;
        sum += 4 * length;
    }
    return sum;
}

/* What is left of the memory lies before, between and behind the regions. */
static void throw_offsets(uint32_t slack)
{
    uint32_t order[4], at = 0;
    shuffle(order, map.count);
    for (uint32_t k = 0; k < map.count; k++) {
        uint32_t gap = 0;
        if (k + 1 == map.count && one_in(4)) gap = slack; /* up to the very end */
        else if (one_in(2)) gap = dice((slack > 7 && !one_in(4) ? 7 : slack) + 1);
        slack -= gap;
        at += gap;
        map.region[order[k]].offset = at;
        at += map.region[order[k]].length;
    }
}

static void throw_bases(void)
{
    uint32_t at = 0, turn = 0, end_of = 0;
    for (uint32_t k = 0; k < map.count; k++) {
        if (k > 0 && one_in(3)) at += 4 * (1 + dice(one_in(2) ? 4 : 4000));
        map.region[k].base = at;
        at += map.region[k].length;
    }
    if (map.count == 0) return;
    end_of = dice(map.count);
    switch (dice(5)) {
    case 0:
    case 1: turn = 0; break;
    case 2: turn = TOP - at; break;
    case 3: turn = TOP - (map.region[end_of].base + map.region[end_of].length); break;
    default: turn = 4 * dice((TOP - at) / 4); break;
    }
    for (uint32_t k = 0; k < map.count; k++) map.region[k].base = (map.region[k].base + turn) % TOP;
}

/* A roomy map nearly always has something to fetch. */
static void throw_rights(bool roomy)
{
    const uint32_t style = roomy && !one_in(8) ? 1 + dice(3) : dice(4);
    const uint32_t code = map.count > 0 ? dice(map.count) : 0;
    for (uint32_t k = 0; k < map.count; k++) {
        map.region[k].rights = style == 0 ? dice(8) : one_in(2) ? 7 : one_in(2) ? 3 : dice(8);
        if (style == 1) map.region[k].rights = 7;
        if (style == 2) map.region[k].rights |= V850_RIGHT_FETCH;
    }
    if (style != 0 && map.count > 0) map.region[code].rights |= V850_RIGHT_FETCH;
}

static void put_region(struct start *s, uint32_t slot, const struct region *g)
{
    uint8_t *at = in(s, BLOCK) + V850_AT_REGION(slot);
    put_word(at + V850_REGION_BASE, g->base);
    put_word(at + V850_REGION_LENGTH, g->length);
    put_word(at + V850_REGION_OFFSET, g->offset);
    put_word(at + V850_REGION_RIGHTS, g->rights);
}

void any_map(struct start *s, bool roomy)
{
    const uint32_t memory = (uint32_t)s->length[MEMORY];
    uint32_t slot[4];
    memset(in(s, BLOCK) + V850_AT_REGION(0), 0, 64);
    memset(&map, 0, sizeof map);
    throw_offsets(memory - throw_lengths(memory, roomy));
    throw_bases();
    throw_rights(roomy);
    shuffle(slot, 4);
    for (uint32_t k = 0; k < map.count; k++) put_region(s, slot[k], &map.region[k]);
}

uint32_t any_address(void)
{
    if (map.count == 0 || one_in(32)) return dice(TOP);
    const struct region *g = &map.region[dice(map.count)];
    const uint32_t near = dice(4);
    switch (dice(8)) {
    case 0: return g->base + near;
    case 1: return g->base + g->length - 1 - near;
    case 2: return (g->base + g->length + near) % TOP;
    case 3: return one_in(2) ? (g->base - 1 - near) % TOP : g->base + dice(g->length);
    default: return g->base + dice(g->length);
    }
}

size_t place_of(uint32_t address)
{
    for (uint32_t k = 0; k < map.count; k++) {
        const struct region *g = &map.region[k];
        if (address >= g->base && address - g->base < g->length) return g->offset + (address - g->base);
    }
    return SIZE_MAX;
}
