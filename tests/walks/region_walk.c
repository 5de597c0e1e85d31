/*
 * Six good maps, each with every word changed to sixteen values: a line for each word with the number of regions that were handed
 * out, over all blocks, memories and region numbers, and the sum over their lengths and places. crates/region_walk does the same
 * with the proved view.
 */
#include <stdio.h>
#include <string.h>

#include "second.h"
#include "walk.h"

#define MAP 172u

static const char *const fields[] = {"base", "length", "offset", "rights"};

/* Base, length, offset, rights of each region. */
static const uint32_t maps[6][4][4] = {
    /* touching in addresses and offsets, in 64 bytes */
    {{0, 16, 0, 7}, {16, 16, 16, 5}, {32, 16, 32, 3}, {48, 16, 48, 0}},
    /* up to the last address and the last byte; at address 0, with odd offsets; one unused */
    {{0x1000000 - 16, 16, 65536 - 16, 4}, {0, 4, 1, 1}, {4, 65504, 5, 2}, {0, 0, 0, 0}},
    /* all of the largest memory, up to the last address */
    {{0, 0, 0, 0}, {0, 0, 0, 0}, {0x1000000 - 65536, 65536, 0, 7}, {0, 0, 0, 0}},
    /* four bytes */
    {{0, 0, 0, 0}, {0, 0, 0, 0}, {0, 0, 0, 0}, {0, 4, 0, 6}},
    /* offsets in the other order than addresses, with room around them */
    {{0x800000, 8, 12, 1}, {0, 0, 0, 0}, {0, 0, 0, 0}, {0x400000, 24, 40, 2}},
    /* nothing */
    {{0, 0, 0, 0}, {0, 0, 0, 0}, {0, 0, 0, 0}, {0, 0, 0, 0}}};

/* What is added to a word, and then what it is replaced by. */
static const int32_t added[] = {0, 1, 2, 4, 8, 16, -1, -2, -4, -16};
static const uint32_t put[] = {0, 8, 0x1000000 - 16, 0x1000000, UINT32_C(1) << 31, UINT32_MAX - 15};

static const uint8_t fills[] = {0x00, 0xFF}; /* a good state, and a bad one */
static const size_t block_lengths[] = {235, 236, 237};
static const size_t memory_lengths[] = {0, 4, 64, 68, 65535, 65536, 65537};
static const uint32_t numbers[] = {0, 1, 2, 3, 4, UINT32_MAX};

static uint8_t block[237], memory[65538];

/* Halfword m of the memory is m, so any four bytes tell where they stand. */
static void fill_memory(void)
{
    for (size_t m = 0; 2 * m < sizeof memory; m++) {
        memory[2 * m] = (uint8_t)m;
        memory[2 * m + 1] = (uint8_t)(m >> 8);
    }
}

static void put_word(uint8_t *at, uint32_t word)
{
    for (unsigned k = 0; k < 4; k++) at[k] = (uint8_t)(word >> (8 * k));
}

static void fill_block(const uint32_t words[16], uint8_t fill)
{
    memset(block, fill, sizeof block);
    for (size_t w = 0; w < 16; w++) put_word(block + MAP + 4 * w, words[w]);
}

struct seen {
    uint32_t parts, sum;
};

static void note(struct seen *s, struct second_part part)
{
    s->sum = mix(s->sum, (uint32_t)part.length);
    if (part.length == 0) return;
    s->parts++;
    for (size_t k = 0; k < 4; k++) s->sum = mix(s->sum, memory[part.offset + k]);
    for (size_t k = 4; k > 0; k--) s->sum = mix(s->sum, memory[part.offset + part.length - k]);
}

static void view(struct seen *s)
{
    for (size_t b = 0; b < LENGTH(block_lengths); b++)
        for (size_t m = 0; m < LENGTH(memory_lengths); m++)
            for (size_t k = 0; k < LENGTH(numbers); k++)
                note(s, second_region(block, block_lengths[b], memory_lengths[m], numbers[k]));
}

/* Word w of a map, changed in every way. */
static struct seen walk(const uint32_t map[4][4], size_t w)
{
    struct seen s = {0, 0};
    uint32_t words[16];
    memcpy(words, map, sizeof words);
    for (size_t v = 0; v < LENGTH(added) + LENGTH(put); v++) {
        words[w] = v < LENGTH(added) ? map[w / 4][w % 4] + (uint32_t)added[v] : put[v - LENGTH(added)];
        for (size_t f = 0; f < LENGTH(fills); f++) {
            fill_block(words, fills[f]);
            view(&s);
        }
    }
    return s;
}

int main(void)
{
    fill_memory();
    for (size_t n = 0; n < LENGTH(maps); n++)
        for (size_t w = 0; w < 16; w++) {
            const struct seen s = walk(maps[n], w);
            printf("map %zu region %zu %s: %" PRIu32 " %08" PRIx32 "\n", n, w / 4, fields[w % 4], s.parts, s.sum);
        }
    return 0;
}
