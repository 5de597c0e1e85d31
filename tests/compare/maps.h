/* Maps: good ones, and such that are one edit away. */
#ifndef MAPS_H
#define MAPS_H

#include "start.h"

struct region {
    uint32_t base, length, offset, rights;
};

/* The used regions of the case in hand, in the order of their addresses. */
struct map {
    uint32_t count;
    struct region region[4];
};
extern struct map map;

/* A good map for the start's memory, written into the block; a roomy one suits long programs. */
void any_map(struct start *s, bool roomy);

/* An address to look at: in a region, at its edges, just beside it, or anywhere. */
uint32_t any_address(void);

/* The place in memory of an address, or SIZE_MAX where no region has it. */
size_t place_of(uint32_t address);

/* One edit, which may leave the map good: the edge of a rule counts too. */
#define MAP_EDITS 30u
void edit_map(struct start *s, uint32_t which);

#endif
