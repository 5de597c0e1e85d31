/* The block in front of the map: good states, and such that are one edit away; marks. */
#ifndef STATE_H
#define STATE_H

#include "start.h"

/* A word for a register: a corner, a small number, an address, or anything. */
uint32_t any_value(void);

/* A good state without marks; PC somewhere in a region. */
void any_state(struct start *s);

/* Requests and halt more often than any_state throws them. */
void any_requests(struct start *s);

/*
 * Marks over registers (those of the mask), flags, saved registers and memory
 * bytes. Density 0 is none, 1 a few, 2 about a quarter, 3 nearly all.
 */
void any_marks(struct start *s, uint32_t registers, uint32_t density);
void mark_memory(struct start *s, size_t from, size_t length, uint32_t density);

/* One edit of the state, which may leave it good. */
#define STATE_EDITS 34u
void edit_state(struct start *s, uint32_t which);

#endif
