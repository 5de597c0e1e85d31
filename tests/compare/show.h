/* What a person needs to see of a case and of a difference. */
#ifndef SHOW_H
#define SHOW_H

#include "both.h"

/* The first byte that differs, named; false if there is none. */
bool show_difference(struct start *a, struct start *b);

/* Lengths, map, registers with their marks. */
void show_start(struct start *s);

/*
 * Where two runs from this start part, and the instruction there: the first
 * budget, if that is among those which are tried in turn, or one further up.
 */
void show_parting(struct start *s, const struct subject *a, const struct subject *b);

#endif
