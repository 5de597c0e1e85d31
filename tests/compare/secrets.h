/* Demand 3 seen from outside: what is marked must not show in what is not. */
#ifndef SECRETS_H
#define SECRETS_H

#include "start.h"

/*
 * Throws every marked value anew: registers, flags, saved PSW bits, saved PCs,
 * memory bytes. False where nothing is marked, or a length is wrong.
 */
bool other_secrets(struct start *s);

/* What shows and differs after two runs, or NULL: PC, marks, requests, map, unmarked values, report. */
const char *shown(struct start *a, struct start *b);

#endif
