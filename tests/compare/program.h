/* A start for hundreds of steps: code in every fetchable region, and registers that fit it. */
#ifndef PROGRAM_H
#define PROGRAM_H

#include "start.h"

/* After map and state. */
void any_program(struct start *s);

#endif
