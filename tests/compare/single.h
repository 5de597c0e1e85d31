/* A start for one step: one instruction, or any two halfwords, with all that they read. */
#ifndef SINGLE_H
#define SINGLE_H

#include "start.h"

/* After map and state. */
void single_instruction(struct start *s);
void single_words(struct start *s, uint16_t first, uint16_t second);

/* A second halfword that means something, or nearly so, behind any first one. */
uint16_t any_second(void);

#endif
