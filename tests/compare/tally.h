/* What was met; a comparison that never met something has shown nothing about it. */
#ifndef TALLY_H
#define TALLY_H

#include "cases.h"
#include "second.h"

struct tally {
    uint64_t cases[KINDS];
    uint64_t answer[KINDS][11];
    uint64_t map_edit[64][11], state_edit[64][11]; /* by answer too */
    uint64_t steps, program_steps, longest, pairs;
    bool word[0x10000];
    uint64_t words; /* different first halfwords */
    uint64_t at_top, no_budget, no_memory, full_memory, odd_marks;
    struct second_stats stats;
};
extern struct tally tally;

/* The start of a case, and how it ended. */
void tally_start(struct start *s, struct tried tried);
void tally_end(struct tried tried, uint32_t answer, uint32_t steps);

void tally_print(void);

/* Prints what was never met; true if everything was. */
bool tally_complete(void);

#endif
