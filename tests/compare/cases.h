/* Cases by number: what each tries, and its start. */
#ifndef CASES_H
#define CASES_H

#include "start.h"

enum kind {
    SIZES,    /* one or two wrong lengths, or the longest good one */
    MAPS,     /* a map one edit away from good */
    STATES,   /* a state one edit away from good */
    SEVERAL,  /* several things wrong at once: which answer comes first? */
    RESETS,   /* reset, and a run after it */
    REQUESTS, /* halt, NMI and code pending, all PSW bits */
    RAW,      /* every first halfword in turn */
    EXTENDED, /* opcode 111111 with second halfwords that nearly mean something */
    SINGLE,   /* one instruction with corner operands */
    PROGRAM,  /* hundreds of steps */
    KINDS
};

const char *kind_name(enum kind kind);

/* What the case tried: for MAPS and STATES the edit, for RAW the first halfword. */
struct tried {
    enum kind kind;
    uint32_t edit;
    uint16_t word;
};

struct tried make_case(struct start *s, uint64_t seed, uint64_t number);

#endif
