/* The two programs that are compared, called alike. */
#ifndef BOTH_H
#define BOTH_H

#include "second.h"
#include "start.h"

struct subject {
    const char *name;
    uint32_t (*run)(uint8_t *, size_t, uint8_t *, size_t, uint8_t *, size_t, uint8_t *, size_t, uint32_t);
    uint32_t (*reset)(uint8_t *, size_t);
};

static inline uint32_t run_on(const struct subject *p, struct start *s, uint32_t budget)
{
    return p->run(in(s, BLOCK), s->length[BLOCK], in(s, MEMORY), s->length[MEMORY], in(s, MARKS), s->length[MARKS],
                  in(s, REPORT), s->length[REPORT], budget);
}

static inline uint32_t reset_on(const struct subject *p, struct start *s)
{
    return p->reset(in(s, BLOCK), s->length[BLOCK]);
}

#endif
