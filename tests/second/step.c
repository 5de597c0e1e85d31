/* The order of one step: 01, "Order". */
#include "memory.h"

/* NOFETCH at the halfword's address, then LEAK. */
static uint32_t fetch(struct machine *m, uint32_t address,
                      enum second_leak cause, uint16_t *half)
{
    const struct region *g = find(m, address, 2, RIGHT_FETCH);
    if (FAULT_IS(99) && g == NULL) g = find(m, address, 2, 0); /* fault: LEAK before NOFETCH */
    if (g == NULL) return refuse(m, SECOND_NOFETCH, address);
    const size_t at = offset_in(g, address);
    *half = (uint16_t)(m->memory[at] | m->memory[at + 1] << 8);
    if (byte_mark(m, at) || byte_mark(m, at + 1)) return leak(m, cause);
    if (FAULT_IS(99) && !(g->rights & RIGHT_FETCH)) return refuse(m, SECOND_NOFETCH, address);
    return SECOND_DONE;
}

/* PC = FFFFFEH has its second halfword at 000000H. */
static uint32_t behind_first(const struct machine *m)
{
    if (FAULT_IS(100)) return m->pc + 2; /* fault: sought at 1000000H */
    return (m->pc + 2) & ADDRESS_MASK;
}

/* The second halfword may lie in another region than the first. */
static uint32_t fetch_second(struct machine *m, uint16_t first, uint16_t *second)
{
    const uint32_t address = behind_first(m);
    const uint32_t answer = fetch(m, address, SECOND_LEAK_SECOND, second);
    if (FAULT_IS(101) && answer == SECOND_DONE &&
        find(m, m->pc, 2, RIGHT_FETCH) != find(m, address, 2, RIGHT_FETCH))
        return refuse(m, SECOND_NOFETCH, address); /* fault: two regions are refused */
    if (FAULT_IS(102) && answer == SECOND_LEAK) m->place = address; /* fault: LEAK's place */
    if (FAULT_IS(103) && answer == SECOND_NOFETCH) m->place = m->pc; /* fault: NOFETCH's place */
    if (FAULT_IS(104) && answer == SECOND_LEAK &&
        second_decode(first, *second).kind == SECOND_IS_UNDEFINED)
        return refuse(m, SECOND_UNDEFINED, m->pc); /* fault: UNDEFINED before LEAK */
    return answer;
}

static uint32_t perform(struct machine *m, const struct second_decoded *d)
{
    uint32_t next = (m->pc + 2 * d->halfwords) & ADDRESS_MASK;
    if (FAULT_IS(105)) next = m->pc + 2 * d->halfwords; /* fault: carry kept */
    if (d->kind == SECOND_IS_INSTRUCTION) return second_execute(m, &d->insn, next);
    if (d->kind == SECOND_IS_UNDEFINED) return refuse(m, SECOND_UNDEFINED, m->pc);
    if (FAULT_IS(106)) next = m->pc; /* fault: saves the code's own address */
    second_exception(m, next, 0x60);
    if (second_stats != NULL) second_stats->illegal++;
    return SECOND_DONE;
}

/* A 2-byte code never looks behind itself. */
static uint32_t instruction(struct machine *m)
{
    uint16_t first = 0, second = 0;
    uint32_t answer = fetch(m, m->pc, SECOND_LEAK_FIRST, &first);
    if (FAULT_IS(107) && answer == SECOND_LEAK && find(m, behind_first(m), 2, RIGHT_FETCH) == NULL)
        return refuse(m, SECOND_NOFETCH, behind_first(m)); /* fault: second NOFETCH before first LEAK */
    if (answer != SECOND_DONE) return answer;
    if (second_needs_second(first) || FAULT_IS(108)) { /* fault: always fetches four bytes */
        answer = fetch_second(m, first, &second);
        if (answer != SECOND_DONE) return answer;
    }
    const struct second_decoded d = second_decode(first, second);
    return perform(m, &d);
}

/* An NMI before a maskable code; accepting is a step of its own. */
uint32_t second_step(struct machine *m)
{
    if (FAULT_IS(109) && maskable_acceptable(m)) return second_accept_maskable(m); /* fault: maskable first */
    if (FAULT_IS(110) && nmi_acceptable(m)) (void)second_accept_nmi(m); /* fault: goes on in the same step */
    if (nmi_acceptable(m)) return second_accept_nmi(m);
    if (maskable_acceptable(m)) return second_accept_maskable(m);
    if (m->halted) return refuse(m, SECOND_ASLEEP, 0);
    return instruction(m);
}
