/* One step: an instruction or two halfwords at PC, operands at corners, addresses at edges. */
#include "single.h"

#include "dice.h"
#include "insn.h"
#include "maps.h"
#include "state.h"

/* Mostly in a fetchable region, and there often at an edge. */
static uint32_t any_pc(void)
{
    uint32_t pc = 0;
    for (int tries = 0; tries < 4; tries++) {
        pc = any_address() & 0xFFFFFE;
        for (uint32_t k = 0; k < map.count; k++) {
            const struct region *g = &map.region[k];
            if (g->rights & V850_RIGHT_FETCH && pc >= g->base && pc - g->base < g->length) return pc;
        }
    }
    return pc;
}

static void set_register(struct start *s, uint32_t n, uint32_t value)
{
    if (n != 0) set_word(s, V850_AT_R(n), value);
}

/* Two operands at the ends of their range at once, as 80000000H by -1. */
static void meet(struct start *s, const struct second_insn *i)
{
    static const uint32_t end[] = {0, 1, 0xFFFFFFFF, 0x7FFFFFFF, 0x80000000, 0x8000, 0x7FFF, 0xFFFF8000};
    set_register(s, i->reg1, ONE_OF(end));
    set_register(s, i->reg2, ONE_OF(end));
}

/* The base register is made to fit, so that the operand's address is worth looking at. */
static void aim(struct start *s, const struct second_insn *i)
{
    const uint32_t high = (uint32_t)dice_bits() & 0xFF000000;
    uint32_t value = any_address();
    if (is_access(i->op)) value -= (uint32_t)i->value;
    else if (i->op != SECOND_OP_JMP) {
        if (one_in(4)) meet(s, i);
        return;
    }
    value = (value & 0xFFFFFF) | (one_in(2) ? high : value & 0xFF000000);
    set_register(s, base_of(i), value);
}

/* Marks of the code itself end the step at once, so they are mostly taken away. */
static void mark(struct start *s, uint32_t pc)
{
    any_marks(s, 0xFFFFFFFE, dice(4));
    mark_memory(s, 0, s->length[MARKS] > 4096 ? 4096 : s->length[MARKS], dice(4));
    for (uint32_t k = 0; k < 4; k++) {
        const size_t at = place_of((pc + k) & 0xFFFFFF);
        if (at != SIZE_MAX && !one_in(64)) in(s, MARKS)[at] = 0;
    }
}

/* Some have more to get wrong than others. */
static enum second_op any_op(void)
{
    static const enum second_op more[] = {SECOND_OP_DIVH, SECOND_OP_JMP,  SECOND_OP_BCOND, SECOND_OP_SETF,
                                          SECOND_OP_LDSR, SECOND_OP_STSR, SECOND_OP_TRAP,  SECOND_OP_RETI};
    return one_in(4) ? ONE_OF(more) : (enum second_op)dice(SECOND_OP_COUNT);
}

void single_instruction(struct start *s)
{
    const uint32_t pc = any_pc();
    const struct second_insn i = any_insn(any_op(), 1);
    set_word(s, V850_AT_PC, pc);
    aim(s, &i);
    (void)poke_insn(s, pc, &i);
    mark(s, pc);
}

void single_words(struct start *s, uint16_t first, uint16_t second)
{
    const uint32_t pc = any_pc();
    const struct second_decoded d = second_decode(first, second);
    set_word(s, V850_AT_PC, pc);
    if (d.kind == SECOND_IS_INSTRUCTION) aim(s, &d.insn);
    poke(s, pc, first);
    poke(s, pc + 2, second);
    mark(s, pc);
}

static uint16_t one_bit_beside(uint16_t word)
{
    return (uint16_t)(word ^ 1u << dice(16));
}

uint16_t any_second(void)
{
    static const uint16_t listed[] = {0x0000, 0x0020, 0x0040, 0x0080, 0x00A0, 0x00C0, 0x0100, 0x0120, 0x0140, 0x0160};
    const uint16_t any = (uint16_t)dice(0x10000);
    switch (dice(8)) {
    case 0:
    case 1:
    case 2: return ONE_OF(listed);
    case 3:
    case 4: return one_bit_beside(ONE_OF(listed));
    case 5: return (uint16_t)(32 * dice(32));
    case 6: return any & 0x07E0;
    default: return any;
    }
}
