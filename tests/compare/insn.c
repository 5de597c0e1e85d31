/* Instructions with fields in their ranges, written into the memory through the map. */
#include "insn.h"

#include "dice.h"
#include "maps.h"

uint32_t any_register(enum role role, uint32_t wild)
{
    static const uint8_t pointer[] = {20, 21, 22, 23, 24, 25, 30}, code[] = {26, 27, 28, 29, 31};
    if (one_in(wild)) return dice(32);
    switch (role) {
    case CLEAN: return 16 + dice(4);
    case POINTER: return ONE_OF(pointer);
    case CODE: return ONE_OF(code);
    default: return one_in(16) ? 0 : 1 + dice(15);
    }
}

/* 000's formats; an instruction without a value has the range of 0 alone. */
struct range range_of(enum second_op op)
{
    static const struct range none = {0, 0, 1}, imm5 = {-16, 15, 1}, shift = {0, 31, 1},
                              disp7 = {0, 127, 1}, disp8h = {0, 254, 2}, disp8w = {0, 252, 4},
                              disp9 = {-256, 254, 2}, disp22 = {-2097152, 2097150, 2},
                              imm16 = {-32768, 32767, 1}, logical = {0, 65535, 1}, even16 = {-32768, 32766, 2};
    switch (op) {
    case SECOND_OP_MOV_IMM5:
    case SECOND_OP_SATADD_IMM5:
    case SECOND_OP_ADD_IMM5:
    case SECOND_OP_CMP_IMM5:
    case SECOND_OP_MULH_IMM5: return imm5;
    case SECOND_OP_SHR_IMM5:
    case SECOND_OP_SAR_IMM5:
    case SECOND_OP_SHL_IMM5: return shift;
    case SECOND_OP_SLD_B:
    case SECOND_OP_SST_B: return disp7;
    case SECOND_OP_SLD_H:
    case SECOND_OP_SST_H: return disp8h;
    case SECOND_OP_SLD_W:
    case SECOND_OP_SST_W: return disp8w;
    case SECOND_OP_BCOND: return disp9;
    case SECOND_OP_JARL: return disp22;
    case SECOND_OP_ADDI:
    case SECOND_OP_MOVEA:
    case SECOND_OP_SATSUBI:
    case SECOND_OP_MULHI:
    case SECOND_OP_LD_B:
    case SECOND_OP_ST_B:
    case SECOND_OP_SET1:
    case SECOND_OP_NOT1:
    case SECOND_OP_CLR1:
    case SECOND_OP_TST1: return imm16;
    case SECOND_OP_MOVHI:
    case SECOND_OP_ORI:
    case SECOND_OP_XORI:
    case SECOND_OP_ANDI: return logical;
    case SECOND_OP_LD_H:
    case SECOND_OP_LD_W:
    case SECOND_OP_ST_H:
    case SECOND_OP_ST_W: return even16;
    default: return none;
    }
}

/* The ends, what lies around 0 and around the middle, or anything. */
static int32_t any_in(struct range r)
{
    const int32_t middle = (r.low + r.high) / 2 / r.step * r.step;
    switch (dice(12)) {
    case 0: return r.low;
    case 1: return r.high;
    case 2: return 0;
    case 3: return r.step <= r.high ? r.step : 0;
    case 4: return r.low < 0 ? -r.step : r.low;
    case 5: return middle;
    case 6: return middle + r.step <= r.high ? middle + r.step : middle;
    default: return r.low + r.step * (int32_t)dice((uint32_t)((r.high - r.low) / r.step + 1));
    }
}

static uint32_t any_number(enum second_op op)
{
    static const uint8_t writable[] = {0, 1, 2, 3, 5};
    switch (op) {
    case SECOND_OP_BCOND:
    case SECOND_OP_SETF: return dice(16);
    case SECOND_OP_LDSR: return ONE_OF(writable);
    case SECOND_OP_STSR: return dice(6);
    case SECOND_OP_TRAP: return dice(32);
    default: return dice(8); /* bit instructions; no other has a number */
    }
}

/* What LDSR may load without spoiling the program: a PC from code, PSW from clean. */
static enum role ldsr_source(uint32_t number)
{
    if (number == 0 || number == 2) return CODE;
    return number == 5 ? CLEAN : DATA;
}

struct second_insn any_insn(enum second_op op, uint32_t wild)
{
    struct second_insn i = {op, 0, 0, 0, 0};
    i.value = any_in(range_of(op));
    i.number = any_number(op);
    i.reg1 = any_register(op == SECOND_OP_JMP ? CODE : is_access(op) ? POINTER : one_in(4) ? CLEAN : DATA, wild);
    i.reg2 = any_register(op == SECOND_OP_LDSR ? ldsr_source(i.number) : DATA, wild);
    if (op == SECOND_OP_JARL && !one_in(wild)) i.reg2 = one_in(2) ? 31 : 0;
    if (one_in(12) && !is_access(op) && op != SECOND_OP_JMP && op != SECOND_OP_LDSR) i.reg1 = i.reg2;
    return i;
}

bool is_access(enum second_op op)
{
    return (op >= SECOND_OP_SLD_B && op <= SECOND_OP_SST_W) || (op >= SECOND_OP_LD_B && op <= SECOND_OP_ST_W) ||
           (op >= SECOND_OP_SET1 && op <= SECOND_OP_TST1);
}

uint32_t base_of(const struct second_insn *insn)
{
    return insn->op >= SECOND_OP_SLD_B && insn->op <= SECOND_OP_SST_W ? 30 : insn->reg1;
}

void poke(struct start *s, uint32_t address, uint16_t half)
{
    const size_t at = place_of(address & 0xFFFFFF);
    if (at == SIZE_MAX) return;
    in(s, MEMORY)[at] = (uint8_t)half;
    in(s, MEMORY)[at + 1] = (uint8_t)(half >> 8);
}

uint32_t poke_insn(struct start *s, uint32_t address, const struct second_insn *insn)
{
    uint16_t half[2] = {0, 0};
    uint32_t count = 0;
    (void)second_encode(insn, half, &count);
    for (uint32_t k = 0; k < count; k++) poke(s, address + 2 * k, half[k]);
    return 2 * count;
}
