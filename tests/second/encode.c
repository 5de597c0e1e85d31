/* Instruction to halfwords, or FIELD: 01, "What comes back". */
#include "machine.h"

struct code {
    bool good;
    uint32_t count, h1, h2;
};

static bool within(int32_t value, int32_t low, int32_t high)
{
    return value >= low && value <= high;
}

/* Signed 16 bits, of which those below step are not stored. */
static bool disp16(int32_t value, int32_t step)
{
    return within(value, -32768, 32767) && value % step == 0;
}

static uint32_t fields(uint32_t high, uint32_t opcode, uint32_t low)
{
    return high << 11 | opcode << 5 | low;
}

static struct code one(bool good, uint32_t h1)
{
    struct code c = {good, 1, h1, 0};
    return c;
}

static struct code two(bool good, uint32_t h1, uint32_t h2)
{
    struct code c = {good, 2, h1, h2};
    return c;
}

/* Formats I and II: the op's number is its opcode. */
static struct code reg_reg(const struct second_insn *i)
{
    if (i->op == SECOND_OP_JMP) return one(i->reg1 <= 31, fields(0, i->op, i->reg1));
    return one(i->reg1 <= 31 && i->reg2 <= 31, fields(i->reg2, i->op, i->reg1));
}

static struct code imm5_reg(const struct second_insn *i)
{
    const bool shifts = i->op >= SECOND_OP_SHR_IMM5 && i->op <= SECOND_OP_SHL_IMM5;
    bool good = shifts ? within(i->value, 0, 31) : within(i->value, -16, 15);
    if (FAULT_IS(125)) good = within(i->value, shifts ? 0 : -16, 31); /* fault: 16 to 31 taken */
    return one(good && i->reg2 <= 31, fields(i->reg2, i->op, (uint32_t)i->value & 31u));
}

/* Format IV: bits 10-7, then the displacement without its low bits. */
static struct code short_access(const struct second_insn *i)
{
    const uint32_t disp = (uint32_t)i->value;
    const uint32_t high = i->reg2 << 11;
    const bool reg = i->reg2 <= 31, even = i->value % 2 == 0, fours = i->value % 4 == 0;
    switch (i->op) {
    case SECOND_OP_SLD_B: return one(reg && within(i->value, 0, 127), high | 0x6u << 7 | disp);
    case SECOND_OP_SST_B: return one(reg && within(i->value, 0, 127), high | 0x7u << 7 | disp);
    case SECOND_OP_SLD_H: return one(reg && even && within(i->value, 0, 254), high | 0x8u << 7 | disp / 2);
    case SECOND_OP_SST_H: return one(reg && even && within(i->value, 0, 254), high | 0x9u << 7 | disp / 2);
    case SECOND_OP_SLD_W: return one(reg && fours && within(i->value, 0, 252), high | 0xAu << 7 | disp / 2);
    default: return one(reg && fours && within(i->value, 0, 252), high | 0xAu << 7 | disp / 2 | 1u);
    }
}

/* Format III. */
static struct code branch(const struct second_insn *i)
{
    const uint32_t disp = (uint32_t)i->value & 0x1FFu;
    bool good = i->number <= 15 && within(i->value, -256, 254) && i->value % 2 == 0;
    if (FAULT_IS(126)) good = i->number <= 15 && within(i->value, -256, 255); /* fault: odd ones taken */
    return one(good, (disp >> 4) << 11 | 0xBu << 7 | ((disp >> 1) & 7u) << 4 | (i->number & 0xFu));
}

/* Format VI. */
static struct code imm16(const struct second_insn *i)
{
    const uint32_t opcode = 0x30u + (uint32_t)(i->op - SECOND_OP_ADDI);
    const bool is_unsigned = i->op == SECOND_OP_MOVHI ||
                             (i->op >= SECOND_OP_ORI && i->op <= SECOND_OP_ANDI);
    bool good = is_unsigned ? within(i->value, 0, 65535) : within(i->value, -32768, 32767);
    if (FAULT_IS(127) && i->op == SECOND_OP_MOVHI) good = within(i->value, -32768, 32767); /* fault: signed */
    return two(good && i->reg1 <= 31 && i->reg2 <= 31, fields(i->reg2, opcode, i->reg1),
               (uint32_t)i->value & 0xFFFFu);
}

/* Format VII: bit 16 tells W from H; only bit 0 is not stored. */
static struct code long_access(const struct second_insn *i)
{
    const bool stores = i->op >= SECOND_OP_ST_B;
    const uint32_t size = (uint32_t)(i->op - (stores ? SECOND_OP_ST_B : SECOND_OP_LD_B));
    const uint32_t opcode = (stores ? 0x3Au : 0x38u) + (size == 0 ? 0u : 1u);
    bool good = disp16(i->value, size == 0 ? 1 : 2);
    if (FAULT_IS(128) && size == 2) good = disp16(i->value, 4); /* fault: W asks for multiples of 4 */
    return two(good && i->reg1 <= 31 && i->reg2 <= 31, fields(i->reg2, opcode, i->reg1),
               ((uint32_t)i->value & 0xFFFFu) | (size == 2 ? 1u : 0u));
}

/* Format V. */
static struct code jump_link(const struct second_insn *i)
{
    const uint32_t disp = (uint32_t)i->value & 0x3FFFFFu;
    const bool good = within(i->value, -2097152, 2097150) && i->value % 2 == 0;
    return two(good && i->reg2 <= 31, i->reg2 << 11 | 0x1Eu << 6 | disp >> 16, disp & 0xFFFFu);
}

/* Format VIII: SET1, NOT1, CLR1, TST1 are 0 to 3 in bits 15-14. */
static struct code bit_access(const struct second_insn *i)
{
    const uint32_t which = (uint32_t)(i->op - SECOND_OP_SET1);
    return two(i->number <= 7 && i->reg1 <= 31 && disp16(i->value, 1),
               which << 14 | i->number << 11 | 0x3Eu << 5 | i->reg1,
               (uint32_t)i->value & 0xFFFFu);
}

static bool writable_system(uint32_t number)
{
    if (FAULT_IS(129) && number == 4) return true; /* fault: takes ECR */
    return number <= 5 && number != 4;
}

/* Formats IX and X: opcode 111111, the second halfword is fixed. */
static struct code extended(const struct second_insn *i)
{
    const uint32_t x = 0x3F, number = i->number, reg1 = i->reg1, reg2 = i->reg2;
    const bool reg = reg2 <= 31;
    switch (i->op) {
    case SECOND_OP_SETF: return two(reg && number <= 15, fields(reg2, x, number), 0x0000);
    case SECOND_OP_LDSR: return two(reg && writable_system(number), fields(number, x, reg2), 0x0020);
    case SECOND_OP_STSR: return two(reg && number <= 5, fields(reg2, x, number), 0x0040);
    case SECOND_OP_SHR_REG: return two(reg && reg1 <= 31, fields(reg2, x, reg1), 0x0080);
    case SECOND_OP_SAR_REG: return two(reg && reg1 <= 31, fields(reg2, x, reg1), 0x00A0);
    case SECOND_OP_SHL_REG: return two(reg && reg1 <= 31, fields(reg2, x, reg1), 0x00C0);
    case SECOND_OP_TRAP: return two(number <= 31, fields(0, x, number), 0x0100);
    case SECOND_OP_HALT: return two(true, 0x07E0, 0x0120);
    case SECOND_OP_RETI: return two(true, 0x07E0, 0x0140);
    case SECOND_OP_DI: return two(true, 0x07E0, 0x0160);
    case SECOND_OP_EI: return two(true, 0x87E0, 0x0160);
    default: return two(false, 0, 0);
    }
}

static struct code encode(const struct second_insn *i)
{
    if (i->op <= SECOND_OP_CMP_REG) return reg_reg(i);
    if (i->op <= SECOND_OP_MULH_IMM5) return imm5_reg(i);
    if (i->op <= SECOND_OP_SST_W) return short_access(i);
    if (i->op == SECOND_OP_BCOND) return branch(i);
    if (i->op <= SECOND_OP_MULHI) return imm16(i);
    if (i->op <= SECOND_OP_ST_W) return long_access(i);
    if (i->op == SECOND_OP_JARL) return jump_link(i);
    if (i->op <= SECOND_OP_TST1) return bit_access(i);
    return extended(i);
}

uint32_t second_encode(const struct second_insn *insn, uint16_t out[2], uint32_t *count)
{
    const struct code c = encode(insn);
    *count = c.good ? c.count : 0;
    if (FAULT_IS(130)) out[0] = (uint16_t)c.h1; /* fault: FIELD writes a halfword */
    if (!c.good) return SECOND_FIELD;
    out[0] = (uint16_t)c.h1;
    if (c.count == 2) out[1] = (uint16_t)c.h2;
    return SECOND_DONE;
}
