/* Halfwords to instruction: 01, "Words of the instruction set". */
#include "alu.h"

/* Second halfwords of opcode 111111, taken exactly. */
enum {
    EXT_SETF = 0x0000, EXT_LDSR = 0x0020, EXT_STSR = 0x0040, EXT_SHR = 0x0080,
    EXT_SAR = 0x00A0, EXT_SHL = 0x00C0, EXT_TRAP = 0x0100, EXT_HALT = 0x0120,
    EXT_RETI = 0x0140, EXT_DI_EI = 0x0160
};

static uint32_t high_field(uint32_t h1) { return h1 >> 11; }       /* bits 15-11 */
static uint32_t opcode_of(uint32_t h1) { return (h1 >> 5) & 0x3Fu; } /* bits 10-5 */
static uint32_t low_field(uint32_t h1) { return h1 & 0x1Fu; }      /* bits 4-0 */

static struct second_decoded make(uint32_t halfwords, uint32_t op, uint32_t reg1,
                                  uint32_t reg2, int32_t value, uint32_t number)
{
    struct second_decoded d = {SECOND_IS_INSTRUCTION, halfwords,
                               {(enum second_op)op, reg1, reg2, value, number}};
    return d;
}

static struct second_decoded no_instruction(enum second_kind kind, uint32_t halfwords)
{
    struct second_decoded d = {kind, halfwords, {SECOND_OP_MOV_REG, 0, 0, 0, 0}};
    return d;
}

static struct second_decoded undefined(uint32_t halfwords)
{
    return no_instruction(SECOND_IS_UNDEFINED, halfwords);
}

/* 000000-001111; JMP needs its reg2 field 0. */
static struct second_decoded reg_reg(uint32_t h1)
{
    const uint32_t op = opcode_of(h1);
    if (op != SECOND_OP_JMP) return make(1, op, low_field(h1), high_field(h1), 0, 0);
    if (high_field(h1) != 0 && !FAULT_IS(111)) return undefined(1); /* fault: any reg2 field */
    return make(1, op, low_field(h1), 0, 0, 0);
}

/* 010000-010111; shift amounts are unsigned, the others signed. */
static struct second_decoded imm5_reg(uint32_t h1)
{
    const uint32_t op = opcode_of(h1), field = low_field(h1);
    const bool shifts = op >= SECOND_OP_SHR_IMM5 && op <= SECOND_OP_SHL_IMM5;
    int32_t value = shifts ? (int32_t)field : sign_extend(field, 5);
    if (FAULT_IS(112)) value = (int32_t)field; /* fault: imm5 without its sign */
    return make(1, op, 0, high_field(h1), value, 0);
}

/* 0110-1010 in bits 10-7; unsigned displacements, low bits not stored. */
static struct second_decoded short_access(uint32_t h1)
{
    const uint32_t kind = (h1 >> 7) & 0xFu;
    uint32_t op = SECOND_OP_SLD_B + (kind - 6u);
    uint32_t disp = h1 & 0x7Fu;
    if (kind >= 8) disp *= 2;
    if (kind == 10) {
        op = (h1 & 1u) ? SECOND_OP_SST_W : SECOND_OP_SLD_W;
        disp &= 0xFCu;
    }
    if (FAULT_IS(113) && kind == 6) return make(1, op, 0, high_field(h1), sign_extend(disp, 7), 0); /* fault: signed */
    return make(1, op, 0, high_field(h1), (int32_t)disp, 0);
}

/* 1011: disp bits 8-4 in 15-11, 3-1 in 6-4, condition in 3-0. */
static struct second_decoded branch(uint32_t h1)
{
    const uint32_t disp = high_field(h1) << 4 | ((h1 >> 4) & 7u) << 1;
    if (FAULT_IS(114)) return make(1, SECOND_OP_BCOND, 0, 0, (int32_t)disp, h1 & 0xFu); /* fault: no sign */
    return make(1, SECOND_OP_BCOND, 0, 0, sign_extend(disp, 9), h1 & 0xFu);
}

/* 110000-110111; MOVHI and the logical ones are unsigned. */
static struct second_decoded imm16(uint32_t h1, uint32_t h2)
{
    const uint32_t op = SECOND_OP_ADDI + (opcode_of(h1) - 0x30u);
    const bool logical = op >= SECOND_OP_ORI && op <= SECOND_OP_ANDI;
    bool is_unsigned = logical || op == SECOND_OP_MOVHI;
    if (FAULT_IS(115) && logical) is_unsigned = false; /* fault: logical ones signed */
    if (FAULT_IS(116) && !logical) is_unsigned = false; /* fault: MOVHI signed */
    return make(2, op, low_field(h1), high_field(h1),
                is_unsigned ? (int32_t)h2 : sign_extend(h2, 16), 0);
}

/* 111000-111011; in H and W bit 16 selects and counts as 0. */
static struct second_decoded long_access(uint32_t h1, uint32_t h2)
{
    const uint32_t opcode = opcode_of(h1);
    const bool stores = opcode >= 0x3A, bytes = (opcode & 1u) == 0;
    uint32_t op = stores ? SECOND_OP_ST_B : SECOND_OP_LD_B;
    uint32_t disp = h2;
    if (!bytes) {
        op += 1u + (h2 & 1u); /* H or W */
        disp &= 0xFFFEu;
        if (FAULT_IS(117) && (h2 & 1u)) disp &= 0xFFFCu; /* fault: words lose bit 1 */
    }
    return make(2, op, low_field(h1), high_field(h1), sign_extend(disp, 16), 0);
}

/* 11110 in bits 10-6; bit 16 must be 0. */
static struct second_decoded jump_link(uint32_t h1, uint32_t h2)
{
    const uint32_t disp = (h1 & 0x3Fu) << 16 | (h2 & 0xFFFEu);
    if ((h2 & 1u) && !FAULT_IS(118)) return undefined(2); /* fault: bit 16 not looked at */
    return make(2, SECOND_OP_JARL, 0, high_field(h1), sign_extend(disp, 22), 0);
}

/* 111110: bits 15-14 select, 13-11 are the bit number. */
static struct second_decoded bit_access(uint32_t h1, uint32_t h2)
{
    static const enum second_op ops[4] = {SECOND_OP_SET1, SECOND_OP_NOT1,
                                          SECOND_OP_CLR1, SECOND_OP_TST1};
    static const enum second_op faulty[4] = {SECOND_OP_SET1, SECOND_OP_CLR1,
                                             SECOND_OP_NOT1, SECOND_OP_TST1};
    const enum second_op op = FAULT_IS(119) ? faulty[h1 >> 14] : ops[h1 >> 14]; /* fault: NOT1 is CLR1 */
    return make(2, op, low_field(h1), 0, sign_extend(h2, 16), (h1 >> 11) & 7u);
}

/* LDSR: system number in bits 15-11, register in 4-0; ECR is not writable. */
static struct second_decoded load_system(uint32_t h1)
{
    uint32_t number = high_field(h1), reg = low_field(h1);
    if (FAULT_IS(120)) { /* fault: fields like STSR's */
        number = low_field(h1);
        reg = high_field(h1);
    }
    if (number > 5 || (number == 4 && !FAULT_IS(121))) return undefined(2); /* fault: takes ECR's number */
    return make(2, SECOND_OP_LDSR, 0, reg, 0, number);
}

/* STSR: the reverse. */
static struct second_decoded store_system(uint32_t h1)
{
    if (low_field(h1) > 5) return undefined(2);
    return make(2, SECOND_OP_STSR, 0, high_field(h1), 0, low_field(h1));
}

/* HALT, RETI, DI and EI each have one first halfword only. */
static struct second_decoded lone(uint32_t h1, uint32_t wanted, enum second_op op)
{
    return h1 == wanted ? make(2, op, 0, 0, 0, 0) : undefined(2);
}

/* 111111: illegal code by bits 26-23, else the second halfword exactly. */
static struct second_decoded extended(uint32_t h1, uint32_t h2)
{
    const uint32_t reg1 = low_field(h1), reg2 = high_field(h1);
    bool illegal = ((h2 >> 7) & 0xFu) >= 3;
    if (FAULT_IS(122) && (h2 & 0xF81Fu)) illegal = false; /* fault: only with clear bits around */
    if (illegal) return no_instruction(SECOND_IS_ILLEGAL, 2);
    if (FAULT_IS(123)) h2 &= 0x7E0u; /* fault: only bits 26-21 count */
    switch (h2) {
    case EXT_SETF:
        if ((h1 & 0x10u) && !FAULT_IS(124)) return undefined(2); /* fault: bit 4 not looked at */
        return make(2, SECOND_OP_SETF, 0, reg2, 0, h1 & 0xFu);
    case EXT_LDSR: return load_system(h1);
    case EXT_STSR: return store_system(h1);
    case EXT_SHR: return make(2, SECOND_OP_SHR_REG, reg1, reg2, 0, 0);
    case EXT_SAR: return make(2, SECOND_OP_SAR_REG, reg1, reg2, 0, 0);
    case EXT_SHL: return make(2, SECOND_OP_SHL_REG, reg1, reg2, 0, 0);
    case EXT_TRAP:
        return reg2 == 0 ? make(2, SECOND_OP_TRAP, 0, 0, 0, reg1) : undefined(2);
    case EXT_HALT: return lone(h1, 0x07E0, SECOND_OP_HALT);
    case EXT_RETI: return lone(h1, 0x07E0, SECOND_OP_RETI);
    case EXT_DI_EI:
        return h1 == 0x87E0 ? lone(h1, 0x87E0, SECOND_OP_EI)
                            : lone(h1, 0x07E0, SECOND_OP_DI);
    default: return undefined(2);
    }
}

/* Opcodes from 110000 up. */
bool second_needs_second(uint16_t first)
{
    return opcode_of(first) >= 0x30;
}

struct second_decoded second_decode(uint16_t first, uint16_t second)
{
    const uint32_t opcode = opcode_of(first);
    if (opcode < 0x10) return reg_reg(first);
    if (opcode < 0x18) return imm5_reg(first);
    if (opcode < 0x2C) return short_access(first);
    if (opcode < 0x30) return branch(first);
    if (opcode < 0x38) return imm16(first, second);
    if (opcode < 0x3C) return long_access(first, second);
    if (opcode < 0x3E) return jump_link(first, second);
    if (opcode == 0x3E) return bit_access(first, second);
    return extended(first, second);
}
