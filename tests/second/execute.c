/* One instruction: results by 000's chapter 5, marks by 01. */
#include "alu.h"

/* CY, OV, S, Z computed. */
static void flags_of(struct machine *m, struct result r, uint32_t mark)
{
    set_flags(m, PSW_CY | PSW_OV | PSW_S | PSW_Z, 0, r.flags, mark);
}

static void arithmetic(struct machine *m, uint32_t reg, struct result r,
                       uint32_t mark)
{
    if (FAULT_IS(80) && reg == 0) return; /* fault: r0 drops the flags too */
    set_reg(m, reg, r.value, mark);
    flags_of(m, r, mark);
}

/* SAT is only ever raised, and adds the operands' mark to its own. */
static void saturated(struct machine *m, uint32_t reg, struct result exact,
                      uint32_t left, uint32_t mark)
{
    const struct result r = alu_saturate(exact, left);
    set_reg(m, reg, r.value, mark);
    flags_of(m, r, mark);
    if (FAULT_IS(81)) m->psw &= ~PSW_SAT; /* fault: SAT falls again */
    if (FAULT_IS(82)) m->psw_marks &= ~PSW_SAT; /* fault: SAT's mark is replaced */
    m->psw |= r.flags & PSW_SAT;
    m->psw_marks |= mark ? PSW_SAT : 0u;
}

/* OV is the constant 0, CY stays. */
static void logic_flags(struct machine *m, uint32_t value, uint32_t mark)
{
    if (FAULT_IS(83)) m->psw &= ~PSW_CY; /* fault: CY becomes 0 */
    if (FAULT_IS(84)) m->psw_marks &= ~PSW_CY; /* fault: CY loses its mark */
    set_flags(m, PSW_S | PSW_Z, PSW_OV, sign_zero(value), mark);
    if (FAULT_IS(85) && mark) m->psw_marks |= PSW_OV; /* fault: OV counts as computed */
}

static void logic(struct machine *m, uint32_t reg, uint32_t value, uint32_t mark)
{
    set_reg(m, reg, value, mark);
    logic_flags(m, value, mark);
}

/* 000 p. 73 prints OV as untouched; 01 and appendix A say 0. */
static void not_reg(struct machine *m, const struct second_insn *i, uint32_t mark)
{
    const uint32_t ov = m->psw & PSW_OV;
    logic(m, i->reg2, ~m->r[i->reg1], mark);
    if (FAULT_IS(86)) m->psw |= ov; /* fault: OV stays */
}

/* A register with itself is marked like any other. */
static void xor_reg(struct machine *m, const struct second_insn *i, uint32_t mark)
{
    if (FAULT_IS(96) && i->reg1 == i->reg2) mark = 0; /* fault: XOR r, r is unmarked */
    logic(m, i->reg2, m->r[i->reg2] ^ m->r[i->reg1], mark);
}

/* 000 p. 52 lists S as 0, so it is a constant here. */
static void andi(struct machine *m, const struct second_insn *i, uint32_t mark)
{
    const uint32_t value = m->r[i->reg1] & (uint32_t)i->value;
    set_reg(m, i->reg2, value, mark);
    set_flags(m, PSW_Z, PSW_OV | PSW_S, value == 0 ? PSW_Z : 0u, mark);
    if (FAULT_IS(87) && mark) m->psw_marks |= PSW_S; /* fault: S counts as computed */
}

/* CY counts as computed also in a shift by 0. */
static void shift(struct machine *m, uint32_t reg, struct result r, uint32_t n,
                  uint32_t mark)
{
    set_reg(m, reg, r.value, mark);
    set_flags(m, PSW_CY | PSW_S | PSW_Z, PSW_OV, r.flags, mark);
    if (FAULT_IS(88) && n == 0) m->psw_marks &= ~PSW_CY; /* fault: constant in a shift by 0 */
}

/* Only the low 5 bits of reg1 count. */
static uint32_t amount(uint32_t a)
{
    if (FAULT_IS(89) && a > 31) return 31; /* fault: greater amounts are cut to 31 */
    return a & 31u;
}

/* reg2, OV, S, Z take the marks of both operands, also with a zero divisor. */
static void divh(struct machine *m, uint32_t reg, uint32_t b, uint32_t mark)
{
    const struct result r = alu_divh(m->r[reg], b);
    if (FAULT_IS(90) && (b & 0xFFFFu) == 0) { /* fault: a zero divisor leaves the marks */
        m->psw = (m->psw & ~(PSW_S | PSW_Z)) | PSW_OV;
        return;
    }
    set_reg(m, reg, r.value, mark);
    set_flags(m, PSW_OV | PSW_S | PSW_Z, 0, r.flags, mark);
}

static void setf(struct machine *m, const struct second_insn *i)
{
    uint32_t marks = m->psw_marks & second_condition_reads(i->number, m->psw);
    if (FAULT_IS(91)) marks = 0; /* fault: the result is never marked */
    set_reg(m, i->reg2, second_condition_holds(i->number, m->psw), marks != 0);
}

/* The displacement counts from the instruction's own address. */
static uint32_t bcond(struct machine *m, const struct second_insn *i,
                      uint32_t *target)
{
    uint32_t from = m->pc;
    if (m->psw_marks & second_condition_reads(i->number, m->psw))
        return leak(m, SECOND_LEAK_BCOND);
    if (FAULT_IS(92)) from = *target; /* fault: counts from the next address */
    if (second_condition_holds(i->number, m->psw))
        *target = (from + (uint32_t)i->value) & ADDRESS_MASK;
    return SECOND_DONE;
}

/* The link is the next PC, with its carry dropped, and never marked. */
static void jarl(struct machine *m, const struct second_insn *i, uint32_t *target)
{
    const uint32_t link = FAULT_IS(93) ? m->pc + 4 : *target; /* fault: 25 bits */
    *target = (m->pc + (uint32_t)i->value) & ADDRESS_MASK;
    set_reg(m, i->reg2, link, 0);
}

static uint32_t jmp(struct machine *m, const struct second_insn *i,
                    uint32_t *target)
{
    if (reg_mark(m, i->reg1)) return leak(m, SECOND_LEAK_JMP);
    *target = m->r[i->reg1] & ADDRESS_MASK & ~1u;
    if (FAULT_IS(94)) *target = m->r[i->reg1] & ADDRESS_MASK; /* fault: bit 0 stays */
    return SECOND_DONE;
}

/* PC is set last, so a refused step leaves it. */
uint32_t second_execute(struct machine *m, const struct second_insn *i,
                        uint32_t next)
{
    const uint32_t a = m->r[i->reg1], b = m->r[i->reg2], d = i->reg2;
    const uint32_t ma = reg_mark(m, i->reg1), mb = reg_mark(m, d);
    const uint32_t mab = ma | mb, imm = (uint32_t)i->value;
    const uint32_t ep = 30, n = amount(a);
    uint32_t answer = SECOND_DONE;

    switch (i->op) {
    /* Moves: reg2 is not read. */
    case SECOND_OP_MOV_REG: set_reg(m, d, a, FAULT_IS(95) ? mab : ma); break; /* fault: MOV reads reg2 */
    case SECOND_OP_MOV_IMM5: set_reg(m, d, imm, 0); break;
    case SECOND_OP_MOVEA: set_reg(m, d, a + imm, ma); break;
    case SECOND_OP_MOVHI: set_reg(m, d, a + (FAULT_IS(131) ? imm : imm << 16), ma); break; /* fault: a low half */
    case SECOND_OP_SETF: setf(m, i); break;

    /* Arithmetic. */
    case SECOND_OP_ADD_REG: arithmetic(m, d, alu_add(b, a), mab); break;
    case SECOND_OP_ADD_IMM5: arithmetic(m, d, alu_add(b, imm), mb); break;
    case SECOND_OP_ADDI: arithmetic(m, d, alu_add(a, imm), ma); break;
    case SECOND_OP_SUB: arithmetic(m, d, alu_sub(b, a), mab); break;
    case SECOND_OP_SUBR: arithmetic(m, d, alu_sub(a, b), mab); break;
    case SECOND_OP_CMP_REG: flags_of(m, alu_sub(b, a), mab); break;
    case SECOND_OP_CMP_IMM5: flags_of(m, alu_sub(b, imm), mb); break;
    case SECOND_OP_MULH_REG: set_reg(m, d, alu_mulh(b, a), mab); break;
    case SECOND_OP_MULH_IMM5: set_reg(m, d, alu_mulh(b, imm), mb); break;
    case SECOND_OP_MULHI: set_reg(m, d, alu_mulh(a, imm), ma); break;
    case SECOND_OP_DIVH: divh(m, d, a, mab); break;

    /* Saturated: the left operand is given beside the exact result. */
    case SECOND_OP_SATADD_REG: saturated(m, d, alu_add(b, a), b, mab); break;
    case SECOND_OP_SATADD_IMM5: saturated(m, d, alu_add(b, imm), b, mb); break;
    case SECOND_OP_SATSUB: saturated(m, d, alu_sub(b, a), b, mab); break;
    case SECOND_OP_SATSUBR: saturated(m, d, alu_sub(a, b), a, mab); break;
    case SECOND_OP_SATSUBI: saturated(m, d, alu_sub(a, imm), a, ma); break;

    /* Logic. */
    case SECOND_OP_NOT: not_reg(m, i, ma); break;
    case SECOND_OP_OR: logic(m, d, b | a, mab); break;
    case SECOND_OP_XOR: xor_reg(m, i, mab); break;
    case SECOND_OP_AND: logic(m, d, b & a, mab); break;
    case SECOND_OP_TST: logic_flags(m, b & a, mab); break;
    case SECOND_OP_ORI: logic(m, d, a | imm, ma); break;
    case SECOND_OP_XORI: logic(m, d, a ^ imm, ma); break;
    case SECOND_OP_ANDI: andi(m, i, ma); break;

    /* Shifts. */
    case SECOND_OP_SHR_REG: shift(m, d, alu_shr(b, n), n, mab); break;
    case SECOND_OP_SAR_REG: shift(m, d, alu_sar(b, n), n, mab); break;
    case SECOND_OP_SHL_REG: shift(m, d, alu_shl(b, n), n, mab); break;
    case SECOND_OP_SHR_IMM5: shift(m, d, alu_shr(b, imm), imm, mb); break;
    case SECOND_OP_SAR_IMM5: shift(m, d, alu_sar(b, imm), imm, mb); break;
    case SECOND_OP_SHL_IMM5: shift(m, d, alu_shl(b, imm), imm, mb); break;

    /* Memory. */
    case SECOND_OP_SLD_B: answer = second_load(m, i, ep, 1); break;
    case SECOND_OP_SLD_H: answer = second_load(m, i, ep, 2); break;
    case SECOND_OP_SLD_W: answer = second_load(m, i, ep, 4); break;
    case SECOND_OP_LD_B: answer = second_load(m, i, i->reg1, 1); break;
    case SECOND_OP_LD_H: answer = second_load(m, i, i->reg1, 2); break;
    case SECOND_OP_LD_W: answer = second_load(m, i, i->reg1, 4); break;
    case SECOND_OP_SST_B: answer = second_store(m, i, ep, 1); break;
    case SECOND_OP_SST_H: answer = second_store(m, i, ep, 2); break;
    case SECOND_OP_SST_W: answer = second_store(m, i, ep, 4); break;
    case SECOND_OP_ST_B: answer = second_store(m, i, i->reg1, 1); break;
    case SECOND_OP_ST_H: answer = second_store(m, i, i->reg1, 2); break;
    case SECOND_OP_ST_W: answer = second_store(m, i, i->reg1, 4); break;
    case SECOND_OP_SET1:
    case SECOND_OP_NOT1:
    case SECOND_OP_CLR1:
    case SECOND_OP_TST1: answer = second_bit(m, i); break;

    /* Control. */
    case SECOND_OP_JMP: answer = jmp(m, i, &next); break;
    case SECOND_OP_JARL: jarl(m, i, &next); break;
    case SECOND_OP_BCOND: answer = bcond(m, i, &next); break;
    case SECOND_OP_LDSR: answer = second_ldsr(m, i->number, d); break;
    case SECOND_OP_STSR: second_stsr(m, i->number, d); break;
    case SECOND_OP_TRAP: second_exception(m, next, 0x40 + i->number); next = m->pc; break;
    case SECOND_OP_RETI: answer = second_reti(m, &next); break;
    case SECOND_OP_DI: m->psw |= PSW_ID; break;
    case SECOND_OP_EI: m->psw &= ~PSW_ID; break;
    case SECOND_OP_HALT:
        m->halted = 1;
        if (FAULT_IS(97)) next = m->pc; /* fault: PC stays on HALT */
        break;
    case SECOND_OP_COUNT: break; /* no instruction */
    }
    if (FAULT_IS(98) && answer != SECOND_DONE) m->pc = next; /* fault: a refused step moves PC */
    if (answer != SECOND_DONE) return answer;
    m->pc = next;
    if (second_stats != NULL) second_stats->executed[i->op]++;
    return SECOND_DONE;
}
