/* Conditions, requests, exceptions, system registers. */
#include "machine.h"

/* ---- Conditions (003; 000 tables 5-8 and 5-9) ------------------------- */

static bool low_condition(uint32_t condition, uint32_t psw)
{
    const bool ov = (psw & PSW_OV) != 0, cy = (psw & PSW_CY) != 0;
    const bool z = (psw & PSW_Z) != 0, s = (psw & PSW_S) != 0;
    switch (condition) {
    case 0: return ov;
    case 1: return cy;
    case 2: return z;
    case 3: return cy || z;
    case 4: return s;
    case 5: return true;
    case 6: return s != ov;
    default: return (s != ov) || z;
    }
}

/* 8 to 15 negate 0 to 7, except that 13 is SAT. */
bool second_condition_holds(uint32_t condition, uint32_t psw)
{
    if (FAULT_IS(46) && condition == 13) return false; /* fault: 13 negates 5 */
    if (condition == 13) return (psw & PSW_SAT) != 0;
    return low_condition(condition & 7u, psw) == (condition < 8);
}

/* The flags in the condition's formula, whatever their values. */
uint32_t second_condition_reads(uint32_t condition, uint32_t psw)
{
    static const uint32_t reads[8] = {
        PSW_OV, PSW_CY, PSW_Z, PSW_CY | PSW_Z,
        PSW_S, 0, PSW_S | PSW_OV, PSW_S | PSW_OV | PSW_Z
    };
    if (condition == 13) return PSW_SAT;
    if (FAULT_IS(47) && (condition & 7u) == 3 && (psw & PSW_CY)) return PSW_CY; /* fault: only evaluated flags */
    if (FAULT_IS(47) && condition == 7 && low_condition(6, psw)) return reads[6];
    return reads[condition & 7u];
}

/* ---- Requests and exceptions (01, "Requests"; 000 chapter 6) ---------- */

/* Saved PCs are unmarked, the saved PSW carries its marks bit for bit. */
static void save_ei(struct machine *m, uint32_t restore)
{
    m->eipc = restore;
    m->eipsw = m->psw;
    m->eipsw_marks = m->psw_marks;
    m->pc_marks &= ~MARK_EIPC;
}

/* EICC is the low half, FECC the high half; each changes by itself. */
static void set_eicc(struct machine *m, uint32_t code)
{
    m->ecr = (m->ecr & 0xFFFF0000u) | code;
    if (FAULT_IS(48)) m->ecr = code; /* fault: FECC is lost */
}

static void set_fecc(struct machine *m, uint32_t code)
{
    if (FAULT_IS(49)) m->ecr = (m->ecr & 0xFFFF0000u) | code; /* fault: low half */
    else m->ecr = (m->ecr & 0xFFFFu) | code << 16;
}

uint32_t second_accept_nmi(struct machine *m)
{
    m->fepc = m->pc;
    m->fepsw = m->psw;
    m->fepsw_marks = m->psw_marks;
    if (FAULT_IS(50)) m->fepsw_marks = 0; /* fault: saved PSW is unmarked */
    if (!FAULT_IS(51)) m->pc_marks &= ~MARK_FEPC; /* fault: FEPC keeps its mark */
    set_fecc(m, 0x0010);
    m->psw = (m->psw & ~PSW_EP) | PSW_NP | PSW_ID;
    if (FAULT_IS(52)) m->psw |= m->fepsw & PSW_EP; /* fault: EP stays */
    m->pc = 0x10;
    m->nmi = 0;
    if (FAULT_IS(53)) m->code = 0; /* fault: the other request goes too */
    if (!FAULT_IS(54)) m->halted = 0; /* fault: HALT goes on */
    if (second_stats != NULL) second_stats->nmi++;
    return SECOND_DONE;
}

uint32_t second_accept_maskable(struct machine *m)
{
    save_ei(m, m->pc);
    set_eicc(m, m->code);
    m->psw = (m->psw & ~PSW_EP) | PSW_ID;
    m->pc = m->code;
    m->code = 0;
    m->halted = 0;
    if (second_stats != NULL) second_stats->maskable++;
    return SECOND_DONE;
}

/*
 * TRAP and illegal code. NP is kept: 01 lists EP and ID only, though 000,
 * 6.2.2 (4), sets NP at an illegal code. The handler's address is the code
 * without its last digit.
 */
void second_exception(struct machine *m, uint32_t restore, uint32_t code)
{
    save_ei(m, restore);
    set_eicc(m, code);
    m->psw |= PSW_EP | PSW_ID;
    if (FAULT_IS(55) && code == 0x60) m->psw |= PSW_NP; /* fault: illegal code sets NP */
    m->pc = code & 0xF0u;
    if (FAULT_IS(56) && code == 0x50) m->pc = 0x40; /* fault: TRAP 10H to 40H */
}

/* FEPC and FEPSW when EP = 0 and NP = 1, else EIPC and EIPSW. */
uint32_t second_reti(struct machine *m, uint32_t *target)
{
    bool fe = (m->psw & (PSW_EP | PSW_NP)) == PSW_NP;
    if (FAULT_IS(57)) fe = (m->psw & PSW_NP) != 0; /* fault: EP not looked at */
    uint32_t pc_marks = m->pc_marks & (fe ? MARK_FEPC : MARK_EIPC);
    const uint32_t psw_marks = fe ? m->fepsw_marks : m->eipsw_marks;
    uint32_t steering = PSW_NP | PSW_EP | PSW_ID;
    if (FAULT_IS(58)) steering = 0xFF; /* fault: every marked bit leaks */
    if (FAULT_IS(59)) pc_marks = m->pc_marks; /* fault: the other bank leaks too */
    if (pc_marks) return leak(m, SECOND_LEAK_RETI_PC);
    if (psw_marks & steering) return leak(m, SECOND_LEAK_RETI_PSW);
    *target = (fe ? m->fepc : m->eipc) & ~1u;
    if (FAULT_IS(60)) *target = fe ? m->fepc : m->eipc; /* fault: bit 0 stays */
    m->psw = fe ? m->fepsw : m->eipsw;
    m->psw_marks = psw_marks;
    return SECOND_DONE;
}

/* ---- LDSR and STSR (000 p. 66, appendix A) ---------------------------- */

/* LDSR marks the whole target or clears it; to PSW a mark is a LEAK. */
uint32_t second_ldsr(struct machine *m, uint32_t number, uint32_t reg)
{
    const uint32_t value = m->r[reg], mark = reg_mark(m, reg);
    const uint32_t all = mark ? 0xFFu : 0u;
    const uint32_t flags = PSW_SAT | PSW_CY | PSW_OV | PSW_S | PSW_Z;
    switch (number) {
    case 0:
        m->eipc = value & ADDRESS_MASK;
        if (FAULT_IS(61)) m->eipc &= ~1u; /* fault: EIPC made even */
        m->pc_marks = (m->pc_marks & ~MARK_EIPC) | (mark ? MARK_EIPC : 0u);
        break;
    case 1:
        m->eipsw = value & 0xFFu;
        m->eipsw_marks = all;
        if (FAULT_IS(62)) m->eipsw_marks = all & flags; /* fault: only the flags */
        break;
    case 2:
        m->fepc = value & ADDRESS_MASK;
        m->pc_marks = (m->pc_marks & ~MARK_FEPC) | (mark ? MARK_FEPC : 0u);
        break;
    case 3:
        m->fepsw = value & 0xFFu;
        m->fepsw_marks = all;
        break;
    default:
        if (mark && !FAULT_IS(63)) return leak(m, SECOND_LEAK_LDSR);
        m->psw = value & 0xFFu;
        if (!FAULT_IS(64)) m->psw_marks = 0; /* fault: PSW's marks stay */
        if (FAULT_IS(63)) m->psw_marks = all & flags; /* fault: marks instead of LEAK */
        break;
    }
    return SECOND_DONE;
}

/* Marked exactly if any bit is; ECR never. */
void second_stsr(struct machine *m, uint32_t number, uint32_t reg)
{
    uint32_t value = m->psw, marks = m->psw_marks;
    switch (number) {
    case 0: value = m->eipc; marks = m->pc_marks & MARK_EIPC; break;
    case 1: value = m->eipsw; marks = m->eipsw_marks; break;
    case 2: value = m->fepc; marks = m->pc_marks & MARK_FEPC; break;
    case 3: value = m->fepsw; marks = m->fepsw_marks; break;
    case 4: value = m->ecr; marks = 0; break;
    default: break;
    }
    if (FAULT_IS(65)) marks &= PSW_Z; /* fault: only bit 0 counts */
    set_reg(m, reg, value, marks != 0);
}
