/* The state block of 236 bytes, taken apart and put together; STATE. */
#include "machine.h"

/* Offsets in the block: 01, "The machine and the state block". */
enum {
    AT_PC = 128, AT_PSW = 132, AT_EIPC = 136, AT_EIPSW = 140, AT_FEPC = 144,
    AT_FEPSW = 148, AT_ECR = 152, AT_CODE = 156,
    AT_HALTED = 160, AT_NMI = 161, AT_FILLER = 162,
    AT_REG_MARKS = 164, AT_PSW_MARKS = 168, AT_EIPSW_MARKS = 169,
    AT_FEPSW_MARKS = 170, AT_PC_MARKS = 171,
    AT_REGIONS = 172, REGION_LEN = 16
};

static uint32_t get_word(const uint8_t *at)
{
    return (uint32_t)at[0] | (uint32_t)at[1] << 8 | (uint32_t)at[2] << 16 |
           (uint32_t)at[3] << 24;
}

void second_put_word(uint8_t *at, uint32_t word)
{
    for (unsigned k = 0; k < 4; k++) at[k] = (uint8_t)(word >> (8u * k));
}

static void take_regions(struct machine *m, const uint8_t *block)
{
    for (int k = 0; k < 4; k++) {
        const uint8_t *at = block + AT_REGIONS + k * REGION_LEN;
        m->region[k].base = get_word(at);
        m->region[k].length = get_word(at + 4);
        m->region[k].offset = get_word(at + 8);
        m->region[k].rights = get_word(at + 12);
    }
}

void second_take(struct machine *m, const uint8_t *block)
{
    for (int n = 0; n < 32; n++) m->r[n] = get_word(block + 4 * n);
    m->pc = get_word(block + AT_PC);
    m->psw = get_word(block + AT_PSW);
    m->eipc = get_word(block + AT_EIPC);
    m->eipsw = get_word(block + AT_EIPSW);
    m->fepc = get_word(block + AT_FEPC);
    m->fepsw = get_word(block + AT_FEPSW);
    m->ecr = get_word(block + AT_ECR);
    m->code = get_word(block + AT_CODE);
    m->halted = block[AT_HALTED];
    m->nmi = block[AT_NMI];
    m->filler = (uint32_t)block[AT_FILLER] | (uint32_t)block[AT_FILLER + 1] << 8;
    m->reg_marks = get_word(block + AT_REG_MARKS);
    m->psw_marks = block[AT_PSW_MARKS];
    m->eipsw_marks = block[AT_EIPSW_MARKS];
    m->fepsw_marks = block[AT_FEPSW_MARKS];
    m->pc_marks = block[AT_PC_MARKS];
    take_regions(m, block);
}

/* Filler and map never change, so they are not written. */
void second_put(const struct machine *m, uint8_t *block)
{
    for (int n = 0; n < 32; n++) second_put_word(block + 4 * n, m->r[n]);
    second_put_word(block + AT_PC, m->pc);
    second_put_word(block + AT_PSW, m->psw);
    second_put_word(block + AT_EIPC, m->eipc);
    second_put_word(block + AT_EIPSW, m->eipsw);
    second_put_word(block + AT_FEPC, m->fepc);
    second_put_word(block + AT_FEPSW, m->fepsw);
    second_put_word(block + AT_ECR, m->ecr);
    second_put_word(block + AT_CODE, m->code);
    block[AT_HALTED] = (uint8_t)m->halted;
    block[AT_NMI] = (uint8_t)m->nmi;
    second_put_word(block + AT_REG_MARKS, m->reg_marks);
    block[AT_PSW_MARKS] = (uint8_t)m->psw_marks;
    block[AT_EIPSW_MARKS] = (uint8_t)m->eipsw_marks;
    block[AT_FEPSW_MARKS] = (uint8_t)m->fepsw_marks;
    block[AT_PC_MARKS] = (uint8_t)m->pc_marks;
}

/* 0 is none; else a multiple of 16 from 0080H to 0FF0H. */
static bool code_good(uint32_t code)
{
    if (FAULT_IS(22)) return code % 16 == 0 && code <= 0xFF0; /* fault: no lower bound */
    if (FAULT_IS(23)) return code == 0 || (code >= 0x80 && code <= 0xFF0); /* fault: any multiple */
    return code == 0 || (code % 16 == 0 && code >= 0x80 && code <= 0xFF0);
}

/* STATE of 01, one line per test; the faults leave one test out. */
bool second_state_good(const struct machine *m)
{
    if (m->r[0] != 0) return false;
    if (reg_mark(m, 0) && !FAULT_IS(24)) return false;
    if (m->pc % 2 != 0 && !FAULT_IS(25)) return false;
    if (m->pc > 0xFFFFFE) return false;
    if (m->psw > 0xFF) return false;
    if (m->eipsw > 0xFF && !FAULT_IS(26)) return false;
    if (m->fepsw > 0xFF) return false;
    if (m->eipc > 0xFFFFFF || m->fepc > 0xFFFFFF) return false;
    if (FAULT_IS(27) && m->eipc % 2 != 0) return false; /* fault: EIPC may not be odd */
    if (!code_good(m->code)) return false;
    if (m->halted > 1) return false;
    if (m->nmi > 1 && !FAULT_IS(28)) return false;
    if (m->filler != 0 && !FAULT_IS(29)) return false;
    if (m->psw_marks > 0x1F && !FAULT_IS(30)) return false;
    return m->pc_marks <= 3 || FAULT_IS(31);
}

/* What a faulty reset leaves as it was. */
static bool left_out(size_t at)
{
    if (FAULT_IS(38)) return at == AT_FILLER; /* fault: filler stays */
    if (FAULT_IS(39)) return at >= AT_REG_MARKS; /* fault: marks stay */
    return false;
}

/*
 * 000 table 7-1 and 01's house rule: everything in front of the map becomes
 * 0, the filler too, but for PSW. Neither MAP nor STATE is asked.
 */
uint32_t second_reset(uint8_t *block, size_t block_len)
{
    size_t end = AT_REGIONS;
    if (block_len != SECOND_BLOCK_LEN) return SECOND_SIZE;
    if (FAULT_IS(40)) end = block_len; /* fault: the map goes too */
    for (size_t at = 0; at < end; at++)
        if (!left_out(at)) block[at] = 0;
    second_put_word(block + AT_PSW, PSW_ID);
    if (FAULT_IS(41)) second_put_word(block + AT_PSW, 0); /* fault: ID is 0 */
    return SECOND_DONE;
}
