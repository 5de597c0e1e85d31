/* The machine between taking the block apart and putting it together. */
#ifndef MACHINE_H
#define MACHINE_H

#include "second.h"

/* One deliberate fault per build, or none; FAULTS.md lists them. */
#ifndef FAULT
#define FAULT 0
#endif
#define FAULT_IS(n) (FAULT == (n))

/* PSW bits: 01, "The machine and the state block". */
#define PSW_Z 0x01u
#define PSW_S 0x02u
#define PSW_OV 0x04u
#define PSW_CY 0x08u
#define PSW_SAT 0x10u
#define PSW_ID 0x20u
#define PSW_EP 0x40u
#define PSW_NP 0x80u

#define RIGHT_READ 1u
#define RIGHT_WRITE 2u
#define RIGHT_FETCH 4u

/* PC and data addresses have 24 bits; higher carries are dropped. */
#define ADDRESS_MASK 0xFFFFFFu

#define MARK_EIPC 1u
#define MARK_FEPC 2u

struct region {
    uint32_t base, length, offset, rights;
};

struct machine {
    uint32_t r[32];
    uint32_t pc, psw, eipc, eipsw, fepc, fepsw, ecr, code;
    uint32_t halted, nmi, filler;
    uint32_t reg_marks; /* bit n for rn */
    uint32_t psw_marks, eipsw_marks, fepsw_marks, pc_marks;
    struct region region[4];
    uint8_t *memory, *marks;
    uint32_t place; /* goes into the report */
};

/* ---- Between the files; all outer names have the same prefix ---------- */

/* block.c */
void second_take(struct machine *m, const uint8_t *block);
void second_put(const struct machine *m, uint8_t *block);
bool second_state_good(const struct machine *m);
void second_put_word(uint8_t *at, uint32_t word);

/* map.c */
bool second_map_good(const struct region region[4], size_t memory_len);

/* control.c */
bool second_condition_holds(uint32_t condition, uint32_t psw);
uint32_t second_condition_reads(uint32_t condition, uint32_t psw);
uint32_t second_accept_nmi(struct machine *m);
uint32_t second_accept_maskable(struct machine *m);
void second_exception(struct machine *m, uint32_t restore, uint32_t code);
uint32_t second_ldsr(struct machine *m, uint32_t number, uint32_t reg);
void second_stsr(struct machine *m, uint32_t number, uint32_t reg);
uint32_t second_reti(struct machine *m, uint32_t *target);

/* access.c */
uint32_t second_load(struct machine *m, const struct second_insn *i,
                     uint32_t base, uint32_t size);
uint32_t second_store(struct machine *m, const struct second_insn *i,
                      uint32_t base, uint32_t size);
uint32_t second_bit(struct machine *m, const struct second_insn *i);

/* execute.c: next is the address behind the instruction. */
uint32_t second_execute(struct machine *m, const struct second_insn *i,
                        uint32_t next);

/* step.c: DONE if a step was taken, else why not; then nothing has changed. */
uint32_t second_step(struct machine *m);

/* ---- Requests: 01, "Requests" ----------------------------------------- */

static inline bool nmi_acceptable(const struct machine *m)
{
    return m->nmi != 0 && !(m->psw & PSW_NP);
}

static inline bool maskable_acceptable(const struct machine *m)
{
    uint32_t holds_off = PSW_NP | PSW_ID;
    if (FAULT_IS(44)) holds_off = PSW_NP; /* fault: accepted with ID = 1 */
    if (FAULT_IS(45)) holds_off = PSW_ID; /* fault: accepted with NP = 1 */
    return m->code != 0 && !(m->psw & holds_off);
}

static inline bool asleep(const struct machine *m)
{
    return m->halted != 0 && !nmi_acceptable(m) && !maskable_acceptable(m);
}

/* ---- Registers, flags and their marks --------------------------------- */

static inline uint32_t reg_mark(const struct machine *m, uint32_t n)
{
    return (m->reg_marks >> n) & 1u;
}

/* Writing r0 drops the value; r0 is never marked. */
static inline void set_reg(struct machine *m, uint32_t n, uint32_t value,
                           uint32_t mark)
{
    if (FAULT_IS(1) && n == 0) m->r[0] = value; /* fault: r0 is written */
    if (n == 0) return;
    if (FAULT_IS(2)) mark |= reg_mark(m, n); /* fault: marks never go away */
    m->r[n] = value;
    m->reg_marks = (m->reg_marks & ~(1u << n)) | (mark << n);
}

/*
 * Computed flags take the operands' mark, constant ones are unmarked, the
 * others keep value and mark (01, "How marks travel").
 */
static inline void set_flags(struct machine *m, uint32_t computed,
                             uint32_t constant, uint32_t values, uint32_t mark)
{
    const uint32_t touched = computed | constant;
    m->psw = (m->psw & ~touched) | (values & touched);
    m->psw_marks = (m->psw_marks & ~touched) | (mark ? computed : 0u);
}

static inline uint32_t refuse(struct machine *m, enum second_answer answer,
                              uint32_t place)
{
    m->place = place;
    return (uint32_t)answer;
}

/* LEAK's place is the PC, also for the second halfword. */
static inline uint32_t leak(struct machine *m, enum second_leak cause)
{
    if (second_stats != NULL) second_stats->leak[cause]++;
    return refuse(m, SECOND_LEAK, m->pc);
}

#endif
