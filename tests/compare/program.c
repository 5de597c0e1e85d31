/*
 * Long programs. Each fetchable region is filled with instructions; if it is
 * writable too, its last quarter is left for data. Branches go to addresses
 * that are multiples of 16, where an instruction always begins (the vectors of
 * requests and exceptions are such), and each part ends in a jump to its start.
 */
#include "program.h"

#include "dice.h"
#include "insn.h"
#include "maps.h"
#include "state.h"

struct part {
    uint32_t from, to; /* addresses */
};

struct parts {
    uint32_t count;
    struct part part[4];
};

static struct start *s;
static struct parts code, readable, writable, both;
static uint32_t wild;  /* one register in so many is any of the 32 */
static bool careful;   /* branches look at unmarked registers only */
static bool vectors;   /* there is code at the exceptions' addresses */

/* ---- Where things lie ------------------------------------------------- */

static void add(struct parts *list, uint32_t from, uint32_t to)
{
    if (from < to) list->part[list->count++] = (struct part){from, to};
}

static void find_parts(void)
{
    code.count = readable.count = writable.count = both.count = 0;
    vectors = false;
    for (uint32_t k = 0; k < map.count; k++) {
        const struct region *g = &map.region[k];
        const uint32_t end = g->base + g->length;
        const bool reads = g->rights & V850_RIGHT_READ, writes = g->rights & V850_RIGHT_WRITE;
        uint32_t border = end; /* code up to here, then data */
        if (!(g->rights & V850_RIGHT_FETCH)) border = g->base;
        else if (writes) border = end - g->length / 16 * 4;
        add(&code, g->base, border);
        if (reads) add(&readable, g->base, end);
        if (writes) add(&writable, border, end);
        if (reads && writes) add(&both, border, end);
        if (g->base == 0 && border > 0x70) vectors = true;
    }
}

static uint32_t any_place(const struct parts *list)
{
    if (list->count == 0 || one_in(200)) return any_address();
    const struct part *p = &list->part[dice(list->count)];
    return p->from + dice(p->to - p->from);
}

/* The beginning of some instruction. */
static uint32_t any_entry(void)
{
    if (code.count == 0) return any_address() & 0xFFFFFE;
    const struct part *p = &code.part[dice(code.count)];
    const uint32_t at = (p->from + dice(p->to - p->from)) & ~15u;
    return at < p->from ? p->from : at;
}

/* ---- One instruction -------------------------------------------------- */

static bool fits(struct range r, int32_t value)
{
    return value >= r.low && value <= r.high && value % r.step == 0;
}

static const struct parts *wanted_by(enum second_op op)
{
    if (op >= SECOND_OP_SET1 && op <= SECOND_OP_CLR1) return &both;
    if (op >= SECOND_OP_ST_B && op <= SECOND_OP_ST_W) return &writable;
    return op == SECOND_OP_SST_B || op == SECOND_OP_SST_H || op == SECOND_OP_SST_W ? &writable : &readable;
}

/* A displacement that leads to what the instruction wants, from what a pointer holds at the start. */
static bool aim(struct second_insn *i)
{
    const struct range r = range_of(i->op);
    const struct parts *wanted = wanted_by(i->op);
    for (uint32_t tries = 0; tries < 6 && wanted->count > 0; tries++) {
        uint32_t away = (any_place(wanted) - word_of(s, V850_AT_R(base_of(i)))) & 0xFFFFFF;
        if (away >= 0x800000) away |= 0xFF000000;
        i->value = (int32_t)(away - away % (uint32_t)r.step);
        if (fits(r, i->value)) return true;
        i->reg1 = one_in(8) ? 0 : any_register(POINTER, wild); /* low and high addresses need no pointer */
    }
    return false;
}

/* A branch's target: a multiple of 16 in its part, more often behind it than before. */
static int32_t way(const struct part *p, uint32_t pc, int32_t back, uint32_t reach)
{
    const uint32_t target = (pc & ~15u) + 16 * dice(reach) - 16 * (uint32_t)back;
    if (target < p->from || target >= p->to) return 4;
    return (int32_t)(target - pc);
}

struct share {
    enum second_op from, to;
    uint32_t weight;
};

static enum second_op any_op(void)
{
    static const struct share mix[] = {
        {SECOND_OP_MOV_REG, SECOND_OP_DIVH, 30},      {SECOND_OP_SATSUBR, SECOND_OP_MULH_IMM5, 180},
        {SECOND_OP_SLD_B, SECOND_OP_SST_W, 60},       {SECOND_OP_BCOND, SECOND_OP_BCOND, 40},
        {SECOND_OP_ADDI, SECOND_OP_MULHI, 80},        {SECOND_OP_LD_B, SECOND_OP_ST_W, 70},
        {SECOND_OP_JARL, SECOND_OP_JARL, 8},          {SECOND_OP_SET1, SECOND_OP_TST1, 30},
        {SECOND_OP_SETF, SECOND_OP_SHL_REG, 50},      {SECOND_OP_JMP, SECOND_OP_JMP, 6},
        {SECOND_OP_RETI, SECOND_OP_EI, 6},            {SECOND_OP_HALT, SECOND_OP_HALT, 1},
        {SECOND_OP_TRAP, SECOND_OP_TRAP, 4}};
    static uint32_t sum = 0;
    uint32_t at;
    if (sum == 0)
        for (size_t k = 0; k < sizeof mix / sizeof mix[0]; k++) sum += mix[k].weight;
    at = dice(sum);
    for (size_t k = 0;; k++) {
        if (at < mix[k].weight) return (enum second_op)(mix[k].from + dice((uint32_t)(mix[k].to - mix[k].from) + 1));
        at -= mix[k].weight;
    }
}

static struct second_insn insn_at(const struct part *p, uint32_t pc)
{
    enum second_op op = any_op();
    if (op == SECOND_OP_TRAP && !vectors && !one_in(16)) op = SECOND_OP_ADD_REG;
    if (op == SECOND_OP_HALT && !one_in(4)) op = SECOND_OP_EI;
    struct second_insn i = any_insn(op, wild);
    if (is_access(op) && !aim(&i)) i = any_insn(one_in(50) ? op : SECOND_OP_XOR, wild);
    if (op == SECOND_OP_BCOND) i.value = way(p, pc, 4, 16);
    if (op == SECOND_OP_JARL) i.value = way(p, pc, 32, 80);
    if (op == SECOND_OP_MOVEA && one_in(8)) { /* a pointer moves */
        i.reg1 = i.reg2 = any_register(POINTER, wild);
        i.value = (int32_t)dice(16) - 8;
    }
    return i;
}

/* ---- A part ----------------------------------------------------------- */

/* A first halfword of opcode 111111. */
static uint32_t any_extended(void)
{
    const uint32_t reg2 = dice(32), reg1 = dice(32);
    return reg2 << 11 | 0x07E0 | reg1;
}

/* Now and then words that are no instruction: the illegal code, or anything. */
static uint32_t odd_words(uint32_t pc)
{
    const bool illegal = vectors && !one_in(8);
    poke(s, pc, (uint16_t)(illegal ? any_extended() : dice(0x10000)));
    poke(s, pc + 2, (uint16_t)(illegal ? 0x0180 + 0x80 * dice(13) : dice(0x10000)));
    return 4;
}

/* Flags from a register that no secret reaches. */
static uint32_t clean_flags(uint32_t pc)
{
    struct second_insn i = any_insn(one_in(2) ? SECOND_OP_CMP_IMM5 : SECOND_OP_ADD_IMM5, wild);
    i.reg2 = any_register(CLEAN, wild);
    return poke_insn(s, pc, &i);
}

static void fill(const struct part *p)
{
    uint32_t pc = p->from;
    while (p->to - pc > 12) {
        if (one_in(300)) pc += odd_words(pc);
        struct second_insn i = insn_at(p, pc);
        if (i.op == SECOND_OP_BCOND && careful) {
            pc += clean_flags(pc);
            i.value = way(p, pc, 4, 16);
        }
        if (pc % 16 == 14 && i.op > SECOND_OP_BCOND) i = any_insn((enum second_op)(SECOND_OP_OR + dice(8)), wild);
        pc += poke_insn(s, pc, &i);
    }
    const struct second_insn nop = {SECOND_OP_MOV_REG, 0, 0, 0, 0};
    while (p->to - pc > 4) pc += poke_insn(s, pc, &nop);
    const struct second_insn back = {SECOND_OP_JARL, 0, 0, (int32_t)(p->from - pc), 0};
    if (p->to - pc == 4) (void)poke_insn(s, pc, &back);
}

/* ---- The whole -------------------------------------------------------- */

/* To the start of some data, as the displacements from ep have no sign. */
static uint32_t any_ep(void)
{
    if (both.count == 0) return any_address();
    const uint32_t from = both.part[dice(both.count)].from;
    return from + dice(8);
}

/* Saved PCs may be odd. */
static uint32_t any_return(void)
{
    const uint32_t entry = any_entry();
    return entry | dice(2);
}

/* Pointers lead to data. */
static void fit_registers(void)
{
    for (uint32_t n = 16; n < 20; n++) set_word(s, V850_AT_R(n), dice(one_in(2) ? 8 : 256));
    for (uint32_t n = 20; n < 26; n++) set_word(s, V850_AT_R(n), any_place(one_in(2) ? &both : &readable));
    for (uint32_t n = 26; n < 32; n++) set_word(s, V850_AT_R(n), any_entry());
    set_word(s, V850_AT_R(30), any_ep());
    set_word(s, V850_AT_PC, any_entry());
    set_word(s, V850_AT_EIPC, any_return());
    set_word(s, V850_AT_FEPC, any_return());
}

static void mark(uint32_t density)
{
    any_marks(s, careful ? DATA_REGISTERS : 0xFFFFFFFE, density);
    if (careful) set_byte(s, V850_AT_PC_MARKS, 0);
    for (uint32_t k = 0; k < writable.count; k++)
        mark_memory(s, place_of(writable.part[k].from), writable.part[k].to - writable.part[k].from, dice(density + 1));
    if (density > 0 && one_in(8)) mark_memory(s, 0, s->length[MARKS], 1);
}

void any_program(struct start *start)
{
    static const uint32_t wildness[] = {1, 16, 100, 200, 1000, 1000};
    const uint32_t density = dice(4);
    s = start;
    wild = ONE_OF(wildness);
    careful = density > 0 && wild > 1 && !one_in(8);
    find_parts();
    fit_registers();
    for (uint32_t k = 0; k < code.count; k++) fill(&code.part[k]);
    mark(density);
}
