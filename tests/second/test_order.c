/* Refusals, their order and places, and that a refused step changes nothing. */
#include "test.h"

/* Code at the end of a region; what follows is not fetchable. */
static void fetch_edges(void)
{
    fresh();
    set_region(0, 0x1000, 0x10, 0x100, 4);
    set_region(1, 0x1010, 0x10, 0x110, 3);
    set_word(B_PC, 0x100E);
    code(0x10E, H(2, 0x10, 5), 0);
    expect("2-byte code at a region's end", run(1), SECOND_DONE);
    expect("2-byte code at a region's end", r(2), 5);
    expect_refused("behind the region", SECOND_NOFETCH, 0x1010);
    set_word(B_PC, 0x100E);
    code(0x10E, H(1, 0x03, 5), 0);
    expect_refused("JMP with reg2 needs no second halfword", SECOND_UNDEFINED, 0x100E);
    code(0x10E, H(2, 0x31, 0), 0x1234);
    expect_refused("second halfword not fetchable", SECOND_NOFETCH, 0x1010);
    set_region(1, 0x1010, 0x10, 0x200, 4);
    code(0x200, 0x4321, 0);
    expect("halves in two regions", run(1), SECOND_DONE);
    expect("halves in two regions", r(2), 0x4321);
    fresh();
    set_word(B_PC, 0xFFFFFE);
    expect_refused("nowhere", SECOND_NOFETCH, 0xFFFFFE);
}

/* First halfword 5 then 7, second halfword 5 then 7, then 6. */
static void fetch_order(void)
{
    fresh();
    set_region(0, 0x1000, 0x10, 0x100, 4);
    set_region(1, 0x1010, 0x10, 0x110, 3);
    set_word(B_PC, 0x100E);
    code(0x10E, H(2, 0x31, 0), 0x1234);
    t.marks[0x10F] = 4;
    expect_refused("first LEAK before second NOFETCH", SECOND_LEAK, 0x100E);
    t.marks[0x10F] = 0;
    t.marks[0x110] = 1;
    expect_refused("second NOFETCH before its LEAK", SECOND_NOFETCH, 0x1010);
    set_word(B_PC, 0x1010);
    expect_refused("NOFETCH before LEAK", SECOND_NOFETCH, 0x1010);
    fresh();
    code(0x100, H(1, 0x3F, 1), 0x0060);
    t.marks[0x103] = 0x10;
    expect_refused("second LEAK before UNDEFINED, place PC", SECOND_LEAK, 0x100);
    t.marks[0x103] = 0;
    expect_refused("UNDEFINED", SECOND_UNDEFINED, 0x100);
    t.marks[0x100] = 1;
    expect_refused("LEAK before UNDEFINED", SECOND_LEAK, 0x100);
    t.marks[0x100] = 0;
    t.marks[0xFF] = t.marks[0x104] = 1;
    expect_refused("marks around do not matter", SECOND_UNDEFINED, 0x100);
}

struct access_row {
    const char *what;
    uint16_t h1, h2;
    uint32_t rights, marks, answer, place;
};

/* r1 and r30 hold 2003H; 2000H has the rights named, code only fetch. */
static const struct access_row accesses[] = {
    {"LD.W not readable", H(2, 0x39, 1), 1, 6, 0, SECOND_NOREAD, 0x2000},
    {"LD.H not readable", H(2, 0x39, 1), 0, 6, 0, SECOND_NOREAD, 0x2002},
    {"LD.B not readable", H(2, 0x38, 1), 0, 6, 0, SECOND_NOREAD, 0x2003},
    {"LD.B to r0 not readable", H(0, 0x38, 1), 0, 6, 0, SECOND_NOREAD, 0x2003},
    {"LD.B, LEAK before NOREAD", H(2, 0x38, 1), 0, 6, 2, SECOND_LEAK, 0x100},
    {"LD.B below", H(2, 0x38, 1), 0xFFFC, 7, 0, SECOND_NOREAD, 0x1FFF},
    {"LD.W above", H(2, 0x39, 1), 0x0101, 7, 0, SECOND_NOREAD, 0x2100},
    {"SLD.H not readable", H4(2, 0x8, 0x7F), 0, 6, 0, SECOND_NOREAD, 0x2100},
    {"ST.W not writable", H(2, 0x3B, 1), 1, 5, 0, SECOND_NOWRITE, 0x2000},
    {"ST.H, LEAK before NOWRITE", H(2, 0x3B, 1), 0, 5, 2, SECOND_LEAK, 0x100},
    {"ST.B of a marked register", H(2, 0x3A, 1), 0, 2, 4, SECOND_DONE, 0},
    {"SST.W not writable", H4(2, 0xA, 1), 0, 5, 1u << 2, SECOND_NOWRITE, 0x2000},
    {"SET1 neither", H1BIT(0, 0, 1), 0, 4, 0, SECOND_NOREAD, 0x2003},
    {"SET1 not readable", H1BIT(0, 0, 1), 0, 2, 0, SECOND_NOREAD, 0x2003},
    {"NOT1 not writable", H1BIT(1, 0, 1), 0, 1, 0, SECOND_NOWRITE, 0x2003},
    {"CLR1 not writable", H1BIT(2, 0, 1), 0, 1, 0, SECOND_NOWRITE, 0x2003},
    {"CLR1, LEAK first", H1BIT(2, 0, 1), 0, 0, 2, SECOND_LEAK, 0x100},
    {"TST1 only reads", H1BIT(3, 0, 1), 0, 1, 0, SECOND_DONE, 0},
    {"TST1 not readable", H1BIT(3, 0, 1), 0, 2, 0, SECOND_NOREAD, 0x2003},
};

static void operand_order(void)
{
    for (size_t k = 0; k < sizeof accesses / sizeof accesses[0]; k++) {
        const struct access_row *x = &accesses[k];
        fresh();
        set_region(0, 0x100, 0x10, 0x100, 4);
        set_region(1, 0x2000, 0x100, 0x200, x->rights);
        code(0x100, x->h1, x->h2);
        set_r(1, 0x2003);
        set_r(30, 0x2003);
        set_r(2, 0x77);
        set_word(B_PSW, 0x1F);
        set_word(B_REG_MARKS, x->marks);
        if (x->answer == SECOND_DONE) expect(x->what, run(1), SECOND_DONE);
        else expect_refused(x->what, x->answer, x->place);
    }
}

/* The budget is looked at before each step, and before HALT. */
static void budgets(void)
{
    fresh();
    t.block[B_HALTED] = 1;
    keep();
    expect("budget 0, halted", run(0), SECOND_DONE);
    expect("budget 0, halted", steps(), 0);
    expect_kept("budget 0, halted");
    fresh();
    code(0x100, 0x07E0, 0x0120);
    expect("budget used up by HALT", run(1), SECOND_DONE);
    expect("budget used up by HALT", steps(), 1);
    expect("asleep after 0", run(5), SECOND_ASLEEP);
    expect("asleep after 0", steps(), 0);
    fresh();
    code(0x100, H(2, 0x12, 1), H(2, 0x12, 1)); /* ADD 1, r2 twice, then undefined */
    code(0x104, H(1, 0x03, 0), 0);
    expect("two steps, then refused", run(9), SECOND_UNDEFINED);
    expect("two steps, then refused", steps(), 2);
    expect("two steps, then refused", place(), 0x104);
    expect("two steps stay done", r(2), 2);
    fresh();
    code(0x100, H(2, 0x12, 1), 0);
    set_word(B_CODE, 0x100);
    t.block[B_NMI] = 1;
    code(0x10, 0x07E0, 0x0140); /* RETI, so the code is accepted next */
    expect("NMI, RETI, maskable, ADD", run(4), SECOND_DONE);
    expect("NMI, RETI, maskable, ADD", r(2), 1);
    expect("NMI, RETI, maskable, ADD", word(B_PC), 0x102);
}

/* The sample of 01 counted by hand, then one NMI and one LEAK. */
static void statistics(void)
{
    static struct second_stats s;
    fresh();
    code(0x100, 0x5205, 0x525F); /* MOV 5, r10; ADD -1, r10; BNZ -2; HALT */
    code(0x104, 0xFDFA, 0x07E0);
    code(0x108, 0x0120, 0);
    code(0x10, H(0, 0x03, 1), 0); /* JMP [r1] */
    set_word(B_REG_MARKS, 2);
    second_stats = &s;
    expect("sample", run(12), SECOND_DONE);
    t.block[B_NMI] = 1;
    expect("NMI, then LEAK", run(2), SECOND_LEAK);
    second_stats = NULL;
    expect("MOV", (uint32_t)s.executed[SECOND_OP_MOV_IMM5], 1);
    expect("ADD", (uint32_t)s.executed[SECOND_OP_ADD_IMM5], 5);
    expect("Bcond", (uint32_t)s.executed[SECOND_OP_BCOND], 5);
    expect("HALT", (uint32_t)s.executed[SECOND_OP_HALT], 1);
    expect("JMP is not counted", (uint32_t)s.executed[SECOND_OP_JMP], 0);
    expect("LEAK by JMP", (uint32_t)s.leak[SECOND_LEAK_JMP], 1);
    expect("NMI", (uint32_t)s.nmi, 1);
    expect("no maskable, no illegal code", (uint32_t)(s.maskable + s.illegal), 0);
}

void test_order(void)
{
    fetch_edges();
    fetch_order();
    operand_order();
    budgets();
    statistics();
}
