/* 01, "How marks travel", sentence by sentence. */
#include "test.h"

struct row {
    const char *what;
    uint16_t h1, h2;
    uint32_t r1, r2, psw, marks, psw_marks, want_marks, want_psw_marks;
};

/* Register marks: bit 1 for r1, bit 2 for r2. PSW marks: SAT 10H, CY 8, OV 4, S 2, Z 1. */
static const struct row rows[] = {
    {"MOV does not read reg2", H(2, 0x00, 1), 0, 1, 1, 0, 4, 0x1F, 0, 0x1F},
    {"MOV marked", H(2, 0x00, 1), 0, 1, 1, 0, 2, 0, 6, 0},
    {"MOV imm5 unmarked", H(2, 0x10, 1), 0, 1, 1, 0, 6, 0, 2, 0},
    {"MOVEA", H(2, 0x31, 1), 1, 1, 1, 0, 2, 0, 6, 0},
    {"MOVHI", H(2, 0x32, 1), 1, 1, 1, 0, 4, 0, 0, 0},
    {"MULH reads both", H(2, 0x07, 1), 0, 1, 1, 0, 4, 0x05, 4, 0x05},
    {"MULHI reads reg1", H(2, 0x37, 1), 1, 1, 1, 0, 2, 0, 6, 0},
    {"ADD marked", H(2, 0x0E, 1), 0, 1, 1, 0, 2, 0x10, 6, 0x1F},
    {"ADD unmarked", H(2, 0x0E, 1), 0, 1, 1, 0, 0, 0x1F, 0, 0x10},
    {"ADDI does not read reg2", H(2, 0x30, 1), 1, 1, 1, 0, 4, 0x0F, 0, 0},
    {"SUB", H(2, 0x0D, 1), 0, 1, 1, 0, 4, 0, 4, 0x0F},
    {"CMP marks only flags", H(2, 0x0F, 1), 0, 1, 1, 0, 2, 0, 2, 0x0F},
    {"CMP imm5", H(2, 0x13, 1), 0, 1, 1, 0, 4, 0, 4, 0x0F},
    {"SATADD unmarked keeps SAT's mark", H(2, 0x06, 1), 0, 1, 1, 0, 0, 0x1F, 0, 0x10},
    {"SATADD marked", H(2, 0x06, 1), 0, 1, 1, 0, 2, 0, 6, 0x1F},
    {"SATSUBI", H(2, 0x33, 1), 1, 1, 1, 0, 2, 0, 6, 0x1F},
    {"OR: OV constant, CY kept", H(2, 0x08, 1), 0, 1, 1, 0, 2, 0x0C, 6, 0x0B},
    {"OR unmarked", H(2, 0x08, 1), 0, 1, 1, 0, 0, 0x1F, 0, 0x18},
    {"NOT does not read reg2", H(2, 0x01, 1), 0, 1, 1, 0, 4, 0x1F, 0, 0x18},
    {"NOT: OV constant", H(2, 0x01, 1), 0, 1, 1, 0, 2, 0x04, 6, 0x03},
    {"TST", H(2, 0x0B, 1), 0, 1, 1, 0, 4, 0x04, 4, 0x03},
    {"ANDI: S constant", H(2, 0x36, 1), 1, 1, 1, 0, 2, 0x1E, 6, 0x19},
    {"XORI", H(2, 0x35, 1), 1, 1, 1, 0, 2, 0, 6, 0x03},
    {"SHL by 0: CY computed", H(2, 0x16, 0), 0, 1, 1, 0, 4, 0x04, 4, 0x0B},
    {"SHR by a marked amount", H(2, 0x3F, 1), 0x0080, 0, 1, 0, 2, 0, 6, 0x0B},
    {"SAR unmarked", H(2, 0x15, 1), 0, 1, 1, 0, 2, 0x1F, 2, 0x10},
    {"DIVH", H(2, 0x02, 1), 0, 1, 1, 0, 4, 0x08, 4, 0x0F},
    {"DIVH by marked zero", H(2, 0x02, 1), 0, 0, 5, 0, 2, 0, 6, 0x07},
    {"DIVH by zero, unmarked", H(2, 0x02, 1), 0, 0, 5, 0, 0, 0x1F, 0, 0x18},
    {"SETF 5 reads nothing", H(2, 0x3F, 5), 0, 0, 0, 0, 4, 0x1F, 0, 0x1F},
    {"SETF 13 reads SAT", H(2, 0x3F, 13), 0, 0, 0, 0, 0, 0x10, 4, 0x10},
    {"SETF 13 reads no other", H(2, 0x3F, 13), 0, 0, 0, 0, 4, 0x0F, 0, 0x0F},
    {"SETF 3 reads Z though CY = 1", H(2, 0x3F, 3), 0, 0, 0, 0x08, 0, 0x01, 4, 0x01},
    {"SETF 11 reads Z though CY = 1", H(2, 0x3F, 11), 0, 0, 0, 0x08, 0, 0x01, 4, 0x01},
    {"SETF 7 reads Z though S xor OV = 1", H(2, 0x3F, 7), 0, 0, 0, 0x02, 0, 0x01, 4, 0x01},
    {"SETF 14 reads OV", H(2, 0x3F, 14), 0, 0, 0, 0, 0, 0x04, 4, 0x04},
    {"SETF 6 does not read Z, CY", H(2, 0x3F, 6), 0, 0, 0, 0, 4, 0x19, 0, 0x19},
    {"SETF 8 reads OV", H(2, 0x3F, 8), 0, 0, 0, 0, 4, 0x1B, 0, 0x1B},
    {"SETF 12 reads S", H(2, 0x3F, 12), 0, 0, 0, 0, 0, 0x02, 4, 0x02},
    {"JARL's link is unmarked", H(2, 0x3C, 0), 0x0010, 0, 0, 0, 4, 0, 0, 0},
};

static void all_rows(void)
{
    for (size_t k = 0; k < sizeof rows / sizeof rows[0]; k++) {
        const struct row *x = &rows[k];
        fresh_with(x->h1, x->h2, x->r1, x->r2, x->psw);
        set_word(B_REG_MARKS, x->marks);
        t.block[B_PSW_MARKS] = (uint8_t)x->psw_marks;
        expect(x->what, run(1), SECOND_DONE);
        expect(x->what, word(B_REG_MARKS), x->want_marks);
        expect(x->what, t.block[B_PSW_MARKS], x->want_psw_marks);
    }
}

/* A proved number: r5 is 0 and marked. */
static void xor_itself(void)
{
    fresh();
    code(0x100, H(5, 0x09, 5), 0);
    set_r(5, 123);
    set_word(B_REG_MARKS, 0x20);
    expect("XOR r5, r5", run(1), SECOND_DONE);
    expect("XOR r5, r5", r(5), 0);
    expect("XOR r5, r5", word(B_REG_MARKS), 0x20);
    expect("XOR r5, r5", t.block[B_PSW_MARKS], 0x03);
}

/* Any loaded byte; 2 to 255 count as marked and stay. r0 is never marked. */
static void loads(void)
{
    fresh();
    code(0x100, H(2, 0x39, 1), 0x0001); /* LD.W [r1], r2 */
    set_r(1, 0x200);
    t.marks[0x203] = 2;
    expect("LD.W", run(1), SECOND_DONE);
    expect("LD.W takes the last byte's mark", word(B_REG_MARKS), 4);
    expect("LD.W leaves the mark byte", t.marks[0x203], 2);
    fresh();
    code(0x100, H(2, 0x38, 1), 0x0000); /* LD.B */
    set_r(1, 0x202);
    set_word(B_REG_MARKS, 4);
    t.marks[0x201] = t.marks[0x203] = 1;
    expect("LD.B", run(1), SECOND_DONE);
    expect("LD.B unmarks", word(B_REG_MARKS), 0);
    fresh();
    code(0x100, H(0, 0x38, 1), 0x0000); /* LD.B to r0 */
    set_r(1, 0x202);
    t.memory[0x202] = t.marks[0x202] = 255;
    expect("LD.B to r0", run(1), SECOND_DONE);
    expect("LD.B to r0", word(B_REG_MARKS), 0);
    expect("LD.B to r0", r(0), 0);
}

/* A store writes the register's mark to each byte, and to no other. */
static void stores(void)
{
    for (uint32_t mark = 0; mark < 2; mark++) {
        fresh();
        code(0x100, H(2, 0x3B, 1), 0x0001); /* ST.W r2, [r1] */
        set_r(1, 0x200);
        set_word(B_REG_MARKS, mark << 2);
        for (uint32_t k = 0; k < 6; k++) t.marks[0x1FF + k] = 7;
        expect("ST.W", run(1), SECOND_DONE);
        for (uint32_t k = 0; k < 4; k++) expect("ST.W mark", t.marks[0x200 + k], mark);
        expect("ST.W mark around", t.marks[0x1FF], 7);
        expect("ST.W mark around", t.marks[0x204], 7);
    }
}

/* The mark byte stays, also where it is 2 to 255; Z takes it. */
static void bits(void)
{
    for (uint32_t which = 0; which < 4; which++)
        for (uint32_t mark = 0; mark < 2; mark++) {
            fresh();
            code(0x100, H1BIT(which, 0, 1), 0x0000);
            set_r(1, 0x200);
            t.marks[0x200] = mark ? 0x80 : 0;
            t.block[B_PSW_MARKS] = (uint8_t)(0x1E | (mark ^ 1));
            expect("bit", run(1), SECOND_DONE);
            expect("bit: Z's mark", t.block[B_PSW_MARKS], 0x1E | mark);
            expect("bit: mark byte", t.marks[0x200], mark ? 0x80 : 0);
        }
}

/* LDSR marks the whole target or clears it. */
static void ldsr_marks(void)
{
    static const uint8_t whole[4] = {0x01, 0xFF, 0x02, 0xFF};
    static const uint8_t at[4] = {B_PC_MARKS, B_EIPSW_MARKS, B_PC_MARKS, B_FEPSW_MARKS};
    for (uint32_t n = 0; n < 4; n++)
        for (uint32_t mark = 0; mark < 2; mark++) {
            fresh();
            code(0x100, H(n, 0x3F, 1), 0x0020);
            set_word(B_REG_MARKS, mark << 1);
            t.block[B_EIPSW_MARKS] = t.block[B_FEPSW_MARKS] = 0x24;
            t.block[B_PC_MARKS] = (uint8_t)(mark ? 0 : 3);
            expect("LDSR", run(1), SECOND_DONE);
            expect("LDSR target", t.block[at[n]], mark ? whole[n] : n % 2 == 1 ? 0 : 3u ^ whole[n]);
        }
    fresh();
    code(0x100, H(5, 0x3F, 1), 0x0020);
    t.block[B_PSW_MARKS] = 0x1F;
    expect("LDSR to PSW", run(1), SECOND_DONE);
    expect("LDSR to PSW clears", t.block[B_PSW_MARKS], 0);
}

/* STSR is marked exactly if any bit is; ECR never. */
static void stsr_marks(void)
{
    for (uint32_t n = 0; n < 6; n++)
        for (uint32_t mark = 0; mark < 2; mark++) {
            fresh();
            code(0x100, H(2, 0x3F, n), 0x0040);
            set_word(B_REG_MARKS, (mark ^ 1) << 2);
            t.block[B_EIPSW_MARKS] = (uint8_t)((n == 1) == mark ? 0x80 : 0);
            t.block[B_FEPSW_MARKS] = (uint8_t)((n == 3) == mark ? 0x40 : 0);
            t.block[B_PSW_MARKS] = (uint8_t)((n == 5) == mark ? 0x08 : 0);
            t.block[B_PC_MARKS] = (uint8_t)(((n == 0) == mark ? 1 : 0) | ((n == 2) == mark ? 2 : 0));
            expect("STSR", run(1), SECOND_DONE);
            expect("STSR mark", word(B_REG_MARKS), n == 4 ? 0 : mark << 2);
        }
}

static void leaks_by_register(const char *what, uint16_t h1, uint16_t h2, uint32_t base)
{
    fresh();
    code(0x100, h1, h2);
    set_r(base, 0x200);
    set_word(B_REG_MARKS, 1u << base);
    expect_refused(what, SECOND_LEAK, 0x100);
    set_word(B_REG_MARKS, ~(1u << base) & ~1u);
    expect(what, run(1), SECOND_DONE);
}

static void register_leaks(void)
{
    leaks_by_register("JMP", H(0, 0x03, 1), 0, 1);
    leaks_by_register("LD.B", H(2, 0x38, 1), 0, 1);
    leaks_by_register("LD.W", H(2, 0x39, 1), 1, 1);
    leaks_by_register("ST.H", H(2, 0x3B, 1), 0, 1);
    leaks_by_register("SLD.W", H4(2, 0xA, 0), 0, 30);
    leaks_by_register("SST.B", H4(2, 0x7, 0), 0, 30);
    leaks_by_register("SET1", H1BIT(0, 0, 1), 0, 1);
    leaks_by_register("TST1", H1BIT(3, 0, 1), 0, 1);
    leaks_by_register("LDSR to PSW", H(5, 0x3F, 1), 0x0020, 1);
}

/* Bcond: the flags in the condition's formula, whatever their values. */
static void branch_leaks(void)
{
    static const uint8_t reads[16] = {0x04, 0x08, 0x01, 0x09, 0x02, 0x00, 0x06, 0x07,
                                      0x04, 0x08, 0x01, 0x09, 0x02, 0x10, 0x06, 0x07};
    for (uint32_t c = 0; c < 16; c++)
        for (uint32_t bit = 1; bit < 0x20; bit *= 2)
            for (uint32_t psw = 0; psw < 0x20; psw++) {
                fresh();
                code(0x100, HB(1, 0, c), 0);
                set_word(B_PSW, psw);
                t.block[B_PSW_MARKS] = (uint8_t)bit;
                if (reads[c] & bit) expect_refused("Bcond", SECOND_LEAK, 0x100);
                else expect("Bcond", run(1), SECOND_DONE);
            }
}

/* RETI looks at the bank that NP and EP choose, and at NP, EP, ID there. */
static void reti_leaks(void)
{
    for (uint32_t bank = 0; bank < 2; bank++) {
        const uint32_t psw = bank ? 0x80 : 0xC0;
        const uint32_t own = bank ? B_FEPSW_MARKS : B_EIPSW_MARKS;
        const uint32_t other = bank ? B_EIPSW_MARKS : B_FEPSW_MARKS;
        for (uint32_t bit = 1; bit < 0x100; bit *= 2) {
            fresh();
            code(0x100, 0x07E0, 0x0140);
            set_word(B_PSW, psw);
            t.block[own] = (uint8_t)bit;
            t.block[other] = 0xFF;
            t.block[B_PC_MARKS] = bank ? 1 : 2;
            if (bit >= 0x20) {
                expect_refused("RETI PSW", SECOND_LEAK, 0x100);
                continue;
            }
            expect("RETI", run(1), SECOND_DONE);
            expect("RETI carries marks", t.block[B_PSW_MARKS], bit);
        }
        fresh();
        code(0x100, 0x07E0, 0x0140);
        set_word(B_PSW, psw);
        t.block[B_PC_MARKS] = bank ? 2 : 1;
        expect_refused("RETI PC", SECOND_LEAK, 0x100);
    }
}

void test_marks(void)
{
    all_rows();
    xor_itself();
    loads();
    stores();
    bits();
    ldsr_marks();
    stsr_marks();
    register_leaks();
    branch_leaks();
    reti_leaks();
}
