/* Values and flags of single instructions: 01's proved numbers, its corners, 000's chapter 5. */
#include "test.h"

struct row {
    const char *what;
    uint16_t h1, h2;
    uint32_t r1, r2, psw, want_r2, want_psw;
};

/* reg1 is r1, reg2 is r2. PSW: SAT 10H, CY 8, OV 4, S 2, Z 1. */
static const struct row rows[] = {
    {"MOV", H(2, 0x00, 1), 0, 0x89ABCDEF, 1, 0x1F, 0x89ABCDEF, 0x1F},
    {"MOV -16", H(2, 0x10, 16), 0, 0, 1, 0x1F, 0xFFFFFFF0, 0x1F},
    {"MOVEA -1", H(2, 0x31, 1), 0xFFFF, 0, 1, 0x1F, 0xFFFFFFFF, 0x1F},
    {"MOVHI", H(2, 0x32, 1), 0x8001, 0x80001234, 1, 0x1F, 0x00011234, 0x1F},

    {"ADD 7FFFFFFFH + 1", H(2, 0x0E, 1), 0, 1, 0x7FFFFFFF, 0, 0x80000000, 0x06},
    {"ADD FFFFFFFFH + 1", H(2, 0x0E, 1), 0, 1, 0xFFFFFFFF, 0x16, 0, 0x19},
    {"ADD 80000000H twice", H(2, 0x0E, 1), 0, 0x80000000, 0x80000000, 0, 0, 0x0D},
    {"ADD -16", H(2, 0x12, 16), 0, 0, 0x10, 0, 0, 0x09},
    {"ADDI -8000H", H(2, 0x30, 1), 0x8000, 0x7FFF, 9, 0, 0xFFFFFFFF, 0x02},
    {"SUB 0 - 1", H(2, 0x0D, 1), 0, 1, 0, 0, 0xFFFFFFFF, 0x0A},
    {"SUB 80000000H - 1", H(2, 0x0D, 1), 0, 1, 0x80000000, 0x1B, 0x7FFFFFFF, 0x14},
    {"SUB equal", H(2, 0x0D, 1), 0, 5, 5, 0x0E, 0, 0x01},
    {"SUBR 3 - 5", H(2, 0x0C, 1), 0, 3, 5, 0, 0xFFFFFFFE, 0x0A},
    {"CMP 3 with 5", H(2, 0x0F, 1), 0, 5, 3, 0, 3, 0x0A},
    {"CMP imm5", H(2, 0x13, 31), 0, 0, 0xFFFFFFFF, 0, 0xFFFFFFFF, 0x01},
    {"MULH 8000H twice", H(2, 0x07, 1), 0, 0xABCD8000, 0x12348000, 0x1F, 0x40000000, 0x1F},
    {"MULH -1 * 2", H(2, 0x07, 1), 0, 0xFFFF, 0x10002, 0, 0xFFFFFFFE, 0},
    {"MULH imm5", H(2, 0x17, 16), 0, 0, 0x18000, 0, 0x80000, 0},
    {"MULHI", H(2, 0x37, 1), 0xFFFF, 0x10003, 9, 0, 0xFFFFFFFD, 0},

    {"DIVH -7 by 2", H(2, 0x02, 1), 0, 2, 0xFFFFFFF9, 0x1D, 0xFFFFFFFD, 0x1A},
    {"DIVH 7 by -2", H(2, 0x02, 1), 0, 0xFFFFFFFE, 7, 0, 0xFFFFFFFD, 0x02},
    {"DIVH by the low half", H(2, 0x02, 1), 0, 0x10002, 7, 0, 3, 0},
    {"DIVH 3 by 5", H(2, 0x02, 1), 0, 5, 3, 0x06, 0, 0x01},
    {"DIVH signed half", H(2, 0x02, 1), 0, 0x8000, 0x8000, 0, 0xFFFFFFFF, 0x02},
    {"DIVH 80000000H by -1", H(2, 0x02, 1), 0, 0xFFFF, 0x80000000, 0x01, 0x80000000, 0x06},
    {"DIVH 0 by 0", H(2, 0x02, 1), 0, 0x10000, 0, 0x03, 0, 0x04},
    {"DIVH -1 by 0", H(2, 0x02, 1), 0, 0, 0xFFFFFFFF, 0x0B, 0xFFFFFFFF, 0x0C},

    {"SATADD 7FFFFFFFH + 1", H(2, 0x06, 1), 0, 1, 0x7FFFFFFF, 0x02, 0x7FFFFFFF, 0x14},
    {"SATADD to the negative end", H(2, 0x06, 1), 0, 0x80000000, 0x80000000, 0, 0x80000000, 0x1E},
    {"SATADD keeps SAT", H(2, 0x06, 1), 0, 1, 1, 0x1F, 2, 0x10},
    {"SATADD imm5", H(2, 0x11, 1), 0, 0, 0x7FFFFFFF, 0, 0x7FFFFFFF, 0x14},
    {"SATADD 0", H(2, 0x11, 31), 0, 0, 1, 0, 0, 0x09},
    {"SATSUB", H(2, 0x05, 1), 0, 1, 0x80000000, 0, 0x80000000, 0x16},
    {"SATSUB to the positive end", H(2, 0x05, 1), 0, 0xFFFFFFFF, 0x7FFFFFFF, 0, 0x7FFFFFFF, 0x1C},
    {"SATSUBR", H(2, 0x04, 1), 0, 0x80000000, 1, 0, 0x80000000, 0x16},
    {"SATSUBI", H(2, 0x33, 1), 0xFFFF, 0x7FFFFFFF, 9, 0, 0x7FFFFFFF, 0x1C},
    {"SATSUBI 5 - 7", H(2, 0x33, 1), 7, 5, 9, 0, 0xFFFFFFFE, 0x0A},

    {"OR", H(2, 0x08, 1), 0, 0x80000000, 1, 0x1F, 0x80000001, 0x1A},
    {"XOR", H(2, 0x09, 1), 0, 7, 7, 0x0C, 0, 0x09},
    {"AND", H(2, 0x0A, 1), 0, 0xF0F0F0F0, 0x0FF00FF0, 0x07, 0x00F000F0, 0},
    {"TST", H(2, 0x0B, 1), 0, 1, 2, 0x0E, 2, 0x09},
    {"NOT", H(2, 0x01, 1), 0, 0, 5, 0x0D, 0xFFFFFFFF, 0x0A},
    {"ORI", H(2, 0x34, 1), 0x8000, 0, 9, 0x07, 0x8000, 0},
    {"XORI", H(2, 0x35, 1), 0xFFFF, 0xFFFF0000, 9, 0, 0xFFFFFFFF, 0x02},
    {"ANDI", H(2, 0x36, 1), 0x8000, 0xFFFFFFFF, 9, 0x0F, 0x8000, 0x08},
    {"ANDI 0", H(2, 0x36, 1), 1, 2, 9, 0x06, 0, 0x01},

    {"SHL 3 by 31", H(2, 0x3F, 1), 0x00C0, 31, 3, 0, 0x80000000, 0x0A},
    {"SHL 3 by 31, imm5", H(2, 0x16, 31), 0, 0, 3, 0x04, 0x80000000, 0x0A},
    {"SAR 80000001H by 1", H(2, 0x15, 1), 0, 0, 0x80000001, 0, 0xC0000000, 0x0A},
    {"SAR by register", H(2, 0x3F, 1), 0x00A0, 31, 0x80000000, 0x0D, 0xFFFFFFFF, 0x02},
    {"SAR 40000000H by 31", H(2, 0x15, 31), 0, 0, 0x40000000, 0, 0, 0x09},
    {"SHR by 1", H(2, 0x14, 1), 0, 0, 3, 0, 1, 0x08},
    {"SHR by 31", H(2, 0x14, 31), 0, 0, 0x80000000, 0x08, 1, 0},
    {"SHR by 33 counts as 1", H(2, 0x3F, 1), 0x0080, 0x21, 2, 0x0F, 1, 0},
    {"SHR by 32 counts as 0", H(2, 0x3F, 1), 0x0080, 0x20, 5, 0x0C, 5, 0},
    {"SHL by 0", H(2, 0x16, 0), 0, 0, 0x80000001, 0x0D, 0x80000001, 0x02},
    {"SAR by 0", H(2, 0x15, 0), 0, 0, 0x80000001, 0x0D, 0x80000001, 0x02},
};

static void all_rows(void)
{
    for (size_t k = 0; k < sizeof rows / sizeof rows[0]; k++) {
        const struct row *x = &rows[k];
        fresh_with(x->h1, x->h2, x->r1, x->r2, x->psw);
        expect(x->what, run(1), SECOND_DONE);
        expect(x->what, r(1), x->r1);
        expect(x->what, r(2), x->want_r2);
        expect(x->what, word(B_PSW), x->want_psw);
        expect(x->what, word(B_PC), second_needs_second(x->h1) ? 0x104 : 0x102);
        expect(x->what, steps(), 1);
        expect(x->what, place(), 0);
    }
}

/* Writing r0 drops the value and still sets flags. */
static void zero_register(void)
{
    fresh();
    code(0x100, H(0, 0x10, 5), H(0, 0x0E, 1)); /* MOV 5, r0; ADD r1, r0 */
    set_r(1, 0x80000000);
    expect("MOV to r0", run(1), SECOND_DONE);
    expect("MOV to r0", r(0), 0);
    expect("ADD to r0", run(1), SECOND_DONE);
    expect("ADD to r0", r(0), 0);
    expect("ADD to r0 sets S", word(B_PSW), 0x02);
}

/* 000 table 5-9 and 003: a PSW for which the condition holds, one for which not. */
static void conditions(void)
{
    static const uint8_t psw[16][2] = {
        {0x04, 0x1B}, {0x08, 0x17}, {0x01, 0x1E}, {0x08, 0x16}, {0x02, 0x1D}, {0x00, 0xFF}, {0x04, 0x1E}, {0x02, 0x1E},
        {0x1B, 0x04}, {0x17, 0x08}, {0x1E, 0x01}, {0x16, 0x01}, {0x1D, 0x02}, {0x10, 0x0F}, {0x06, 0x02}, {0x1E, 0x01},
    };
    for (uint32_t c = 0; c < 16; c++)
        for (uint32_t no = 0; no < 2; no++) {
            const uint32_t holds = no == 0 || c == 5;
            fresh();
            code(0x100, H(2, 0x3F, c), 0x0000); /* SETF c, r2 */
            set_word(B_PSW, psw[c][no]);
            set_r(2, 7);
            expect("SETF", run(1), SECOND_DONE);
            expect("SETF", r(2), holds);
            expect("SETF", word(B_PSW), psw[c][no]);
            fresh();
            code(0x100, HB(0x1E, 7, c), 0); /* disp 1EEH is -18 */
            set_word(B_PSW, psw[c][no]);
            expect("Bcond", run(1), SECOND_DONE);
            expect("Bcond", word(B_PC), holds ? 0xEE : 0x102);
        }
}

struct load_row {
    const char *what;
    uint16_t h1, h2;
    uint32_t base, want;
};

/* Bytes at 200H: 80 FF 34 92 81 00 7F 88; base is in r1 and in r30. */
static const struct load_row loads[] = {
    {"LD.B", H(2, 0x38, 1), 0x0000, 0x200, 0xFFFFFF80},
    {"LD.B -1", H(2, 0x38, 1), 0xFFFF, 0x207, 0x0000007F},
    {"LD.H", H(2, 0x39, 1), 0x0002, 0x200, 0xFFFF9234},
    {"LD.H odd sum", H(2, 0x39, 1), 0x0004, 0x201, 0x00000081},
    {"LD.W", H(2, 0x39, 1), 0x0005, 0x200, 0x887F0081},
    {"LD.W sum 2 over", H(2, 0x39, 1), 0x0003, 0x200, 0x9234FF80},
    {"LD.W sum 3 + 2", H(2, 0x39, 1), 0x0003, 0x203, 0x887F0081},
    {"LD.W high bits dropped", H(2, 0x39, 1), 0x0001, 0xFF000200, 0x9234FF80},
    {"SLD.B", H4(2, 0x6, 0x7F), 0, 0x181, 0xFFFFFF80},
    {"SLD.H", H4(2, 0x8, 0x7F), 0, 0x104, 0xFFFF9234},
    {"SLD.W", H4(2, 0xA, 0x7E), 0, 0x108, 0x887F0081},
    {"SLD.W wraps", H4(2, 0xA, 0x02), 0, 0xFFFFFFFC, 0x00000000},
};

static void all_loads(void)
{
    static const uint8_t bytes[8] = {0x80, 0xFF, 0x34, 0x92, 0x81, 0x00, 0x7F, 0x88};
    for (size_t k = 0; k < sizeof loads / sizeof loads[0]; k++) {
        const struct load_row *x = &loads[k];
        fresh();
        code(0x100, x->h1, x->h2);
        for (uint32_t j = 0; j < 8; j++) t.memory[0x200 + j] = bytes[j];
        set_r(1, x->base);
        set_r(30, x->base);
        set_r(2, 0x55555555);
        set_word(B_PSW, 0x1F);
        expect(x->what, run(1), SECOND_DONE);
        expect(x->what, r(2), x->want);
        expect(x->what, word(B_PSW), 0x1F);
    }
}

static void stores_to(const char *what, uint16_t h1, uint16_t h2, uint32_t base, uint32_t at, uint32_t size)
{
    fresh();
    code(0x100, h1, h2);
    set_r(1, base);
    set_r(30, base);
    set_r(2, 0x89ABCDEF);
    keep();
    expect(what, run(1), SECOND_DONE);
    for (uint32_t k = 0; k < size; k++) {
        expect(what, t.memory[at + k], (0x89ABCDEFu >> (8 * k)) & 0xFF);
        t.memory[at + k] = 0;
    }
    set_word(B_PC, 0x100);
    expect_kept(what);
}

static void all_stores(void)
{
    stores_to("ST.B", H(2, 0x3A, 1), 0xFFFF, 0x204, 0x203, 1);
    stores_to("ST.H", H(2, 0x3B, 1), 0x0002, 0x201, 0x202, 2);
    stores_to("ST.W", H(2, 0x3B, 1), 0x0003, 0x205, 0x204, 4);
    stores_to("SST.B", H4(2, 0x7, 0x7F), 0, 0x200, 0x27F, 1);
    stores_to("SST.H", H4(2, 0x9, 0x40), 0, 0x200, 0x280, 2);
    stores_to("SST.W", H4(2, 0xA, 0x41), 0, 0x203, 0x280, 4);
}

/* Z is 1 if the old bit was 0; NOT1 writes the inverted bit. */
static void bits(void)
{
    static const struct { uint32_t which; uint8_t old, wanted; uint32_t z; } x[] = {
        {0, 0x00, 0x08, 1}, {0, 0x08, 0x08, 0}, {1, 0xF0, 0xF8, 1}, {1, 0x0F, 0x07, 0},
        {2, 0xF7, 0xF7, 1}, {2, 0xFF, 0xF7, 0}, {3, 0xF7, 0xF7, 1}, {3, 0x08, 0x08, 0},
    };
    for (size_t k = 0; k < sizeof x / sizeof x[0]; k++) {
        fresh();
        code(0x100, H1BIT(x[k].which, 3, 1), 0xFFFF);
        set_r(1, 0x301);
        t.memory[0x300] = x[k].old;
        set_word(B_PSW, 0x1E | (x[k].z ^ 1));
        expect("bit", run(1), SECOND_DONE);
        expect("bit", t.memory[0x300], x[k].wanted);
        expect("bit", word(B_PSW), 0x1E | x[k].z);
    }
}

void test_results(void)
{
    all_rows();
    zero_register();
    conditions();
    all_loads();
    all_stores();
    bits();
}
