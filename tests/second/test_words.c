/* Decoding and encoding, against 01's table and the ranges of its encoder. */
#include "test.h"

static void decodes(const char *what, uint16_t h1, uint16_t h2, enum second_op op,
                    uint32_t reg1, uint32_t reg2, int32_t value, uint32_t number)
{
    const struct second_decoded d = second_decode(h1, h2);
    expect(what, d.kind, SECOND_IS_INSTRUCTION);
    expect(what, d.insn.op, op);
    expect(what, d.insn.reg1, reg1);
    expect(what, d.insn.reg2, reg2);
    expect(what, (uint32_t)d.insn.value, (uint32_t)value);
    expect(what, d.insn.number, number);
}

static void is(const char *what, uint16_t h1, uint16_t h2, enum second_kind kind, uint32_t halfwords)
{
    const struct second_decoded d = second_decode(h1, h2);
    expect(what, d.kind, kind);
    expect(what, d.halfwords, halfwords);
}

static void proved_numbers(void)
{
    decodes("5205H", 0x5205, 0, SECOND_OP_MOV_IMM5, 0, 10, 5, 0);
    decodes("007FH", 0x007F, 0, SECOND_OP_JMP, 31, 0, 0, 0);
    is("0860H", 0x0860, 0, SECOND_IS_UNDEFINED, 1);
    decodes("87E0H 0160H", 0x87E0, 0x0160, SECOND_OP_EI, 0, 0, 0, 0);
    is("87E0H 0161H", 0x87E0, 0x0161, SECOND_IS_UNDEFINED, 2);
    is("07E0H 0180H", 0x07E0, 0x0180, SECOND_IS_ILLEGAL, 2);
}

/* The five halfwords of 01's sample, 5205 (above) 525F FDFA 07E0 0120, and one of each form. */
static void forms(void)
{
    decodes("525FH", 0x525F, 0, SECOND_OP_ADD_IMM5, 0, 10, -1, 0);
    decodes("FDFAH", 0xFDFA, 0, SECOND_OP_BCOND, 0, 0, -2, 10);
    decodes("HALT", 0x07E0, 0x0120, SECOND_OP_HALT, 0, 0, 0, 0);
    decodes("RETI", 0x07E0, 0x0140, SECOND_OP_RETI, 0, 0, 0, 0);
    decodes("DI", 0x07E0, 0x0160, SECOND_OP_DI, 0, 0, 0, 0);
    decodes("NOP", 0x0000, 0, SECOND_OP_MOV_REG, 0, 0, 0, 0);
    decodes("CMP", H(4, 0x0F, 3), 0, SECOND_OP_CMP_REG, 3, 4, 0, 0);
    decodes("SHR imm5", H(4, 0x14, 31), 0, SECOND_OP_SHR_IMM5, 0, 4, 31, 0);
    decodes("MULH imm5", H(4, 0x17, 16), 0, SECOND_OP_MULH_IMM5, 0, 4, -16, 0);
    decodes("SLD.B", H4(5, 0x6, 0x7F), 0, SECOND_OP_SLD_B, 0, 5, 127, 0);
    decodes("SST.B", H4(5, 0x7, 0x40), 0, SECOND_OP_SST_B, 0, 5, 64, 0);
    decodes("SLD.H", H4(5, 0x8, 0x7F), 0, SECOND_OP_SLD_H, 0, 5, 254, 0);
    decodes("SST.H", H4(5, 0x9, 0x01), 0, SECOND_OP_SST_H, 0, 5, 2, 0);
    decodes("SLD.W", H4(5, 0xA, 0x7E), 0, SECOND_OP_SLD_W, 0, 5, 252, 0);
    decodes("SST.W", H4(5, 0xA, 0x03), 0, SECOND_OP_SST_W, 0, 5, 4, 0);
    decodes("Bcond +254", HB(0x0F, 7, 15), 0, SECOND_OP_BCOND, 0, 0, 254, 15);
    decodes("Bcond -256", HB(0x10, 0, 0), 0, SECOND_OP_BCOND, 0, 0, -256, 0);
    decodes("ADDI", H(7, 0x30, 6), 0xFFFF, SECOND_OP_ADDI, 6, 7, -1, 0);
    decodes("MOVEA", H(7, 0x31, 6), 0x8000, SECOND_OP_MOVEA, 6, 7, -32768, 0);
    decodes("MOVHI", H(7, 0x32, 6), 0xFFFF, SECOND_OP_MOVHI, 6, 7, 65535, 0);
    decodes("SATSUBI", H(7, 0x33, 6), 0x7FFF, SECOND_OP_SATSUBI, 6, 7, 32767, 0);
    decodes("ORI", H(7, 0x34, 6), 0x8000, SECOND_OP_ORI, 6, 7, 32768, 0);
    decodes("XORI", H(7, 0x35, 6), 0xFFFF, SECOND_OP_XORI, 6, 7, 65535, 0);
    decodes("ANDI", H(7, 0x36, 6), 0xFFFE, SECOND_OP_ANDI, 6, 7, 65534, 0);
    decodes("MULHI", H(7, 0x37, 6), 0xFFFE, SECOND_OP_MULHI, 6, 7, -2, 0);
    decodes("LD.B", H(7, 0x38, 6), 0xFFFF, SECOND_OP_LD_B, 6, 7, -1, 0);
    decodes("LD.H", H(7, 0x39, 6), 0xFFFE, SECOND_OP_LD_H, 6, 7, -2, 0);
    decodes("LD.W", H(7, 0x39, 6), 0x0003, SECOND_OP_LD_W, 6, 7, 2, 0);
    decodes("ST.B", H(7, 0x3A, 6), 0x7FFF, SECOND_OP_ST_B, 6, 7, 32767, 0);
    decodes("ST.H", H(7, 0x3B, 6), 0x7FFE, SECOND_OP_ST_H, 6, 7, 32766, 0);
    decodes("ST.W", H(7, 0x3B, 6), 0x8001, SECOND_OP_ST_W, 6, 7, -32768, 0);
    decodes("JARL", H(31, 0x3C, 1), 0x0002, SECOND_OP_JARL, 0, 31, 0x10002, 0);
    decodes("JR", H(0, 0x3D, 31), 0xFFFE, SECOND_OP_JARL, 0, 0, -2, 0);
    decodes("SET1", H1BIT(0, 7, 3), 0x8000, SECOND_OP_SET1, 3, 0, -32768, 7);
    decodes("NOT1", H1BIT(1, 1, 3), 0x0001, SECOND_OP_NOT1, 3, 0, 1, 1);
    decodes("CLR1", H1BIT(2, 2, 3), 0x0001, SECOND_OP_CLR1, 3, 0, 1, 2);
    decodes("TST1", H1BIT(3, 3, 3), 0x0001, SECOND_OP_TST1, 3, 0, 1, 3);
    decodes("SETF", H(9, 0x3F, 13), 0x0000, SECOND_OP_SETF, 0, 9, 0, 13);
    decodes("LDSR", H(5, 0x3F, 9), 0x0020, SECOND_OP_LDSR, 0, 9, 0, 5);
    decodes("STSR", H(9, 0x3F, 4), 0x0040, SECOND_OP_STSR, 0, 9, 0, 4);
    decodes("SHR", H(9, 0x3F, 8), 0x0080, SECOND_OP_SHR_REG, 8, 9, 0, 0);
    decodes("SAR", H(9, 0x3F, 8), 0x00A0, SECOND_OP_SAR_REG, 8, 9, 0, 0);
    decodes("SHL", H(9, 0x3F, 8), 0x00C0, SECOND_OP_SHL_REG, 8, 9, 0, 0);
    decodes("TRAP", H(0, 0x3F, 31), 0x0100, SECOND_OP_TRAP, 0, 0, 0, 31);
}

static void undefined_and_illegal(void)
{
    is("JARL bit 16", H(1, 0x3C, 0), 0x0001, SECOND_IS_UNDEFINED, 2);
    is("SETF bit 4", H(1, 0x3F, 16), 0x0000, SECOND_IS_UNDEFINED, 2);
    is("LDSR to ECR", H(4, 0x3F, 1), 0x0020, SECOND_IS_UNDEFINED, 2);
    is("LDSR to 6", H(6, 0x3F, 1), 0x0020, SECOND_IS_UNDEFINED, 2);
    is("STSR of 6", H(1, 0x3F, 6), 0x0040, SECOND_IS_UNDEFINED, 2);
    is("0060H", H(0, 0x3F, 0), 0x0060, SECOND_IS_UNDEFINED, 2);
    is("00E0H", H(0, 0x3F, 0), 0x00E0, SECOND_IS_UNDEFINED, 2);
    is("TRAP with reg2", H(1, 0x3F, 0), 0x0100, SECOND_IS_UNDEFINED, 2);
    is("HALT at 07E1H", 0x07E1, 0x0120, SECOND_IS_UNDEFINED, 2);
    is("HALT at 87E0H", 0x87E0, 0x0120, SECOND_IS_UNDEFINED, 2);
    is("RETI at 87E0H", 0x87E0, 0x0140, SECOND_IS_UNDEFINED, 2);
    is("DI at 0FE0H", 0x0FE0, 0x0160, SECOND_IS_UNDEFINED, 2);
    is("EI at 87E1H", 0x87E1, 0x0160, SECOND_IS_UNDEFINED, 2);
    is("8000H", H(1, 0x3F, 1), 0x8000, SECOND_IS_UNDEFINED, 2);
    is("illegal, bits around set", H(31, 0x3F, 31), 0xFFFF, SECOND_IS_ILLEGAL, 2);
    is("illegal 0400H", H(0, 0x3F, 0), 0x0400, SECOND_IS_ILLEGAL, 2);
}

/* What comes out of decoding goes back to the same halfwords. */
static bool round_trip(uint16_t h1, uint16_t h2)
{
    const struct second_decoded d = second_decode(h1, h2);
    uint16_t out[2] = {0x1234, h2};
    uint32_t count = 9;
    if (d.halfwords != (second_needs_second(h1) ? 2u : 1u)) return false;
    if (d.kind != SECOND_IS_INSTRUCTION) return true;
    return second_encode(&d.insn, out, &count) == SECOND_DONE && count == d.halfwords &&
           out[0] == h1 && out[1] == h2;
}

static void all_first_halfwords(void)
{
    static const uint16_t seconds[] = {0x0000, 0x0001, 0x0002, 0x0003, 0x0020, 0x0040, 0x0080, 0x00A0,
                                       0x00C0, 0x0100, 0x0120, 0x0140, 0x0160, 0x7FFE, 0x7FFF, 0x8000,
                                       0x8001, 0xFFFE, 0xFFFF};
    uint32_t bad = 0, undefined = 0;
    for (uint32_t h1 = 0; h1 < 65536; h1++) {
        for (size_t k = 0; k < sizeof seconds / sizeof seconds[0]; k++)
            if (!round_trip((uint16_t)h1, seconds[k])) bad++;
        if (!second_needs_second((uint16_t)h1) && second_decode((uint16_t)h1, 0).kind == SECOND_IS_UNDEFINED)
            undefined++;
    }
    expect("round trip over all first halfwords", bad, 0);
    expect("undefined 2-byte codes: JMP, 31 * 32", undefined, 992);
}

/* 07E0H: thirteen sixteenths illegal, ten instructions, the rest undefined. */
static void all_second_halfwords(void)
{
    uint32_t count[3] = {0, 0, 0}, bad = 0;
    for (uint32_t h2 = 0; h2 < 65536; h2++) {
        count[second_decode(0x07E0, (uint16_t)h2).kind]++;
        if (!round_trip(0x07E0, (uint16_t)h2)) bad++;
    }
    expect("instructions at 07E0H", count[SECOND_IS_INSTRUCTION], 10);
    expect("illegal codes at 07E0H", count[SECOND_IS_ILLEGAL], 53248);
    expect("undefined at 07E0H", count[SECOND_IS_UNDEFINED], 12278);
    expect("round trip at 07E0H", bad, 0);
}

static uint32_t encoded(struct second_insn i, uint32_t *count)
{
    uint16_t out[2] = {0xABCD, 0xEF01};
    const uint32_t answer = second_encode(&i, out, count);
    if (answer == SECOND_FIELD && (out[0] != 0xABCD || out[1] != 0xEF01)) return 99;
    return answer;
}

static void value_range(enum second_op op, int32_t low, int32_t high, int32_t unit)
{
    struct second_insn i = {op, 0, 0, low, 0};
    const char *what = second_op_name(op);
    uint32_t count;
    expect(what, encoded(i, &count), SECOND_DONE);
    i.value = high;
    expect(what, encoded(i, &count), SECOND_DONE);
    i.value = low - unit;
    expect(what, encoded(i, &count), SECOND_FIELD);
    expect(what, count, 0);
    i.value = high + unit;
    expect(what, encoded(i, &count), SECOND_FIELD);
    i.value = low + 1;
    expect(what, encoded(i, &count), unit == 1 ? SECOND_DONE : SECOND_FIELD);
    i.value = high - unit + 1;
    expect(what, encoded(i, &count), unit == 1 ? SECOND_DONE : SECOND_FIELD);
    i.value = INT32_MIN;
    expect(what, encoded(i, &count), SECOND_FIELD);
    i.value = INT32_MAX;
    expect(what, encoded(i, &count), SECOND_FIELD);
}

static void value_ranges(void)
{
    static const enum second_op imm5[] = {SECOND_OP_MOV_IMM5, SECOND_OP_SATADD_IMM5, SECOND_OP_ADD_IMM5,
                                          SECOND_OP_CMP_IMM5, SECOND_OP_MULH_IMM5};
    static const enum second_op signed16[] = {SECOND_OP_ADDI, SECOND_OP_MOVEA, SECOND_OP_SATSUBI,
                                              SECOND_OP_MULHI, SECOND_OP_LD_B, SECOND_OP_ST_B,
                                              SECOND_OP_SET1, SECOND_OP_NOT1, SECOND_OP_CLR1, SECOND_OP_TST1};
    static const enum second_op even16[] = {SECOND_OP_LD_H, SECOND_OP_LD_W, SECOND_OP_ST_H, SECOND_OP_ST_W};
    for (size_t k = 0; k < 5; k++) value_range(imm5[k], -16, 15, 1);
    for (size_t k = 0; k < 10; k++) value_range(signed16[k], -32768, 32767, 1);
    for (size_t k = 0; k < 4; k++) value_range(even16[k], -32768, 32766, 2);
    for (int op = SECOND_OP_SHR_IMM5; op <= SECOND_OP_SHL_IMM5; op++) value_range((enum second_op)op, 0, 31, 1);
    for (int op = SECOND_OP_ORI; op <= SECOND_OP_ANDI; op++) value_range((enum second_op)op, 0, 65535, 1);
    value_range(SECOND_OP_MOVHI, 0, 65535, 1);
    value_range(SECOND_OP_SLD_B, 0, 127, 1);
    value_range(SECOND_OP_SST_B, 0, 127, 1);
    value_range(SECOND_OP_SLD_H, 0, 254, 2);
    value_range(SECOND_OP_SST_H, 0, 254, 2);
    value_range(SECOND_OP_SLD_W, 0, 252, 4);
    value_range(SECOND_OP_SST_W, 0, 252, 4);
    value_range(SECOND_OP_BCOND, -256, 254, 2);
    value_range(SECOND_OP_JARL, -2097152, 2097150, 2);
}

static void number_range(enum second_op op, uint32_t high)
{
    uint32_t count;
    for (uint32_t n = 0; n < 300; n++) {
        struct second_insn i = {op, 0, 0, 0, n};
        bool good = n <= high;
        if (op == SECOND_OP_LDSR && n == 4) good = false;
        expect(second_op_name(op), encoded(i, &count), good ? SECOND_DONE : SECOND_FIELD);
    }
}

/* Which register fields an instruction has, by 000's operand forms. */
static void register_range(enum second_op op)
{
    const char *name = second_op_name(op);
    bool has1 = false, has2 = false;
    for (const char *c = name; c[0] && c[1] && c[2] && c[3]; c++) {
        if (c[0] == 'r' && c[1] == 'e' && c[2] == 'g' && c[3] == '1') has1 = true;
        if (c[0] == 'r' && c[1] == 'e' && c[2] == 'g' && c[3] == '2') has2 = true;
    }
    for (uint32_t n = 31; n <= 32; n++) {
        struct second_insn one = {op, n, 0, 0, 0}, two = {op, 0, n, 0, 0};
        uint32_t count;
        expect(name, encoded(one, &count), n == 32 && has1 ? SECOND_FIELD : SECOND_DONE);
        expect(name, encoded(two, &count), n == 32 && has2 ? SECOND_FIELD : SECOND_DONE);
    }
}

void test_words(void)
{
    proved_numbers();
    forms();
    undefined_and_illegal();
    all_first_halfwords();
    all_second_halfwords();
    value_ranges();
    number_range(SECOND_OP_BCOND, 15);
    number_range(SECOND_OP_SETF, 15);
    number_range(SECOND_OP_SET1, 7);
    number_range(SECOND_OP_TST1, 7);
    number_range(SECOND_OP_TRAP, 31);
    number_range(SECOND_OP_LDSR, 5);
    number_range(SECOND_OP_STSR, 5);
    for (int op = 0; op < SECOND_OP_COUNT; op++) register_range((enum second_op)op);
    expect("no such op", encoded((struct second_insn){SECOND_OP_COUNT, 0, 0, 0, 0}, &(uint32_t){9}), SECOND_FIELD);
}
