/* SIZE, MAP, STATE, reset and the region view. */
#include "test.h"

#include <string.h>

static uint32_t run_sizes(size_t block, size_t memory, size_t marks, size_t report)
{
    return second_run(t.block, block, t.memory, memory, t.marks, marks, t.report, report, 1);
}

static void untouched(const char *what, uint32_t answer)
{
    static const uint8_t report[8] = {0xEE, 0xEE, 0xEE, 0xEE, 0xEE, 0xEE, 0xEE, 0xEE};
    expect(what, answer, SECOND_SIZE);
    expect(what, (uint32_t)memcmp(t.report, report, 8), 0);
    expect_kept(what);
}

static void sizes(void)
{
    fresh();
    keep();
    untouched("block 235", run_sizes(235, 0x1000, 0x1000, 8));
    untouched("block 0", run_sizes(0, 0x1000, 0x1000, 8));
    untouched("report 7", run_sizes(236, 0x1000, 0x1000, 7));
    untouched("marks shorter", run_sizes(236, 0x1000, 0xFFF, 8));
    untouched("memory shorter", run_sizes(236, 0xFFF, 0x1000, 8));
    set_region(0, 1, 1, 1, 8);
    keep();
    untouched("SIZE before MAP", run_sizes(236, 0x1000, 0, 8));
}

/* 65,536 bytes are good, 65,537 are not; 0 bytes are good too. */
static void memory_sizes(void)
{
    static uint8_t memory[65537], marks[65537];
    fresh();
    set_region(0, 0, 65536, 0, 7);
    expect("65,536 bytes", second_run(t.block, 236, memory, 65536, marks, 65536, t.report, 8, 1), SECOND_DONE);
    expect("65,537 bytes", second_run(t.block, 236, memory, 65537, marks, 65537, t.report, 8, 1), SECOND_SIZE);
    fresh();
    set_region(0, 0, 0, 0, 0);
    expect("0 bytes", second_run(t.block, 236, memory, 0, marks, 0, t.report, 8, 1), SECOND_NOFETCH);
    expect("0 bytes", second_run(t.block, 236, NULL, 0, NULL, 0, t.report, 8, 1), SECOND_NOFETCH);
}

/* A refusal that writes a report of zeros and nothing else. */
static void zero_report(const char *what, uint32_t answer)
{
    memset(t.report, 0xEE, sizeof t.report);
    keep();
    expect(what, run(1), answer);
    expect(what, steps(), 0);
    expect(what, place(), 0);
    expect_kept(what);
}

static void map(const char *what, uint32_t base, uint32_t length, uint32_t offset, uint32_t rights, bool good)
{
    fresh();
    set_region(0, 0, 0x800, 0, 7);
    set_region(3, base, length, offset, rights);
    set_word(B_PC, 0x7F0);
    if (good) expect(what, run(1), SECOND_DONE);
    else zero_report(what, SECOND_MAP);
}

/* Beside a region of 0 to 7FFH at offset 0; memory is 1000H long. */
static void maps(void)
{
    map("unused", 0, 0, 0, 0, true);
    map("unused with base", 4, 0, 0, 0, false);
    map("unused with offset", 0, 0, 1, 0, false);
    map("unused with rights", 0, 0, 0, 1, false);
    map("good", 0x10000, 0x800, 0x800, 7, true);
    map("no rights", 0x10000, 4, 0x800, 0, true);
    map("rights 8", 0x10000, 4, 0x800, 8, false);
    map("rights FFFFFFFFH", 0x10000, 4, 0x800, 0xFFFFFFFF, false);
    map("base 2 over", 0x10002, 4, 0x800, 7, false);
    map("length 6", 0x10000, 6, 0x800, 7, false);
    map("odd offset", 0x10000, 4, 0x801, 7, true);
    map("touching", 0x800, 4, 0x800, 7, true);
    map("addresses overlap", 0x7FC, 4, 0x800, 7, false);
    map("offsets overlap", 0x800, 4, 0x7FF, 7, false);
    map("offsets overlap without rights", 0x800, 4, 0x7FF, 0, false);
    map("up to 2^24", 0xFFFFFC, 4, 0x800, 7, true);
    map("over 2^24", 0xFFFFFC, 8, 0x800, 7, false);
    map("base beyond", 0x1000000, 4, 0x800, 7, false);
    map("base + length wraps", 0xFFFFFFFC, 8, 0x800, 7, false);
    map("memory's end", 0x10000, 0x800, 0x800, 7, true);
    map("over memory's end", 0x10000, 0x800, 0x804, 7, false);
    map("offset + length wraps", 0x10000, 8, 0xFFFFFFFC, 7, false);
    fresh();
    set_region(2, 4, 0, 0, 0);
    set_word(B_PC, 1);
    zero_report("MAP before STATE", SECOND_MAP);
}

static void bad_word(const char *what, size_t at, uint32_t value)
{
    fresh();
    set_word(at, value);
    zero_report(what, SECOND_STATE);
}

static void bad_byte(const char *what, size_t at, uint8_t value)
{
    fresh();
    t.block[at] = value;
    zero_report(what, SECOND_STATE);
}

static void good_word(const char *what, size_t at, uint32_t value)
{
    fresh();
    set_word(at, value);
    expect(what, run(0), SECOND_DONE);
    expect(what, word(at), value);
}

static void good_byte(const char *what, size_t at, uint8_t value)
{
    fresh();
    t.block[at] = value;
    expect(what, run(0), SECOND_DONE);
    expect(what, t.block[at], value);
}

static void states(void)
{
    bad_word("r0", 0, 0x80000000);
    bad_word("r0 marked", B_REG_MARKS, 1);
    bad_word("PC odd", B_PC, 0x101);
    bad_word("PC above FFFFFEH", B_PC, 0x1000000);
    bad_word("PSW", B_PSW, 0x100);
    bad_word("EIPSW", B_EIPSW, 0x100);
    bad_word("FEPSW", B_FEPSW, 0x80000000);
    bad_word("EIPC", B_EIPC, 0x1000000);
    bad_word("FEPC", B_FEPC, 0x1000000);
    bad_word("code 0010H", B_CODE, 0x10);
    bad_word("code 0070H", B_CODE, 0x70);
    bad_word("code 0088H", B_CODE, 0x88);
    bad_word("code 1000H", B_CODE, 0x1000);
    bad_word("code 00010080H", B_CODE, 0x10080);
    bad_byte("halted 2", B_HALTED, 2);
    bad_byte("NMI 2", B_NMI, 2);
    bad_byte("filler", B_FILLER, 1);
    bad_byte("filler", B_FILLER + 1, 0x80);
    bad_byte("PSW marks, ID", B_PSW_MARKS, 0x20);
    bad_byte("PSW marks, NP", B_PSW_MARKS, 0x80);
    bad_byte("PC marks", B_PC_MARKS, 4);
    good_word("PC FFFFFEH", B_PC, 0xFFFFFE);
    good_word("PSW FFH", B_PSW, 0xFF);
    good_word("EIPC odd", B_EIPC, 0xFFFFFF);
    good_word("FEPC odd", B_FEPC, 0xFFFFFF);
    good_word("EIPSW FFH", B_EIPSW, 0xFF);
    good_word("FEPSW FFH", B_FEPSW, 0xFF);
    good_word("ECR is free", B_ECR, 0xFFFFFFFF);
    good_word("code 0080H", B_CODE, 0x80);
    good_word("code 0FF0H", B_CODE, 0xFF0);
    good_word("marks of r1 to r31", B_REG_MARKS, 0xFFFFFFFE);
    good_byte("PSW marks", B_PSW_MARKS, 0x1F);
    good_byte("EIPSW marks", B_EIPSW_MARKS, 0xFF);
    good_byte("FEPSW marks", B_FEPSW_MARKS, 0xFF);
    good_byte("PC marks", B_PC_MARKS, 3);
    good_byte("NMI 1", B_NMI, 1);
}

/* 000 table 7-1 and 01's house rule, over a block full of FFH. */
static void reset(void)
{
    fresh();
    memset(t.block, 0xFF, sizeof t.block);
    keep();
    expect("reset of 235 bytes", second_reset(t.block, 235), SECOND_SIZE);
    expect("reset of 237 bytes", second_reset(t.block, 237), SECOND_SIZE);
    expect_kept("reset of a wrong size");
    expect("reset", second_reset(t.block, 236), SECOND_DONE);
    for (uint32_t k = 0; k < 236; k++)
        expect("reset", t.block[k], k >= 172 ? 0xFF : k == B_PSW ? 0x20 : 0);
}

static void part(const char *what, size_t block, size_t memory, uint32_t k, size_t offset, size_t length)
{
    const struct second_part p = second_region(t.block, block, memory, k);
    expect(what, (uint32_t)p.offset, (uint32_t)offset);
    expect(what, (uint32_t)p.length, (uint32_t)length);
}

/* Empty exactly for k over 3, SIZE, a bad map, an unused region. */
static void region_view(void)
{
    fresh();
    set_region(0, 0, 0x800, 0x801, 0);
    set_region(2, 0x800, 0x10, 0x7F0, 1);
    set_word(B_PC, 1); /* STATE is not asked */
    part("region 0", 236, 0x1001, 0, 0x801, 0x800);
    part("region 1", 236, 0x1001, 1, 0, 0);
    part("region 2", 236, 0x1001, 2, 0x7F0, 0x10);
    part("region 4", 236, 0x1001, 4, 0, 0);
    part("region FFFFFFFFH", 236, 0x1001, 0xFFFFFFFF, 0, 0);
    part("short block", 235, 0x1001, 0, 0, 0);
    part("memory too long", 236, 65537, 0, 0, 0);
    part("longest memory", 236, 65536, 2, 0x7F0, 0x10);
    part("map does not fit", 236, 0x1000, 2, 0, 0);
    set_region(3, 0, 0, 0, 1);
    part("another region is bad", 236, 0x1001, 0, 0, 0);
}

void test_block(void)
{
    sizes();
    memory_sizes();
    maps();
    states();
    reset();
    region_view();
}
