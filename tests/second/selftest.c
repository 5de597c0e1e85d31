/* Checks the second program against numbers taken from 01, 000 and 003 by hand. */
#include "test.h"

#include <stdio.h>
#include <string.h>

struct bench t;
static struct bench kept;
static unsigned passed, failed;

void expect(const char *what, uint32_t got, uint32_t want)
{
    if (got == want) {
        passed++;
        return;
    }
    failed++;
    printf("FAILED %s: %08lX, wanted %08lX\n", what, (unsigned long)got, (unsigned long)want);
}

void set_word(size_t at, uint32_t value) { put_word(t.block + at, value); }
uint32_t word(size_t at) { return get_word(t.block + at); }
void set_r(uint32_t n, uint32_t value) { set_word(4 * n, value); }
uint32_t r(uint32_t n) { return word(4 * n); }
uint32_t steps(void) { return get_word(t.report); }
uint32_t place(void) { return get_word(t.report + 4); }

void set_region(uint32_t k, uint32_t base, uint32_t length, uint32_t offset, uint32_t rights)
{
    set_word(B_REGION(k), base);
    set_word(B_REGION(k) + 4, length);
    set_word(B_REGION(k) + 8, offset);
    set_word(B_REGION(k) + 12, rights);
}

void fresh(void)
{
    memset(&t, 0, sizeof t);
    memset(t.report, 0xEE, sizeof t.report);
    set_region(0, 0, BENCH_MEMORY, 0, 7);
    set_word(B_PC, 0x100);
}

void code(uint32_t at, uint16_t h1, uint16_t h2)
{
    t.memory[at] = (uint8_t)h1;
    t.memory[at + 1] = (uint8_t)(h1 >> 8);
    t.memory[at + 2] = (uint8_t)h2;
    t.memory[at + 3] = (uint8_t)(h2 >> 8);
}

void fresh_with(uint16_t h1, uint16_t h2, uint32_t r1, uint32_t r2, uint32_t psw)
{
    fresh();
    code(0x100, h1, h2);
    set_r(1, r1);
    set_r(2, r2);
    set_word(B_PSW, psw);
}

uint32_t run(uint32_t budget)
{
    return second_run(t.block, sizeof t.block, t.memory, sizeof t.memory, t.marks, sizeof t.marks,
                      t.report, sizeof t.report, budget);
}

void keep(void) { kept = t; }

void expect_kept(const char *what)
{
    memcpy(kept.report, t.report, sizeof t.report);
    expect(what, memcmp(&kept, &t, sizeof t) == 0, 1);
}

/* One step is asked for and refused: nothing changes, no step is counted. */
void expect_refused(const char *what, uint32_t answer, uint32_t want_place)
{
    keep();
    expect(what, run(1), answer);
    expect(what, steps(), 0);
    expect(what, place(), want_place);
    expect_kept(what);
}

/* 01, "The bench program": the sample and its line. */
static void sample_run(void)
{
    static const uint8_t program[10] = {0x05, 0x52, 0x5F, 0x52, 0xFA, 0xFD, 0xE0, 0x07, 0x20, 0x01};
    char line[80];
    fresh();
    expect("reset", second_reset(t.block, sizeof t.block), 0);
    memcpy(t.memory, program, sizeof program);
    const uint32_t answer = run(1000);
    (void)snprintf(line, sizeof line, "answer=%lu steps=%lu pc=%06lX psw=%02lX place=%06lX",
                   (unsigned long)answer, (unsigned long)steps(), (unsigned long)word(B_PC),
                   (unsigned long)word(B_PSW), (unsigned long)place());
    expect(line, strcmp(line, "answer=4 steps=12 pc=00000A psw=29 place=000000") == 0, 1);
    expect("sample r10", r(10), 0);
}

int main(void)
{
    sample_run();
    test_words();
    test_results();
    test_marks();
    test_control();
    test_order();
    test_block();
    printf("%u passed, %u failed\n", passed, failed);
    return failed != 0;
}
