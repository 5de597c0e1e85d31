/* A bench for the self test: one block, 4,096 bytes of memory, one report. */
#ifndef TEST_H
#define TEST_H

#include "second.h"

#define BENCH_MEMORY 0x1000u

/* Offsets in the block, counted by hand from 01. */
#define B_PC 128u
#define B_PSW 132u
#define B_EIPC 136u
#define B_EIPSW 140u
#define B_FEPC 144u
#define B_FEPSW 148u
#define B_ECR 152u
#define B_CODE 156u
#define B_HALTED 160u
#define B_NMI 161u
#define B_FILLER 162u
#define B_REG_MARKS 164u
#define B_PSW_MARKS 168u
#define B_EIPSW_MARKS 169u
#define B_FEPSW_MARKS 170u
#define B_PC_MARKS 171u
#define B_REGION(k) (172u + 16u * (k))

struct bench {
    uint8_t block[236], memory[BENCH_MEMORY], marks[BENCH_MEMORY], report[8];
};

extern struct bench t; /* the bench in use */

/* Little-endian words of block and report. */
static inline uint32_t get_word(const uint8_t *at)
{
    return (uint32_t)at[0] | (uint32_t)at[1] << 8 | (uint32_t)at[2] << 16 | (uint32_t)at[3] << 24;
}

static inline void put_word(uint8_t *at, uint32_t value)
{
    for (unsigned k = 0; k < 4; k++) at[k] = (uint8_t)(value >> (8 * k));
}

/* Reset, all of memory at address 0 with all rights, PC 100H, PSW 0. */
void fresh(void);
/* The same with one instruction at PC, and what it reads. */
void fresh_with(uint16_t h1, uint16_t h2, uint32_t r1, uint32_t r2, uint32_t psw);
void set_word(size_t at, uint32_t word);
uint32_t word(size_t at);
void set_r(uint32_t n, uint32_t value);
uint32_t r(uint32_t n);
void set_region(uint32_t k, uint32_t base, uint32_t length, uint32_t offset, uint32_t rights);
void code(uint32_t at, uint16_t h1, uint16_t h2); /* both halfwords to memory */
uint32_t run(uint32_t budget);
uint32_t steps(void);
uint32_t place(void);

/* Count and, if wrong, print. */
void expect(const char *what, uint32_t got, uint32_t want);
/* Answer, place, and nothing but the report changed since keep(). */
void keep(void);
void expect_refused(const char *what, uint32_t answer, uint32_t place);
void expect_kept(const char *what);

/* Halfwords by hand: reg2 bits 15-11, opcode 10-5, reg1 4-0. */
#define H(reg2, opcode, reg1) ((uint16_t)((reg2) << 11 | (opcode) << 5 | (reg1)))
/* Bits 10-7 given. */
#define H4(reg2, op4, low7) ((uint16_t)((reg2) << 11 | (op4) << 7 | (low7)))
/* Bcond: d84 is disp bits 8-4, d31 bits 3-1. */
#define HB(d84, d31, c) ((uint16_t)((d84) << 11 | 0xB << 7 | (d31) << 4 | (c)))
/* Bit instructions: which is bits 15-14. */
#define H1BIT(which, bit, reg1) ((uint16_t)((which) << 14 | (bit) << 11 | 0x3E << 5 | (reg1)))

void test_words(void);
void test_results(void);
void test_marks(void);
void test_control(void);
void test_order(void);
void test_block(void);

#endif
