/* Arithmetic of 000's chapter 5: a value and the flags it gives. */
#ifndef ALU_H
#define ALU_H

#include "machine.h"

#define TOP_BIT 0x80000000u

struct result {
    uint32_t value, flags; /* flags in PSW positions */
};

/* The two's complement number a word stands for, without leaving C11. */
static inline int32_t as_signed(uint32_t word)
{
    return word <= (uint32_t)INT32_MAX ? (int32_t)word : -1 - (int32_t)~word;
}

/* The low bits of a word as a signed number; the bits above are 0. */
static inline int32_t sign_extend(uint32_t low, unsigned bits)
{
    const uint32_t top = 1u << (bits - 1u);
    return (int32_t)(low ^ top) - (int32_t)top;
}

static inline int32_t low_half(uint32_t word)
{
    return sign_extend(word & 0xFFFFu, 16);
}

static inline uint32_t sign_zero(uint32_t value)
{
    return ((value & TOP_BIT) ? PSW_S : 0u) | (value == 0 ? PSW_Z : 0u);
}

static inline struct result alu_add(uint32_t a, uint32_t b)
{
    struct result r = {a + b, sign_zero(a + b)};
    if (r.value < a) r.flags |= PSW_CY;
    if (~(a ^ b) & (a ^ r.value) & TOP_BIT) r.flags |= PSW_OV;
    return r;
}

/* a - b; CY is the borrow. */
static inline struct result alu_sub(uint32_t a, uint32_t b)
{
    struct result r = {a - b, sign_zero(a - b)};
    if (a < b) r.flags |= PSW_CY;
    if ((a ^ b) & (a ^ r.value) & TOP_BIT) r.flags |= PSW_OV;
    if (FAULT_IS(3)) r.flags ^= PSW_CY; /* fault: CY is the carry of a + ~b + 1 */
    return r;
}

/*
 * S and Z of the stored result, CY and OV of the exact one, SAT raised. An
 * overflow goes to the side of the left operand, in sums and differences.
 */
static inline struct result alu_saturate(struct result exact, uint32_t left)
{
    struct result r = exact;
    if (!(exact.flags & PSW_OV)) return exact;
    r.value = (left & TOP_BIT) ? TOP_BIT : 0x7FFFFFFFu;
    if (FAULT_IS(4) && !(left & TOP_BIT)) r.value = 0x7FFFFFFu; /* fault: seven digits */
    r.flags = (exact.flags & (PSW_CY | PSW_OV)) | PSW_SAT;
    r.flags |= sign_zero(FAULT_IS(5) ? exact.value : r.value); /* fault: S, Z before saturation */
    return r;
}

/* Shifts: CY is the last bit shifted out, 0 for a shift by 0. */
static inline struct result alu_shifted(uint32_t value, uint32_t n, uint32_t out)
{
    struct result r = {value, sign_zero(value)};
    if (n != 0 && (out & 1u)) r.flags |= PSW_CY;
    if (FAULT_IS(6) && n == 0 && (value & 1u)) r.flags |= PSW_CY; /* fault: bit 0 is CY of a shift by 0 */
    return r;
}

static inline struct result alu_shl(uint32_t a, uint32_t n)
{
    return alu_shifted(a << n, n, n == 0 ? 0u : a >> (32u - n));
}

static inline struct result alu_shr(uint32_t a, uint32_t n)
{
    return alu_shifted(a >> n, n, n == 0 ? 0u : a >> (n - 1u));
}

static inline struct result alu_sar(uint32_t a, uint32_t n)
{
    uint32_t signs = (a & TOP_BIT) ? ~(UINT32_MAX >> n) : 0u;
    if (FAULT_IS(7)) signs = 0; /* fault: SAR shifts zeros in */
    return alu_shifted((a >> n) | signs, n, n == 0 ? 0u : a >> (n - 1u));
}

/* 000 p. 58 and 01's house rule for a zero divisor. */
static inline struct result alu_divh(uint32_t a, uint32_t b)
{
    const int32_t dividend = as_signed(a);
    int32_t divisor = low_half(b);
    struct result r = {a, PSW_OV};
    if (FAULT_IS(8)) divisor = as_signed(b); /* fault: divides by the whole word */
    if (FAULT_IS(9) && divisor == 0) r.flags |= sign_zero(a); /* fault: S, Z speak of reg2 */
    if (divisor == 0) return r;
    if (a == TOP_BIT && divisor == -1) {
        r.flags |= PSW_S;
        if (FAULT_IS(10)) r.flags ^= PSW_OV; /* fault: no OV in the corner */
        return r;
    }
    r.value = (uint32_t)(dividend / divisor);
    if (FAULT_IS(11) && dividend % divisor != 0 && ((dividend < 0) != (divisor < 0)))
        r.value -= 1u; /* fault: rounds down */
    r.flags = sign_zero(r.value);
    return r;
}

/* Signed 16 by 16; no product leaves 32 bits, 8000H squared is 40000000H. */
static inline uint32_t alu_mulh(uint32_t a, uint32_t b)
{
    if (FAULT_IS(12)) return a * b; /* fault: whole words */
    return (uint32_t)(low_half(a) * low_half(b));
}

#endif
