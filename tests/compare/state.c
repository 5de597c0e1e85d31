/* Good states, requests and marks. */
#include "state.h"

#include <string.h>

#include "dice.h"
#include "maps.h"

/* Addresses have 24 bits, registers 32. */
static uint32_t any_pointer(uint32_t high)
{
    const uint32_t address = any_address();
    return address | (one_in(2) ? high : 0);
}

uint32_t any_value(void)
{
    static const uint32_t corner[] = {
        0, 1, 2, 0xFFFFFFFF, 0xFFFFFFFE, 0x7FFFFFFF, 0x7FFFFFFE, 0x80000000, 0x80000001, 0x40000000,
        0xC0000000, 0x7FFF, 0x8000, 0x8001, 0xFFFF, 0x10000, 0xFFFF7FFF, 0xFFFF8000, 0x7F, 0x80,
        0xFF, 0x100, 0xFFFFFF80, 31, 32, 33, 0x55555555, 0xAAAAAAAA, 0xFFFFFF, 0x1000000};
    const uint32_t high = (uint32_t)dice_bits() & 0xFF000000;
    switch (dice(8)) {
    case 0:
    case 1:
    case 2: return ONE_OF(corner);
    case 3: return dice(64) - 32;
    case 4: return any_pointer(high);
    case 5: return (uint32_t)dice_bits() & 0xFFFF0000; /* a divisor of 0 for DIVH */
    default: return (uint32_t)dice_bits();
    }
}

static uint32_t any_code(void)
{
    return 0x80 + 16 * dice(one_in(2) ? 8 : 0xF8);
}

void any_requests(struct start *s)
{
    set_word(s, V850_AT_CODE, one_in(3) ? 0 : any_code());
    set_byte(s, V850_AT_HALTED, dice(2));
    set_byte(s, V850_AT_NMI, dice(2));
}

void any_state(struct start *s)
{
    memset(in(s, BLOCK), 0, V850_AT_REGION(0));
    for (uint32_t n = 1; n < 32; n++) set_word(s, V850_AT_R(n), any_value());
    set_word(s, V850_AT_PC, any_address() & 0xFFFFFE);
    set_word(s, V850_AT_PSW, one_in(2) ? dice(256) : dice(32));
    set_word(s, V850_AT_EIPC, any_address());
    set_word(s, V850_AT_EIPSW, dice(256));
    set_word(s, V850_AT_FEPC, any_address());
    set_word(s, V850_AT_FEPSW, dice(256));
    set_word(s, V850_AT_ECR, (uint32_t)dice_bits());
    if (one_in(16)) set_word(s, V850_AT_CODE, any_code());
    set_byte(s, V850_AT_HALTED, one_in(128));
    set_byte(s, V850_AT_NMI, one_in(32));
}

/* ---- Marks ------------------------------------------------------------ */

/* Five bits of dice against the density: of 32 so many are marks. */
static bool marked_at(uint32_t density, uint64_t bits)
{
    static const uint8_t share[4] = {0, 1, 8, 28};
    return (bits & 31) < share[density];
}

/* A mark byte may be anything but 0; three in four are 1. */
static uint8_t any_mark(uint64_t bits)
{
    return bits & 0x60 || (bits >> 8 & 0xFF) == 0 ? 1 : (uint8_t)(bits >> 8);
}

/* Sixteen bits of dice for a byte: this loop is what most of the time goes into. */
void mark_memory(struct start *s, size_t from, size_t length, uint32_t density)
{
    uint64_t bits = 0;
    if (density == 0) return;
    for (size_t at = from; at < from + length && at < s->length[MARKS]; at++) {
        bits = (at - from) % 4 == 0 ? dice_bits() : bits >> 16;
        if (marked_at(density, bits)) in(s, MARKS)[at] = any_mark(bits);
    }
}

static uint32_t mark_bits(uint32_t width, uint32_t density)
{
    uint32_t bits = 0;
    for (uint32_t k = 0; k < width && density > 0; k++)
        if (marked_at(density, dice_bits())) bits |= 1u << k;
    return bits;
}

void any_marks(struct start *s, uint32_t registers, uint32_t density)
{
    set_word(s, V850_AT_REG_MARKS, mark_bits(32, density) & registers);
    set_byte(s, V850_AT_PSW_MARKS, mark_bits(5, density));
    set_byte(s, V850_AT_EIPSW_MARKS, mark_bits(one_in(4) ? 8 : 5, density));
    set_byte(s, V850_AT_FEPSW_MARKS, mark_bits(one_in(4) ? 8 : 5, density));
    set_byte(s, V850_AT_PC_MARKS, mark_bits(2, density));
}
