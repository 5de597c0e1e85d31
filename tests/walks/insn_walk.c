/*
 * Every first halfword with 26 second ones: decoded, encoded again and compared. A line for each second halfword with the numbers
 * of instructions, illegal codes, undefined words and mismatches. crates/insn_walk does the same with the proved functions, and
 * derives these numbers.
 */
#include <stdbool.h>
#include <stdio.h>

#include "second.h"
#include "walk.h"

static const uint16_t seconds[] = {
    0x0000, 0x0001, 0x0020, 0x0040, 0x0060, 0x0080, 0x00A0, 0x00C0, 0x00E0, 0x0100, 0x0120, 0x0140, 0x0160,
    0x0161, 0x017F, 0x0180, 0x0181, 0x0200, 0x07FF, 0x0800, 0x0820, 0x7FFF, 0x8000, 0x8180, 0xF840, 0xFFFF};

/* Whether an instruction's halfwords are those that it came from. */
static bool spells(const struct second_insn *insn, uint16_t first, uint16_t second)
{
    const uint32_t halfwords = second_needs_second(first) ? 2 : 1;
    uint16_t out[2] = {0, 0};
    uint32_t count = 0;
    if (second_encode(insn, out, &count) != SECOND_DONE || count != halfwords) return false;
    return out[0] == first && (count == 1 || out[1] == second);
}

static void walk(uint16_t second)
{
    uint32_t instructions = 0, illegal = 0, undefined = 0, mismatches = 0;
    for (uint32_t first = 0; first <= 0xFFFF; first++) {
        const struct second_decoded d = second_decode((uint16_t)first, second);
        if (d.kind == SECOND_IS_ILLEGAL) illegal++;
        else if (d.kind == SECOND_IS_UNDEFINED) undefined++;
        else if (spells(&d.insn, (uint16_t)first, second)) instructions++;
        else mismatches++;
    }
    printf("%04x %" PRIu32 " %" PRIu32 " %" PRIu32 " %" PRIu32 "\n", second, instructions, illegal, undefined, mismatches);
}

int main(void)
{
    for (size_t k = 0; k < LENGTH(seconds); k++) walk(seconds[k]);
    return 0;
}
