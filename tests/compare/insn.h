/* Instructions with fields in their ranges, and where they are written. */
#ifndef INSN_H
#define INSN_H

#include "second.h"
#include "start.h"

/*
 * The part a register plays in a long program. Data may be marked and is
 * written all the time; the others stay as they are, so that addresses,
 * branches and returns keep working for hundreds of steps.
 */
enum role { DATA, CLEAN, POINTER, CODE };
#define DATA_REGISTERS 0x0000FFFEu /* r1 to r15 */

/* A register of that role, or one time in wild any of the 32. */
uint32_t any_register(enum role role, uint32_t wild);

/* The values that an instruction may hold: from low to high by step. */
struct range {
    int32_t low, high, step;
};
struct range range_of(enum second_op op);

struct second_insn any_insn(enum second_op op, uint32_t wild);

/* Loads, stores and bit instructions. */
bool is_access(enum second_op op);
uint32_t base_of(const struct second_insn *insn);

/* Into the memory, through the map; an address without a region is passed over. */
void poke(struct start *s, uint32_t address, uint16_t half);

/* The same for an instruction; how many bytes it has. */
uint32_t poke_insn(struct start *s, uint32_t address, const struct second_insn *insn);

#endif
