/* Loads, stores and bit instructions: operand 7, 8, 9 of 01's order. */
#include "alu.h"
#include "memory.h"

/* The sum has 24 bits; halfwords and words lose their low bits afterwards. */
static uint32_t address_of(const struct machine *m, const struct second_insn *i,
                           uint32_t base, uint32_t size)
{
    const uint32_t sum = m->r[base] + (uint32_t)i->value;
    if (FAULT_IS(66)) return sum & ~(size - 1u); /* fault: 32-bit addresses */
    if (FAULT_IS(67) && size == 4) return sum & ADDRESS_MASK & ~1u; /* fault: words lose bit 0 only */
    return sum & ADDRESS_MASK & ~(size - 1u);
}

/* Bytes and halfwords are sign-extended (000 pp. 64, 89). */
static uint32_t extended(uint32_t value, uint32_t size)
{
    if (size == 1) return (uint32_t)sign_extend(value, 8);
    if (FAULT_IS(69)) return value; /* fault: halfwords are zero-extended */
    return size == 2 ? (uint32_t)sign_extend(value, 16) : value;
}

/* Also to r0 a load asks for its right. */
uint32_t second_load(struct machine *m, const struct second_insn *i,
                     uint32_t base, uint32_t size)
{
    const uint32_t address = address_of(m, i, base, size);
    uint32_t value = 0, mark = 0;
    if (reg_mark(m, base)) return leak(m, SECOND_LEAK_LOAD);
    const struct region *g = find(m, address, size, RIGHT_READ);
    if (FAULT_IS(70) && i->reg2 == 0) return SECOND_DONE; /* fault: r0 needs no right */
    if (FAULT_IS(68) && g == NULL) return refuse(m, SECOND_NOREAD, address_of(m, i, base, 1)); /* fault: low bits */
    if (g == NULL) return refuse(m, SECOND_NOREAD, address);
    const size_t at = offset_in(g, address);
    for (uint32_t k = 0; k < size; k++) {
        value |= (uint32_t)m->memory[at + k] << (8u * k);
        if (k == 0 || !FAULT_IS(71)) mark |= byte_mark(m, at + k); /* fault: first byte's mark only */
    }
    set_reg(m, i->reg2, extended(value, size), mark);
    if (FAULT_IS(72)) m->reg_marks |= mark << i->reg2; /* fault: r0 gets marked */
    return SECOND_DONE;
}

/* A store writes the register's mark, 0 or 1, to each byte. */
uint32_t second_store(struct machine *m, const struct second_insn *i,
                      uint32_t base, uint32_t size)
{
    const uint32_t address = address_of(m, i, base, size);
    const uint32_t value = m->r[i->reg2], mark = reg_mark(m, i->reg2);
    if (reg_mark(m, base)) return leak(m, SECOND_LEAK_STORE);
    const struct region *g = find(m, address, size, RIGHT_WRITE);
    if (g == NULL) return refuse(m, SECOND_NOWRITE, address);
    const size_t at = offset_in(g, address);
    for (uint32_t k = 0; k < size; k++) {
        m->memory[at + k] = (uint8_t)(value >> (8u * k));
        if (FAULT_IS(73) && k > 0) continue; /* fault: marks the first byte only */
        if (FAULT_IS(74) && !mark) continue; /* fault: never unmarks */
        m->marks[at + k] = (uint8_t)mark;
    }
    return SECOND_DONE;
}

static uint8_t changed(enum second_op op, uint8_t byte, uint8_t mask)
{
    if (op == SECOND_OP_SET1) return (uint8_t)(byte | mask);
    if (op == SECOND_OP_CLR1) return (uint8_t)(byte & ~mask);
    return (uint8_t)(byte ^ mask); /* NOT1 */
}

/*
 * SET1, NOT1, CLR1 read and write, TST1 reads. Z tells of the old bit and
 * takes the byte's mark; the mark byte stays exactly as it was.
 */
uint32_t second_bit(struct machine *m, const struct second_insn *i)
{
    const uint32_t address = address_of(m, i, i->reg1, 1);
    const bool writes = i->op != SECOND_OP_TST1 || FAULT_IS(75); /* fault: TST1 asks for writing */
    const uint8_t mask = (uint8_t)(1u << i->number);
    if (reg_mark(m, i->reg1)) return leak(m, SECOND_LEAK_BIT);
    const struct region *g = find(m, address, 1, RIGHT_READ);
    const bool writable = find(m, address, 1, RIGHT_WRITE) != NULL;
    if (FAULT_IS(76) && writes && !writable) return refuse(m, SECOND_NOWRITE, address); /* fault: order swapped */
    if (g == NULL) return refuse(m, SECOND_NOREAD, address);
    if (FAULT_IS(77)) m->psw &= ~PSW_Z; /* fault: Z written before the last test */
    if (writes && !writable) return refuse(m, SECOND_NOWRITE, address);
    const size_t at = offset_in(g, address);
    const bool old = (m->memory[at] & mask) != 0;
    const uint32_t mark = FAULT_IS(78) ? m->psw_marks & PSW_Z : byte_mark(m, at); /* fault: Z keeps its mark */
    set_flags(m, PSW_Z, 0, old ? 0 : PSW_Z, mark);
    if (i->op == SECOND_OP_TST1) return SECOND_DONE;
    m->memory[at] = changed(i->op, m->memory[at], mask);
    if (FAULT_IS(79)) m->marks[at] = (uint8_t)byte_mark(m, at); /* fault: writes the mark byte as 0 or 1 */
    return SECOND_DONE;
}
