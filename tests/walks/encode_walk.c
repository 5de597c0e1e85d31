/*
 * Every operation with operands at the ends of their ranges and beyond: a line with how many were encoded to one halfword,
 * to two, how many were refused, and the sum over their halfwords. crates/encode_walk does the same with the proved encoder.
 */
#include <stdbool.h>
#include <stdio.h>
#include <string.h>

#include "second.h"
#include "walk.h"

static const uint32_t registers[] = {0, 1, 15, 30, 31, 32, 33, UINT32_MAX};
static uint32_t numbers[40]; /* conditions, bits, vectors, system registers */
static int32_t values[504];  /* immediates and displacements */

static void list_numbers(void)
{
    static const uint32_t above[] = {64, 128, 256, 65536, UINT32_C(1) << 31, UINT32_MAX};
    for (uint32_t n = 0; n < 34; n++) numbers[n] = n;
    memcpy(numbers + 34, above, sizeof above);
}

/* The middle and four on each side; at 2^31 the sum wraps to the least value, as a word does. */
static int32_t *list_around(int32_t *at, int64_t middle)
{
    for (int64_t n = middle - 4; n <= middle + 4; n++)
        *at++ = (int32_t)(n > INT32_MAX ? n - (INT64_C(1) << 32) : n);
    return at;
}

static void list_values(void)
{
    int32_t *at = list_around(values, 0);
    for (int k = 4; k <= 31; k++) at = list_around(at, INT64_C(1) << k);
    for (int k = 4; k <= 30; k++) at = list_around(at, -(INT64_C(1) << k));
}

/* How many of a list an operation is tried with: all if its name shows such an operand, else one. */
static size_t tries(bool has, size_t all)
{
    return has ? all : 1;
}

static bool shows(enum second_op op, const char *part)
{
    return strstr(second_op_name(op), part) != NULL;
}

static bool has_number(enum second_op op)
{
    return shows(op, "cond") || shows(op, "cccc") || shows(op, "bit#3") || shows(op, "regID") || shows(op, "vector");
}

struct tally {
    uint32_t one, two, field, sum;
};

static void note(struct tally *t, const struct second_insn *insn)
{
    uint16_t out[2] = {0, 0};
    uint32_t count = 0;
    if (second_encode(insn, out, &count) == SECOND_FIELD) t->field++;
    else if (count == 1) t->one++;
    else t->two++;
    t->sum = mix(mix(mix(t->sum, count), out[0]), out[1]);
}

static struct tally walk(enum second_op op)
{
    const size_t reg1s = tries(shows(op, "reg1"), LENGTH(registers));
    const size_t reg2s = tries(shows(op, "reg2"), LENGTH(registers));
    const size_t all_numbers = tries(has_number(op), LENGTH(numbers));
    const size_t all_values = tries(shows(op, "imm") || shows(op, "disp"), LENGTH(values));
    struct tally t = {0, 0, 0, 0};
    for (size_t v = 0; v < all_values; v++)
        for (size_t n = 0; n < all_numbers; n++)
            for (size_t b = 0; b < reg2s; b++)
                for (size_t a = 0; a < reg1s; a++) {
                    const struct second_insn insn = {op, registers[a], registers[b], values[v], numbers[n]};
                    note(&t, &insn);
                }
    return t;
}

int main(void)
{
    list_numbers();
    list_values();
    for (enum second_op op = 0; op < SECOND_OP_COUNT; op++) {
        const struct tally t = walk(op);
        printf("%s: %" PRIu32 " %" PRIu32 " %" PRIu32 " %08" PRIx32 "\n", second_op_name(op), t.one, t.two, t.field, t.sum);
    }
    return 0;
}
