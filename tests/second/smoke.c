/*
 * Random starts with good maps and states. Looks at properties that need no
 * second opinion: a run is the same as its steps one by one; a refused step
 * changes nothing; map and filler stay; mark bytes become only 0 or 1; and
 * what is marked never shows in what is not.
 *
 * smoke [starts [seed]]
 */
#include "test.h"

#include <ctype.h>
#include <stdio.h>
#include <stdlib.h>
#include <string.h>

struct bench t;
static struct bench start, other, before;

static uint64_t seed = 1;
static unsigned failures;

/* C leaves open which of two operands, arguments or initializers comes first, so no two of them throw. */
static uint32_t dice(uint32_t sides)
{
    seed ^= seed >> 12;
    seed ^= seed << 25;
    seed ^= seed >> 27;
    return (uint32_t)((seed * 0x2545F4914F6CDD1Du) >> 32) % sides;
}

static uint32_t any_word(void)
{
    const uint32_t high = dice(65536);
    return high << 16 | dice(65536);
}

static void put(struct bench *b, size_t at, uint32_t value) { put_word(b->block + at, value); }
static uint32_t get(const struct bench *b, size_t at) { return get_word(b->block + at); }

static void check(const char *what, bool good)
{
    if (good) return;
    failures++;
    printf("FAILED %s\n", what);
}

/* ---- Random starts ---------------------------------------------------- */

/* Regions one behind the other, some touching, the last up to 2^24. */
static void any_map(void)
{
    uint32_t base = 0, offset = dice(3);
    for (uint32_t k = 0; k < 4; k++) {
        const uint32_t length = 4 * (1 + dice(200));
        if (k == 3) base = 0x1000000 - length;
        if (k > 0 && dice(4) == 0) continue;
        put(&start, B_REGION(k), base);
        put(&start, B_REGION(k) + 4, length);
        put(&start, B_REGION(k) + 8, offset);
        put(&start, B_REGION(k) + 12, dice(4) == 0 ? dice(8) : 7);
        base += length + (dice(2) ? 0 : 4 * dice(500));
        offset += length + dice(3);
    }
}

static uint32_t any_address(void)
{
    const uint32_t k = dice(4), length = get(&start, B_REGION(k) + 4);
    return (get(&start, B_REGION(k)) + dice(length + 4)) & 0xFFFFFF;
}

/* Addresses have 24 bits, registers 32. */
static uint32_t any_pointer(void)
{
    const uint32_t address = any_address();
    return dice(8) == 0 ? address | any_word() << 24 : address;
}

static uint32_t any_value(void)
{
    static const uint32_t corners[8] = {0, 1, 0xFFFFFFFF, 0x80000000, 0x7FFFFFFF, 0x8000, 0x7FFF, 0xFFFF};
    switch (dice(4)) {
    case 0: return corners[dice(8)];
    case 1: return dice(64);
    case 2: return any_word();
    default: return any_pointer();
    }
}

static void any_state(void)
{
    for (uint32_t n = 1; n < 32; n++) put(&start, 4 * n, any_value());
    put(&start, B_PC, any_address() & ~1u);
    put(&start, B_PSW, dice(256));
    put(&start, B_EIPC, dice(2) ? any_address() : dice(0x1000000));
    put(&start, B_EIPSW, dice(256));
    put(&start, B_FEPC, any_address());
    put(&start, B_FEPSW, dice(256));
    put(&start, B_ECR, any_word());
    put(&start, B_CODE, dice(3) ? 0 : 0x80 + 16 * dice(0xF8));
    start.block[B_HALTED] = dice(16) == 0;
    start.block[B_NMI] = dice(4) == 0;
}

/* Each bit below a power of two is set in one of four. */
static uint32_t few_bits(uint32_t power)
{
    const uint32_t bits = dice(power);
    return bits & dice(power);
}

/* NP, EP and ID of a saved PSW are marked less often: RETI refuses them. */
static uint8_t saved_marks(void)
{
    const uint32_t bits = few_bits(256);
    return (uint8_t)(bits & (dice(4) ? 0x1F : 0xFF));
}

static void any_marks(void)
{
    if (dice(4) == 0) return;
    const uint32_t bits = any_word();
    put(&start, B_REG_MARKS, bits & any_word() & ~1u);
    start.block[B_PSW_MARKS] = (uint8_t)few_bits(32);
    start.block[B_EIPSW_MARKS] = saved_marks();
    start.block[B_FEPSW_MARKS] = saved_marks();
    start.block[B_PC_MARKS] = (uint8_t)few_bits(4);
    for (uint32_t n = dice(40); n > 0; n--) {
        const uint32_t at = dice(BENCH_MEMORY);
        start.marks[at] = (uint8_t)dice(4);
    }
}

/* Fields that are often in range. */
static struct second_insn any_insn(void)
{
    struct second_insn i;
    i.op = (enum second_op)dice(SECOND_OP_COUNT);
    i.reg1 = dice(32);
    i.reg2 = dice(32);
    i.number = dice(16);
    i.value = (int32_t)dice(dice(2) ? 32 : 65536);
    if (dice(2)) i.value -= 16;
    return i;
}

/* A first halfword of opcode 111111. */
static uint16_t any_extended(void)
{
    const uint32_t reg2 = dice(32);
    return (uint16_t)(reg2 << 11 | 0x7E0 | dice(32));
}

/* Mostly instructions with fields in range, now and then any halfword. */
static void any_code(void)
{
    uint32_t at = 0, count = 0;
    while (at + 4 <= BENCH_MEMORY) {
        const struct second_insn i = any_insn();
        uint16_t out[2];
        out[0] = (uint16_t)dice(65536);
        out[1] = (uint16_t)dice(65536);
        if (dice(16) == 0) out[0] = any_extended();
        else if (dice(16) != 0 && second_encode(&i, out, &count) != SECOND_DONE) continue;
        for (uint32_t k = 0; k < 2; k++) {
            start.memory[at++] = (uint8_t)out[k];
            start.memory[at++] = (uint8_t)(out[k] >> 8);
            if (!second_needs_second(out[0])) break;
        }
    }
}

static void any_start(void)
{
    memset(&start, 0, sizeof start);
    any_code();
    any_map();
    any_state();
    any_marks();
}

/* The same start with other secrets: everything marked is thrown anew. */
static void other_secrets(void)
{
    static const size_t psw[3] = {B_PSW, B_EIPSW, B_FEPSW};
    other = start;
    for (uint32_t n = 1; n < 32; n++)
        if (get(&start, B_REG_MARKS) >> n & 1) put(&other, 4 * n, any_value());
    for (uint32_t k = 0; k < 3; k++)
        put(&other, psw[k], get(&start, psw[k]) ^ (dice(256) & start.block[B_PSW_MARKS + k]));
    if (start.block[B_PC_MARKS] & 1) put(&other, B_EIPC, any_address());
    if (start.block[B_PC_MARKS] & 2) put(&other, B_FEPC, any_address());
    for (uint32_t at = 0; at < BENCH_MEMORY; at++)
        if (start.marks[at]) other.memory[at] = (uint8_t)dice(256);
}

/* ---- Properties ------------------------------------------------------- */

static uint32_t run_on(struct bench *b, uint32_t budget)
{
    return second_run(b->block, sizeof b->block, b->memory, sizeof b->memory, b->marks, sizeof b->marks,
                      b->report, sizeof b->report, budget);
}

static bool same_but_report(const struct bench *a, const struct bench *b)
{
    return memcmp(a->block, b->block, sizeof a->block) == 0 &&
           memcmp(a->memory, b->memory, sizeof a->memory) == 0 &&
           memcmp(a->marks, b->marks, sizeof a->marks) == 0;
}

static uint32_t one_by_one(uint32_t budget, uint32_t answer_wanted)
{
    uint32_t done = 0, answer = SECOND_DONE;
    before = start;
    while (done < budget && answer == SECOND_DONE) {
        other = before;
        answer = run_on(&before, 1);
        if (answer == SECOND_DONE) done++;
        else check("a refused step changes nothing", same_but_report(&other, &before));
    }
    check("the same answer step by step", answer == answer_wanted);
    check("the same state step by step", same_but_report(&before, &t));
    return done;
}

static void shape(void)
{
    check("map stays", memcmp(t.block + 172, start.block + 172, 64) == 0);
    check("filler stays", t.block[B_FILLER] == 0 && t.block[B_FILLER + 1] == 0);
    for (uint32_t at = 0; at < BENCH_MEMORY; at++)
        if (t.marks[at] != start.marks[at] && t.marks[at] > 1) check("mark bytes become 0 or 1", false);
    before = t;
    check("the state stays good", run_on(&before, 0) == SECOND_DONE);
}

static bool unmarked_same(const struct bench *a, const struct bench *b)
{
    static const size_t psw[3] = {B_PSW, B_EIPSW, B_FEPSW};
    bool same = memcmp(a->marks, b->marks, sizeof a->marks) == 0 &&
                memcmp(a->block + B_ECR, b->block + B_ECR, 236 - B_ECR) == 0 &&
                get(a, B_PC) == get(b, B_PC);
    for (uint32_t n = 0; n < 32; n++)
        if (!(get(a, B_REG_MARKS) >> n & 1) && get(a, 4 * n) != get(b, 4 * n)) same = false;
    for (uint32_t k = 0; k < 3; k++)
        if ((get(a, psw[k]) ^ get(b, psw[k])) & ~(uint32_t)a->block[B_PSW_MARKS + k]) same = false;
    if (!(a->block[B_PC_MARKS] & 1) && get(a, B_EIPC) != get(b, B_EIPC)) same = false;
    if (!(a->block[B_PC_MARKS] & 2) && get(a, B_FEPC) != get(b, B_FEPC)) same = false;
    for (uint32_t at = 0; at < BENCH_MEMORY; at++)
        if (!a->marks[at] && a->memory[at] != b->memory[at]) same = false;
    return same;
}

static void secrets_stay(uint32_t budget, uint32_t answer)
{
    other_secrets();
    check("the same answer with other secrets", run_on(&other, budget) == answer);
    check("the same report with other secrets", memcmp(other.report, t.report, 8) == 0);
    check("the same public state with other secrets", unmarked_same(&t, &other));
}

/* FNV-1a over all that a run may write. */
static uint64_t fold(uint64_t digest)
{
    const uint8_t *bytes = (const uint8_t *)&t;
    for (size_t k = 0; k < sizeof t; k++) digest = (digest ^ bytes[k]) * 0x100000001B3u;
    return digest;
}

static uint64_t counted(const struct second_stats *s)
{
    uint64_t sum = s->nmi + s->maskable + s->illegal;
    for (int op = 0; op < SECOND_OP_COUNT; op++) sum += s->executed[op];
    return sum;
}

static void print_stats(const struct second_stats *s, const uint64_t answers[11])
{
    for (int op = 0; op < SECOND_OP_COUNT; op++)
        printf("%10llu %s\n", (unsigned long long)s->executed[op], second_op_name((enum second_op)op));
    for (int c = 0; c < SECOND_LEAK_COUNT; c++)
        printf("%10llu LEAK: %s\n", (unsigned long long)s->leak[c], second_leak_name((enum second_leak)c));
    printf("%10llu NMI\n%10llu maskable\n%10llu illegal code\n", (unsigned long long)s->nmi,
           (unsigned long long)s->maskable, (unsigned long long)s->illegal);
    for (uint32_t a = 0; a < 10; a++)
        printf("%10llu %s\n", (unsigned long long)answers[a], second_answer_name(a));
}

/* What is no number would count as 0: no starts, and all of them passed. */
static bool number(const char *word, unsigned long *value)
{
    char *end;
    if (!isdigit((unsigned char)word[0])) return false;
    *value = strtoul(word, &end, 0);
    return *end == '\0';
}

int main(int argc, char **argv)
{
    static struct second_stats stats;
    unsigned long starts = 20000, chosen = 0;
    uint64_t answers[11] = {0}, steps = 0, digest = 0xCBF29CE484222325u;
    if (argc > 3 || (argc > 1 && !number(argv[1], &starts)) || (argc > 2 && !number(argv[2], &chosen))) {
        fprintf(stderr, "usage: smoke [starts [seed]]\n");
        return 2;
    }
    seed = chosen * 2 + 1;
    for (unsigned long n = 0; n < starts; n++) {
        const uint32_t budget = dice(40);
        any_start();
        t = start;
        second_stats = &stats;
        const uint32_t answer = run_on(&t, budget);
        second_stats = NULL;
        answers[answer]++;
        steps += get_word(t.report);
        check("no MAP, STATE, SIZE", answer != SECOND_MAP && answer != SECOND_STATE && answer != SECOND_SIZE);
        check("as many steps", one_by_one(budget, answer) == get_word(t.report));
        shape();
        secrets_stay(budget, answer);
        digest = (fold(digest) ^ answer) * 0x100000001B3u;
    }
    check("statistics count every step", counted(&stats) == steps);
    print_stats(&stats, answers);
    printf("%lu starts, %llu steps, digest %016llX, %u failed\n", starts, (unsigned long long)steps,
           (unsigned long long)digest, failures);
    return failures != 0;
}
