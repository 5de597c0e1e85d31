/* A case, a difference, and the step at which two runs part, printed for a person. */
#include "show.h"

#include <stdio.h>
#include <string.h>

static const char *const buffer_name[BUFFERS] = {"block", "memory", "marks", "report"};

static void print_block_name(size_t at)
{
    static const char *const word[8] = {"PC", "PSW", "EIPC", "EIPSW", "FEPC", "FEPSW", "ECR", "code"};
    static const char *const byte[12] = {"halted", "NMI", "filler", "filler", "r0-r7 marks", "r8-r15 marks",
                                         "r16-r23 marks", "r24-r31 marks", "PSW marks", "EIPSW marks",
                                         "FEPSW marks", "EIPC/FEPC marks"};
    if (at < V850_AT_PC) printf(" (r%u)", (unsigned)at / 4);
    else if (at < V850_AT_HALTED) printf(" (%s)", word[(at - V850_AT_PC) / 4]);
    else if (at < V850_AT_REGION(0)) printf(" (%s)", byte[at - V850_AT_HALTED]);
    else printf(" (region %u)", (unsigned)(at - V850_AT_REGION(0)) / 16);
}

static void print_place(struct start *s, size_t at)
{
    for (int b = 0; b < BUFFERS; b++) {
        if (at < s->at[b] || at - s->at[b] >= s->length[b]) continue;
        printf("%s byte %u", buffer_name[b], (unsigned)(at - s->at[b]));
        if (b == BLOCK) print_block_name(at - s->at[b]);
        return;
    }
    printf("a byte beside the buffers");
}

bool show_difference(struct start *a, struct start *b)
{
    for (size_t at = 0; at < a->total; at++) {
        if (a->bytes[at] == b->bytes[at]) continue;
        print_place(a, at);
        printf(": %02X and %02X\n", a->bytes[at], b->bytes[at]);
        return true;
    }
    return false;
}

static void print_registers(struct start *s)
{
    const uint32_t marks = word_of(s, V850_AT_REG_MARKS);
    for (uint32_t n = 0; n < 32; n++)
        printf("  r%-2u %08X%c%s", (unsigned)n, (unsigned)word_of(s, V850_AT_R(n)), marks >> n & 1 ? '*' : ' ',
               n % 6 == 5 ? "\n" : "");
    printf("\n");
}

/* A star behind a register, marks of PSW bits in brackets. */
static void print_block(struct start *s)
{
    const uint8_t *marks = in(s, BLOCK) + V850_AT_PSW_MARKS;
    print_registers(s);
    printf("  PC %06X PSW %02X [%02X] EIPC %06X%s EIPSW %02X [%02X] FEPC %06X%s FEPSW %02X [%02X]\n",
           (unsigned)word_of(s, V850_AT_PC), (unsigned)word_of(s, V850_AT_PSW), marks[0],
           (unsigned)word_of(s, V850_AT_EIPC), marks[3] & 1 ? "*" : "", (unsigned)word_of(s, V850_AT_EIPSW), marks[1],
           (unsigned)word_of(s, V850_AT_FEPC), marks[3] & 2 ? "*" : "", (unsigned)word_of(s, V850_AT_FEPSW), marks[2]);
    printf("  ECR %08X code %04X halted %u NMI %u\n", (unsigned)word_of(s, V850_AT_ECR),
           (unsigned)word_of(s, V850_AT_CODE), in(s, BLOCK)[V850_AT_HALTED], in(s, BLOCK)[V850_AT_NMI]);
    for (uint32_t k = 0; k < 4; k++) {
        const uint8_t *g = in(s, BLOCK) + V850_AT_REGION(k);
        printf("  region %u: base %06X length %X offset %X rights %X\n", (unsigned)k, (unsigned)get_word(g),
               (unsigned)get_word(g + 4), (unsigned)get_word(g + 8), (unsigned)get_word(g + 12));
    }
}

void show_start(struct start *s)
{
    printf("  lengths: block %u, memory %u, marks %u, report %u; budget %u\n", (unsigned)s->length[BLOCK],
           (unsigned)s->length[MEMORY], (unsigned)s->length[MARKS], (unsigned)s->length[REPORT], (unsigned)s->budget);
    if (s->length[REPORT] == V850_REPORT_LEN)
        printf("  report: steps %u place %06X\n", (unsigned)get_word(in(s, REPORT)),
               (unsigned)get_word(in(s, REPORT) + 4));
    if (s->length[BLOCK] == V850_BLOCK_LEN) print_block(s);
}

/* ---- Where two runs part ---------------------------------------------- */

static bool code_byte(struct start *s, uint32_t address, uint32_t *byte)
{
    for (uint32_t k = 0; k < 4; k++) {
        const uint8_t *g = in(s, BLOCK) + V850_AT_REGION(k);
        const uint32_t away = (address & 0xFFFFFF) - get_word(g + V850_REGION_BASE);
        const uint64_t at = (uint64_t)get_word(g + V850_REGION_OFFSET) + away;
        if (away >= get_word(g + V850_REGION_LENGTH) || at >= s->length[MEMORY]) continue;
        *byte = in(s, MEMORY)[at];
        return true;
    }
    return false;
}

static void print_instruction(struct start *s)
{
    const uint32_t pc = word_of(s, V850_AT_PC);
    uint32_t b[4] = {0, 0, 0, 0}, count = 0;
    while (count < 4 && code_byte(s, pc + count, &b[count])) count++;
    const uint16_t first = (uint16_t)(b[0] | b[1] << 8), second = (uint16_t)(b[2] | b[3] << 8);
    const struct second_decoded d = second_decode(first, second);
    printf("  at PC %06X: %04X %04X", (unsigned)pc, first, second);
    if (d.kind == SECOND_IS_INSTRUCTION)
        printf(", %s: reg1 %u reg2 %u value %ld number %u", second_op_name(d.insn.op), (unsigned)d.insn.reg1,
               (unsigned)d.insn.reg2, (long)d.insn.value, (unsigned)d.insn.number);
    else printf(", %s", d.kind == SECOND_IS_ILLEGAL ? "illegal code" : "undefined");
    printf("\n");
}

struct replay {
    struct start *from;
    const struct subject *a, *b;
};
static struct start x, y, before;
static uint32_t left, right; /* answers */

/* Both programs from the start with this budget; the results stay in x and y. */
static bool differ(const struct replay *r, uint32_t budget)
{
    start_copy(&x, r->from);
    start_copy(&y, r->from);
    left = run_on(r->a, &x, budget);
    right = run_on(r->b, &y, budget);
    return left != right || memcmp(x.bytes, y.bytes, x.total) != 0;
}

/* They part here, and do not at one budget less. */
static void show_where(const struct replay *r, uint32_t budget)
{
    if (budget > 0) (void)differ(r, budget - 1);
    start_copy(&before, budget > 0 ? &y : r->from);
    (void)differ(r, budget);
    printf("They part at budget %u: %s answers %u, %s answers %u; before that\n", (unsigned)budget, r->a->name,
           (unsigned)left, r->b->name, (unsigned)right);
    if (before.length[BLOCK] == V850_BLOCK_LEN) {
        print_block(&before);
        if (budget > 0) print_instruction(&before);
    }
    (void)show_difference(&x, &y);
}

/* Each budget runs from the start, so the work grows with the square of how many are tried in turn. */
#define IN_TURN 2000u

/* The first budget at which they part, or at which both have ended by themselves, or the last that is tried in turn. */
static uint32_t look_in_turn(const struct replay *r)
{
    uint32_t budget = 0;
    while (!differ(r, budget) && left == V850_DONE && budget < r->from->budget && budget < IN_TURN) budget++;
    return budget;
}

/* The same at one budget, and not at the other: the upper of two neighbours of which that is true. */
static uint32_t halve(const struct replay *r, uint32_t same, uint32_t other)
{
    while (other - same > 1) {
        const uint32_t middle = same + (other - same) / 2;
        if (differ(r, middle)) other = middle;
        else same = middle;
    }
    return other;
}

void show_parting(struct start *s, const struct subject *a, const struct subject *b)
{
    const struct replay r = {s, a, b};
    const uint32_t tried = look_in_turn(&r);
    if (differ(&r, tried)) {
        show_where(&r, tried);
        return;
    }
    printf("They do not part up to budget %u, where both answer %u%s.\n", (unsigned)tried, (unsigned)left,
           s->budget - tried > 1 ? "; not every budget above was tried" : "");
    if (tried == s->budget) return;
    if (differ(&r, s->budget)) show_where(&r, halve(&r, tried, s->budget));
    else printf("Nor do they at budget %u.\n", (unsigned)s->budget);
}
