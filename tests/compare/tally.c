/* Counts what was met, prints it, and names what never was. */
#include "tally.h"

#include <stdio.h>

#include "maps.h"
#include "state.h"

struct tally tally;

void tally_start(struct start *s, struct tried tried)
{
    tally.cases[tried.kind]++;
    if (s->budget == 0) tally.no_budget++;
    if (s->length[MEMORY] == 0) tally.no_memory++;
    if (s->length[MEMORY] == V850_MEMORY_MAX) tally.full_memory++;
    if (s->length[BLOCK] == V850_BLOCK_LEN && word_of(s, V850_AT_PC) == 0xFFFFFE) tally.at_top++;
    for (size_t at = 0; at < s->length[MARKS]; at++)
        if (in(s, MARKS)[at] > 1) {
            tally.odd_marks++;
            break;
        }
}

void tally_end(struct tried tried, uint32_t answer, uint32_t steps)
{
    tally.answer[tried.kind][answer]++;
    if (tried.kind == MAPS) tally.map_edit[tried.edit][answer]++;
    if (tried.kind == STATES) tally.state_edit[tried.edit][answer]++;
    if (tried.kind == RAW && !tally.word[tried.word]) {
        tally.word[tried.word] = true;
        tally.words++;
    }
    tally.steps += steps;
    if (tried.kind == PROGRAM) tally.program_steps += steps;
    if (steps > tally.longest) tally.longest = steps;
}

/* ---- Printing --------------------------------------------------------- */

typedef unsigned long long big;

static uint64_t answers(uint32_t answer)
{
    uint64_t sum = 0;
    for (int kind = 0; kind < KINDS; kind++) sum += tally.answer[kind][answer];
    return sum;
}

static void print_answers(void)
{
    printf("%-9s %9s", "cases", "all");
    for (uint32_t a = 0; a < 10; a++) printf(" %9s", second_answer_name(a));
    for (int kind = 0; kind < KINDS; kind++) {
        printf("\n%-9s %9llu", kind_name((enum kind)kind), (big)tally.cases[kind]);
        for (uint32_t a = 0; a < 10; a++) printf(" %9llu", (big)tally.answer[kind][a]);
    }
    printf("\n%-9s %9s", "sum", "");
    for (uint32_t a = 0; a < 10; a++) printf(" %9llu", (big)answers(a));
    printf("\n");
}

/* A name in a table of three columns; no blanks at a line's end, so that a page can quote it as it is. */
static void print_name(const char *name, int width, int k, int count)
{
    const bool ends = k % 3 == 2 || k + 1 == count;
    printf("%-*s%s", ends ? 0 : width, name, ends ? "\n" : " ");
}

static void print_stats(void)
{
    for (int op = 0; op < SECOND_OP_COUNT; op++) {
        printf("%9llu ", (big)tally.stats.executed[op]);
        print_name(second_op_name((enum second_op)op), 28, op, SECOND_OP_COUNT);
    }
    for (int c = 0; c < SECOND_LEAK_COUNT; c++) {
        printf("%9llu LEAK: ", (big)tally.stats.leak[c]);
        print_name(second_leak_name((enum second_leak)c), 22, c, SECOND_LEAK_COUNT);
    }
    printf("%9llu NMIs accepted, %llu maskable requests accepted, %llu illegal codes\n", (big)tally.stats.nmi,
           (big)tally.stats.maskable, (big)tally.stats.illegal);
}

/* How often an edit was refused, and how often it was not: an edge that is never good tests half a rule. */
static void print_edits(uint64_t edit[][11], uint32_t count, uint32_t refusal)
{
    printf("edits %s / not:", second_answer_name(refusal));
    for (uint32_t k = 0; k < count; k++) {
        uint64_t sum = 0;
        for (uint32_t a = 0; a < 11; a++) sum += edit[k][a];
        printf(" %u:%llu/%llu", (unsigned)k, (big)edit[k][refusal], (big)(sum - edit[k][refusal]));
    }
    printf("\n");
}

void tally_print(void)
{
    print_answers();
    print_stats();
    print_edits(tally.map_edit, MAP_EDITS, SECOND_MAP);
    print_edits(tally.state_edit, STATE_EDITS, SECOND_STATE);
    printf("%9llu different first halfwords\n", (big)tally.words);
    printf("%9llu steps, the longest run %llu, a program's %llu on average\n", (big)tally.steps, (big)tally.longest,
           (big)(tally.program_steps / (tally.cases[PROGRAM] + 1)));
    printf("%9llu starts with budget 0, %llu at FFFFFEH, %llu without memory, %llu with 65,536 bytes,\n",
           (big)tally.no_budget, (big)tally.at_top, (big)tally.no_memory, (big)tally.full_memory);
    printf("%9llu with mark bytes of 2 to 255; %llu pairs with other secrets\n", (big)tally.odd_marks,
           (big)tally.pairs);
}

/* ---- Never met -------------------------------------------------------- */

static uint32_t missing;

static void demand(uint64_t count, const char *what, const char *name)
{
    if (count > 0) return;
    missing++;
    printf("NEVER MET: %s %s\n", what, name);
}

static void demand_edits(uint64_t edit[][11], uint32_t count, const char *what)
{
    for (uint32_t k = 0; k < count; k++) {
        uint64_t sum = 0;
        char number[16];
        for (uint32_t a = 0; a < 11; a++) sum += edit[k][a];
        (void)snprintf(number, sizeof number, "%u", (unsigned)k);
        demand(sum, what, number);
    }
}

bool tally_complete(void)
{
    missing = 0;
    for (uint32_t a = 0; a < 10; a++) demand(answers(a), "answer", second_answer_name(a));
    for (int op = 0; op < SECOND_OP_COUNT; op++)
        demand(tally.stats.executed[op], "instruction", second_op_name((enum second_op)op));
    for (int c = 0; c < SECOND_LEAK_COUNT; c++)
        demand(tally.stats.leak[c], "LEAK:", second_leak_name((enum second_leak)c));
    for (int kind = 0; kind < KINDS; kind++) demand(tally.cases[kind], "cases of kind", kind_name((enum kind)kind));
    demand_edits(tally.map_edit, MAP_EDITS, "edit of the map");
    demand_edits(tally.state_edit, STATE_EDITS, "edit of the state");
    demand(tally.stats.nmi, "NMI", "accepted");
    demand(tally.stats.maskable, "maskable request", "accepted");
    demand(tally.stats.illegal, "illegal code", "taken");
    demand(tally.words == 0x10000, "some", "first halfword");
    demand(tally.no_budget, "budget", "0");
    demand(tally.at_top, "PC", "FFFFFEH");
    demand(tally.no_memory, "memory", "of 0 bytes");
    demand(tally.full_memory, "memory", "of 65,536 bytes");
    demand(tally.odd_marks, "mark byte", "of 2 to 255");
    demand(tally.pairs, "pair of runs", "with other secrets");
    return missing == 0;
}
