/*
 * The library beside the second program, case by case: answer and every byte
 * of block, memory, marks and report; and the library beside itself with other
 * secrets. The region view is no exported function, so it is not compared.
 *
 *   compare [cases=N] [seed=S] [from=N] [brief]   compare N cases
 *   compare case=N [seed=S]                       one case, and show everything of it
 */
#include <ctype.h>
#include <stdio.h>
#include <stdlib.h>
#include <string.h>

#include "both.h"
#include "cases.h"
#include "secrets.h"
#include "show.h"
#include "tally.h"

static const struct subject library = {"v850", v850_run, v850_reset};
static const struct subject second = {"second", second_run, second_reset};

static uint64_t seed = 1;
static bool showing = false, reset_differs = false;
static struct start start, left, right;

/* Where a difference was found, and how to see it again. */
static bool found(uint64_t number, struct tried tried, const char *what)
{
    printf("DIFFERENCE in case %llu (%s): %s\n", (unsigned long long)number, kind_name(tried.kind), what);
    printf("again with: seed=%llu case=%llu\n", (unsigned long long)seed, (unsigned long long)number);
    return false;
}

static void show(const char *title, const uint32_t *answer, struct start *s)
{
    if (!showing) return;
    printf("%s:", title);
    if (answer != NULL) printf(" answer %u %s", (unsigned)*answer, second_answer_name(*answer));
    printf("\n");
    show_start(s);
}

static bool same_bytes(uint64_t number, struct tried tried, const char *what)
{
    if (memcmp(left.bytes, right.bytes, left.total) == 0) return true;
    (void)found(number, tried, what);
    return !show_difference(&left, &right);
}

static bool same_reset(uint64_t number, struct tried tried)
{
    const uint32_t a = reset_on(&library, &left), b = reset_on(&second, &right);
    show("after reset, library", &a, &left);
    show("after reset, second", &b, &right);
    if (a != b) return found(number, tried, "the answers of reset");
    return same_bytes(number, tried, "the block after reset");
}

static bool same_run(uint64_t number, struct tried tried, uint32_t *answer)
{
    const uint32_t a = run_on(&library, &left, start.budget);
    second_stats = &tally.stats;
    const uint32_t b = run_on(&second, &right, start.budget);
    second_stats = NULL;
    show("library", &a, &left);
    show("second", &b, &right);
    *answer = b;
    if (a != b) return found(number, tried, "the answers");
    return same_bytes(number, tried, "what was written");
}

/* The library's result is in left; right is run with other secrets. */
static bool same_public(uint64_t number, struct tried tried, uint32_t answer)
{
    const char *what;
    start_copy(&right, &start);
    if (!other_secrets(&right)) return true;
    tally.pairs++;
    show("with other secrets", NULL, &right);
    const uint32_t other = run_on(&library, &right, start.budget);
    show("library with other secrets", &other, &right);
    if (other != answer) return found(number, tried, "other secrets, another answer");
    what = shown(&left, &right);
    if (what == NULL) return true;
    printf("other secrets show in %s\n", what);
    return found(number, tried, "other secrets show");
}

static bool one_case(uint64_t number)
{
    const struct tried tried = make_case(&start, seed, number);
    uint32_t answer = 0;
    start_copy(&left, &start);
    start_copy(&right, &start);
    show("start", NULL, &start);
    if (tried.kind == RESETS) {
        reset_differs = !same_reset(number, tried);
        if (reset_differs) return false;
        start_copy(&start, &left);
    }
    tally_start(&start, tried);
    if (!same_run(number, tried, &answer)) return false;
    const bool ran = answer != SECOND_SIZE;
    tally_end(tried, answer, ran ? get_word(in(&left, REPORT) + V850_REPORT_STEPS) : 0);
    return same_public(number, tried, answer);
}

static bool option(const char *word, const char *name, uint64_t *value)
{
    const size_t length = strlen(name);
    char *end;
    if (strncmp(word, name, length) != 0 || !isdigit((unsigned char)word[length])) return false;
    *value = strtoull(word + length, &end, 0);
    return *end == '\0';
}

int main(int argc, char **argv)
{
    uint64_t cases = 300000, from = 0, one = UINT64_MAX; /* fewer have not every first halfword */
    bool brief = false;
    for (int k = 1; k < argc; k++) {
        if (option(argv[k], "cases=", &cases) || option(argv[k], "seed=", &seed) ||
            option(argv[k], "from=", &from) || option(argv[k], "case=", &one))
            continue;
        brief = strcmp(argv[k], "brief") == 0;
        if (brief) continue;
        fprintf(stderr, "usage: compare [cases=N] [seed=S] [from=N] [brief] | case=N [seed=S]\n");
        return 2;
    }
    if (one != UINT64_MAX) {
        showing = true;
        const bool same = one_case(one);
        if (reset_differs) printf("They part in reset itself; no run was tried.\n");
        else show_parting(&start, &library, &second);
        return !same;
    }
    for (uint64_t number = from; number < from + cases; number++)
        if (!one_case(number)) return 1;
    if (!brief) tally_print();
    if (!tally_complete()) return 1;
    printf("%llu cases from seed %llu: no difference\n", (unsigned long long)cases, (unsigned long long)seed);
    return 0;
}
