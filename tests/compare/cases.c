/* What each case tries, by its number: its kind, its lengths, and what fills it in. */
#include "cases.h"

#include "dice.h"
#include "maps.h"
#include "program.h"
#include "single.h"
#include "state.h"

uint64_t dice_state;

const char *kind_name(enum kind kind)
{
    static const char *const name[KINDS] = {"sizes",    "maps", "states",   "several", "resets",
                                            "requests", "raw",  "extended", "single",  "program"};
    return name[kind];
}

/* Of each 32 numbers in a row, so many for each kind: 300,000 cases have every first halfword. */
static const uint8_t share[KINDS] = {1, 2, 2, 1, 1, 3, 7, 4, 9, 2};

/* The kind of a case, and how many of that kind came before. */
static enum kind kind_of(uint64_t number, uint64_t *turn)
{
    uint32_t at = (uint32_t)(number % 32);
    int kind = 0;
    while (at >= share[kind]) at -= share[kind++];
    *turn = number / 32 * share[kind] + at;
    return (enum kind)kind;
}

/* ---- Lengths ---------------------------------------------------------- */

static size_t any_length(enum kind kind)
{
    static const uint32_t edge[] = {0, 1, 3, 4, 5, 8, 65532, 65535, 65536};
    if (one_in(400)) return ONE_OF(edge);
    if (kind == PROGRAM) return 512 + dice(one_in(8) ? 3584 : 1024);
    return one_in(2) ? 16 + dice(64) : 64 + dice(256);
}

static void good_lengths(struct start *s, size_t memory)
{
    const size_t length[BUFFERS] = {V850_BLOCK_LEN, memory, memory, V850_REPORT_LEN};
    start_lay_out(s, length);
}

static void wrong_length(struct start *s)
{
    static const size_t block[] = {0, 1, 172, 235, 237, 240, 300}, report[] = {0, 1, 4, 7, 9, 16};
    const size_t memory = s->length[MEMORY];
    switch (dice(8)) {
    case 0:
    case 1: start_resize(s, BLOCK, ONE_OF(block)); break;
    case 2:
    case 3: start_resize(s, REPORT, ONE_OF(report)); break;
    case 4: start_resize(s, MARKS, memory + 1); break;
    case 5: start_resize(s, MARKS, memory > 0 ? memory - 1 : 1); break;
    case 6: start_resize(s, MARKS, memory > 0 ? 0 : 5); break;
    default: start_resize(s, MEMORY, memory + 1); break;
    }
}

/* ---- The kinds -------------------------------------------------------- */

static uint32_t any_budget(void)
{
    static const uint32_t few[] = {0, 1, 1, 1, 1, 1, 1, 2, 3, 5};
    return ONE_OF(few);
}

static void base_case(struct start *s, size_t memory, bool roomy)
{
    good_lengths(s, memory);
    any_map(s, roomy);
    any_state(s);
    s->budget = any_budget();
}

static void sizes(struct start *s)
{
    static const size_t longest[] = {65535, 65536, 65537, 65540};
    base_case(s, one_in(16) ? ONE_OF(longest) : any_length(SIZES), false);
    single_instruction(s);
    if (s->length[MEMORY] > 65530 && one_in(2)) return;
    wrong_length(s);
    if (one_in(4)) wrong_length(s);
}

static void several(struct start *s)
{
    single_instruction(s);
    if (!one_in(3)) edit_map(s, dice(MAP_EDITS));
    if (!one_in(3)) edit_state(s, dice(STATE_EDITS));
    if (!one_in(3)) edit_state(s, dice(STATE_EDITS));
    if (one_in(3)) wrong_length(s);
}

/* Any bytes, mostly in front of a good map, so that the run after the reset goes on. */
static void resets(struct start *s)
{
    static const size_t block[] = {0, 1, 171, 172, 235, 237, 300};
    const size_t end = one_in(8) ? V850_BLOCK_LEN : V850_AT_REGION(0);
    for (size_t at = 0; at < end && !one_in(400); at++) set_byte(s, at, dice(256));
    if (one_in(4)) start_resize(s, BLOCK, ONE_OF(block));
    s->budget = dice(4);
}

static void program(struct start *s)
{
    any_program(s);
    if (one_in(4)) any_requests(s);
    if (one_in(2) && word_of(s, V850_AT_CODE) != 0) set_word(s, V850_AT_CODE, 0x80 + 16 * dice(8));
    if (one_in(2)) set_word(s, V850_AT_PSW, dice(32));
    s->budget = one_in(16) ? dice(8) : dice(one_in(4) ? 1000 : 400);
    if (one_in(2000)) s->budget = 70000; /* more steps than 16 bits count */
}

/* Asleep, so that a budget that no run could use up is spent on nothing. */
static void asleep(struct start *s)
{
    static const uint32_t huge[] = {0xFFFFFFFF, 0x80000000, 0x7FFFFFFF, 0x10000};
    set_word(s, V850_AT_CODE, 0);
    set_byte(s, V850_AT_HALTED, 1);
    set_byte(s, V850_AT_NMI, 0);
    s->budget = ONE_OF(huge);
}

static void requests(struct start *s)
{
    single_instruction(s);
    any_requests(s);
    s->budget = dice(5);
    if (one_in(16)) asleep(s);
}

/* The first halfword counts through all of them. */
static void raw(struct start *s, uint64_t turn)
{
    single_words(s, (uint16_t)turn, any_second());
    s->budget = 1 + one_in(8);
}

static void extended(struct start *s)
{
    static const uint16_t near[] = {0x07E0, 0x87E0, 0x0FE0, 0x07E1, 0x07F0, 0xFFFF, 0x87E1, 0x8FE0};
    const uint32_t reg2 = dice(one_in(2) ? 32 : 8), reg1 = dice(32); /* system numbers are small */
    const uint16_t first = one_in(3) ? ONE_OF(near) : (uint16_t)(reg2 << 11 | 0x07E0 | reg1);
    single_words(s, first, any_second());
}

static void fill_in(struct start *s, struct tried *tried, uint64_t turn)
{
    switch (tried->kind) {
    case MAPS: single_instruction(s); edit_map(s, tried->edit = (uint32_t)(turn % MAP_EDITS)); break;
    case STATES: single_instruction(s); edit_state(s, tried->edit = (uint32_t)(turn % STATE_EDITS)); break;
    case SEVERAL: several(s); break;
    case RESETS: resets(s); break;
    case REQUESTS: requests(s); break;
    case RAW: raw(s, turn); tried->word = (uint16_t)turn; break;
    case EXTENDED: extended(s); break;
    case PROGRAM: program(s); break;
    default: single_instruction(s); break;
    }
}

struct tried make_case(struct start *s, uint64_t seed, uint64_t number)
{
    uint64_t turn = 0;
    struct tried tried = {kind_of(number, &turn), 0, 0};
    dice_start(seed, number);
    if (tried.kind == SIZES) {
        sizes(s);
        return tried;
    }
    base_case(s, any_length(tried.kind), tried.kind == PROGRAM);
    fill_in(s, &tried, turn);
    return tried;
}
