/* The entries run and region view; reset is in block.c. */
#include "machine.h"

struct second_stats *second_stats = NULL;

static uint32_t write_report(uint8_t *report, uint32_t answer, uint32_t steps,
                             uint32_t place)
{
    second_put_word(report, steps);
    second_put_word(report + 4, place);
    return answer;
}

/* MAP, then STATE. */
static uint32_t first_look(const struct machine *m, size_t memory_len)
{
    if (FAULT_IS(36) && !second_state_good(m)) return SECOND_STATE; /* fault: STATE before MAP */
    if (!second_map_good(m->region, memory_len)) return SECOND_MAP;
    return second_state_good(m) ? SECOND_DONE : SECOND_STATE;
}

/* The budget is looked at before every step. */
static uint32_t take_steps(struct machine *m, uint32_t budget, uint32_t *steps)
{
    for (*steps = 0; *steps < budget; ++*steps) {
        const uint32_t answer = second_step(m);
        if (FAULT_IS(32) && answer > SECOND_ASLEEP) ++*steps; /* fault: a refused step counts */
        if (answer != SECOND_DONE) return answer;
    }
    m->place = 0;
    if (FAULT_IS(33) && asleep(m)) return SECOND_ASLEEP; /* fault: ASLEEP before DONE */
    return SECOND_DONE;
}

uint32_t second_run(uint8_t *block, size_t block_len,
                    uint8_t *memory, size_t memory_len,
                    uint8_t *marks, size_t marks_len,
                    uint8_t *report, size_t report_len, uint32_t budget)
{
    struct machine m;
    uint32_t answer, steps = 0;

    if (FAULT_IS(34) && report_len == 8) (void)write_report(report, 0, 0, 0); /* fault: SIZE writes */
    if (FAULT_IS(35) && memory_len == SECOND_MEMORY_MAX) return SECOND_SIZE; /* fault: 65,536 is too much */
    if (block_len != SECOND_BLOCK_LEN || report_len != SECOND_REPORT_LEN ||
        memory_len > SECOND_MEMORY_MAX || marks_len != memory_len)
        return SECOND_SIZE;

    second_take(&m, block);
    m.memory = memory;
    m.marks = marks;
    answer = first_look(&m, memory_len);
    if (FAULT_IS(37) && answer != SECOND_DONE) return answer; /* fault: no report */
    if (answer != SECOND_DONE) return write_report(report, answer, 0, 0);

    answer = take_steps(&m, budget, &steps);
    second_put(&m, block);
    return write_report(report, answer, steps, m.place);
}

/* Asks for the sizes of block and memory and for the whole map, no more. */
struct second_part second_region(const uint8_t *block, size_t block_len,
                                 size_t memory_len, uint32_t k)
{
    struct second_part part = {0, 0};
    struct machine m;
    if (k > 3 || block_len != SECOND_BLOCK_LEN || memory_len > SECOND_MEMORY_MAX)
        return part;
    second_take(&m, block);
    for (uint32_t j = 0; FAULT_IS(42) && j < 4; j++)
        if (j != k) m.region[j].length = 0; /* fault: looks at region k alone */
    if (FAULT_IS(43) && !second_state_good(&m)) return part; /* fault: asks for STATE */
    if (!second_map_good(m.region, memory_len)) return part;
    if (m.region[k].length == 0) return part;
    part.offset = m.region[k].offset;
    part.length = m.region[k].length;
    return part;
}
