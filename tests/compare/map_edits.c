/* One edit of a good map, written straight into the block. */
#include "dice.h"
#include "maps.h"

static struct start *of;

static uint32_t get(uint32_t slot, uint32_t field)
{
    return word_of(of, V850_AT_REGION(slot) + field);
}

static void set(uint32_t slot, uint32_t field, uint32_t value)
{
    set_word(of, V850_AT_REGION(slot) + field, value);
}

/* A slot that is used, or not; any slot where there is none such. */
static uint32_t slot_that(bool is_used)
{
    const uint32_t from = dice(4);
    for (uint32_t k = 0; k < 4; k++) {
        const uint32_t slot = (from + k) % 4;
        if ((get(slot, V850_REGION_LENGTH) != 0) == is_used) return slot;
    }
    return from;
}

static uint32_t other_used(uint32_t slot)
{
    for (uint32_t k = 1; k < 4; k++)
        if (get((slot + k) % 4, V850_REGION_LENGTH) != 0) return (slot + k) % 4;
    return (slot + 1) % 4;
}

static void add(uint32_t slot, uint32_t field, uint32_t value)
{
    set(slot, field, get(slot, field) + value);
}

static void unused_field(uint32_t field)
{
    const uint32_t slot = slot_that(false);
    set(slot, V850_REGION_LENGTH, 0);
    set(slot, field, one_in(2) ? 1 : 4u << dice(30));
}

/* Base and length so that they end just at, or 4 behind, a bound; the offset stays. */
static void end_at(uint32_t slot, uint32_t bound, uint32_t more)
{
    set(slot, V850_REGION_BASE, bound - get(slot, V850_REGION_LENGTH) + more);
}

static void offset_end_at(uint32_t slot, uint32_t more)
{
    set(slot, V850_REGION_OFFSET, (uint32_t)of->length[MEMORY] - get(slot, V850_REGION_LENGTH) + more);
}

/* The region moved onto, or next to, another one. */
static void onto(uint32_t slot, uint32_t field, uint32_t from_end)
{
    const uint32_t other = other_used(slot);
    set(slot, field, get(other, field) + get(other, V850_REGION_LENGTH) - from_end);
}

static void before(uint32_t slot, uint32_t field, uint32_t over)
{
    const uint32_t other = other_used(slot);
    set(slot, field, get(other, field) - get(slot, V850_REGION_LENGTH) + over);
}

/* A copy of a used region in an unused slot, with one field moved away. */
static void twin(uint32_t field, uint32_t by)
{
    const uint32_t from = slot_that(true), to = slot_that(false);
    for (uint32_t k = 0; k < 16; k += 4) set(to, k, get(from, k));
    add(to, field, by);
}

static void rights_above_7(uint32_t slot)
{
    const uint32_t high = 8u << dice(29), low = dice(8);
    set(slot, V850_REGION_RIGHTS, high | low);
}

static void any_field(uint32_t slot)
{
    const uint32_t value = (uint32_t)dice_bits(), field = 4 * dice(4);
    set(slot, field, value);
}

void edit_map(struct start *s, uint32_t which)
{
    of = s;
    const uint32_t slot = slot_that(true);
    switch (which) {
    case 0: add(slot, V850_REGION_BASE, 1 + dice(3)); break;
    case 1: add(slot, V850_REGION_BASE, 2); break;
    case 2: add(slot, V850_REGION_LENGTH, 1 + dice(3)); break;
    case 3: add(slot, V850_REGION_LENGTH, (uint32_t)-2); break;
    case 4: end_at(slot, 0x1000000, 0); break;
    case 5: end_at(slot, 0x1000000, 4); break;
    case 6: set(slot, V850_REGION_BASE, 0x1000000); break;
    case 7: end_at(slot, 0, 4 * dice(3)); break; /* a sum that wraps at 2^32 */
    case 8: offset_end_at(slot, 0); break;
    case 9: offset_end_at(slot, 1); break;
    case 10: set(slot, V850_REGION_OFFSET, (uint32_t)of->length[MEMORY]); break;
    case 11: set(slot, V850_REGION_OFFSET, 0u - get(slot, V850_REGION_LENGTH) + dice(3)); break; /* wraps too */
    case 12: set(slot, V850_REGION_RIGHTS, 8); break;
    case 13: rights_above_7(slot); break;
    case 14: set(slot, V850_REGION_RIGHTS, 0); break;
    case 15: set(slot, V850_REGION_RIGHTS, 7); break;
    case 16: set(slot, V850_REGION_LENGTH, 0); break;
    case 17: unused_field(V850_REGION_BASE); break;
    case 18: unused_field(V850_REGION_OFFSET); break;
    case 19: unused_field(V850_REGION_RIGHTS); break;
    case 20: onto(slot, V850_REGION_BASE, 0); break;
    case 21: onto(slot, V850_REGION_BASE, 4); break;
    case 22: onto(slot, V850_REGION_OFFSET, 0); break;
    case 23: onto(slot, V850_REGION_OFFSET, 1); break;
    case 24: before(slot, V850_REGION_BASE, 4 * dice(2)); break;
    case 25: before(slot, V850_REGION_OFFSET, dice(2)); break;
    case 26: twin(V850_REGION_BASE, 0); break;
    case 27: twin(V850_REGION_BASE, 0x10000); break; /* the same offsets */
    case 28: twin(V850_REGION_OFFSET, get(slot, V850_REGION_LENGTH)); break; /* the same addresses */
    default: any_field(slot); break;
    }
}
