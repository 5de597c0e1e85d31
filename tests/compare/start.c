/* The four buffers with gaps around them: laid out, copied, resized. */
#include "start.h"

#include <string.h>

#include "dice.h"

static void fill(uint8_t *at, size_t length)
{
    while (length >= 8) {
        const uint64_t bits = dice_bits();
        put_word(at, (uint32_t)bits);
        put_word(at + 4, (uint32_t)(bits >> 32));
        at += 8;
        length -= 8;
    }
    for (; length > 0; length--) *at++ = (uint8_t)dice(256);
}

void start_lay_out(struct start *s, const size_t length[BUFFERS])
{
    size_t at = 0;
    for (int b = 0; b < BUFFERS; b++) {
        at += 8 + dice(16);
        s->at[b] = at;
        s->length[b] = length[b];
        at += length[b];
    }
    s->total = at + 16;
    fill(s->bytes, s->total);
    memset(s->bytes + s->at[MARKS], 0, length[MARKS]);
}

void start_copy(struct start *to, const struct start *from)
{
    memcpy(to->at, from->at, sizeof to->at);
    memcpy(to->length, from->length, sizeof to->length);
    to->total = from->total;
    to->budget = from->budget;
    memcpy(to->bytes, from->bytes, from->total);
}

void start_resize(struct start *s, enum buffer which, size_t length)
{
    static struct start old;
    size_t lengths[BUFFERS];
    start_copy(&old, s);
    memcpy(lengths, old.length, sizeof lengths);
    lengths[which] = length;
    start_lay_out(s, lengths);
    for (int b = 0; b < BUFFERS; b++) {
        const size_t common = old.length[b] < s->length[b] ? old.length[b] : s->length[b];
        memcpy(s->bytes + s->at[b], old.bytes + old.at[b], common);
    }
}
