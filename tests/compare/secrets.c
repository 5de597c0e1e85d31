/* A start with every marked value thrown anew, and what may not differ after two runs. */
#include "secrets.h"

#include <string.h>

#include "dice.h"
#include "state.h"

static const size_t psw_at[3] = {V850_AT_PSW, V850_AT_EIPSW, V850_AT_FEPSW};
static const size_t pc_at[2] = {V850_AT_EIPC, V850_AT_FEPC};

static uint32_t byte_of(struct start *s, size_t at)
{
    return in(s, BLOCK)[at];
}

/*
 * Only bits that a good state may have are thrown, so that STATE, which looks
 * at values whether marked or not, answers the same.
 */
static bool throw_block(struct start *s)
{
    const uint32_t marks = word_of(s, V850_AT_REG_MARKS);
    uint32_t any = marks | byte_of(s, V850_AT_PC_MARKS);
    for (uint32_t n = 1; n < 32; n++)
        if (marks >> n & 1) set_word(s, V850_AT_R(n), any_value());
    for (uint32_t k = 0; k < 3; k++) {
        const uint32_t bits = byte_of(s, V850_AT_PSW_MARKS + k);
        set_word(s, psw_at[k], word_of(s, psw_at[k]) ^ (dice(256) & bits));
        any |= bits;
    }
    for (uint32_t k = 0; k < 2; k++)
        if (byte_of(s, V850_AT_PC_MARKS) >> k & 1)
            set_word(s, pc_at[k], word_of(s, pc_at[k]) ^ (any_value() & 0xFFFFFF));
    return any != 0;
}

bool other_secrets(struct start *s)
{
    bool any = false;
    if (s->length[BLOCK] != V850_BLOCK_LEN || s->length[MARKS] != s->length[MEMORY]) return false;
    any = throw_block(s);
    for (size_t at = 0; at < s->length[MARKS]; at++) {
        if (in(s, MARKS)[at] == 0) continue;
        in(s, MEMORY)[at] = (uint8_t)(one_in(4) ? in(s, MEMORY)[at] ^ 1u << dice(8) : dice(256));
        any = true;
    }
    return any;
}

static const char *shown_in_block(struct start *a, struct start *b)
{
    const uint32_t marks = word_of(a, V850_AT_REG_MARKS);
    if (memcmp(in(a, BLOCK) + V850_AT_ECR, in(b, BLOCK) + V850_AT_ECR, V850_BLOCK_LEN - V850_AT_ECR) != 0)
        return "ECR, requests, marks or map of the block";
    if (word_of(a, V850_AT_PC) != word_of(b, V850_AT_PC)) return "PC";
    for (uint32_t n = 0; n < 32; n++)
        if (!(marks >> n & 1) && word_of(a, V850_AT_R(n)) != word_of(b, V850_AT_R(n))) return "an unmarked register";
    for (uint32_t k = 0; k < 3; k++)
        if ((word_of(a, psw_at[k]) ^ word_of(b, psw_at[k])) & ~byte_of(a, V850_AT_PSW_MARKS + k))
            return "an unmarked bit of PSW, EIPSW or FEPSW";
    for (uint32_t k = 0; k < 2; k++)
        if (!(byte_of(a, V850_AT_PC_MARKS) >> k & 1) && word_of(a, pc_at[k]) != word_of(b, pc_at[k]))
            return "an unmarked EIPC or FEPC";
    return NULL;
}

const char *shown(struct start *a, struct start *b)
{
    const char *block = shown_in_block(a, b);
    if (block != NULL) return block;
    if (memcmp(in(a, MARKS), in(b, MARKS), a->length[MARKS]) != 0) return "the mark buffer";
    for (size_t at = 0; at < a->length[MEMORY]; at++)
        if (in(a, MARKS)[at] == 0 && in(a, MEMORY)[at] != in(b, MEMORY)[at]) return "an unmarked byte of memory";
    if (memcmp(in(a, REPORT), in(b, REPORT), a->length[REPORT]) != 0) return "the report";
    return NULL;
}
