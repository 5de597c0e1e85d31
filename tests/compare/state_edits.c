/* One edit of a good state: each test of STATE just broken, and each bound just kept. */
#include "dice.h"
#include "state.h"

static void byte_mark_bit(struct start *s, size_t at, uint32_t bit)
{
    set_byte(s, at, in(s, BLOCK)[at] | 1u << bit);
}

/* Broken by one bit above the range; any of them. */
static uint32_t bit_above(uint32_t width)
{
    return 1u << (width + dice(32 - width));
}

void edit_state(struct start *s, uint32_t which)
{
    switch (which) {
    case 0: set_word(s, V850_AT_R(0), one_in(2) ? 1 : bit_above(0)); break;
    case 1: byte_mark_bit(s, V850_AT_REG_MARKS, 0); break;
    case 2: byte_mark_bit(s, V850_AT_REG_MARKS + 3, 7); break; /* r31: good */
    case 3: set_word(s, V850_AT_PC, word_of(s, V850_AT_PC) | 1); break;
    case 4: set_word(s, V850_AT_PC, 0xFFFFFE); break; /* good */
    case 5: set_word(s, V850_AT_PC, 0xFFFFFF); break;
    case 6: set_word(s, V850_AT_PC, 0x1000000); break;
    case 7: set_word(s, V850_AT_PC, word_of(s, V850_AT_PC) | bit_above(24)); break;
    case 8: set_word(s, V850_AT_PSW, 0xFF); break; /* good */
    case 9: set_word(s, V850_AT_PSW, word_of(s, V850_AT_PSW) | bit_above(8)); break;
    case 10: set_word(s, V850_AT_EIPSW, word_of(s, V850_AT_EIPSW) | bit_above(8)); break;
    case 11: set_word(s, V850_AT_FEPSW, word_of(s, V850_AT_FEPSW) | bit_above(8)); break;
    case 12: set_word(s, V850_AT_EIPSW, 0x100); break;
    case 13: set_word(s, V850_AT_FEPSW, 0x100); break;
    case 14: set_word(s, V850_AT_EIPC, 0xFFFFFF); break; /* good */
    case 15: set_word(s, V850_AT_FEPC, 0xFFFFFF); break; /* good */
    case 16: set_word(s, V850_AT_EIPC, word_of(s, V850_AT_EIPC) | bit_above(24)); break;
    case 17: set_word(s, V850_AT_FEPC, word_of(s, V850_AT_FEPC) | bit_above(24)); break;
    case 18: set_word(s, V850_AT_CODE, 0x10 * (1 + dice(7))); break;
    case 19: set_word(s, V850_AT_CODE, 0x80 + dice(0xF80)); break; /* mostly no multiple */
    case 20: set_word(s, V850_AT_CODE, 0x80); break; /* good */
    case 21: set_word(s, V850_AT_CODE, 0xFF0); break; /* good */
    case 22: set_word(s, V850_AT_CODE, 0x1000); break;
    case 23: set_word(s, V850_AT_CODE, word_of(s, V850_AT_CODE) | bit_above(12)); break;
    case 24: set_byte(s, V850_AT_HALTED, 2 + dice(254)); break;
    case 25: set_byte(s, V850_AT_NMI, 2 + dice(254)); break;
    case 26: set_byte(s, V850_AT_HALTED, 2u << dice(7)); break;
    case 27: set_byte(s, V850_AT_NMI, 2u << dice(7)); break;
    case 28: set_byte(s, V850_AT_FILLER, one_in(2) ? 1 : 1 + dice(255)); break;
    case 29: set_byte(s, V850_AT_FILLER + 1, one_in(2) ? 1 : 1 + dice(255)); break;
    case 30: byte_mark_bit(s, V850_AT_PSW_MARKS, 5 + dice(3)); break;
    case 31: byte_mark_bit(s, V850_AT_PC_MARKS, 2 + dice(6)); break;
    case 32: set_byte(s, V850_AT_PSW_MARKS, 0x1F); break; /* good */
    default: set_byte(s, V850_AT_PC_MARKS, 3); break; /* good */
    }
}
