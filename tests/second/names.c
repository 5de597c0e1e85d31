/* Names for printing. */
#include "second.h"

#define OP_NAME(name, text) text,

const char *second_op_name(enum second_op op)
{
    static const char *const names[SECOND_OP_COUNT] = {SECOND_OPS(OP_NAME)};
    return (uint32_t)op < SECOND_OP_COUNT ? names[op] : "?";
}

const char *second_answer_name(uint32_t answer)
{
    static const char *const names[11] = {
        "DONE", "SIZE", "MAP", "STATE", "ASLEEP", "NOFETCH",
        "UNDEFINED", "LEAK", "NOREAD", "NOWRITE", "FIELD"
    };
    return answer < 11 ? names[answer] : "?";
}

const char *second_leak_name(enum second_leak cause)
{
    static const char *const names[SECOND_LEAK_COUNT] = {
        "first halfword", "second halfword", "base of load", "base of store",
        "base of bit instruction", "JMP", "Bcond", "LDSR to PSW",
        "RETI saved PC", "RETI saved PSW"
    };
    return (uint32_t)cause < SECOND_LEAK_COUNT ? names[cause] : "?";
}
