/*
 * A second program for the V850 base with secrecy marks, written from the
 * order (01), the architecture manual (000), the table of conditions (003) and
 * points 1 to 36 of docs/DECISIONS.md, which settle what these leave open. It
 * exists to be compared with the proved emulator, byte by byte.
 */
#ifndef SECOND_H
#define SECOND_H

#include <stdbool.h>
#include <stddef.h>
#include <stdint.h>

/* 01, "What comes back". */
enum second_answer {
    SECOND_DONE = 0,
    SECOND_SIZE = 1,
    SECOND_MAP = 2,
    SECOND_STATE = 3,
    SECOND_ASLEEP = 4,
    SECOND_NOFETCH = 5,
    SECOND_UNDEFINED = 6,
    SECOND_LEAK = 7,
    SECOND_NOREAD = 8,
    SECOND_NOWRITE = 9,
    SECOND_FIELD = 10
};

/* Sizes that 01 fixes. */
#define SECOND_BLOCK_LEN 236u
#define SECOND_REPORT_LEN 8u
#define SECOND_MEMORY_MAX 65536u

/* ---- The machine ------------------------------------------------------ */

uint32_t second_run(uint8_t *block, size_t block_len,
                    uint8_t *memory, size_t memory_len,
                    uint8_t *marks, size_t marks_len,
                    uint8_t *report, size_t report_len, uint32_t budget);

uint32_t second_reset(uint8_t *block, size_t block_len);

/* A part of the memory; length 0 means the empty part (offset is then 0). */
struct second_part {
    size_t offset, length;
};

struct second_part second_region(const uint8_t *block, size_t block_len,
                                 size_t memory_len, uint32_t k);

/* ---- Words of the instruction set ------------------------------------- */

/*
 * One value per mnemonic and operand form of 000, in 01's table order: the
 * first 24 have the number of their opcode. NOP is MOV r0, r0; JR is JARL to
 * r0; BR is Bcond 5.
 */
#define SECOND_OPS(X)                                                         \
    X(MOV_REG, "MOV reg1, reg2")       X(NOT, "NOT reg1, reg2")               \
    X(DIVH, "DIVH reg1, reg2")         X(JMP, "JMP [reg1]")                   \
    X(SATSUBR, "SATSUBR reg1, reg2")   X(SATSUB, "SATSUB reg1, reg2")         \
    X(SATADD_REG, "SATADD reg1, reg2") X(MULH_REG, "MULH reg1, reg2")         \
    X(OR, "OR reg1, reg2")             X(XOR, "XOR reg1, reg2")               \
    X(AND, "AND reg1, reg2")           X(TST, "TST reg1, reg2")               \
    X(SUBR, "SUBR reg1, reg2")         X(SUB, "SUB reg1, reg2")               \
    X(ADD_REG, "ADD reg1, reg2")       X(CMP_REG, "CMP reg1, reg2")           \
    X(MOV_IMM5, "MOV imm5, reg2")      X(SATADD_IMM5, "SATADD imm5, reg2")    \
    X(ADD_IMM5, "ADD imm5, reg2")      X(CMP_IMM5, "CMP imm5, reg2")          \
    X(SHR_IMM5, "SHR imm5, reg2")      X(SAR_IMM5, "SAR imm5, reg2")          \
    X(SHL_IMM5, "SHL imm5, reg2")      X(MULH_IMM5, "MULH imm5, reg2")        \
    X(SLD_B, "SLD.B disp7[ep], reg2")  X(SST_B, "SST.B reg2, disp7[ep]")      \
    X(SLD_H, "SLD.H disp8[ep], reg2")  X(SST_H, "SST.H reg2, disp8[ep]")      \
    X(SLD_W, "SLD.W disp8[ep], reg2")  X(SST_W, "SST.W reg2, disp8[ep]")      \
    X(BCOND, "Bcond disp9")                                                   \
    X(ADDI, "ADDI imm16, reg1, reg2")  X(MOVEA, "MOVEA imm16, reg1, reg2")    \
    X(MOVHI, "MOVHI imm16, reg1, reg2")                                       \
    X(SATSUBI, "SATSUBI imm16, reg1, reg2")                                   \
    X(ORI, "ORI imm16, reg1, reg2")    X(XORI, "XORI imm16, reg1, reg2")      \
    X(ANDI, "ANDI imm16, reg1, reg2")  X(MULHI, "MULHI imm16, reg1, reg2")    \
    X(LD_B, "LD.B disp16[reg1], reg2") X(LD_H, "LD.H disp16[reg1], reg2")     \
    X(LD_W, "LD.W disp16[reg1], reg2") X(ST_B, "ST.B reg2, disp16[reg1]")     \
    X(ST_H, "ST.H reg2, disp16[reg1]") X(ST_W, "ST.W reg2, disp16[reg1]")     \
    X(JARL, "JARL disp22, reg2")                                              \
    X(SET1, "SET1 bit#3, disp16[reg1]") X(NOT1, "NOT1 bit#3, disp16[reg1]")   \
    X(CLR1, "CLR1 bit#3, disp16[reg1]") X(TST1, "TST1 bit#3, disp16[reg1]")   \
    X(SETF, "SETF cccc, reg2")         X(LDSR, "LDSR reg2, regID")            \
    X(STSR, "STSR regID, reg2")        X(SHR_REG, "SHR reg1, reg2")           \
    X(SAR_REG, "SAR reg1, reg2")       X(SHL_REG, "SHL reg1, reg2")           \
    X(TRAP, "TRAP vector")             X(HALT, "HALT")                        \
    X(RETI, "RETI")                    X(DI, "DI")                            \
    X(EI, "EI")

#define SECOND_OP_ENUM(name, text) SECOND_OP_##name,
enum second_op { SECOND_OPS(SECOND_OP_ENUM) SECOND_OP_COUNT };

/*
 * An instruction. Each uses only the fields of its operand form; decoding
 * sets the others to 0 and encoding does not look at them. LDSR and STSR
 * both have their general register in reg2, as 000 names it.
 */
struct second_insn {
    enum second_op op;
    uint32_t reg1, reg2;
    int32_t value;   /* immediate or displacement, as the value it stands for */
    uint32_t number; /* condition, bit number, TRAP vector or system number */
};

enum second_kind {
    SECOND_IS_INSTRUCTION,
    SECOND_IS_ILLEGAL,
    SECOND_IS_UNDEFINED
};

struct second_decoded {
    enum second_kind kind;
    uint32_t halfwords; /* how many were used: 1 or 2 */
    struct second_insn insn;
};

/* Whether the first halfword alone asks for a second. */
bool second_needs_second(uint16_t first);

/* The second halfword is not looked at unless second_needs_second(first). */
struct second_decoded second_decode(uint16_t first, uint16_t second);

/*
 * DONE with *count halfwords in out, or FIELD with *count 0 and out as it
 * was. An op that is no value of the enum is FIELD too.
 */
uint32_t second_encode(const struct second_insn *insn, uint16_t out[2],
                       uint32_t *count);

/* ---- Names and statistics --------------------------------------------- */

const char *second_op_name(enum second_op op);
const char *second_answer_name(uint32_t answer);

/* 01's causes of LEAK, each by itself. */
enum second_leak {
    SECOND_LEAK_FIRST,    /* marked byte in the first halfword */
    SECOND_LEAK_SECOND,   /* marked byte in the second halfword */
    SECOND_LEAK_LOAD,     /* marked base register of a load */
    SECOND_LEAK_STORE,    /* of a store */
    SECOND_LEAK_BIT,      /* of a bit instruction */
    SECOND_LEAK_JMP,
    SECOND_LEAK_BCOND,
    SECOND_LEAK_LDSR,
    SECOND_LEAK_RETI_PC,  /* counted alone if the saved PSW is marked too */
    SECOND_LEAK_RETI_PSW,
    SECOND_LEAK_COUNT
};

const char *second_leak_name(enum second_leak cause);

struct second_stats {
    uint64_t executed[SECOND_OP_COUNT]; /* completed steps */
    uint64_t leak[SECOND_LEAK_COUNT];
    uint64_t nmi, maskable, illegal;
};

/* Counted into if not NULL; NULL at the start. */
extern struct second_stats *second_stats;

/* Deliberate faults: -DFAULT=1 to -DFAULT=SECOND_FAULTS, see FAULTS.md. */
#define SECOND_FAULTS 131

#endif
