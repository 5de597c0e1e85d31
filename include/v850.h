/*
 * An emulator of the NEC V850 base instruction set that carries secrecy
 * marks: what a host calls, and the layout of what it passes.
 *
 * The host owns everything. It lends four byte buffers for the time of a call:
 * the state block, the memory, the marks of the memory, and a report. The
 * library keeps nothing between calls, so calls on different buffers may run
 * side by side.
 *
 * What the host owes, and no call can test:
 *  - each pointer is valid and not null, also where its length is 0;
 *  - each buffer is really as long as its length says;
 *  - the buffers of one call do not overlap each other.
 * No buffer needs any alignment. All words in them are little-endian.
 */
#ifndef V850_H
#define V850_H

#include <stddef.h>
#include <stdint.h>

#ifdef __cplusplus
extern "C" {
#endif

/* ---- Sizes ------------------------------------------------------------ */

#define V850_BLOCK_LEN 236u
#define V850_REPORT_LEN 8u
#define V850_MEMORY_MAX 65536u /* the mark buffer is as long as the memory */

/* ---- Answers ---------------------------------------------------------- */

/* Nothing at all is written. */
#define V850_SIZE 1u /* a wrong block or report length, too much memory, or marks of another length */

/* The report becomes zeros, and nothing else is written. */
#define V850_MAP 2u   /* the regions break a rule, see below */
#define V850_STATE 3u /* a field of the block is out of its range, see below */

/*
 * The end of a run. Completed steps stay done, in block, memory and marks. A
 * refused step changes nothing and is not counted. Block and report are
 * written: steps taken, and the place given here.
 */
#define V850_DONE 0u      /* budget used up; place 0 */
#define V850_ASLEEP 4u    /* halted, and no request can be accepted; place 0 */
#define V850_NOFETCH 5u   /* a halfword of code lies in no fetchable region; its address */
#define V850_UNDEFINED 6u /* no instruction; PC */
#define V850_LEAK 7u      /* a marked value would choose code, an address, a branch, a return or PSW; PC */
#define V850_NOREAD 8u    /* an operand lies in no readable region; its address */
#define V850_NOWRITE 9u   /* an operand lies in no writable region; its address */

/* ---- The report ------------------------------------------------------- */

#define V850_REPORT_STEPS 0u /* a step: an instruction, an exception, or a request accepted */
#define V850_REPORT_PLACE 4u

/* ---- The block -------------------------------------------------------- */

/* Words. STATE demands the range behind each. */
#define V850_AT_R(n) (4u * (n)) /* r0 is 0, the others are free */
#define V850_AT_PC 128u         /* even, up to FFFFFEH */
#define V850_AT_PSW 132u        /* up to FFH, and so are EIPSW and FEPSW */
#define V850_AT_EIPC 136u       /* up to FFFFFFH, and so is FEPC; may be odd */
#define V850_AT_EIPSW 140u
#define V850_AT_FEPC 144u
#define V850_AT_FEPSW 148u
#define V850_AT_ECR 152u        /* FECC in the high half, EICC in the low; free */
#define V850_AT_CODE 156u       /* maskable request: 0 for none, or 0080H to 0FF0H by 16 */

/* Bytes. */
#define V850_AT_HALTED 160u /* 0 or 1 */
#define V850_AT_NMI 161u    /* request pending: 0 or 1 */
#define V850_AT_FILLER 162u /* two bytes of 0 */

/* Marks: a word with bit n for rn (bit 0 is 0), then bytes, bit for bit. */
#define V850_AT_REG_MARKS 164u
#define V850_AT_PSW_MARKS 168u   /* the flags' bits 0 to 4 only */
#define V850_AT_EIPSW_MARKS 169u
#define V850_AT_FEPSW_MARKS 170u
#define V850_AT_PC_MARKS 171u    /* the sum of the two below */
#define V850_MARK_EIPC 1u
#define V850_MARK_FEPC 2u

/* Four regions of four words. */
#define V850_REGIONS 4u
#define V850_AT_REGION(k) (172u + 16u * (k))
#define V850_REGION_BASE 0u   /* address of its first byte */
#define V850_REGION_LENGTH 4u /* 0: unused, and the other three words are 0 */
#define V850_REGION_OFFSET 8u /* place of its first byte in memory; any alignment */
#define V850_REGION_RIGHTS 12u

/*
 * MAP demands of a used region: base and length multiples of 4, base + length
 * at most 2^24, offset + length at most the memory's length, rights at most 7.
 * Used regions overlap neither in addresses nor in offsets; they may touch.
 */
#define V850_RIGHT_READ 1u
#define V850_RIGHT_WRITE 2u
#define V850_RIGHT_FETCH 4u

/*
 * Region k as a part of the memory: the library's own view of it is a function
 * of Rattle, as no entry for C can return a slice. For a host in C that part
 * is the bytes from offset up to offset + length of the memory, as the block
 * says, and none where the region is unused. This holds only of a map that
 * passes MAP, so where v850_run with budget 0 answers neither SIZE nor MAP.
 */

/* Bits of PSW, EIPSW and FEPSW. */
#define V850_PSW_Z 0x01u
#define V850_PSW_S 0x02u
#define V850_PSW_OV 0x04u
#define V850_PSW_CY 0x08u
#define V850_PSW_SAT 0x10u
#define V850_PSW_ID 0x20u
#define V850_PSW_EP 0x40u
#define V850_PSW_NP 0x80u

/* ---- Entries ---------------------------------------------------------- */

/*
 * Runs at most budget steps and answers why it ended. A nonzero byte of marks
 * means that the byte of memory at the same place is marked; the run writes
 * only 0 or 1 there. Checks in this order: SIZE, MAP, STATE; then for each
 * step the budget, a request, ASLEEP, the fetch, UNDEFINED, the operands.
 */
uint32_t v850_run(uint8_t *block, size_t block_len,
                  uint8_t *memory, size_t memory_len,
                  uint8_t *marks, size_t marks_len,
                  uint8_t *report, size_t report_len, uint32_t budget);

/*
 * DONE: PC 0, PSW 20H, everything else in front of the regions 0; the regions
 * stay. SIZE: a block not of 236 bytes, and it is unchanged. The host puts the
 * regions in before or after; reset asks neither MAP nor STATE.
 */
uint32_t v850_reset(uint8_t *block, size_t block_len);

#ifdef __cplusplus
}
#endif

#endif
