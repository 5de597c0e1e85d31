/*
 * A small bench, by include/v850.h alone: puts an image at address 0, marks a
 * key, runs until the guest sleeps, raises an interrupt, and runs on. After
 * each run it prints all that is still marked, as it may tell of the key.
 *
 *   host                          the built-in image, with a key of its own
 *   host IMAGE KEY-PLACE LENGTH   a flat image, and where its key lies (hex, decimal);
 *                                 LENGTH 0 is an image without a key
 */
#include <ctype.h>
#include <stdio.h>
#include <stdlib.h>
#include <string.h>

#include "v850.h"

#define BUDGET 100000u
#define INTERRUPT 0x80u

static uint8_t block[V850_BLOCK_LEN], report[V850_REPORT_LEN];
static uint8_t memory[V850_MEMORY_MAX], marks[V850_MEMORY_MAX];

/*
 * The guest encrypts a word, wipes the key, and sleeps. Its handler then
 * branches on a byte of the result: that would show something of the key.
 */
static const uint16_t start_code[] = {
    0x3620, 0x0200, /* 00 movea 200H, r0, r6    the key */
    0x3E20, 0x0300, /* 04 movea 300H, r0, r7    the message */
    0x5726, 0x0001, /* 08 ld.w  0[r6], r10      r10 is marked, as the key is */
    0x5F27, 0x0001, /* 0C ld.w  0[r7], r11 */
    0x592A,         /* 10 xor   r10, r11        and so is r11 */
    0x5F67, 0x0005, /* 12 st.w  r11, 4[r7]      the result, at 304H */
    0x0766, 0x0001, /* 16 st.w  r0, 0[r6]       the key and its marks are gone */
    0x5200,         /* 1A mov   0, r10          here too */
    0x87E0, 0x0160, /* 1C ei */
    0x07E0, 0x0120, /* 20 halt */
};
static const uint16_t handler_code[] = {
    0x6707, 0x0004, /* 80 ld.b  4[r7], r12      a byte of the result: marked */
    0x6260,         /* 84 cmp   0, r12          so are the flags */
    0x05A2,         /* 86 be    8AH             refused */
};
static const uint8_t message[4] = {'N', 'O', 'T', 'E'}, key[4] = {0x11, 0x22, 0x33, 0x44};

static void put_word(uint8_t *at, uint32_t word)
{
    for (unsigned k = 0; k < 4; k++) at[k] = (uint8_t)(word >> (8u * k));
}

static uint32_t get_word(const uint8_t *at)
{
    return (uint32_t)at[0] | (uint32_t)at[1] << 8 | (uint32_t)at[2] << 16 | (uint32_t)at[3] << 24;
}

static void put_code(uint32_t at, const uint16_t *code, size_t count)
{
    for (size_t k = 0; k < count; k++) {
        memory[at + 2 * k] = (uint8_t)code[k];
        memory[at + 2 * k + 1] = (uint8_t)(code[k] >> 8);
    }
}

static void built_in(void)
{
    put_code(0x00, start_code, sizeof start_code / sizeof start_code[0]);
    put_code(INTERRUPT, handler_code, sizeof handler_code / sizeof handler_code[0]);
    memcpy(memory + 0x300, message, sizeof message);
    memcpy(memory + 0x200, key, sizeof key);
}

static int load(const char *name)
{
    FILE *file = fopen(name, "rb");
    if (file == NULL) return 0;
    const size_t length = fread(memory, 1, sizeof memory, file);
    const int good = length > 0 && fgetc(file) == EOF && !ferror(file);
    (void)fclose(file);
    return good;
}

/* All of the text is a number; strtoul by itself also takes blanks, a sign, and what only begins with one. */
static int number(const char *text, int base, size_t *value)
{
    char *end;
    if (!isxdigit((unsigned char)text[0])) return 0;
    *value = strtoul(text, &end, base);
    return *end == '\0';
}

/* A key that reached over the end would be open in part, or as a whole where the sum wraps. */
static int key_given(char **words, size_t *at, size_t *length)
{
    return number(words[0], 16, at) && number(words[1], 10, length) && *at < sizeof marks &&
           *length <= sizeof marks - *at;
}

static void print_marked_bits(const char *psw, uint8_t bits)
{
    static const struct {
        uint8_t bit;
        const char *name;
    } flag[] = {{V850_PSW_Z, "Z"},     {V850_PSW_S, "S"},   {V850_PSW_OV, "OV"}, {V850_PSW_CY, "CY"},
                {V850_PSW_SAT, "SAT"}, {V850_PSW_ID, "ID"}, {V850_PSW_EP, "EP"}, {V850_PSW_NP, "NP"}};
    for (size_t k = 0; k < sizeof flag / sizeof flag[0]; k++)
        if (bits & flag[k].bit) printf(" %s.%s", psw, flag[k].name);
}

static void print_marked_registers(void)
{
    const uint32_t registers = get_word(block + V850_AT_REG_MARKS);
    for (unsigned n = 0; n < 32; n++)
        if (registers >> n & 1) printf(" r%u", n);
    print_marked_bits("PSW", block[V850_AT_PSW_MARKS]);
    print_marked_bits("EIPSW", block[V850_AT_EIPSW_MARKS]);
    print_marked_bits("FEPSW", block[V850_AT_FEPSW_MARKS]);
    if (block[V850_AT_PC_MARKS] & V850_MARK_EIPC) printf(" EIPC");
    if (block[V850_AT_PC_MARKS] & V850_MARK_FEPC) printf(" FEPC");
}

/* Runs of mark bytes that are set, as addresses: all memory lies at 0. */
static void print_marked_memory(void)
{
    for (size_t at = 0, end; at < sizeof marks; at = end + 1) {
        for (end = at; end < sizeof marks && marks[end] != 0; end++) {}
        if (end > at) printf(" %06X-%06X", (unsigned)at, (unsigned)end - 1);
    }
}

static void print_marked(void)
{
    printf("marked:");
    print_marked_registers();
    print_marked_memory();
    printf("\n");
}

static uint32_t run(const char *when)
{
    const uint32_t answer = v850_run(block, sizeof block, memory, sizeof memory, marks, sizeof marks, report,
                                     sizeof report, BUDGET);
    printf("%s: answer=%u steps=%u place=%06X pc=%06X\n", when, (unsigned)answer,
           (unsigned)get_word(report + V850_REPORT_STEPS), (unsigned)get_word(report + V850_REPORT_PLACE),
           (unsigned)get_word(block + V850_AT_PC));
    print_marked();
    return answer;
}

int main(int argc, char **argv)
{
    size_t key_at = 0x200, key_length = sizeof key;
    if (argc != 1 && (argc != 4 || !key_given(argv + 2, &key_at, &key_length))) {
        fprintf(stderr, "usage: host [IMAGE KEY-PLACE LENGTH], the key within %u bytes\n", V850_MEMORY_MAX);
        return 2;
    }
    if (argc == 1) {
        built_in();
    } else if (!load(argv[1])) {
        fprintf(stderr, "host: cannot read %s, or it has not 1 to %u bytes\n", argv[1], V850_MEMORY_MAX);
        return 2;
    }
    memset(marks + key_at, 1, key_length);

    uint8_t *region = block + V850_AT_REGION(0); /* one region, all rights, offset 0 */
    put_word(region + V850_REGION_LENGTH, V850_MEMORY_MAX);
    put_word(region + V850_REGION_RIGHTS, V850_RIGHT_READ | V850_RIGHT_WRITE | V850_RIGHT_FETCH);
    if (v850_reset(block, sizeof block) != V850_DONE) return 1;

    if (run("from reset") == V850_ASLEEP) {
        put_word(block + V850_AT_CODE, INTERRUPT);
        (void)run("after the interrupt");
    }
    return 0;
}
