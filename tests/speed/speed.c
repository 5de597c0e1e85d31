/*
 * Runs an image at address 0 REPEATS times, each from reset, and prints how the
 * last run ended and the shortest time of one. The memory is loaded once: each
 * further run finds it as the one before left it.
 *
 *   speed v850|second IMAGE MEMORY BUDGET REPEATS [registers]
 */
#define _POSIX_C_SOURCE 199309L
#include <stdio.h>
#include <stdlib.h>
#include <string.h>
#include <time.h>

#include "second.h"
#include "v850.h"

static uint8_t image[V850_MEMORY_MAX], memory[V850_MEMORY_MAX], marks[V850_MEMORY_MAX];
static uint8_t block[V850_BLOCK_LEN], report[V850_REPORT_LEN];

static uint32_t get_word(const uint8_t *at)
{
    return (uint32_t)at[0] | (uint32_t)at[1] << 8 | (uint32_t)at[2] << 16 | (uint32_t)at[3] << 24;
}

static void put_word(uint8_t *at, uint32_t word)
{
    for (unsigned k = 0; k < 4; k++) at[k] = (uint8_t)(word >> (8u * k));
}

/* One region, all rights. PSW 20H is all that reset leaves nonzero. */
static void from_reset(size_t length)
{
    memset(block, 0, sizeof block);
    put_word(block + V850_AT_PSW, V850_PSW_ID);
    put_word(block + V850_AT_REGION(0) + V850_REGION_LENGTH, (uint32_t)length);
    put_word(block + V850_AT_REGION(0) + V850_REGION_RIGHTS, 7);
}

static double now(void)
{
    struct timespec t;
    (void)clock_gettime(CLOCK_PROCESS_CPUTIME_ID, &t);
    return (double)t.tv_sec * 1e9 + (double)t.tv_nsec;
}

static void print_registers(void)
{
    for (uint32_t n = 1; n < 32; n++)
        printf(" r%u=%08X", (unsigned)n, (unsigned)get_word(block + V850_AT_R(n)));
    printf("\n");
}

int main(int argc, char **argv)
{
    if (argc < 6) {
        fprintf(stderr, "usage: speed v850|second IMAGE MEMORY BUDGET REPEATS [registers]\n");
        return 2;
    }
    const int ours = strcmp(argv[1], "v850") == 0;
    const size_t length = strtoul(argv[3], NULL, 0);
    const uint32_t budget = (uint32_t)strtoul(argv[4], NULL, 0);
    double best = 1e18;
    uint32_t answer = 0;
    FILE *file = fopen(argv[2], "rb");
    if (file == NULL || length > sizeof memory || fread(image, 1, length, file) == 0 || fgetc(file) != EOF) {
        fprintf(stderr, "speed: cannot read %s into %s bytes\n", argv[2], argv[3]);
        return 2;
    }
    (void)fclose(file);
    memcpy(memory, image, length);
    for (unsigned long left = strtoul(argv[5], NULL, 0); left > 0; left--) {
        from_reset(length);
        const double start = now();
        answer = (ours ? v850_run : second_run)(block, sizeof block, memory, length, marks, length, report,
                                                sizeof report, budget);
        const double time = now() - start;
        if (time < best) best = time;
    }
    printf("answer=%u steps=%u pc=%06X psw=%02X ns=%.2f\n", (unsigned)answer, (unsigned)get_word(report),
           (unsigned)get_word(block + V850_AT_PC), (unsigned)get_word(block + V850_AT_PSW), best);
    if (argc > 6) print_registers();
    return 0;
}
