/*
 * How much stack a call takes. The builder of an ANS code runs, and each search on blocks of every size, the small product's too, and a group's list with one of each size that fits, on a thread whose stack was painted before; what is no longer paint was used.
 * Then all of them run on a thread that has RDOQ_STACK_BYTES and the margin that the thread itself needs. The exit status is 1 where a call takes more
 * than RDOQ_STACK_BYTES.
 */
#define _GNU_SOURCE
#include <pthread.h>
#include <stdio.h>
#include <stdlib.h>
#include <string.h>
#include <sys/mman.h>

#include "rdoq.h"

enum { PAINT = 0xa5, WHOLE = 1 << 20, MARGIN = 16384, LARGEST = 65536 };

static uint8_t map[RDOQ_CONTEXTS];
static const uint8_t configs[3] = {4, 2, 0};
static float symbols[RDOQ_SYMBOLS], ready[RDOQ_READY];
enum { ROW = RDOQ_ROW(RDOQ_WIDEST) };
static uint8_t choices[RDOQ_TRELLIS_CHOICES(RDOQ_WIDEST) * 1024];
static float row_a[ROW], row_b[ROW];
static uint32_t scan[LARGEST];
static float source[LARGEST], inv_qm[LARGEST];
static int32_t levels[LARGEST];

/* one strategy of each size, with its sides */
static const struct { uint32_t cx, cy; uint8_t strategy; } sizes[] = {
    {1, 1, 0}, {2, 1, 6}, {2, 2, 4}, {4, 2, 10}, {4, 4, 5}, {8, 4, 19}, {8, 8, 18}, {16, 8, 22}, {16, 16, 21}, {32, 16, 25}, {32, 32, 24},
};

static uint32_t codes[4][11];

static void *call(void *argument) {
    int search = *(int *)argument / 16, size = *(int *)argument % 16;
    size_t n = 64u * sizes[size].cx * sizes[size].cy;
    float cost;
    uint32_t count;
    codes[search][size] =
        rdoq_block((uint32_t)search, 1, map, sizeof map, configs, sizeof configs, symbols, RDOQ_SYMBOLS, ready, RDOQ_READY,
                   sizes[size].cx, sizes[size].cy, sizes[size].strategy, 1, false, 4, 1.0f, 0.1f, 1.0f, 1.0f, RDOQ_WIDEST, 0.9f,
                   RDOQ_BIAS_NUMERATOR, 1.0f, scan, n, source, n, inv_qm, n, levels, n, choices, sizeof choices, row_a, ROW, row_b,
                   ROW, &cost, &count);
    return NULL;
}

static uint32_t input_codes[11];

static void *input_call(void *argument) {
    int size = *(int *)argument;
    size_t n = 64u * sizes[size].cx * sizes[size].cy;
    float cost;
    uint32_t count;
    input_codes[size] = rdoq_input_cost(1, map, sizeof map, configs, sizeof configs, symbols, RDOQ_SYMBOLS, ready, RDOQ_READY,
                                        sizes[size].cx, sizes[size].cy, sizes[size].strategy, 1, false, 4, 1.0f, 0.1f, 1.0f, 1.0f,
                                        0.9f, RDOQ_BIAS_NUMERATOR, 1.0f, scan, n, source, n, inv_qm, n, levels, n, &cost, &count);
    return NULL;
}

static uint32_t small_codes[4][2];

/* the small product, on the two sizes that it takes */
static void *small_call(void *argument) {
    int search = *(int *)argument / 16, size = *(int *)argument % 16;
    size_t n = 64u * sizes[size].cx * sizes[size].cy;
    float cost;
    uint32_t count;
    small_codes[search][size] =
        rdoq_small_block((uint32_t)search, 1, map, sizeof map, configs, sizeof configs, symbols, RDOQ_SYMBOLS, ready, RDOQ_READY,
                         sizes[size].cx, sizes[size].cy, sizes[size].strategy, 1, false, 4, 1.0f, 0.1f, 1.0f, 1.0f, 0.9f,
                         RDOQ_BIAS_NUMERATOR, 1.0f, scan, n, source, n, inv_qm, n, levels, n, choices, sizeof choices, row_a, ROW, row_b,
                         ROW, &cost, &count);
    return NULL;
}

static uint32_t group_codes[4];

/* a group's list: 16 by 16 cells and 16 by 8 below them, then a row of small ones */
static void *group_call(void *argument) {
    static const struct { uint32_t x, y; int size; } places[] = {{0, 0, 8}, {0, 16, 7}, {0, 24, 4}, {4, 24, 2}, {6, 24, 1}, {8, 24, 0}};
    uint32_t words[6 * RDOQ_GROUP_WORDS], settled = 0;
    float floats[6 * RDOQ_GROUP_FLOATS];
    static uint32_t scans[LARGEST];
    int search = *(int *)argument / 16;
    size_t n = 0;
    for (size_t i = 0; i < 6; i++) {
        uint32_t cx = sizes[places[i].size].cx, cy = sizes[places[i].size].cy;
        const uint32_t word[] = {places[i].x, places[i].y, cx, cy, sizes[places[i].size].strategy, 1, 0, RDOQ_WIDEST};
        const float real[] = {1.0f, 0.1f, 1.0f, 1.0f, 0.9f, RDOQ_BIAS_NUMERATOR, 1.0f};
        memcpy(words + RDOQ_GROUP_WORDS * i, word, sizeof word);
        memcpy(floats + RDOQ_GROUP_FLOATS * i, real, sizeof real);
        for (uint32_t k = 0; k < 64 * cx * cy; k++) scans[n++] = k;
    }
    group_codes[search] =
        rdoq_group((uint32_t)search, 1, map, sizeof map, configs, sizeof configs, symbols, RDOQ_SYMBOLS, ready, RDOQ_READY, words,
                   6 * RDOQ_GROUP_WORDS, floats, 6 * RDOQ_GROUP_FLOATS, scans, n, source, n, inv_qm, n, levels, n, choices,
                   sizeof choices, row_a, ROW, row_b, ROW, &settled);
    if (group_codes[search] == 0 && settled != 6) group_codes[search] = 99;
    return NULL;
}

/* the builder of an ANS code has the table of prices at hand */
static void *ans(void *argument) {
    static uint16_t freqs[RDOQ_SYMBOLS];
    static float prices[RDOQ_SYMBOLS];
    for (unsigned i = 0; i < RDOQ_SYMBOLS; i++) freqs[i] = (uint16_t)(32 * i);
    if (rdoq_ans_symbol_bits(1, freqs, RDOQ_SYMBOLS, prices, RDOQ_SYMBOLS)) exit(2);
    return argument;
}

static void *nothing(void *argument) { return argument; }

/* Runs `work` on a stack of this size; how many bytes of it were touched. */
static size_t run(void *(*work)(void *), int what, size_t bytes) {
    unsigned char *stack = mmap(NULL, bytes, PROT_READ | PROT_WRITE, MAP_PRIVATE | MAP_ANONYMOUS, -1, 0);
    if (stack == MAP_FAILED) exit(2);
    memset(stack, PAINT, bytes);
    for (int i = 0; i < LARGEST; i++) levels[i] = i % 7 - 3;
    pthread_attr_t attributes;
    pthread_t thread;
    if (pthread_attr_init(&attributes) || pthread_attr_setstack(&attributes, stack, bytes) ||
        pthread_create(&thread, &attributes, work, &what) || pthread_join(thread, NULL))
        exit(2);
    size_t clean = 0;
    while (clean < bytes && stack[clean] == PAINT) clean++;
    munmap(stack, bytes);
    return bytes - clean;
}

int main(void) {
    for (unsigned i = 0; i < RDOQ_SYMBOLS; i++) symbols[i] = 1.0f + 0.25f * (float)i;
    if (rdoq_fill_ready(1, map, sizeof map, configs, sizeof configs, symbols, RDOQ_SYMBOLS, ready, RDOQ_READY)) return 2;
    for (uint32_t i = 0; i < LARGEST; i++) {
        scan[i] = i;
        source[i] = (float)(i % 7) - 2.75f;
        inv_qm[i] = 1.0f;
    }
    size_t empty = run(nothing, 0, WHOLE), most = run(ans, 0, WHOLE) - empty;
    for (int search = 0; search < 4; search++) {
        for (int size = 0; size < 11; size++) {
            size_t used = run(call, 16 * search + size, WHOLE) - empty;
            if (codes[search][size]) return 2;
            if (used > most) most = used;
        }
    }
    for (int size = 0; size < 11; size++) {
        size_t used = run(input_call, size, WHOLE) - empty;
        if (input_codes[size]) return 2;
        if (used > most) most = used;
    }
    for (int search = 0; search < 4; search++) {
        for (int size = 0; size < 2; size++) {
            size_t used = run(small_call, 16 * search + size, WHOLE) - empty;
            if (small_codes[search][size]) return 2;
            if (used > most) most = used;
        }
    }
    for (int search = 0; search < 4; search++) {
        size_t used = run(group_call, 16 * search, WHOLE) - empty;
        if (group_codes[search]) return 2;
        if (used > most) most = used;
    }
    printf("stack: %zu bytes at the most, %u are promised\n", most, (unsigned)RDOQ_STACK_BYTES);
    if (most > RDOQ_STACK_BYTES) return 1;
    /* a stack smaller than this faults */
    run(ans, 0, RDOQ_STACK_BYTES + MARGIN);
    for (int size = 0; size < 11; size++) run(input_call, size, RDOQ_STACK_BYTES + MARGIN);
    for (int what = 0; what < 64; what++) {
        if (what % 16 < 11) run(call, what, RDOQ_STACK_BYTES + MARGIN);
        if (what % 16 < 2) run(small_call, what, RDOQ_STACK_BYTES + MARGIN);
        if (what % 16 == 0) run(group_call, what, RDOQ_STACK_BYTES + MARGIN);
    }
    puts("stack: every call ran on a thread with as much");
    return 0;
}
