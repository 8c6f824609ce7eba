/*
 * fuzz CALLS [SEED]: searches on books and blocks of every kind, right ones and damaged ones, each array right at the edge of a page that can't be touched,
 * on rooms that hold what the call before left: rdoq_block, rdoq_input_cost, rdoq_small_block, and rdoq_group on short lists of one block put beside itself.
 * After each call this program looks at what the header promises of it. A fault ends it with a signal; a broken promise is printed with its number and ends it with 1.
 */
#define _GNU_SOURCE
#include <stdio.h>
#include <stdlib.h>
#include <string.h>
#include <sys/mman.h>

#include "rdoq.h"

static uint64_t state;

static uint32_t random_word(void) {
    state ^= state << 13;
    state ^= state >> 7;
    state ^= state << 17;
    return (uint32_t)(state >> 32);
}

static uint32_t below(uint32_t n) { return (uint32_t)(((uint64_t)random_word() * n) >> 32); }
static int once_in(uint32_t n) { return below(n) == 0; }

static float any_float(void) {
    uint32_t bits = random_word();
    float x;
    memcpy(&x, &bits, sizeof x);
    return x;
}

static float between(float low, float high) { return low + (high - low) * ((float)below(1 << 20) / (float)(1 << 20)); }

/* An array whose first or last byte stands at a page that can't be touched. */
typedef struct {
    unsigned char *pages;
    size_t bytes;
} guarded;

enum { PAGE = 4096 };

static guarded make(size_t most) {
    guarded it;
    it.bytes = (most + PAGE - 1) / PAGE * PAGE;
    unsigned char *all = mmap(NULL, it.bytes + 2 * PAGE, PROT_NONE, MAP_PRIVATE | MAP_ANONYMOUS, -1, 0);
    if (all == MAP_FAILED || mprotect(all + PAGE, it.bytes, PROT_READ | PROT_WRITE)) exit(2);
    it.pages = all + PAGE;
    return it;
}

static void *lent(guarded it, size_t bytes) { return once_in(2) ? it.pages : it.pages + it.bytes - bytes; }

/* the most choice bytes and floats of a row that are lent, surplus included */
enum { CLUSTERS = 9, LARGEST = 64 * 64, CHOICES = RDOQ_TRELLIS_CHOICES(RDOQ_WIDEST) * 1024 + 64, ROW = RDOQ_ROW(RDOQ_WIDEST) + 12 };

static guarded g_map, g_configs, g_symbols, g_ready, g_scan, g_source, g_inverse, g_levels, g_choices, g_row_a, g_row_b;

/* one call's arguments */
static struct {
    uint32_t clusters;
    uint8_t *map, *configs, *choices;
    float *symbols, *ready, *source, *inverse, *row_a, *row_b;
    uint32_t *scan;
    int32_t *levels;
    size_t map_len, configs_len, symbols_len, ready_len, scan_len, source_len, inverse_len, levels_len, choices_len, row_a_len, row_b_len;
    uint32_t cx, cy;
    uint8_t strategy, channel, predicted;
    bool high;
    float weight, lambda, penalty, distance, one, numerator, scale;
    uint32_t half_width;
} it;

/* mostly the right length, else near it, or none; never more than is there */
static size_t length(size_t right, size_t most) {
    size_t n = right;
    switch (below(150)) {
    case 0: n = right + 1; break;
    case 1: n = right ? right - 1 : 0; break;
    case 2: n = 0; break;
    case 3: n = below((uint32_t)most + 1); break;
    }
    return n > most ? most : n;
}

static void book(void) {
    static const uint8_t kept[][3] = {{4, 2, 0}, {4, 1, 2}, {6, 2, 0}, {0, 0, 0}, {5, 2, 1}, {5, 2, 2}};
    uint32_t n = 1 + below(CLUSTERS - 1);
    it.clusters = once_in(40) ? random_word() : n;
    it.map_len = once_in(60) ? below(RDOQ_CONTEXTS) : RDOQ_CONTEXTS;
    it.configs_len = length(3 * n, 3 * CLUSTERS);
    it.symbols_len = length(RDOQ_SYMBOLS * n, RDOQ_SYMBOLS * CLUSTERS);
    it.ready_len = length(RDOQ_READY * n, RDOQ_READY * CLUSTERS);
    it.map = lent(g_map, it.map_len);
    it.configs = lent(g_configs, it.configs_len);
    it.symbols = lent(g_symbols, 4 * it.symbols_len);
    it.ready = lent(g_ready, 4 * it.ready_len);
    for (size_t i = 0; i < it.map_len; i++) it.map[i] = (uint8_t)below(n);
    for (size_t i = 0; i < it.configs_len; i++) it.configs[i] = once_in(60) ? (uint8_t)random_word() : kept[i / 3 % 6][i % 3];
    int dear = once_in(8);
    for (size_t i = 0; i < it.symbols_len; i++) {
        it.symbols[i] = once_in(3000) ? any_float() : between(0.0f, 20.0f);
        if (dear && once_in(4)) memcpy(&it.symbols[i], &(uint32_t){0x7f800000u}, 4);
    }
    rdoq_fill_ready(it.clusters, it.map, it.map_len, it.configs, it.configs_len, it.symbols, it.symbols_len, it.ready, it.ready_len);
    if (once_in(30) && it.ready_len) it.ready[below((uint32_t)it.ready_len)] = any_float();
    if (once_in(30) && it.map_len) it.map[below((uint32_t)it.map_len)] = (uint8_t)random_word();
}

static void block(void) {
    static const struct { uint8_t cx, cy, strategy; } kinds[] = {
        {1, 1, 0}, {1, 1, 13}, {1, 1, 3}, {2, 1, 6}, {1, 2, 7}, {2, 2, 4}, {4, 2, 10}, {4, 4, 5}, {8, 8, 18},
    };
    uint32_t kind = once_in(200) ? 8 : below(8);
    it.cx = once_in(60) ? random_word() : kinds[kind].cx;
    it.cy = once_in(60) ? below(40) : kinds[kind].cy;
    it.strategy = once_in(40) ? (uint8_t)random_word() : kinds[kind].strategy;
    it.channel = (uint8_t)(once_in(60) ? random_word() : below(3));
    it.predicted = (uint8_t)random_word();
    it.high = once_in(2);
    size_t n = 64u * kinds[kind].cx * kinds[kind].cy;
    it.scan_len = length(n, LARGEST);
    it.source_len = length(n, LARGEST);
    it.inverse_len = length(n, LARGEST);
    it.levels_len = length(n, LARGEST);
    it.scan = lent(g_scan, 4 * it.scan_len);
    it.source = lent(g_source, 4 * it.source_len);
    it.inverse = lent(g_inverse, 4 * it.inverse_len);
    it.levels = lent(g_levels, 4 * it.levels_len);
    for (size_t i = 0; i < it.scan_len; i++) it.scan[i] = (uint32_t)i;
    for (size_t i = it.scan_len; i > 1 && once_in(2) == 0; i--) {
        size_t j = below((uint32_t)i);
        uint32_t x = it.scan[i - 1];
        it.scan[i - 1] = it.scan[j];
        it.scan[j] = x;
    }
    if (once_in(25) && it.scan_len) it.scan[below((uint32_t)it.scan_len)] = once_in(2) ? random_word() : below((uint32_t)it.scan_len);
    for (size_t i = 0; i < it.source_len; i++) it.source[i] = once_in(5000) ? any_float() : between(-4.0f, 4.0f);
    for (size_t i = 0; i < it.inverse_len; i++) it.inverse[i] = once_in(5000) ? any_float() : between(0.5f, 2.0f);
    for (size_t i = 0; i < it.levels_len; i++) it.levels[i] = once_in(9000) ? (int32_t)random_word() : once_in(3) ? (int32_t)below(9) - 4 : 0;
    it.weight = once_in(60) ? any_float() : between(0.5f, 2.0f);
    it.lambda = once_in(60) ? any_float() : between(0.01f, 4.0f);
    it.penalty = once_in(60) ? any_float() : between(0.5f, 2.0f);
    it.distance = once_in(60) ? any_float() : between(0.0f, 4.0f);
    static const uint32_t out_of_range[] = {0, 13, 262, UINT32_MAX};
    it.half_width = once_in(60) ? (once_in(2) ? random_word() : out_of_range[below(4)]) : 1 + below(RDOQ_WIDEST);
    it.one = once_in(60) ? any_float() : between(0.8f, 1.0f);
    it.numerator = once_in(60) ? any_float() : RDOQ_BIAS_NUMERATOR;
    it.scale = once_in(60) ? any_float() : between(0.5f, 2.0f);
    size_t window = 1024;
    rdoq_window_len(kinds[kind].cx * (uint32_t)kinds[kind].cy, &window, &(size_t){0});
    /* for a half-width out of range, room for another */
    uint32_t w = it.half_width - 1 < RDOQ_WIDEST ? it.half_width : RDOQ_HALF_WIDTH;
    it.choices_len = length((once_in(3) ? RDOQ_BEAM_CHOICES : RDOQ_TRELLIS_CHOICES(w)) * window, CHOICES);
    it.row_a_len = length(RDOQ_ROW(w), ROW);
    it.row_b_len = length(RDOQ_ROW(w), ROW);
    /* what stands there is what the call before left, or paint */
    it.choices = lent(g_choices, it.choices_len);
    it.row_a = lent(g_row_a, 4 * it.row_a_len);
    it.row_b = lent(g_row_b, 4 * it.row_b_len);
    if (once_in(4)) memset(it.choices, (int)below(256), it.choices_len);
}

static int32_t levels_before[LARGEST];
static uint8_t choices_before[CHOICES];
static float rows_before[2][ROW];
static const char *broken;

static void hold(int promise, const char *what) {
    if (!promise && !broken) broken = what;
}

static int cleared(void) {
    uint32_t infinity = 0x7f800000u;
    for (size_t i = 0; i < it.choices_len; i++) if (it.choices[i] != 255) return 0;
    for (size_t i = 0; i < it.row_a_len; i++) if (memcmp(&it.row_a[i], &infinity, 4)) return 0;
    for (size_t i = 0; i < it.row_b_len; i++) if (memcmp(&it.row_b[i], &infinity, 4)) return 0;
    return 1;
}

static int room_kept(void) {
    return !memcmp(choices_before, it.choices, it.choices_len) && !memcmp(rows_before[0], it.row_a, 4 * it.row_a_len) &&
           !memcmp(rows_before[1], it.row_b, 4 * it.row_b_len);
}

static float cost;
static uint32_t count;

/* what every call finds, kept to be compared with what it leaves */
static void keep(void) {
    cost = -1.0f;
    count = 12345;
    memcpy(levels_before, it.levels, 4 * it.levels_len);
    memcpy(choices_before, it.choices, it.choices_len);
    memcpy(rows_before[0], it.row_a, 4 * it.row_a_len);
    memcpy(rows_before[1], it.row_b, 4 * it.row_b_len);
}

static void hold_room(uint32_t which, uint32_t code) {
    if (which == RDOQ_GREEDY || (code && code != 15 && code != 16)) hold(room_kept(), "a room that changed");
    else hold(cleared(), "a room that was not cleared");
}

/* what a call for one block promises, whichever product it is; then the block is as it was */
static void judge(uint32_t which, uint32_t code) {
    hold(code != 15 || which == RDOQ_TRELLIS || which == RDOQ_UNFACTORED, "15 from another search");
    hold(code != 16 || which == RDOQ_BEAM, "16 from another search");
    if (code) {
        hold(!memcmp(levels_before, it.levels, 4 * it.levels_len), "a refused block that keeps not every level");
        hold(cost == -1.0f && count == 12345, "a refusal that writes cost or count");
    } else {
        size_t c = it.cx * (size_t)it.cy, found = 0;
        for (size_t k = 0; k < it.scan_len; k++) {
            size_t at = it.scan[k];
            if (k < c) hold(it.levels[at] == levels_before[at], "a level before scan position c that changed");
            else found += it.levels[at] != 0;
        }
        hold(count == found, "a count that is not the levels'");
        hold(which == RDOQ_GREEDY ? cost == -1.0f : cost >= 0.0f && cost - cost == 0.0f, "a cost that is none");
    }
    hold_room(which, code);
}

static uint32_t searched(uint32_t which, uint8_t predicted) {
    keep();
    return rdoq_block(which, it.clusters, it.map, it.map_len, it.configs, it.configs_len, it.symbols, it.symbols_len, it.ready,
                      it.ready_len, it.cx, it.cy, it.strategy, it.channel, it.high, predicted, it.weight, it.lambda, it.penalty,
                      it.distance, it.half_width, it.one, it.numerator, it.scale, it.scan, it.scan_len, it.source, it.source_len,
                      it.inverse, it.inverse_len, it.levels, it.levels_len, it.choices, it.choices_len, it.row_a, it.row_a_len,
                      it.row_b, it.row_b_len, &cost, &count);
}

/* What the levels cost as they stand; `code` is the trellis's on the same block, and `cost` what it answered. */
static void input(uint32_t code) {
    float whole = -1.0f;
    uint32_t nonzero = 12345;
    uint32_t own = rdoq_input_cost(it.clusters, it.map, it.map_len, it.configs, it.configs_len, it.symbols, it.symbols_len, it.ready,
                                   it.ready_len, it.cx, it.cy, it.strategy, it.channel, it.high, it.predicted, it.weight, it.lambda,
                                   it.penalty, it.distance, it.one, it.numerator, it.scale, it.scan, it.scan_len, it.source,
                                   it.source_len, it.inverse, it.inverse_len, it.levels, it.levels_len, &whole, &nonzero);
    hold(own <= 13 || own == 18, "a code of the input's cost that the header does not name");
    hold(own == code || code == 26 || ((code == 0 || code == 14 || code == 15) && own == 0), "other checks of the input's cost");
    if (own) {
        hold(whole == -1.0f && nonzero == 12345, "a refused cost that is written");
    } else {
        size_t c = it.cx * (size_t)it.cy, found = 0;
        for (size_t k = c; k < it.scan_len; k++) found += it.levels[it.scan[k]] != 0;
        hold(nonzero == found, "a count of the input that is not its levels'");
        hold(whole >= 0.0f, "a cost of the input that is none");
        hold(code || cost <= whole, "a trellis that costs more than its input");
    }
    hold(!memcmp(levels_before, it.levels, 4 * it.levels_len), "a cost of the input that changed a level");
}

static uint32_t search(uint32_t which) {
    uint32_t code = searched(which, it.predicted);
    int in_range = it.half_width >= 1 && it.half_width <= RDOQ_WIDEST;
    hold(code <= 18 || code == 26, "a code that the header does not name");
    hold(code != 26 || !in_range, "26 for a half-width in range");
    hold(in_range || (code && (code < 11 || code > 16)), "a half-width out of range that passed");
    hold((code == 17) == (which > RDOQ_UNFACTORED), "17 for a search, or none where there is none");
    judge(which, code);
    memcpy(it.levels, levels_before, 4 * it.levels_len);
    if (which == RDOQ_TRELLIS) input(code);
    return code;
}

static uint32_t small(uint32_t which) {
    int larger = (uint64_t)it.cx * it.cy > 2;
    keep();
    uint32_t code = rdoq_small_block(which, it.clusters, it.map, it.map_len, it.configs, it.configs_len, it.symbols, it.symbols_len, it.ready,
                                     it.ready_len, it.cx, it.cy, it.strategy, it.channel, it.high, it.predicted, it.weight, it.lambda,
                                     it.penalty, it.distance, it.one, it.numerator, it.scale, it.scan, it.scan_len, it.source,
                                     it.source_len, it.inverse, it.inverse_len, it.levels, it.levels_len, it.choices, it.choices_len,
                                     it.row_a, it.row_a_len, it.row_b, it.row_b_len, &cost, &count);
    hold(code <= 18 || code == 32, "a code of the small product that the header does not name");
    hold((code == 32) == larger, "32 for a small block, or none for a larger one");
    hold(larger || (code == 17) == (which > RDOQ_UNFACTORED), "17 for a search of the small product, or none where there is none");
    judge(which, code);
    if (!code) {
        size_t c = it.cx * (size_t)it.cy;
        for (size_t k = c + RDOQ_SMALL_WINDOW; k < it.scan_len; k++)
            hold(it.levels[it.scan[k]] == levels_before[it.scan[k]], "a level past the small window that changed");
    }
    memcpy(it.levels, levels_before, 4 * it.levels_len);
    return code;
}

static guarded g_blocks, g_settings, g_scans, g_sources, g_inverses, g_list;
static int32_t alone[LARGEST];

/* the block n times in a row, numbers and all, each array right at its edge */
static void *in_a_row(guarded room, const void *numbers, size_t bytes, uint32_t n) {
    unsigned char *at = lent(room, n * bytes);
    for (uint32_t i = 0; i < n; i++) memcpy(at + i * bytes, numbers, bytes);
    return at;
}

/* A list of the block beside itself. Its first block has no neighbours, for which the standard predicts 32: what the list does to it is what rdoq_block does. */
static uint32_t group(uint32_t which) {
    size_t len = it.levels_len;
    uint32_t n = 1 + below(3), settled = 12345;
    while (n > 1 && (n * len > LARGEST || n * (uint64_t)it.cx > 32)) n--;
    uint32_t code_alone = searched(which, 32);
    memcpy(alone, it.levels, 4 * len);
    memcpy(it.levels, levels_before, 4 * len);
    size_t blocks_len = RDOQ_GROUP_WORDS * n, settings_len = RDOQ_GROUP_FLOATS * n;
    uint32_t *blocks = lent(g_blocks, 4 * blocks_len);
    float *settings = lent(g_settings, 4 * settings_len);
    int damaged = once_in(20);
    for (uint32_t i = 0; i < n; i++) {
        const uint32_t words[RDOQ_GROUP_WORDS] = {i * it.cx, 0, it.cx, it.cy, it.strategy, it.channel, it.high, it.half_width};
        const float floats[RDOQ_GROUP_FLOATS] = {it.weight, it.lambda, it.penalty, it.distance, it.one, it.numerator, it.scale};
        memcpy(blocks + RDOQ_GROUP_WORDS * i, words, sizeof words);
        memcpy(settings + RDOQ_GROUP_FLOATS * i, floats, sizeof floats);
    }
    if (damaged) blocks[below((uint32_t)blocks_len)] = once_in(2) ? random_word() : below(34);
    keep();
    int32_t *levels = in_a_row(g_list, it.levels, 4 * len, n);
    uint32_t code = rdoq_group(which, it.clusters, it.map, it.map_len, it.configs, it.configs_len, it.symbols, it.symbols_len, it.ready,
                               it.ready_len, blocks, blocks_len, settings, settings_len, in_a_row(g_scans, it.scan, 4 * it.scan_len, n),
                               n * it.scan_len, in_a_row(g_sources, it.source, 4 * it.source_len, n), n * it.source_len,
                               in_a_row(g_inverses, it.inverse, 4 * it.inverse_len, n), n * it.inverse_len, levels, n * len, it.choices,
                               it.choices_len, it.row_a, it.row_a_len, it.row_b, it.row_b_len, &settled);
    hold(code <= 18 || code == 26 || (code >= 29 && code <= 31), "a code of a list that the header does not name");
    hold((code == 17) == (which > RDOQ_UNFACTORED), "17 for a list's search, or none where there is none");
    hold(settled <= n && (code == 0) == (settled == n), "a number of settled blocks that is none");
    /* with other lengths the blocks of the list are not where this program has put them */
    uint64_t right = 64ull * it.cx * it.cy;
    int exact = len == right && it.scan_len == right && it.source_len == right && it.inverse_len == right && !damaged;
    for (uint32_t i = exact ? settled : 0; i < n && (exact || !settled); i++)
        hold(!memcmp(levels + i * len, levels_before, 4 * len), "a block past the settled ones that keeps not every level");
    if (exact && settled) hold(!code_alone && !memcmp(levels, alone, 4 * len), "a first block that is not settled as it is alone");
    if (exact && !code_alone) hold(settled > 0, "a block that is settled alone, and not first in a list");
    if (!settled) hold_room(which, code);
    return code;
}

int main(int argc, char **argv) {
    unsigned long calls = argc > 1 ? strtoul(argv[1], NULL, 10) : 20000, seed = argc > 2 ? strtoul(argv[2], NULL, 10) : 1;
    unsigned long codes[33] = {0};
    state = 0x9e3779b97f4a7c15u ^ (seed * 0xff51afd7ed558ccdu);
    g_map = make(RDOQ_CONTEXTS);
    g_configs = make(3 * CLUSTERS);
    g_symbols = make(4 * RDOQ_SYMBOLS * CLUSTERS);
    g_ready = make(4 * RDOQ_READY * CLUSTERS);
    g_scan = make(4 * LARGEST);
    g_source = make(4 * LARGEST);
    g_inverse = make(4 * LARGEST);
    g_levels = make(4 * LARGEST);
    g_choices = make(CHOICES);
    g_row_a = make(4 * ROW);
    g_row_b = make(4 * ROW);
    g_blocks = make(4 * 3 * RDOQ_GROUP_WORDS);
    g_settings = make(4 * 3 * RDOQ_GROUP_FLOATS);
    g_scans = make(4 * 3 * LARGEST);
    g_sources = make(4 * 3 * LARGEST);
    g_inverses = make(4 * 3 * LARGEST);
    g_list = make(4 * LARGEST);
    for (unsigned long i = 0; i < calls; i++) {
        if (i % 16 == 0) book();
        if (i % 4 == 0) block();
        uint32_t which = i % 4 == 3 && once_in(8) ? 4 + below(1000) : (uint32_t)(i % 4);
        uint32_t code = once_in(8) ? group(which) : once_in(4) ? small(which) : search(which);
        if (broken) {
            printf("fuzz: call %lu of seed %lu: %s (code %u)\n", i, seed, broken, (unsigned)code);
            return 1;
        }
        codes[code]++;
    }
    printf("fuzz: %lu calls of seed %lu, no fault; answered %lu; refused", calls, seed, codes[0]);
    for (int i = 1; i < 33; i++) if (codes[i]) printf(" %d: %lu", i, codes[i]);
    puts("");
    return 0;
}
