/*
 * rdoq_easy.h against rdoq.h: the same book, blocks, groups, small blocks, tally and store by both, answers and all that was lent compared; tokens out and
 * back; lists of length 0 as NULL; versions; texts; defaults. Compiled as C89, C99 and C++17. The exit status is 1 where something
 * differs.
 */
#include <stdio.h>
#include <string.h>

#include "rdoq_easy.h"

enum { LONGEST = 64 * 1024, CLUSTERS = 2 };

static uint8_t map[RDOQ_CONTEXTS];
static uint8_t configs[3 * CLUSTERS] = {4, 2, 0, 4, 2, 1};
static float symbols[RDOQ_SYMBOLS * CLUSTERS], ready[RDOQ_READY * CLUSTERS];
static uint32_t scan[LONGEST];
static float source[LONGEST], inv_qm[LONGEST];
static int32_t start[LONGEST], by_struct[LONGEST], by_call[LONGEST], by_trellis[LONGEST];
static rdoq_room_memory first_memory, second_memory;
static int wrong, asked;

static void expect(const char *what, int holds) {
    asked++;
    if (!holds) {
        wrong++;
        printf("easy: WRONG: %s\n", what);
    }
}

/* Numbers that look drawn: a linear congruence. */
static uint32_t state = 1;
static uint32_t draw(uint32_t below) {
    state = state * 1664525u + 1013904223u;
    return (state >> 8) % below;
}

static rdoq_block_data block_of(uint32_t cx, uint32_t cy, uint8_t strategy, uint8_t channel, uint32_t half_width) {
    rdoq_block_data block;
    size_t n = 64 * (size_t)cx * cy, i;
    block.shape.cx = cx;
    block.shape.cy = cy;
    block.shape.strategy = strategy;
    block.shape.channel = channel;
    block.shape.qf_hi = true;
    block.shape.predicted = 5;
    block.settings = rdoq_settings_default();
    block.settings.channel_weight = 1.5f;
    block.settings.lambda = 0.07f;
    block.settings.penalty = 1.25f;
    block.settings.distance = 2.5f;
    block.settings.half_width = half_width;
    block.bias = rdoq_bias_default(channel);
    block.scale = 0.75f;
    for (i = 0; i < n; i++) {
        scan[i] = (uint32_t)(n - 1 - i);
        source[i] = (float)draw(4000) / 250.0f - 8.0f;
        inv_qm[i] = 0.5f;
        start[i] = (int32_t)(source[i] * 0.375f);
    }
    block.scan = scan;
    block.scan_len = n;
    block.source = source;
    block.source_len = n;
    block.inv_qm = inv_qm;
    block.inv_qm_len = n;
    return block;
}

/* One search by the struct and by the plain call, from the same levels and stale rooms. */
static uint32_t both(uint32_t search, const rdoq_book *book, const rdoq_block_data *b, size_t levels_len, size_t bytes, size_t floats) {
    const rdoq_room room = rdoq_room_of(&first_memory);
    rdoq_answer by_one = {-1.0f, 77}, by_other = {-1.0f, 77};
    uint32_t code, due;
    memset(&first_memory, 3, sizeof first_memory);
    memset(&second_memory, 3, sizeof second_memory);
    memcpy(by_struct, start, sizeof start);
    memcpy(by_call, start, sizeof start);
    code = rdoq_search_block(search, book, b, by_struct, levels_len, &room, &by_one);
    due = rdoq_block(search, CLUSTERS, map, sizeof map, configs, sizeof configs, symbols, RDOQ_SYMBOLS * CLUSTERS, ready,
                     RDOQ_READY * CLUSTERS, b->shape.cx, b->shape.cy, b->shape.strategy, b->shape.channel, true, 5, 1.5f, 0.07f,
                     1.25f, 2.5f, b->settings.half_width, b->bias.one, RDOQ_BIAS_NUMERATOR, 0.75f, scan, b->scan_len, source,
                     b->source_len, inv_qm, b->inv_qm_len, by_call, levels_len, second_memory.choices, bytes, second_memory.row_a,
                     floats, second_memory.row_b, floats, &by_other.cost, &by_other.count);
    expect("a search by struct returns what the call returns", code == due);
    expect("it answers the same", memcmp(&by_one, &by_other, sizeof by_one) == 0);
    expect("it leaves the same levels", memcmp(by_struct, by_call, sizeof by_struct) == 0);
    expect("it is lent what it needs and no more", memcmp(&first_memory, &second_memory, sizeof first_memory) == 0);
    return code;
}

/* What levels cost as they stand, by the struct and by the plain call. */
static uint32_t both_inputs(const rdoq_book *book, const rdoq_block_data *b, const int32_t *levels, size_t n, rdoq_answer *answer) {
    rdoq_answer other = {-1.0f, 77};
    uint32_t code, due;
    answer->cost = -1.0f;
    answer->count = 77;
    code = rdoq_cost_of_input(book, b, levels, n, answer);
    due = rdoq_input_cost(CLUSTERS, map, sizeof map, configs, sizeof configs, symbols, RDOQ_SYMBOLS * CLUSTERS, ready,
                          RDOQ_READY * CLUSTERS, b->shape.cx, b->shape.cy, b->shape.strategy, b->shape.channel, true, 5, 1.5f, 0.07f,
                          1.25f, 2.5f, b->bias.one, RDOQ_BIAS_NUMERATOR, 0.75f, scan, b->scan_len, source, b->source_len, inv_qm,
                          b->inv_qm_len, levels, n, &other.cost, &other.count);
    expect("a cost by struct returns what the call returns", code == due);
    expect("it answers the same", memcmp(answer, &other, sizeof other) == 0);
    return code;
}

/* The input's cost, and that of the levels that the trellis wrote last. */
static void inputs(const rdoq_book *book, const rdoq_block_data *b) {
    rdoq_answer before, after;
    expect("the input is priced", both_inputs(book, b, start, b->scan_len, &before) == 0);
    expect("so is what was written", both_inputs(book, b, by_trellis, b->scan_len, &after) == 0);
    expect("and costs no more", after.cost <= before.cost && after.cost > 0.0f);
    expect("a list too short", both_inputs(book, b, start, b->scan_len - 1, &after) == RDOQ_REFUSAL_BLOCK_LENGTH);
    expect("writes nothing", after.cost == -1.0f && after.count == 77);
}

static void searches(const rdoq_book *book) {
    static const struct {
        uint32_t cx, cy;
        uint8_t strategy;
        size_t window;
    } sizes[] = {{1, 1, 0, 63}, {1, 2, 6, 126}, {2, 2, 4, 252}, {4, 4, 5, 1008}, {8, 4, 19, 1024}, {32, 32, 24, 1024}};
    size_t i;
    uint8_t channel;
    for (i = 0; i < sizeof sizes / sizeof sizes[0]; i++) {
        for (channel = 0; channel < 3; channel++) {
            /* widths 1 to 12, in their turn */
            uint32_t width = 1 + (3 * (uint32_t)i + channel) % RDOQ_WIDEST;
            rdoq_block_data b = block_of(sizes[i].cx, sizes[i].cy, sizes[i].strategy, channel, width);
            size_t n = b.scan_len, w = sizes[i].window;
            size_t bytes = RDOQ_TRELLIS_CHOICES(width) * w, floats = RDOQ_ROW(width);
            expect("greedy answers", both(RDOQ_GREEDY, book, &b, n, 0, 0) == 0);
            expect("the beam answers", both(RDOQ_BEAM, book, &b, n, RDOQ_BEAM_CHOICES * w, 0) == 0);
            expect("the trellis answers", both(RDOQ_TRELLIS, book, &b, n, bytes, floats) == 0);
            expect("the trellis moves a level", memcmp(by_struct, start, sizeof start) != 0);
            memcpy(by_trellis, by_struct, sizeof by_trellis);
            expect("the unfactored walk answers", both(RDOQ_UNFACTORED, book, &b, n, bytes, floats) == 0);
            expect("it writes the trellis's levels", memcmp(by_struct, by_trellis, sizeof by_trellis) == 0);
            inputs(book, &b);
            /* refusals go through as they are */
            expect("levels too short", both(RDOQ_BEAM, book, &b, n - 1, RDOQ_BEAM_CHOICES * w, 0) == RDOQ_REFUSAL_BLOCK_LENGTH);
            expect("no such search", both(RDOQ_UNFACTORED + 1, book, &b, n, bytes, floats) == RDOQ_REFUSAL_DOMAIN);
            b.shape.cx = 65537; /* with 65,536 the product wraps; lent whole, and refused */
            b.shape.cy = 65536;
            expect("no side", both(RDOQ_TRELLIS, book, &b, n, sizeof first_memory.choices, floats) == RDOQ_REFUSAL_BLOCK_SIDE);
            b.shape.cx = sizes[i].cx;
            b.shape.cy = sizes[i].cy;
            b.shape.channel = 3;
            expect("no channel", both(RDOQ_TRELLIS, book, &b, n, bytes, floats) == RDOQ_REFUSAL_STRATEGY);
            b.shape.channel = channel;
            b.settings.half_width = i % 2 == 0 ? 0 : 0xffffffffu - channel;
            expect("no width", both(RDOQ_TRELLIS, book, &b, n, bytes, floats) == RDOQ_REFUSAL_HALF_WIDTH);
            expect("no width for greedy", both(RDOQ_GREEDY, book, &b, n, 0, 0) == RDOQ_REFUSAL_HALF_WIDTH);
        }
    }
}

/* The small product by the struct and by the plain call, with so much room. */
static uint32_t both_small(uint32_t search, const rdoq_book *book, const rdoq_small_data *b, size_t bytes, size_t floats) {
    static rdoq_small_memory one_memory, other_memory;
    rdoq_room room = rdoq_small_room_of(&one_memory);
    rdoq_answer by_one = {-1.0f, 77}, by_other = {-1.0f, 77};
    size_t n = b->scan_len;
    uint32_t code, due;
    memset(&one_memory, 3, sizeof one_memory);
    memset(&other_memory, 3, sizeof other_memory);
    memcpy(by_struct, start, sizeof start);
    memcpy(by_call, start, sizeof start);
    if (room.choices_len > bytes) room.choices_len = bytes;
    code = rdoq_search_small_block(search, book, b, by_struct, n, &room, &by_one);
    due = rdoq_small_block(search, CLUSTERS, map, sizeof map, configs, sizeof configs, symbols, RDOQ_SYMBOLS * CLUSTERS, ready,
                           RDOQ_READY * CLUSTERS, b->shape.cx, b->shape.cy, b->shape.strategy, b->shape.channel, true, 5, 1.5f,
                           0.07f, 1.25f, 2.5f, b->bias.one, RDOQ_BIAS_NUMERATOR, 0.75f, scan, n, source, n, inv_qm, n, by_call, n,
                           other_memory.choices, bytes, other_memory.row_a, floats, other_memory.row_b, floats, &by_other.cost,
                           &by_other.count);
    expect("a small search by struct returns what the call returns", code == due);
    expect("it answers the same", memcmp(&by_one, &by_other, sizeof by_one) == 0);
    expect("it leaves the same levels", memcmp(by_struct, by_call, sizeof by_struct) == 0);
    expect("it is lent what it needs", memcmp(&one_memory, &other_memory, sizeof one_memory) == 0);
    return code;
}

static void small_blocks(const rdoq_book *book) {
    static const uint32_t large[][2] = {{3, 1}, {1, 3}, {2, 2}, {65536, 65536}, {0xffffffffu, 0xffffffffu}, {0x80000000u, 2}};
    uint32_t cy, search;
    size_t i;
    expect("its room", RDOQ_SMALL_TRELLIS_CHOICES == 448 && RDOQ_SMALL_BEAM_CHOICES == 192 && RDOQ_SMALL_ROW == 28);
    expect("672 bytes of it", sizeof(rdoq_small_memory) == 672);
    for (cy = 1; cy <= 2; cy++) {
        const rdoq_block_data whole = block_of(1, cy, cy == 1 ? 0 : 6, 1, RDOQ_HALF_WIDTH);
        const size_t past = scan[cy + RDOQ_SMALL_WINDOW], within = scan[cy + RDOQ_SMALL_WINDOW - 1];
        rdoq_small_data b;
        float kept;
        b.shape = whole.shape;
        b.settings = rdoq_small_settings_default();
        b.settings.channel_weight = 1.5f;
        b.settings.lambda = 0.07f;
        b.settings.penalty = 1.25f;
        b.settings.distance = 2.5f;
        b.bias = whole.bias;
        b.scale = whole.scale;
        b.scan = scan;
        b.source = source;
        b.inv_qm = inv_qm;
        b.scan_len = b.source_len = b.inv_qm_len = whole.scan_len;
        expect("greedy answers", both_small(RDOQ_GREEDY, book, &b, 0, 0) == 0);
        expect("the beam answers", both_small(RDOQ_BEAM, book, &b, 192, 0) == 0);
        expect("191 bytes are too few", both_small(RDOQ_BEAM, book, &b, 191, 0) == RDOQ_REFUSAL_ROOM);
        expect("the trellis answers", both_small(RDOQ_TRELLIS, book, &b, 448, 28) == 0);
        expect("it moves a level", memcmp(by_struct, start, sizeof start) != 0);
        expect("447 bytes are too few", both_small(RDOQ_TRELLIS, book, &b, 447, 28) == RDOQ_REFUSAL_ROOM);
        expect("the trellis answers again", both_small(RDOQ_TRELLIS, book, &b, 448, 28) == 0);
        memcpy(by_trellis, by_struct, sizeof by_trellis);
        expect("the unfactored walk answers", both_small(RDOQ_UNFACTORED, book, &b, 448, 28) == 0);
        expect("it writes the trellis's levels", memcmp(by_struct, by_trellis, sizeof by_trellis) == 0);
        kept = source[past];
        source[past] = 1e30f;
        expect("an ideal past the window is not looked at", both_small(RDOQ_TRELLIS, book, &b, 448, 28) == 0);
        source[past] = kept;
        kept = source[within];
        source[within] = 1e30f;
        expect("one in it is", both_small(RDOQ_TRELLIS, book, &b, 448, 28) == RDOQ_REFUSAL_IDEAL);
        source[within] = kept;
        expect("no such search", both_small(RDOQ_UNFACTORED + 1, book, &b, 448, 28) == RDOQ_REFUSAL_DOMAIN);
        for (i = 0; i < sizeof large / sizeof large[0]; i++) {
            b.shape.cx = large[i][0];
            b.shape.cy = large[i][1];
            /* before 17 too */
            for (search = RDOQ_TRELLIS; search <= RDOQ_UNFACTORED + 1; search++) {
                expect("too large", both_small(search, book, &b, 448, 28) == RDOQ_REFUSAL_NOT_SMALL);
            }
        }
        b.shape.cx = 0;
        b.shape.cy = 5;
        expect("no side", both_small(RDOQ_TRELLIS, book, &b, 448, 28) == RDOQ_REFUSAL_BLOCK_SIDE);
    }
}

/* A list of three blocks side by side, by the struct's call and block by block; then lists that are refused. */
static void groups(const rdoq_book *book) {
    uint32_t words[3 * RDOQ_GROUP_WORDS], settled = 99, search, predicted = 32;
    float floats[3 * RDOQ_GROUP_FLOATS];
    rdoq_block_data b = block_of(1, 3, 0, 1, RDOQ_HALF_WIDTH);
    const rdoq_room room = rdoq_room_of(&first_memory), other = rdoq_room_of(&second_memory);
    rdoq_group_data g;
    rdoq_answer answer = {0.0f, 0};
    size_t i, k;
    b.shape.cy = 1;
    b.scan_len = b.source_len = b.inv_qm_len = 64;
    for (i = 0; i < 192; i++) scan[i] = (uint32_t)(63 - i % 64);
    for (i = 0; i < 3; i++) rdoq_group_put(words, floats, i, (uint32_t)i, 0, &b);
    g.blocks = words;
    g.blocks_len = 3 * RDOQ_GROUP_WORDS;
    g.settings = floats;
    g.settings_len = 3 * RDOQ_GROUP_FLOATS;
    g.scans = scan;
    g.sources = source;
    g.inv_qms = inv_qm;
    g.scans_len = g.sources_len = g.inv_qms_len = 192;
    for (search = RDOQ_GREEDY; search <= RDOQ_UNFACTORED; search++) {
        memcpy(by_struct, start, sizeof start);
        memcpy(by_call, start, sizeof start);
        expect("a list to its end", rdoq_search_group(search, book, &g, by_struct, 192, &room, &settled) == 0 && settled == 3);
        for (i = 0, predicted = 32; i < 3; i++, predicted = answer.count) {
            b.shape.predicted = (uint8_t)predicted;
            b.scan = scan + 64 * i;
            b.source = source + 64 * i;
            b.inv_qm = inv_qm + 64 * i;
            expect("a block", rdoq_search_block(search, book, &b, by_call + 64 * i, 64, &other, &answer) == 0);
        }
        expect("block by block, the left count predicted", memcmp(by_struct, by_call, sizeof by_call) == 0);
    }
    memcpy(by_struct, start, sizeof start);
    settled = 99;
    expect("no such search", rdoq_search_group(RDOQ_UNFACTORED + 1, book, &g, by_struct, 192, &room, &settled) == RDOQ_REFUSAL_DOMAIN);
    expect("with 0 settled", settled == 0);
    g.settings_len--;
    settled = 99;
    expect("no whole blocks", rdoq_search_group(RDOQ_GREEDY, book, &g, by_struct, 192, &room, &settled) == RDOQ_REFUSAL_DOMAIN);
    expect("0 settled again", settled == 0);
    g.settings_len++;
    g.blocks_len--;
    expect("no whole words", rdoq_search_group(RDOQ_GREEDY, book, &g, by_struct, 192, &room, &settled) == RDOQ_REFUSAL_DOMAIN);
    g.blocks_len++;
    for (k = 0; k < 6; k++) {
        /* x, y, cx, strategy, channel: word, value, refusal, settled */
        static const uint32_t faults[6][4] = {{0, 32, 29, 0}, {0, 1, 30, 0}, {0, 3, 31, 0}, {2, 3, 7, 0}, {5, 258, 9, 0}, {4, 259, 9, 2}};
        uint32_t *word = words + 2 * RDOQ_GROUP_WORDS + faults[k][0], kept = *word;
        *word = faults[k][1];
        settled = 99;
        expect("a fault", rdoq_search_group(RDOQ_GREEDY, book, &g, by_struct, 192, &room, &settled) == faults[k][2]);
        expect("as many settled", settled == faults[k][3]);
        *word = kept;
    }
    expect("too few levels", rdoq_search_group(RDOQ_GREEDY, book, &g, by_struct, 191, &room, &settled) == 8 && settled == 2);
    g.scans_len = 64;
    expect("too few scans", rdoq_search_group(RDOQ_GREEDY, book, &g, by_struct, 192, &room, &settled) == 8 && settled == 1);
    g.blocks_len = g.settings_len = 0;
    expect("an empty list", rdoq_search_group(RDOQ_TRELLIS, book, &g, NULL, 0, &room, &settled) == 0 && settled == 0);
}

/* Prices by the struct's calls and by the plain ones. */
static void books(void) {
    static uint8_t depths[RDOQ_SYMBOLS * CLUSTERS], singles[CLUSTERS];
    static uint16_t freqs[RDOQ_SYMBOLS * CLUSTERS];
    static float plain[RDOQ_SYMBOLS * CLUSTERS], plain_ready[RDOQ_READY * CLUSTERS];
    rdoq_book book = rdoq_book_of(CLUSTERS, RDOQ_LIST(map), RDOQ_LIST(configs));
    float one, two, by_one, by_two;
    size_t i;
    for (i = 0; i < RDOQ_SYMBOLS * CLUSTERS; i++) {
        depths[i] = (uint8_t)(1 + i % 15);
        freqs[i] = (uint16_t)(i * 16);
    }
    expect("a book without prices is refused", rdoq_book_check(&book) == RDOQ_REFUSAL_BOOK_LENGTH);
    expect("prices of a prefix code", rdoq_book_prefix(&book, RDOQ_LIST(depths), RDOQ_LIST(singles), true, RDOQ_LIST(symbols)) == 0);
    rdoq_prefix_symbol_bits(CLUSTERS, depths, sizeof depths, singles, sizeof singles, true, plain, RDOQ_SYMBOLS * CLUSTERS);
    expect("they are the call's", memcmp(symbols, plain, sizeof plain) == 0 && book.symbols == symbols);
    expect("prices of an ANS code", rdoq_book_ans(&book, RDOQ_LIST(freqs), RDOQ_LIST(symbols)) == 0);
    rdoq_ans_symbol_bits(CLUSTERS, freqs, RDOQ_SYMBOLS * CLUSTERS, plain, RDOQ_SYMBOLS * CLUSTERS);
    expect("they are the call's too", memcmp(symbols, plain, sizeof plain) == 0 && book.symbols_len == 256);
    freqs[7] = 4097;
    expect("a frequency too high", rdoq_book_ans(&book, RDOQ_LIST(freqs), RDOQ_LIST(symbols)) == RDOQ_REFUSAL_FREQUENCY);
    expect("ready prices", rdoq_book_fill(&book, RDOQ_LIST(ready)) == 0);
    rdoq_fill_ready(CLUSTERS, map, sizeof map, configs, sizeof configs, plain, 256, plain_ready, 512);
    expect("they are the call's as well", memcmp(ready, plain_ready, sizeof ready) == 0);
    expect("the book passes", rdoq_book_check(&book) == 0);
    expect("a price", rdoq_book_token_bits(&book, 3, 300, &one) == 0);
    rdoq_token_bits(CLUSTERS, map, sizeof map, configs, 6, plain, 256, plain_ready, 512, 3, 300, &by_one);
    expect("it is the call's", one == by_one);
    expect("a pair of prices", rdoq_book_token_bits_pair(&book, 4, 5, &one, &two) == 0);
    rdoq_token_bits_pair(CLUSTERS, map, sizeof map, configs, 6, plain, 256, plain_ready, 512, 4, 5, &by_one, &by_two);
    expect("they are the pair call's", one == by_one && two == by_two);
    searches(&book);
    groups(&book);
    small_blocks(&book);
}

static void tally_and_store(void) {
    static uint32_t counts[RDOQ_SYMBOLS * CLUSTERS];
    static uint64_t room[4], record[RDOQ_STORE_RECORD];
    const rdoq_book book = rdoq_book_of(CLUSTERS, RDOQ_LIST(map), RDOQ_LIST(configs));
    const uint32_t contexts[3] = {0, 0, 2}, values[3] = {3, 300, 3};
    const uint64_t run[3] = {5, 6, 7};
    uint64_t back[3] = {0, 0, 0};
    size_t length = 99;
    rdoq_tally tally;
    rdoq_store store;
    tally.counts = counts;
    tally.counts_len = RDOQ_SYMBOLS * CLUSTERS;
    tally.extra = 0;
    expect("tokens are added", rdoq_tally_add_tokens(&tally, &book, RDOQ_LIST(contexts), RDOQ_LIST(values)) == 0);
    /* 300 under 4,2,0 is symbol 32 with 6 extra bits; contexts 0 and 2 have cluster 0 */
    expect("and counted", counts[3] == 2 && counts[32] == 1 && tally.extra == 6);
    expect("and taken out", rdoq_tally_remove_tokens(&tally, &book, RDOQ_LIST(contexts), RDOQ_LIST(values)) == 0);
    expect("to the last", counts[3] == 0 && counts[32] == 0 && tally.extra == 0);
    expect("and no further",
           rdoq_tally_remove_tokens(&tally, &book, RDOQ_LIST(contexts), RDOQ_LIST(values)) == RDOQ_REFUSAL_TALLY_EMPTY);
    store.room = room;
    store.room_len = 4;
    store.record = record;
    store.record_len = RDOQ_STORE_RECORD;
    expect("a run is put", rdoq_store_put_run(&store, 9, RDOQ_LIST(run)) == 0);
    expect("and read", rdoq_store_read_run(&store, 9, RDOQ_LIST(back), &length) == 0);
    expect("as it was", length == 3 && memcmp(run, back, sizeof run) == 0);
    expect("another does not fit", rdoq_store_put_run(&store, 8, RDOQ_LIST(run)) == RDOQ_REFUSAL_STORE_FULL);
    expect("and is dropped", rdoq_store_drop_run(&store, 9) == 0);
    expect("for good", rdoq_store_read_run(&store, 9, RDOQ_LIST(back), &length) == RDOQ_REFUSAL_NOT_HELD);
}

/* A list of length 0 may be NULL, in every call that takes lists. */
static void tokens(void) {
    uint32_t lists[4][64], order[64];
    int32_t levels[64], restored[64];
    rdoq_book book = rdoq_book_of(CLUSTERS, RDOQ_LIST(map), RDOQ_LIST(configs));
    rdoq_shape shape;
    rdoq_tokens out;
    size_t i;
    memset(&shape, 0, sizeof shape);
    shape.cx = shape.cy = 1;
    shape.channel = 1;
    for (i = 0; i < 64; i++) {
        order[i] = (uint32_t)i;
        levels[i] = 0;
        restored[i] = 7;
    }
    levels[2] = -3;
    levels[5] = 20;
    memset(lists, 0xff, sizeof lists);
    out.contexts = lists[0];
    out.symbols = lists[1];
    out.extra_bits = lists[2];
    out.bits = lists[3];
    out.room = 5;
    out.count = 99;
    expect("a token too many", rdoq_tokens_write(&out, &book, shape, RDOQ_LIST(order), RDOQ_LIST(levels)) == RDOQ_REFUSAL_OUTPUT_SHORT);
    expect("and nothing is written", out.count == 99 && lists[0][0] == UINT32_MAX && lists[3][4] == UINT32_MAX);
    out.room = 6;
    expect("room for all", rdoq_tokens_write(&out, &book, shape, RDOQ_LIST(order), RDOQ_LIST(levels)) == 0 && out.count == 6);
    expect("the count comes first", lists[0][0] == 0 && lists[1][0] == 2 && lists[2][0] == 0 && lists[3][0] == 0);
    expect("then each level, packed", lists[1][1] == 0 && lists[1][2] == 5 && lists[1][3] == 0 && lists[1][4] == 0);
    expect("nothing past them", lists[1][6] == UINT32_MAX);
    expect("and back", rdoq_tokens_read(&out, &book, shape, RDOQ_LIST(order), RDOQ_LIST(restored)) == 0);
    expect("all but the first", restored[0] == 7 && memcmp(restored + 1, levels + 1, 63 * sizeof levels[0]) == 0);
    out.count = 5;
    restored[2] = 9;
    expect("one is missing", rdoq_tokens_read(&out, &book, shape, RDOQ_LIST(order), RDOQ_LIST(restored)) == RDOQ_REFUSAL_TOKEN_LISTS);
    expect("and no level changes", restored[2] == 9);
}

static void nothing_lent(void) {
    static uint32_t counts[RDOQ_SYMBOLS];
    static uint64_t record[RDOQ_STORE_RECORD];
    const rdoq_book none = rdoq_book_of(1, NULL, 0, NULL, 0);
    rdoq_book book = rdoq_book_of(CLUSTERS, RDOQ_LIST(map), RDOQ_LIST(configs));
    rdoq_block_data b = block_of(1, 1, 0, 1, RDOQ_HALF_WIDTH), bare = b;
    const rdoq_room no_room = {NULL, 0, NULL, 0, NULL, 0};
    rdoq_answer answer = {0.0f, 0};
    rdoq_tally tally = {NULL, 0, 0};
    const rdoq_store no_store = {NULL, 0, NULL, 0};
    rdoq_store store = {NULL, 0, NULL, 0};
    size_t length = 99;
    float bits = 0.0f, second = 0.0f;
    uint32_t count;
    book.symbols = symbols;
    book.symbols_len = RDOQ_SYMBOLS * CLUSTERS;
    book.ready = ready;
    book.ready_len = RDOQ_READY * CLUSTERS;
    bare.scan = NULL;
    bare.source = bare.inv_qm = NULL;
    bare.scan_len = bare.source_len = bare.inv_qm_len = 0;
    expect("no book", rdoq_book_check(&none) == RDOQ_REFUSAL_MAP_LENGTH);
    expect("no lists to fill from", rdoq_fill_ready(1, NULL, 0, NULL, 0, NULL, 0, NULL, 0) == RDOQ_REFUSAL_MAP_LENGTH);
    expect("no configurations", rdoq_check_book(1, map, sizeof map, NULL, 0, NULL, 0, NULL, 0) == RDOQ_REFUSAL_BOOK_LENGTH);
    expect("no depths", rdoq_prefix_symbol_bits(1, NULL, 0, NULL, 0, false, NULL, 0) == RDOQ_REFUSAL_BOOK_LENGTH);
    expect("no frequencies", rdoq_ans_symbol_bits(1, NULL, 0, NULL, 0) == RDOQ_REFUSAL_BOOK_LENGTH);
    expect("no book to price by", rdoq_book_token_bits(&none, 0, 0, &bits) == RDOQ_REFUSAL_DOMAIN);
    expect("no book to price a pair by", rdoq_book_token_bits_pair(&none, 0, 0, &bits, &second) == RDOQ_REFUSAL_DOMAIN);
    expect("no block", rdoq_search_block(RDOQ_TRELLIS, &book, &bare, NULL, 0, &no_room, &answer) == RDOQ_REFUSAL_BLOCK_LENGTH);
    memcpy(by_struct, start, sizeof start);
    expect("greedy needs no room", rdoq_search_block(RDOQ_GREEDY, &book, &b, by_struct, 64, &no_room, &answer) == 0);
    expect("the beam does", rdoq_search_block(RDOQ_BEAM, &book, &b, by_struct, 64, &no_room, &answer) == RDOQ_REFUSAL_ROOM);
    expect("no room for candidates", rdoq_candidates(1.0f, 1, true, NULL, 0, &count) == RDOQ_REFUSAL_DOMAIN);
    expect("no counts", rdoq_tally_add_tokens(&tally, &book, NULL, 0, NULL, 0) == RDOQ_REFUSAL_BOOK_LENGTH);
    book.clusters = 1;
    book.configs_len = 3;
    tally.counts = counts;
    tally.counts_len = RDOQ_SYMBOLS;
    expect("no tokens to add", rdoq_tally_add_tokens(&tally, &book, NULL, 0, NULL, 0) == 0);
    expect("no tokens to take out", rdoq_tally_remove_tokens(&tally, &book, NULL, 0, NULL, 0) == 0);
    expect("no record", rdoq_store_drop_run(&no_store, 0) == RDOQ_REFUSAL_STORE_RECORD);
    store.record = record;
    store.record_len = RDOQ_STORE_RECORD;
    expect("an empty run", rdoq_store_put_run(&store, 0, NULL, 0) == 0);
    expect("is held", rdoq_store_read_run(&store, 0, NULL, 0, &length) == 0 && length == 0);
    expect("and dropped", rdoq_store_drop_run(&store, 0) == 0);
}

static void words(void) {
    uint32_t i, j;
    char version[32];
    sprintf(version, "%d.%d.%d", RDOQ_VERSION_MAJOR, RDOQ_VERSION_MINOR, RDOQ_VERSION_PATCH);
    expect("header and library are of one version", rdoq_same_version() && rdoq_version() == RDOQ_VERSION_NUMBER);
    expect("the version's words are its numbers", strcmp(RDOQ_VERSION, version) == 0);
    for (i = 0; i <= RDOQ_REFUSAL_STORE_RECORD; i++) {
        expect("each refusal has words", strlen(rdoq_refusal_text(i)) > 20 && strchr(rdoq_refusal_text(i), ':') != NULL);
        for (j = 0; j < i; j++) expect("of its own", strcmp(rdoq_refusal_text(i), rdoq_refusal_text(j)) != 0);
    }
    expect("37 is the last", strcmp(rdoq_refusal_text(38), rdoq_refusal_text(0xffffffffu)) == 0);
}

static uint32_t bits_of(float x) {
    uint32_t b;
    memcpy(&b, &x, sizeof b);
    return b;
}

static void defaults(void) {
    const rdoq_settings s = rdoq_settings_default();
    expect("settings of 1", s.channel_weight == 1.0f && s.lambda == 1.0f && s.penalty == 1.0f && s.distance == 1.0f);
    expect("a half-width of 6", s.half_width == 6);
    expect("room for it", RDOQ_ROW(s.half_width) == 28 && RDOQ_TRELLIS_CHOICES(s.half_width) == 14);
    /* the f32 nearest 1 less 0.05465007330715401, 0.07005449891748593 and 0.049935103337343655, each rounded first */
    expect("the bias of X", bits_of(rdoq_bias_default(0).one) == 0x3f720274);
    expect("the bias of Y", bits_of(rdoq_bias_default(1).one) == 0x3f6e10e8);
    expect("the bias of B", bits_of(rdoq_bias_default(2).one) == 0x3f733774);
    expect("the numerator", bits_of(rdoq_bias_default(2).numerator) == 0x3e147ae1);
}

int main(void) {
    size_t i;
    for (i = 0; i < RDOQ_CONTEXTS; i++) map[i] = (uint8_t)(i % CLUSTERS);
    books();
    tokens();
    tally_and_store();
    memset(map, 0, sizeof map);
    nothing_lent();
    words();
    defaults();
    printf("easy: %d of %d hold\n", asked - wrong, asked);
    return wrong != 0;
}
