/* A block of zeros with a price of one bit for every symbol, then with infinite prices; leaf calls; a store of token runs. The answers are worked out by hand. The exit status counts those that differ. */
#include <math.h>
#include <stdio.h>
#include <string.h>

#include "rdoq.h"

enum { N = 64, WINDOW = 63 };

static uint8_t map[RDOQ_CONTEXTS];
static const uint8_t configs[3] = {4, 2, 0};
static float symbols[RDOQ_SYMBOLS];
static float ready[RDOQ_READY];
static uint32_t scan[N];
static float source[N], inv_qm[N];
static int32_t levels[N];
static uint8_t choices[RDOQ_TRELLIS_CHOICES(RDOQ_WIDEST) * WINDOW];
static float row_a[RDOQ_ROW(RDOQ_WIDEST)], row_b[RDOQ_ROW(RDOQ_WIDEST)];
static uint32_t half_width = RDOQ_HALF_WIDTH;
static float cost;
static uint32_t count;
static int wrong;

static void expect(const char *what, double found, double due) {
    int same = found == due;
    printf("%-44s %g%s\n", what, found, same ? "" : "  WRONG");
    wrong += !same;
}

static uint32_t fill(float price) {
    for (unsigned i = 0; i < RDOQ_SYMBOLS; i++) {
        symbols[i] = price;
    }
    return rdoq_fill_ready(1, map, sizeof map, configs, sizeof configs, symbols, RDOQ_SYMBOLS, ready, RDOQ_READY);
}

static uint32_t search(uint32_t which, float lambda) {
    cost = -1.0f;
    count = 99;
    return rdoq_block(which, 1, map, sizeof map, configs, sizeof configs, symbols, RDOQ_SYMBOLS, ready, RDOQ_READY, 1, 1, 0, 1,
                      false, 0, 1.0f, lambda, 1.0f, 1.0f, half_width, 0.9f, RDOQ_BIAS_NUMERATOR, 1.0f, scan, N, source, N, inv_qm,
                      N, levels, N, choices, sizeof choices, row_a, RDOQ_ROW(RDOQ_WIDEST), row_b, RDOQ_ROW(RDOQ_WIDEST), &cost,
                      &count);
}

/* 1 where all of the room is at its fixed values */
static int cleared(void) {
    for (unsigned i = 0; i < sizeof choices; i++) {
        if (choices[i] != 255) return 0;
    }
    for (unsigned i = 0; i < RDOQ_ROW(RDOQ_WIDEST); i++) {
        if (row_a[i] != INFINITY || row_b[i] != INFINITY) return 0;
    }
    return 1;
}

static int nonzero_levels(void) {
    int n = 0;
    for (int i = 0; i < N; i++) n += levels[i] != 0;
    return n;
}

int main(void) {
    for (uint32_t i = 0; i < N; i++) {
        scan[i] = i;
        inv_qm[i] = 1.0f;
    }

    expect("filling the ready prices", fill(1.0f), 0);
    expect("checking the book", rdoq_check_book(1, map, sizeof map, configs, sizeof configs, symbols, RDOQ_SYMBOLS, ready, RDOQ_READY), 0);
    for (uint32_t which = RDOQ_GREEDY; which <= RDOQ_UNFACTORED; which++) {
        printf("search %u\n", which);
        for (int i = 0; i < 3; i++) {
            static const uint32_t in_range[3] = {1, RDOQ_HALF_WIDTH, RDOQ_WIDEST};
            half_width = in_range[i];
            expect("  code", search(which, 0.5f), 0);
            expect("  count", count, 0);
            expect("  cost: lambda, and none by greedy", cost, which == RDOQ_GREEDY ? -1.0 : 0.5);
        }
        for (int i = 0; i < 4; i++) {
            static const uint32_t out_of_range[4] = {0, 13, 262, UINT32_MAX};
            half_width = out_of_range[i];
            expect("  a half-width out of range", search(which, 0.5f), 26);
        }
        expect("  and a lambda of 0, which comes first", search(which, 0.0f), 10);
        half_width = RDOQ_HALF_WIDTH;
        expect("  nonzero levels", nonzero_levels(), 0);
        expect("  room cleared, not by greedy", cleared(), which != RDOQ_GREEDY);
    }

    expect("filling infinite prices", fill(INFINITY), 0);
    expect("greedy", search(RDOQ_GREEDY, 0.5f), 0);
    expect("the beam", search(RDOQ_BEAM, 0.5f), 16);
    expect("the trellis", search(RDOQ_TRELLIS, 0.5f), 15);
    expect("unfactored", search(RDOQ_UNFACTORED, 0.5f), 15);
    expect("cost after a refusal", cost, -1);
    expect("count after a refusal", count, 99);
    memset(choices, 7, sizeof choices);
    expect("no such search", search(4, 0.5f), 17);
    expect("a lambda of 0", search(RDOQ_TRELLIS, 0.0f), 10);
    expect("a byte of the room after both", choices[0], 7);

    uint32_t packed = 0, symbol = 0, extra_bits = 0, bits = 0;
    expect("packing -32,768", rdoq_pack_signed(-32768, &packed), 0);
    expect("  packed", packed, 65535);
    expect("splitting 255", rdoq_uint_encode_with_config(255, 4, 2, 0, &symbol, &extra_bits, &bits), 0);
    expect("  symbol", symbol, 31);
    expect("  extra bits", extra_bits, 5);
    expect("  the bits", bits, 31);
    int32_t found[5] = {9, 9, 9, 9, 9};
    expect("candidates of 3, ideal 3.25, restoring", rdoq_candidates(3.25f, 3, true, found, 5, &count), 0);
    expect("  how many", count, 4);
    for (int i = 0; i < 5; i++) {
        static const int32_t due[5] = {3, 0, 2, 4, 3};
        expect("  level", found[i], due[i]);
    }
    count = 99;
    expect("room for four", rdoq_candidates(0.0f, 0, true, found, 4, &count), 17);
    expect("  count", count, 99);
    expect("  first level", found[0], 3);
    size_t length = 0, restoring = 0;
    expect("the window of 32 blocks", rdoq_window_len(32, &length, &restoring), 0);
    expect("  length", (double)length, 1024);
    expect("  restoring", (double)restoring, 256);

    static uint64_t room[5], record[RDOQ_STORE_RECORD];
    const uint64_t three[3] = {UINT64_MAX, 2, 3}, two[2] = {4, 5};
    uint64_t read[4] = {9, 9, 9, 9};
    expect("putting 3 tokens into a store of 5", rdoq_store_put(room, 5, record, RDOQ_STORE_RECORD, 7, three, 3), 0);
    expect("  and 2 more", rdoq_store_put(room, 5, record, RDOQ_STORE_RECORD, 1023, two, 2), 0);
    expect("  and a third run", rdoq_store_put(room, 5, record, RDOQ_STORE_RECORD, 8, two, 1), 34);
    expect("  the first one's number again", rdoq_store_put(room, 5, record, RDOQ_STORE_RECORD, 7, two, 2), 0);
    expect("  number 1,024", rdoq_store_put(room, 5, record, RDOQ_STORE_RECORD, 1024, two, 2), 33);
    length = 99;
    expect("reading into too little", rdoq_store_read(room, 5, record, RDOQ_STORE_RECORD, 7, read, 1, &length), 36);
    expect("  length", (double)length, 99);
    expect("reading", rdoq_store_read(room, 5, record, RDOQ_STORE_RECORD, 7, read, 4, &length), 0);
    expect("  length", (double)length, 2);
    expect("  last token", (double)read[1], 5);
    expect("  past it", (double)read[2], 9);
    expect("dropping", rdoq_store_drop(room, 5, record, RDOQ_STORE_RECORD, 7), 0);
    expect("  once more", rdoq_store_drop(room, 5, record, RDOQ_STORE_RECORD, 7), 35);
    record[1] = 1024;
    expect("a record that says number 1,024", rdoq_store_drop(room, 5, record, RDOQ_STORE_RECORD, 1023), 37);

    if (wrong) {
        printf("%d wrong\n", wrong);
    }
    return wrong != 0;
}
