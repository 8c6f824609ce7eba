/*
 * The calls of rdoq.h over structs, so that no argument lands in another's place, a new setting is one more field, and a search is
 * lent the room that it needs and no more. Each function hands its fields to one exported call and returns that call's code: what
 * rdoq.h says of the call holds here too, a caller's duties and the refusals included. All of it is inline; there is no other library.
 *
 *     rdoq_book       rdoq_book_of, then rdoq_book_symbols, _prefix or _ans, then rdoq_book_fill; rdoq_book_check, _token_bits
 *     rdoq_room       rdoq_room_of
 *     a block         rdoq_block_data, rdoq_search_block
 *     a group         rdoq_group_data, rdoq_group_put, rdoq_search_group
 *     a small block   rdoq_small_data, rdoq_small_room_of, rdoq_search_small_block
 *     rdoq_tokens     rdoq_tokens_write, _read
 *     rdoq_tally      rdoq_tally_add_tokens, _remove_tokens
 *     rdoq_store      rdoq_store_put_run, _drop_run, _read_run
 *     words           rdoq_refusal_text, rdoq_same_version
 *
 * C89 and later, C++.
 */
#ifndef RDOQ_EASY_H
#define RDOQ_EASY_H

#include "rdoq.h"

#if defined(__cplusplus) || (defined(__STDC_VERSION__) && __STDC_VERSION__ >= 199901L)
#define RDOQ_INLINE static inline
#elif defined(__GNUC__)
#define RDOQ_INLINE static __inline__
#else
#define RDOQ_INLINE static
#endif

/* An array, not a pointer, as pointer and length: for two arguments or two fields. */
#define RDOQ_LIST(array) (array), sizeof(array) / sizeof((array)[0])

/* Whether the program was linked with the library that its header belongs to. */
RDOQ_INLINE bool rdoq_same_version(void) { return rdoq_version() == RDOQ_VERSION_NUMBER; }

/* What a refusal says, and what to mend. */
/* refusals: texts, written by tools/refusals.py from docs/refusals.txt */
RDOQ_INLINE const char *rdoq_refusal_text(uint32_t number) {
    switch (number) {
    case RDOQ_ANSWERED: return "answered: nothing to mend";
    case RDOQ_REFUSAL_MAP_LENGTH:
        return "the map is not 14,850 bytes, or the clusters are not 1 to 256: lend a byte for each context; name 1 to "
               "256 clusters";
    case RDOQ_REFUSAL_BOOK_LENGTH:
        return "configurations are not 3 bytes a cluster, symbol prices not 128, ready prices not 256; of a prefix code:"
               " depths not 128, flags not 1; of an ANS code: frequencies not 128; of a tally: counts not 128: lend the "
               "exact lengths; surplus is refused too";
    case RDOQ_REFUSAL_MAP_ENTRY:
        return "an entry of the map is not below the number of clusters: mend the map, or name more clusters";
    case RDOQ_REFUSAL_CONFIGURATION:
        return "a configuration (s, m, l) has s > 6 or m + l > s: use a smaller one; 4,2,0 and 5,2,2 and 6,3,0 pass";
    case RDOQ_REFUSAL_SYMBOL_PRICE:
        return "a symbol price is NaN, below 0, or finite and above 1,024: use +infinity for a symbol that can't be "
               "written; -0.0 passes";
    case RDOQ_REFUSAL_READY_PRICE:
        return "a ready price differs in its bits from symbol price plus extra bits: call rdoq_fill_ready after each "
               "change of a configuration or a symbol price; see to the floating-point mode";
    case RDOQ_REFUSAL_BLOCK_SIDE:
        return "a side of the block is not 1, 2, 4, 8, 16 or 32: pass the sides in units of 8 samples";
    case RDOQ_REFUSAL_BLOCK_LENGTH:
        return "levels, scan, source or inverse weights do not hold 64 numbers for each covered block; in a group's "
               "list: too few are left for the block: lend the exact lengths";
    case RDOQ_REFUSAL_STRATEGY:
        return "the strategy code is above 26, or the channel above 2: pass the code of ISO/IEC 18181-1; channels are X "
               "= 0, Y = 1, B = 2";
    case RDOQ_REFUSAL_SETTINGS:
        return "lambda lies outside 2^-20 to 2^20, penalty or channel weight outside 2^-10 to 2^10, distance outside 0 "
               "to 25, the bias `one` outside 0 to 2, one of these is NaN, or the bias numerator is not the f32 0.145: "
               "hold the settings within these bounds; explicit biases with another numerator are not covered";
    case RDOQ_REFUSAL_SCAN:
        return "the scan does not hold each index of the block once: pass the scan order of this strategy";
    case RDOQ_REFUSAL_LEVEL:
        return "a level at scan position c or later, c being the covered blocks, lies outside -32,767 to 32,767: "
               "quantise more coarsely";
    case RDOQ_REFUSAL_IDEAL:
        return "an ideal (source * inverse weight * scale) in the window is NaN or outside -32,767 to 32,767: look for a"
               " failed transform or a wrong scale; keep the block as it is, or mend its coefficients";
    case RDOQ_REFUSAL_ROOM:
        return "the room is too small for the search: lend more (choice bytes by the length of the window, for the "
               "trellis by the half-width too, and two rows); surplus is fine";
    case RDOQ_REFUSAL_BAND_INFINITE:
        return "every choice in the trellis's band needs a token of infinite price, or one for which there is no word "
               "for want of symbols: give finite prices to the symbols that the block needs, use a configuration with "
               "symbols for its values and its count, or keep the block as it is";
    case RDOQ_REFUSAL_PATHS_INFINITE:
        return "every path that the beam kept ended at an infinite cost: give finite prices to the symbols that the "
               "block needs, or try the trellis, which may still find a choice";
    case RDOQ_REFUSAL_DOMAIN:
        return "an argument lies outside the call's domain, no search has the number, or a group's list is not eight "
               "words and seven floats a block: see what is said over the call; of a price call also a length, or an "
               "entry that it reads";
    case RDOQ_REFUSAL_SIDES:
        return "the product of the sides is not what ISO/IEC 18181-1 gives for the strategy code (1 for 0 to 3 and 12 to"
               " 17; 2 for 6, 7; 4 for 4, 8, 9; 8 for 10, 11; 16 for 5; 32 for 19, 20; 64 for 18; 128 for 22, 23; 256 "
               "for 21; 512 for 25, 26; 1,024 for 24): pass the strategy and the sides of one block; which side is the "
               "longer does not matter";
    case RDOQ_REFUSAL_FREQUENCY:
        return "a frequency of an ANS code is above 4,096: scale the frequencies so that 4,096 is the whole";
    case RDOQ_REFUSAL_TOKEN_SPLIT:
        return "a token's symbol is above 127, or in reading no value up to 131,071 splits into the symbol and the extra"
               " bits: use a configuration with symbols for the block's values";
    case RDOQ_REFUSAL_TOKEN_COUNT:
        return "the count of nonzero levels that is read is above 63 for each covered block: look for damaged tokens, or"
               " for those of another block";
    case RDOQ_REFUSAL_TOKEN_LISTS:
        return "the lists of symbols and extra bits differ in length, end early, or have tokens left over: lend the "
               "tokens of exactly one block";
    case RDOQ_REFUSAL_OUTPUT_SHORT:
        return "an output is shorter than the block's tokens: lend 63 for each covered block and one";
    case RDOQ_REFUSAL_TOKEN_LEVEL:
        return "a level at scan position c or later lies outside -32,768 to 32,768: quantise more coarsely; in reading, "
               "look for damaged tokens";
    case RDOQ_REFUSAL_LEVELS_OWED:
        return "more nonzero levels are owed than positions are left: look for damaged tokens, or for those of another "
               "block";
    case RDOQ_REFUSAL_HALF_WIDTH:
        return "the half-width of the band is not 1 to 12: use 6 where nothing else is known";
    case RDOQ_REFUSAL_TALLY_FULL:
        return "a count of a tally would pass 2^32 - 1, or its total of extra bits 2^64 - 1: begin a new tally";
    case RDOQ_REFUSAL_TALLY_EMPTY:
        return "a count of a tally, or its total of extra bits, would fall below 0: take out only tokens that were "
               "added, under the same map and configurations";
    case RDOQ_REFUSAL_OUTSIDE_GROUP:
        return "a listed block leaves the group of 32 by 32 cells: list blocks that lie in the group";
    case RDOQ_REFUSAL_OVERLAP:
        return "two listed blocks of a channel share a cell: list each cell of a channel once";
    case RDOQ_REFUSAL_NEIGHBOUR_MISSING:
        return "a listed block comes before the cell left of its top left cell, or the one above, in its channel: list "
               "the blocks of a channel from the top left on";
    case RDOQ_REFUSAL_NOT_SMALL:
        return "more than two covered blocks are asked of the small product: call rdoq_block";
    case RDOQ_REFUSAL_BLOCK_NUMBER:
        return "the block number of a store is not below 1,024: number the blocks of a store from 0";
    case RDOQ_REFUSAL_STORE_FULL:
        return "the live tokens of a store would exceed its room; a run that is replaced is not counted: drop runs, or "
               "start a store with more room";
    case RDOQ_REFUSAL_NOT_HELD:
        return "a store holds no run under the block number: put one first";
    case RDOQ_REFUSAL_BUFFER_SHORT:
        return "the reader's buffer is shorter than the run: lend more; the record has the length of each run";
    case RDOQ_REFUSAL_STORE_RECORD:
        return "the record of a store is not 3,073 numbers, or says more than 1,024 runs, a run that starts before the "
               "one before it ends or ends past the room, or a number that is not below 1,024 or stands there twice: "
               "hand room and record on as the last call left them; all 0 is an empty store";
    default: return "no refusal has this number: use header and archive of one version";
    }
}
/* refusals: end */

/* What each token costs. The caller keeps the lists; any number of threads may share a book that is filled. */
typedef struct rdoq_book {
    uint32_t clusters;
    const uint8_t *map; /* the cluster of each of the 14,850 contexts */
    size_t map_len;
    const uint8_t *configs; /* three bytes a cluster: split exponent, msb in token, lsb in token */
    size_t configs_len;
    const float *symbols; /* 128 prices a cluster, in bits */
    size_t symbols_len;
    const float *ready; /* 256 prices a cluster */
    size_t ready_len;
} rdoq_book;

/* A book that has no prices yet. */
RDOQ_INLINE rdoq_book rdoq_book_of(uint32_t clusters, const uint8_t *map, size_t map_len, const uint8_t *configs, size_t configs_len) {
    rdoq_book book;
    book.clusters = clusters;
    book.map = map;
    book.map_len = map_len;
    book.configs = configs;
    book.configs_len = configs_len;
    book.symbols = NULL;
    book.symbols_len = 0;
    book.ready = NULL;
    book.ready_len = 0;
    return book;
}

/* Symbol prices of the caller's own. */
RDOQ_INLINE void rdoq_book_symbols(rdoq_book *book, const float *symbols, size_t symbols_len) {
    book->symbols = symbols;
    book->symbols_len = symbols_len;
}

/* Symbol prices of a prefix code, written to symbols (rdoq_prefix_symbol_bits); the book has them where the code is 0. */
RDOQ_INLINE uint32_t rdoq_book_prefix(rdoq_book *book, const uint8_t *depths, size_t depths_len, const uint8_t *singles,
                                      size_t singles_len, bool strict, float *symbols, size_t symbols_len) {
    uint32_t code =
        rdoq_prefix_symbol_bits(book->clusters, depths, depths_len, singles, singles_len, strict, symbols, symbols_len);
    if (code == 0) rdoq_book_symbols(book, symbols, symbols_len);
    return code;
}

/* Symbol prices of an ANS code, written to symbols (rdoq_ans_symbol_bits); the book has them where the code is 0. */
RDOQ_INLINE uint32_t rdoq_book_ans(rdoq_book *book, const uint16_t *freqs, size_t freqs_len, float *symbols, size_t symbols_len) {
    uint32_t code = rdoq_ans_symbol_bits(book->clusters, freqs, freqs_len, symbols, symbols_len);
    if (code == 0) rdoq_book_symbols(book, symbols, symbols_len);
    return code;
}

/* Ready prices, written to ready (rdoq_fill_ready); the book has them where the code is 0, and then passes rdoq_book_check. */
RDOQ_INLINE uint32_t rdoq_book_fill(rdoq_book *book, float *ready, size_t ready_len) {
    uint32_t code = rdoq_fill_ready(book->clusters, book->map, book->map_len, book->configs, book->configs_len, book->symbols,
                                    book->symbols_len, ready, ready_len);
    if (code == 0) {
        book->ready = ready;
        book->ready_len = ready_len;
    }
    return code;
}

RDOQ_INLINE uint32_t rdoq_book_check(const rdoq_book *book) {
    return rdoq_check_book(book->clusters, book->map, book->map_len, book->configs, book->configs_len, book->symbols,
                           book->symbols_len, book->ready, book->ready_len);
}

RDOQ_INLINE uint32_t rdoq_book_token_bits(const rdoq_book *book, uint32_t context, uint32_t value, float *bits) {
    return rdoq_token_bits(book->clusters, book->map, book->map_len, book->configs, book->configs_len, book->symbols,
                           book->symbols_len, book->ready, book->ready_len, context, value, bits);
}

RDOQ_INLINE uint32_t rdoq_book_token_bits_pair(const rdoq_book *book, uint32_t context, uint32_t value, float *first,
                                               float *second) {
    return rdoq_token_bits_pair(book->clusters, book->map, book->map_len, book->configs, book->configs_len, book->symbols,
                                book->symbols_len, book->ready, book->ready_len, context, value, first, second);
}

/* A block's place in the format. */
typedef struct rdoq_shape {
    uint32_t cx; /* sides in units of 8 samples */
    uint32_t cy;
    uint8_t strategy; /* strategy code, 0 to 26; it covers cx * cy */
    uint8_t channel;  /* X = 0, Y = 1, B = 2 */
    bool qf_hi;       /* quant class */
    uint8_t predicted; /* predicted count of nonzero levels */
} rdoq_shape;

/* What a caller sets. Fields may be added at the end: start from the default, and set those that you have. */
typedef struct rdoq_settings {
    float channel_weight; /* 2^-10 to 2^10 */
    float lambda;         /* the price of a bit, 2^-20 to 2^20 */
    float penalty;        /* multiplies lambda where a zero becomes nonzero, 2^-10 to 2^10 */
    float distance;       /* 0 to 25 */
    uint32_t half_width;  /* of the trellis's band, 1 to 12 */
} rdoq_settings;

/*
 * Distortion and restored levels at their own price, distance 1, and a half-width of 6. Lambda is the encoder's own (rdoq_lambda);
 * 1 stands for none.
 */
RDOQ_INLINE rdoq_settings rdoq_settings_default(void) {
    rdoq_settings settings;
    settings.channel_weight = 1.0f;
    settings.lambda = 1.0f;
    settings.penalty = 1.0f;
    settings.distance = 1.0f;
    settings.half_width = RDOQ_HALF_WIDTH;
    return settings;
}

/* How a decoder restores a level of one channel. */
typedef struct rdoq_bias {
    float one;       /* the size of a level of 1, 0 to 2 */
    float numerator; /* RDOQ_BIAS_NUMERATOR */
} rdoq_bias;

/* The bias that a decoder uses where the file gives none, by channel; past B that of Y. */
RDOQ_INLINE rdoq_bias rdoq_bias_default(uint8_t channel) {
    rdoq_bias bias;
    bias.one = 1.0f - (channel == 0 ? 0.054650073f : channel == 2 ? 0.049935103f : 0.0700545f);
    bias.numerator = RDOQ_BIAS_NUMERATOR;
    return bias;
}

/* A block without its levels. The lists hold 64 numbers for each covered block. */
typedef struct rdoq_block_data {
    rdoq_shape shape;
    rdoq_settings settings;
    rdoq_bias bias;
    float scale;          /* the ideal at a position is (source * inv_qm) * scale */
    const uint32_t *scan; /* each index once, in scan order */
    size_t scan_len;
    const float *source;
    size_t source_len;
    const float *inv_qm;
    size_t inv_qm_len;
} rdoq_block_data;

/* Working room, one for each thread. What it holds does not matter. */
typedef struct rdoq_room {
    uint8_t *choices;
    size_t choices_len;
    float *row_a;
    size_t row_a_len;
    float *row_b;
    size_t row_b_len;
} rdoq_room;

/* Memory of a room that serves every block, search and half-width. */
typedef struct rdoq_room_memory {
    uint8_t choices[RDOQ_TRELLIS_CHOICES(RDOQ_WIDEST) * 1024u];
    float row_a[RDOQ_ROW(RDOQ_WIDEST)];
    float row_b[RDOQ_ROW(RDOQ_WIDEST)];
} rdoq_room_memory;

RDOQ_INLINE rdoq_room rdoq_room_of(rdoq_room_memory *memory) {
    rdoq_room room;
    room.choices = memory->choices;
    room.choices_len = sizeof memory->choices;
    room.row_a = memory->row_a;
    room.row_a_len = sizeof memory->row_a / sizeof memory->row_a[0];
    room.row_b = memory->row_b;
    room.row_b_len = sizeof memory->row_b / sizeof memory->row_b[0];
    return room;
}

/* The front of a room: so many choice bytes, and so many floats of each row, or as many as there are. */
RDOQ_INLINE rdoq_room rdoq_room_front(const rdoq_room *room, size_t bytes, size_t floats) {
    rdoq_room part = *room;
    if (part.choices_len > bytes) part.choices_len = bytes;
    if (part.row_a_len > floats) part.row_a_len = floats;
    if (part.row_b_len > floats) part.row_b_len = floats;
    return part;
}

/*
 * The front of a room that a search needs on a block: a search clears all that it is lent. Where the sides are no block's, or the
 * half-width out of range, the search refuses them whatever it is lent.
 */
RDOQ_INLINE rdoq_room rdoq_room_needed(uint32_t search, uint32_t cx, uint32_t cy, uint32_t half_width, const rdoq_room *room) {
    size_t window = 0, restoring = 0, bytes = 0, floats = 0;
    if (rdoq_window_len(cx * cy, &window, &restoring) != 0) return *room;
    if (search == RDOQ_BEAM) {
        bytes = RDOQ_BEAM_CHOICES * window;
    } else if (search != RDOQ_GREEDY) {
        bytes = RDOQ_TRELLIS_CHOICES(half_width) * window;
        floats = RDOQ_ROW(half_width);
    }
    return rdoq_room_front(room, bytes, floats);
}

/* What a search found: the cost of the levels that it wrote (greedy leaves this as it was), and their count of nonzero levels. */
typedef struct rdoq_answer {
    float cost;
    uint32_t count;
} rdoq_answer;

/* Re-picks the levels of a block, in place (rdoq_block). A refused block keeps every level. */
RDOQ_INLINE uint32_t rdoq_search_block(uint32_t search, const rdoq_book *book, const rdoq_block_data *block, int32_t *levels,
                                       size_t levels_len, const rdoq_room *room, rdoq_answer *answer) {
    const rdoq_shape *shape = &block->shape;
    const rdoq_settings *settings = &block->settings;
    const rdoq_room lent = rdoq_room_needed(search, shape->cx, shape->cy, settings->half_width, room);
    return rdoq_block(search, book->clusters, book->map, book->map_len, book->configs, book->configs_len, book->symbols,
                      book->symbols_len, book->ready, book->ready_len, shape->cx, shape->cy, shape->strategy, shape->channel,
                      shape->qf_hi, shape->predicted, settings->channel_weight, settings->lambda, settings->penalty,
                      settings->distance, settings->half_width, block->bias.one, block->bias.numerator, block->scale, block->scan,
                      block->scan_len, block->source, block->source_len, block->inv_qm, block->inv_qm_len, levels, levels_len,
                      lent.choices, lent.choices_len, lent.row_a, lent.row_a_len, lent.row_b, lent.row_b_len, &answer->cost,
                      &answer->count);
}

/* What the levels of a block cost as they stand, and their count (rdoq_input_cost). The half-width is not read. */
RDOQ_INLINE uint32_t rdoq_cost_of_input(const rdoq_book *book, const rdoq_block_data *block, const int32_t *levels,
                                        size_t levels_len, rdoq_answer *answer) {
    const rdoq_shape *shape = &block->shape;
    const rdoq_settings *settings = &block->settings;
    return rdoq_input_cost(book->clusters, book->map, book->map_len, book->configs, book->configs_len, book->symbols,
                           book->symbols_len, book->ready, book->ready_len, shape->cx, shape->cy, shape->strategy, shape->channel,
                           shape->qf_hi, shape->predicted, settings->channel_weight, settings->lambda, settings->penalty,
                           settings->distance, block->bias.one, block->bias.numerator, block->scale, block->scan, block->scan_len,
                           block->source, block->source_len, block->inv_qm, block->inv_qm_len, levels, levels_len, &answer->cost,
                           &answer->count);
}

/*
 * A group's list: eight words and seven floats a block (rdoq_group_put writes them), and the blocks' numbers one after the other, 64 for
 * each covered block.
 */
typedef struct rdoq_group_data {
    const uint32_t *blocks;
    size_t blocks_len;
    const float *settings;
    size_t settings_len;
    const uint32_t *scans;
    size_t scans_len;
    const float *sources;
    size_t sources_len;
    const float *inv_qms;
    size_t inv_qms_len;
} rdoq_group_data;

/*
 * Writes block i of a list, with its top left cell at (x, y): RDOQ_GROUP_WORDS words and RDOQ_GROUP_FLOATS floats. Of the shape,
 * `predicted` is not read; the lists of numbers are not touched.
 */
RDOQ_INLINE void rdoq_group_put(uint32_t *blocks, float *settings, size_t i, uint32_t x, uint32_t y, const rdoq_block_data *block) {
    uint32_t *words = blocks + RDOQ_GROUP_WORDS * i;
    float *floats = settings + RDOQ_GROUP_FLOATS * i;
    words[0] = x;
    words[1] = y;
    words[2] = block->shape.cx;
    words[3] = block->shape.cy;
    words[4] = block->shape.strategy;
    words[5] = block->shape.channel;
    words[6] = block->shape.qf_hi;
    words[7] = block->settings.half_width;
    floats[0] = block->settings.channel_weight;
    floats[1] = block->settings.lambda;
    floats[2] = block->settings.penalty;
    floats[3] = block->settings.distance;
    floats[4] = block->bias.one;
    floats[5] = block->bias.numerator;
    floats[6] = block->scale;
}

/* The front of a room that a search needs on the blocks of a list. */
RDOQ_INLINE rdoq_room rdoq_room_for_group(uint32_t search, const rdoq_group_data *group, const rdoq_room *room) {
    size_t bytes = 0, floats = 0, at;
    for (at = 0; at + RDOQ_GROUP_WORDS <= group->blocks_len; at += RDOQ_GROUP_WORDS) {
        const uint32_t *words = group->blocks + at;
        const rdoq_room need = rdoq_room_needed(search, words[2], words[3], words[7], room);
        if (bytes < need.choices_len) bytes = need.choices_len;
        if (floats < need.row_a_len) floats = need.row_a_len;
        if (floats < need.row_b_len) floats = need.row_b_len;
    }
    return rdoq_room_front(room, bytes, floats);
}

/* Re-picks the levels of a group's blocks, in order (rdoq_group). *settled is written with a refusal too. */
RDOQ_INLINE uint32_t rdoq_search_group(uint32_t search, const rdoq_book *book, const rdoq_group_data *group, int32_t *levels,
                                       size_t levels_len, const rdoq_room *room, uint32_t *settled) {
    const rdoq_room lent = rdoq_room_for_group(search, group, room);
    return rdoq_group(search, book->clusters, book->map, book->map_len, book->configs, book->configs_len, book->symbols,
                      book->symbols_len, book->ready, book->ready_len, group->blocks, group->blocks_len, group->settings,
                      group->settings_len, group->scans, group->scans_len, group->sources, group->sources_len, group->inv_qms,
                      group->inv_qms_len, levels, levels_len, lent.choices, lent.choices_len, lent.row_a, lent.row_a_len, lent.row_b,
                      lent.row_b_len, settled);
}

/* What a caller sets for the small product: rdoq_settings without a half-width. */
typedef struct rdoq_small_settings {
    float channel_weight;
    float lambda;
    float penalty;
    float distance;
} rdoq_small_settings;

RDOQ_INLINE rdoq_small_settings rdoq_small_settings_default(void) {
    rdoq_small_settings settings;
    settings.channel_weight = 1.0f;
    settings.lambda = 1.0f;
    settings.penalty = 1.0f;
    settings.distance = 1.0f;
    return settings;
}

/* A block of one or two covered blocks without its levels, for the small product. */
typedef struct rdoq_small_data {
    rdoq_shape shape;
    rdoq_small_settings settings;
    rdoq_bias bias;
    float scale;          /* the ideal at a position is (source * inv_qm) * scale */
    const uint32_t *scan; /* each index once, in scan order */
    size_t scan_len;
    const float *source;
    size_t source_len;
    const float *inv_qm;
    size_t inv_qm_len;
} rdoq_small_data;

/* Memory of a room that serves every search of the small product: 672 bytes. */
typedef struct rdoq_small_memory {
    uint8_t choices[RDOQ_SMALL_TRELLIS_CHOICES];
    float row_a[RDOQ_SMALL_ROW];
    float row_b[RDOQ_SMALL_ROW];
} rdoq_small_memory;

RDOQ_INLINE rdoq_room rdoq_small_room_of(rdoq_small_memory *memory) {
    rdoq_room room;
    room.choices = memory->choices;
    room.choices_len = sizeof memory->choices;
    room.row_a = memory->row_a;
    room.row_a_len = sizeof memory->row_a / sizeof memory->row_a[0];
    room.row_b = memory->row_b;
    room.row_b_len = sizeof memory->row_b / sizeof memory->row_b[0];
    return room;
}

/* Re-picks the levels of a small block, in place (rdoq_small_block). A refused block keeps every level. The room may be a larger one. */
RDOQ_INLINE uint32_t rdoq_search_small_block(uint32_t search, const rdoq_book *book, const rdoq_small_data *block, int32_t *levels,
                                             size_t levels_len, const rdoq_room *room, rdoq_answer *answer) {
    const rdoq_shape *shape = &block->shape;
    const rdoq_small_settings *settings = &block->settings;
    const rdoq_room lent = search == RDOQ_GREEDY ? rdoq_room_front(room, 0, 0)
                           : search == RDOQ_BEAM ? rdoq_room_front(room, RDOQ_SMALL_BEAM_CHOICES, 0)
                                                 : rdoq_room_front(room, RDOQ_SMALL_TRELLIS_CHOICES, RDOQ_SMALL_ROW);
    return rdoq_small_block(search, book->clusters, book->map, book->map_len, book->configs, book->configs_len, book->symbols,
                            book->symbols_len, book->ready, book->ready_len, shape->cx, shape->cy, shape->strategy, shape->channel,
                            shape->qf_hi, shape->predicted, settings->channel_weight, settings->lambda, settings->penalty,
                            settings->distance, block->bias.one, block->bias.numerator, block->scale, block->scan, block->scan_len,
                            block->source, block->source_len, block->inv_qm, block->inv_qm_len, levels, levels_len, lent.choices,
                            lent.choices_len, lent.row_a, lent.row_a_len, lent.row_b, lent.row_b_len, &answer->cost,
                            &answer->count);
}

/* The tokens of a block: four lists of the caller's, each with room for `room` numbers; 63 for each covered block and one are enough. */
typedef struct rdoq_tokens {
    uint32_t *contexts;
    uint32_t *symbols;
    uint32_t *extra_bits; /* how many follow each symbol */
    uint32_t *bits;       /* the extra bits */
    size_t room;
    uint32_t count; /* the tokens that they hold */
} rdoq_tokens;

/* Writes the tokens of a block, under the map and the configurations of a book; its prices are not read. */
RDOQ_INLINE uint32_t rdoq_tokens_write(rdoq_tokens *tokens, const rdoq_book *book, rdoq_shape shape, const uint32_t *scan,
                                       size_t scan_len, const int32_t *levels, size_t levels_len) {
    return rdoq_write_tokens(book->clusters, book->map, book->map_len, book->configs, book->configs_len, shape.cx, shape.cy,
                             shape.strategy, shape.channel, shape.qf_hi, shape.predicted, scan, scan_len, levels, levels_len,
                             tokens->contexts, tokens->room, tokens->symbols, tokens->room, tokens->extra_bits, tokens->room,
                             tokens->bits, tokens->room, &tokens->count);
}

/* Restores the levels of a block from its tokens; symbols and extra bits alone are read. */
RDOQ_INLINE uint32_t rdoq_tokens_read(const rdoq_tokens *tokens, const rdoq_book *book, rdoq_shape shape, const uint32_t *scan,
                                      size_t scan_len, int32_t *levels, size_t levels_len) {
    uint32_t count = 0;
    return rdoq_read_tokens(book->clusters, book->map, book->map_len, book->configs, book->configs_len, shape.cx, shape.cy,
                            shape.strategy, shape.channel, shape.qf_hi, shape.predicted, scan, scan_len, tokens->symbols,
                            tokens->count, tokens->bits, tokens->count, levels, levels_len, &count);
}

/* The use of symbols in a batch. */
typedef struct rdoq_tally {
    uint32_t *counts; /* 128 a cluster; all 0 to begin with */
    size_t counts_len;
    uint64_t extra; /* the total of extra bits; 0 to begin with */
} rdoq_tally;

/* Adds tokens, under the map and the configurations of a book; its prices are not read. */
RDOQ_INLINE uint32_t rdoq_tally_add_tokens(rdoq_tally *tally, const rdoq_book *book, const uint32_t *contexts, size_t contexts_len,
                                           const uint32_t *values, size_t values_len) {
    return rdoq_tally_add(book->clusters, book->map, book->map_len, book->configs, book->configs_len, contexts, contexts_len,
                          values, values_len, tally->counts, tally->counts_len, &tally->extra);
}

/* Takes them out. */
RDOQ_INLINE uint32_t rdoq_tally_remove_tokens(rdoq_tally *tally, const rdoq_book *book, const uint32_t *contexts,
                                              size_t contexts_len, const uint32_t *values, size_t values_len) {
    return rdoq_tally_remove(book->clusters, book->map, book->map_len, book->configs, book->configs_len, contexts, contexts_len,
                             values, values_len, tally->counts, tally->counts_len, &tally->extra);
}

/* A store of token runs. */
typedef struct rdoq_store {
    uint64_t *room; /* of any length */
    size_t room_len;
    uint64_t *record; /* RDOQ_STORE_RECORD numbers; all 0 is an empty store */
    size_t record_len;
} rdoq_store;

RDOQ_INLINE uint32_t rdoq_store_put_run(const rdoq_store *store, uint32_t block, const uint64_t *tokens, size_t tokens_len) {
    return rdoq_store_put(store->room, store->room_len, store->record, store->record_len, block, tokens, tokens_len);
}

RDOQ_INLINE uint32_t rdoq_store_drop_run(const rdoq_store *store, uint32_t block) {
    return rdoq_store_drop(store->room, store->room_len, store->record, store->record_len, block);
}

RDOQ_INLINE uint32_t rdoq_store_read_run(const rdoq_store *store, uint32_t block, uint64_t *tokens, size_t tokens_len,
                                         size_t *length) {
    return rdoq_store_read(store->room, store->room_len, store->record, store->record_len, block, tokens, tokens_len, length);
}

#endif
