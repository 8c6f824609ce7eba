/*
 * The level search of a JPEG XL encoder, for one block and for a whole group of blocks.
 *
 * The functions are those of crates/c_leaves, c_book, c_search, c_input, c_small, c_group, c_tokens, c_tally, c_store and
 * c_version, whose contracts are proved. Link librdoq_c.a or librdoq_c.so: `make library` writes the first, `make dist` and
 * `make install` have both. They need memset and memcpy, and nothing else. x86-64 Linux only. rdoq_easy.h has the same calls over
 * structs, and refusals in words.
 *
 * Every call
 *   - returns a code: 0 where it answers, else the number of the refusal (rdoq_refusal, below). rdoq_version alone returns what
 *     it has to say;
 *   - writes what it answers behind the pointers that come last, and only where the code is 0; rdoq_group alone writes its number
 *     with a refusal too;
 *   - reads and writes nothing but what is lent to it, allocates nothing and keeps nothing. So any number of calls may run at
 *     once, on any threads, as long as none of them writes to memory that another is lent.
 *
 * An array is a pointer and its length in elements. The pointer is aligned for its type and points to at least that many elements.
 * A pointer whose length is 0 may be NULL. The arrays and variables that a call writes to overlap nothing else that it is lent. A
 * bool is 0 or 1. The thread has RDOQ_STACK_BYTES of stack left. Floating point is as a C program starts: rounding to nearest,
 * subnormal numbers kept. (-ffast-math may flush them to zero at start-up, and with it a rightly filled book may get 6.) These are
 * the only duties of a caller: wrong lengths and wrong contents are refused by number.
 */
#ifndef RDOQ_H
#define RDOQ_H

#include <stdbool.h>
#include <stddef.h>
#include <stdint.h>

#ifdef __cplusplus
extern "C" {
#endif

#define RDOQ_GREEDY 0u
#define RDOQ_BEAM 1u
#define RDOQ_TRELLIS 2u
#define RDOQ_UNFACTORED 3u

#define RDOQ_CONTEXTS 14850u      /* bytes of a context map */
#define RDOQ_SYMBOLS 128u         /* symbol prices of a cluster */
#define RDOQ_READY 256u           /* ready prices of a cluster */
#define RDOQ_BEAM_CHOICES 6u      /* choice bytes of a window position, for the beam */
#define RDOQ_HALF_WIDTH 6u        /* the half-width of the trellis's band to begin with */
#define RDOQ_WIDEST 12u           /* and the largest */
#define RDOQ_ROW(half_width) (2u * (2u * (half_width) + 2u))   /* floats of a cost row, for the trellis */
#define RDOQ_TRELLIS_CHOICES(half_width) (2u * (half_width) + 2u)  /* choice bytes of a window position, for the trellis */
#define RDOQ_SMALL_WINDOW 32u     /* window positions of rdoq_small_block */
#define RDOQ_SMALL_BEAM_CHOICES (RDOQ_BEAM_CHOICES * RDOQ_SMALL_WINDOW)   /* 192 choice bytes, for its beam */
#define RDOQ_SMALL_TRELLIS_CHOICES (RDOQ_TRELLIS_CHOICES(RDOQ_HALF_WIDTH) * RDOQ_SMALL_WINDOW)   /* 448, for its trellis */
#define RDOQ_SMALL_ROW RDOQ_ROW(RDOQ_HALF_WIDTH)   /* 28 floats of a cost row, for its trellis */
#define RDOQ_BIAS_NUMERATOR 0.145f
#define RDOQ_GROUP_WORDS 8u       /* words of a listed block: x, y, cx, cy, strategy, channel, quant class, half-width */
#define RDOQ_GROUP_FLOATS 7u      /* its floats: channel weight, lambda, penalty, distance, one, numerator, scale */
#define RDOQ_STORE_RUNS 1024u     /* block numbers of a store */
#define RDOQ_STORE_RECORD 3073u   /* numbers of its record */
#define RDOQ_STACK_BYTES 20480u   /* no call takes more of its thread's stack */

/*
 * The version of this header. A program that was compiled with it and linked with the library of another has
 * rdoq_version() != RDOQ_VERSION_NUMBER.
 */
#define RDOQ_VERSION_MAJOR 0
#define RDOQ_VERSION_MINOR 1
#define RDOQ_VERSION_PATCH 0
#define RDOQ_VERSION "0.1.0"
#define RDOQ_VERSION_NUMBER (1000000u * RDOQ_VERSION_MAJOR + 1000u * RDOQ_VERSION_MINOR + RDOQ_VERSION_PATCH)

/* refusals: header, written by tools/refusals.py from docs/refusals.txt */
/*
 * Refusals. The first check that fails is answered; what each call asks, in order:
 *   rdoq_block                                        from C 17 where no search has the number; then 1 to 9, 18, 10,
 *                                                     26, 11 to 14; then 15 (trellis, unfactored too) or 16 (beam).
 *                                                     Greedy asks for no room
 *   rdoq_small_block                                  32; then as rdoq_block, without 26
 *   rdoq_input_cost                                   1 to 9, 18, 10 to 13
 *   rdoq_group                                        from C 17 where no search has the number; 1 to 6; 17 where the
 *                                                     list is no whole blocks; then over the whole list each 7, 9 (the
 *                                                     channel), 29, 30, 31; then block by block 8, 9 (the strategy) and
 *                                                     on as rdoq_block
 *   rdoq_check_book                                   1 to 6
 *   rdoq_fill_ready                                   1 to 5
 *   rdoq_prefix_symbol_bits                           1 (the clusters alone: there is no map), 2
 *   rdoq_ans_symbol_bits                              1 (the clusters alone), 2, 19
 *   rdoq_write_tokens                                 1 to 4, 7, 8 (levels and scan alone), 9, 18, 11, then 24, 20, 23
 *   rdoq_read_tokens                                  the same up to 11; 22 where the lists differ in length; on the
 *                                                     count 22, 20, 21; while levels are owed 25, 22, 20, 24; 22 where
 *                                                     tokens are left
 *   rdoq_tally_add, rdoq_tally_remove                 1 to 4, 17, then 27 (add) or 28 (remove)
 *   rdoq_store_put, rdoq_store_drop, rdoq_store_read  37, 33, then 34 (put) or 35 (drop, read), then 36 (read)
 *   leaf and price calls                              17 alone
 */
typedef enum rdoq_refusal {
    RDOQ_ANSWERED = 0,
    /* The map is not 14,850 bytes, or the clusters are not 1 to 256.
       Lend a byte for each context; name 1 to 256 clusters. */
    RDOQ_REFUSAL_MAP_LENGTH = 1,
    /* Configurations are not 3 bytes a cluster, symbol prices not 128, ready prices not 256; of a prefix code: depths
       not 128, flags not 1; of an ANS code: frequencies not 128; of a tally: counts not 128.
       Lend the exact lengths; surplus is refused too. */
    RDOQ_REFUSAL_BOOK_LENGTH = 2,
    /* An entry of the map is not below the number of clusters.
       Mend the map, or name more clusters. */
    RDOQ_REFUSAL_MAP_ENTRY = 3,
    /* A configuration (s, m, l) has s > 6 or m + l > s.
       Use a smaller one; 4,2,0 and 5,2,2 and 6,3,0 pass. */
    RDOQ_REFUSAL_CONFIGURATION = 4,
    /* A symbol price is NaN, below 0, or finite and above 1,024.
       Use +infinity for a symbol that can't be written; -0.0 passes. */
    RDOQ_REFUSAL_SYMBOL_PRICE = 5,
    /* A ready price differs in its bits from symbol price plus extra bits.
       Call rdoq_fill_ready after each change of a configuration or a symbol price; see to the floating-point mode. */
    RDOQ_REFUSAL_READY_PRICE = 6,
    /* A side of the block is not 1, 2, 4, 8, 16 or 32.
       Pass the sides in units of 8 samples. */
    RDOQ_REFUSAL_BLOCK_SIDE = 7,
    /* Levels, scan, source or inverse weights do not hold 64 numbers for each covered block; in a group's list: too few
       are left for the block.
       Lend the exact lengths. */
    RDOQ_REFUSAL_BLOCK_LENGTH = 8,
    /* The strategy code is above 26, or the channel above 2.
       Pass the code of ISO/IEC 18181-1; channels are X = 0, Y = 1, B = 2. */
    RDOQ_REFUSAL_STRATEGY = 9,
    /* Lambda lies outside 2^-20 to 2^20, penalty or channel weight outside 2^-10 to 2^10, distance outside 0 to 25, the
       bias `one` outside 0 to 2, one of these is NaN, or the bias numerator is not the f32 0.145.
       Hold the settings within these bounds; explicit biases with another numerator are not covered. */
    RDOQ_REFUSAL_SETTINGS = 10,
    /* The scan does not hold each index of the block once.
       Pass the scan order of this strategy. */
    RDOQ_REFUSAL_SCAN = 11,
    /* A level at scan position c or later, c being the covered blocks, lies outside -32,767 to 32,767.
       Quantise more coarsely. */
    RDOQ_REFUSAL_LEVEL = 12,
    /* An ideal (source * inverse weight * scale) in the window is NaN or outside -32,767 to 32,767.
       Look for a failed transform or a wrong scale; keep the block as it is, or mend its coefficients. */
    RDOQ_REFUSAL_IDEAL = 13,
    /* The room is too small for the search.
       Lend more (choice bytes by the length of the window, for the trellis by the half-width too, and two rows);
       surplus is fine. */
    RDOQ_REFUSAL_ROOM = 14,
    /* Every choice in the trellis's band needs a token of infinite price, or one for which there is no word for want of
       symbols.
       Give finite prices to the symbols that the block needs, use a configuration with symbols for its values and its
       count, or keep the block as it is. */
    RDOQ_REFUSAL_BAND_INFINITE = 15,
    /* Every path that the beam kept ended at an infinite cost.
       Give finite prices to the symbols that the block needs, or try the trellis, which may still find a choice. */
    RDOQ_REFUSAL_PATHS_INFINITE = 16,
    /* An argument lies outside the call's domain, no search has the number, or a group's list is not eight words and
       seven floats a block.
       See what is said over the call; of a price call also a length, or an entry that it reads. */
    RDOQ_REFUSAL_DOMAIN = 17,
    /* The product of the sides is not what ISO/IEC 18181-1 gives for the strategy code (1 for 0 to 3 and 12 to 17; 2
       for 6, 7; 4 for 4, 8, 9; 8 for 10, 11; 16 for 5; 32 for 19, 20; 64 for 18; 128 for 22, 23; 256 for 21; 512 for
       25, 26; 1,024 for 24).
       Pass the strategy and the sides of one block; which side is the longer does not matter. */
    RDOQ_REFUSAL_SIDES = 18,
    /* A frequency of an ANS code is above 4,096.
       Scale the frequencies so that 4,096 is the whole. */
    RDOQ_REFUSAL_FREQUENCY = 19,
    /* A token's symbol is above 127, or in reading no value up to 131,071 splits into the symbol and the extra bits.
       Use a configuration with symbols for the block's values. */
    RDOQ_REFUSAL_TOKEN_SPLIT = 20,
    /* The count of nonzero levels that is read is above 63 for each covered block.
       Look for damaged tokens, or for those of another block. */
    RDOQ_REFUSAL_TOKEN_COUNT = 21,
    /* The lists of symbols and extra bits differ in length, end early, or have tokens left over.
       Lend the tokens of exactly one block. */
    RDOQ_REFUSAL_TOKEN_LISTS = 22,
    /* An output is shorter than the block's tokens.
       Lend 63 for each covered block and one. */
    RDOQ_REFUSAL_OUTPUT_SHORT = 23,
    /* A level at scan position c or later lies outside -32,768 to 32,768.
       Quantise more coarsely; in reading, look for damaged tokens. */
    RDOQ_REFUSAL_TOKEN_LEVEL = 24,
    /* More nonzero levels are owed than positions are left.
       Look for damaged tokens, or for those of another block. */
    RDOQ_REFUSAL_LEVELS_OWED = 25,
    /* The half-width of the band is not 1 to 12.
       Use 6 where nothing else is known. */
    RDOQ_REFUSAL_HALF_WIDTH = 26,
    /* A count of a tally would pass 2^32 - 1, or its total of extra bits 2^64 - 1.
       Begin a new tally. */
    RDOQ_REFUSAL_TALLY_FULL = 27,
    /* A count of a tally, or its total of extra bits, would fall below 0.
       Take out only tokens that were added, under the same map and configurations. */
    RDOQ_REFUSAL_TALLY_EMPTY = 28,
    /* A listed block leaves the group of 32 by 32 cells.
       List blocks that lie in the group. */
    RDOQ_REFUSAL_OUTSIDE_GROUP = 29,
    /* Two listed blocks of a channel share a cell.
       List each cell of a channel once. */
    RDOQ_REFUSAL_OVERLAP = 30,
    /* A listed block comes before the cell left of its top left cell, or the one above, in its channel.
       List the blocks of a channel from the top left on. */
    RDOQ_REFUSAL_NEIGHBOUR_MISSING = 31,
    /* More than two covered blocks are asked of the small product.
       Call rdoq_block. */
    RDOQ_REFUSAL_NOT_SMALL = 32,
    /* The block number of a store is not below 1,024.
       Number the blocks of a store from 0. */
    RDOQ_REFUSAL_BLOCK_NUMBER = 33,
    /* The live tokens of a store would exceed its room; a run that is replaced is not counted.
       Drop runs, or start a store with more room. */
    RDOQ_REFUSAL_STORE_FULL = 34,
    /* A store holds no run under the block number.
       Put one first. */
    RDOQ_REFUSAL_NOT_HELD = 35,
    /* The reader's buffer is shorter than the run.
       Lend more; the record has the length of each run. */
    RDOQ_REFUSAL_BUFFER_SHORT = 36,
    /* The record of a store is not 3,073 numbers, or says more than 1,024 runs, a run that starts before the one before
       it ends or ends past the room, or a number that is not below 1,024 or stands there twice.
       Hand room and record on as the last call left them; all 0 is an empty store. */
    RDOQ_REFUSAL_STORE_RECORD = 37
} rdoq_refusal;
/* refusals: end */

/* The version of the library that was linked, made as RDOQ_VERSION_NUMBER is. It never refuses. */
uint32_t rdoq_version(void);

/*
 * A price book is lent in five parts that the caller keeps:
 *   clusters   1 to 256
 *   map        the cluster of each of the 14,850 contexts, a byte each
 *   configs    three bytes a cluster: split exponent, msb in token, lsb in token
 *   symbols    128 prices a cluster, in bits
 *   ready      256 prices a cluster: those of the values 0 to 255, written by rdoq_fill_ready
 */

/* The first of refusals 1 to 6 that a book gets, or 0. */
uint32_t rdoq_check_book(uint32_t clusters, const uint8_t *map, size_t map_len, const uint8_t *configs, size_t configs_len,
                         const float *symbols, size_t symbols_len, const float *ready, size_t ready_len);

/* Writes every ready price of a book. Returns 0, or the first of refusals 1 to 5 and writes nothing. */
uint32_t rdoq_fill_ready(uint32_t clusters, const uint8_t *map, size_t map_len, const uint8_t *configs, size_t configs_len,
                         const float *symbols, size_t symbols_len, float *ready, size_t ready_len);

/*
 * Writes every symbol price of a prefix code. depths has 128 bytes a cluster, singles a byte a cluster: not 0 where the cluster's
 * code has a single symbol. A depth of 0 costs 15.0 (strict: +infinity); any other depth costs itself, or 0.0 where the symbol is
 * the only one. A cluster whose 128 depths are all 0 costs 15.0 throughout, strict or not: it was absent where the code was trained,
 * and gets its words later. Returns 0, or 1 or 2 and writes nothing.
 */
uint32_t rdoq_prefix_symbol_bits(uint32_t clusters, const uint8_t *depths, size_t depths_len, const uint8_t *singles,
                                 size_t singles_len, bool strict, float *symbols, size_t symbols_len);

/*
 * Writes every symbol price of an ANS code. freqs has 128 frequencies a cluster, each at most 4,096, the whole being 4,096.
 * Frequency 0 costs 15.0, any other 12 - log2. They need not add up to 4,096. Returns 0, or 1, 2 or 19 and writes nothing.
 */
uint32_t rdoq_ans_symbol_bits(uint32_t clusters, const uint16_t *freqs, size_t freqs_len, float *symbols, size_t symbols_len);

/*
 * Writes the price of a value of at most 131,071 in a context below 14,850: the price of its symbol plus its extra bits. A cluster has
 * words for symbols up to 127; a value whose symbol is above that costs +infinity. The first such value is 2,048 with 5,2,2, 16,384
 * with 6,3,0 and 128 with 6,m,6-m; with 4,2,0, 4,2,1 and 6,2,0 there is none. A block's count of nonzero levels is such a value too: with
 * 5,2,2 a count from 2,048 on has no word, so a search can refuse large dense blocks with 15 or 16.
 * Returns 0, or 17 where context, value or a length of the book is wrong, or an entry that the price is made of.
 */
uint32_t rdoq_token_bits(uint32_t clusters, const uint8_t *map, size_t map_len, const uint8_t *configs, size_t configs_len,
                         const float *symbols, size_t symbols_len, const float *ready, size_t ready_len, uint32_t context,
                         uint32_t value, float *bits);

/* The same in a context and the next one. */
uint32_t rdoq_token_bits_pair(uint32_t clusters, const uint8_t *map, size_t map_len, const uint8_t *configs, size_t configs_len,
                              const float *symbols, size_t symbols_len, const float *ready, size_t ready_len, uint32_t context,
                              uint32_t value, float *first, float *second);

/*
 * Re-picks the levels of a block, in place.
 *
 *   search          RDOQ_GREEDY, RDOQ_BEAM, RDOQ_TRELLIS or RDOQ_UNFACTORED; any other number gets 17 and nothing changes. The last
 *                   is the trellis by another walk, a check on the first: on every input the same answer, refusal and
 *                   room (proved), more slowly. What is said of the trellis below holds of both
 *   clusters..ready the price book
 *   cx, cy          the block's sides in 8-sample units; c = cx * cy is the number of covered blocks
 *   strategy, channel, qf_hi, predicted
 *                   strategy code 0 to 26, channel (X = 0, Y = 1, B = 2), quant class, predicted count of nonzero levels
 *   channel_weight, lambda, penalty, distance
 *                   what distortion and bits are weighed by; penalty multiplies lambda where a zero becomes nonzero
 *   half_width      1 to 12, the half-width w of the trellis's band; RDOQ_HALF_WIDTH where nothing else is known. After each
 *                   position the count of nonzero levels may differ by w from the input's. On the same block a wider band never
 *                   costs more, and answers wherever a narrower one did (proved). Greedy and beam have no band: they answer the
 *                   same for every w in range. Out of range it gets 26 from every search
 *   one, numerator  the channel's bias: the size of a level of 1, and RDOQ_BIAS_NUMERATOR
 *   scale           the ideal at a position is (source * inv_qm) * scale
 *   scan, source, inv_qm, levels
 *                   64 * c numbers each; scan holds each index once, in scan order
 *   choices, row_a, row_b
 *                   working room, by the length n of the window (rdoq_window_len: 63 for c = 1, 126 for 2, 252 for 4, 504 for 8,
 *                   1,008 for 16, 1,024 above):
 *                     greedy   none
 *                     beam     6 * n choice bytes
 *                     trellis  RDOQ_TRELLIS_CHOICES(w) * n choice bytes, two choices in each, and two rows of RDOQ_ROW(w) floats: 14 bytes
 *                              and 28 floats where w is 6
 *                   More is welcome: RDOQ_TRELLIS_CHOICES(RDOQ_WIDEST) * 1024 bytes, 26,624, and two rows of RDOQ_ROW(RDOQ_WIDEST) floats
 *                   serve every block and width. What it holds before a call does not matter.
 *   cost, count     written where the code is 0: the count of nonzero levels from scan position c on, and, by beam and trellis,
 *                   the cost of the levels that were written. Greedy leaves cost as it was.
 *
 * After every refusal but 15 and 16 nothing that was lent has changed. (The proofs know one NaN: that a NaN keeps its bit pattern
 * they do not say; the code stores nothing there.) After 15, after 16 and after an answer of the trellis or the beam every choice
 * byte is 255 and every float of the rows +infinity. Greedy touches no room. The levels at scan positions below c and past the window
 * never change, and a refused block keeps every level.
 */
uint32_t rdoq_block(uint32_t search, uint32_t clusters, const uint8_t *map, size_t map_len, const uint8_t *configs,
                    size_t configs_len, const float *symbols, size_t symbols_len, const float *ready, size_t ready_len, uint32_t cx,
                    uint32_t cy, uint8_t strategy, uint8_t channel, bool qf_hi, uint8_t predicted, float channel_weight,
                    float lambda, float penalty, float distance, uint32_t half_width, float one, float numerator, float scale,
                    const uint32_t *scan, size_t scan_len, const float *source, size_t source_len, const float *inv_qm,
                    size_t inv_qm_len, int32_t *levels, size_t levels_len, uint8_t *choices, size_t choices_len, float *row_a,
                    size_t row_a_len, float *row_b, size_t row_b_len, float *cost, uint32_t *count);

/*
 * Writes what the levels of a block cost as they stand, by the definition of the searches' costs: called before a search it says what
 * the input costs, and the search's cost taken from it is what was saved. The arguments are those of rdoq_block; there is no search, no
 * half-width and no room, and nothing but cost and count is written.
 *
 *   cost            the cost of the levels from scan position c on: +infinity where a level or the count has no word (that is no
 *                   refusal), never NaN, never below 0 (proved). Where the trellis answers, of whatever half-width, its cost is at most
 *                   this one (proved)
 *   count           the count of nonzero levels from scan position c on
 *
 * The levels that beam or trellis wrote, handed in, cost what was answered (of the trellis proved), unless a level was restored (a
 * nonzero level where there was 0) and penalty is not 1: here the levels are the input, so none is restored, and none is charged at
 * lambda * penalty. A level of 32,768, which a search may write, gets 12.
 * Returns 0, or a refusal and writes nothing.
 */
uint32_t rdoq_input_cost(uint32_t clusters, const uint8_t *map, size_t map_len, const uint8_t *configs, size_t configs_len,
                         const float *symbols, size_t symbols_len, const float *ready, size_t ready_len, uint32_t cx, uint32_t cy,
                         uint8_t strategy, uint8_t channel, bool qf_hi, uint8_t predicted, float channel_weight, float lambda,
                         float penalty, float distance, float one, float numerator, float scale, const uint32_t *scan,
                         size_t scan_len, const float *source, size_t source_len, const float *inv_qm, size_t inv_qm_len,
                         const int32_t *levels, size_t levels_len, float *cost, uint32_t *count);

/*
 * Re-picks the levels of a group's blocks, in place and in the order of a list. This is the call that an encoder should use: the book
 * is checked once for the whole list, and the count of nonzero levels that a block is coded by is predicted as ISO/IEC 18181-1 has it,
 * from the blocks settled above and to the left in its channel. (A settled block writes its count over its covered blocks, rounded up,
 * into its cells; these are the call's own.)
 *
 *   search          as for rdoq_block
 *   clusters..ready the price book
 *   blocks          RDOQ_GROUP_WORDS words a block: x and y of its top left cell, its sides cx to the right and cy down, strategy,
 *                   channel, quant class (0 is low, all else high), half-width. A group is 32 by 32 cells of 8 by 8 samples
 *   settings        RDOQ_GROUP_FLOATS floats a block: channel_weight, lambda, penalty, distance, one, numerator, scale
 *   scans, sources, inv_qms, levels
 *                   64 * cx * cy numbers a block, block after block; what is left over is neither read nor refused
 *   choices, row_a, row_b
 *                   working room, as the largest need of a block has it
 *   settled         the number of blocks settled. It is written by every call, with a refusal too
 *
 * A block may come once the cells left of and above its top left cell were listed in its channel, where the group has such cells: from
 * the top left on, row after row, will do. The channels may come one after the other or in turns: blocks of one channel are settled
 * alike whatever blocks of others stand in the list, as long as both lists settle them (proved). What is promised of an answer of
 * rdoq_block is promised of each settled block with its predicted count (proved).
 *
 * Returns 0 where the list was settled to its end. 17, and what is refused of the book or of the list (7, a channel's 9, 29, 30, 31, each
 * over the whole list before the next) come before any search, with 0 settled and nothing changed. A block that is refused, with 8 where
 * fewer numbers are left than it has, stops the list: the blocks before it stay settled, the others keep every level, and the room is
 * as the last settled block left it, or cleared by 15 and 16. A list may write a level of 32,768 where 32,767 is restored to more; a
 * second run over these levels stops there with 12.
 */
uint32_t rdoq_group(uint32_t search, uint32_t clusters, const uint8_t *map, size_t map_len, const uint8_t *configs,
                    size_t configs_len, const float *symbols, size_t symbols_len, const float *ready, size_t ready_len,
                    const uint32_t *blocks, size_t blocks_len, const float *settings, size_t settings_len, const uint32_t *scans,
                    size_t scans_len, const float *sources, size_t sources_len, const float *inv_qms, size_t inv_qms_len,
                    int32_t *levels, size_t levels_len, uint8_t *choices, size_t choices_len, float *row_a, size_t row_a_len,
                    float *row_b, size_t row_b_len, uint32_t *settled);

/*
 * The small product: rdoq_block for blocks of one or two covered blocks, over a window of 32 positions and so in little room. More
 * than two, whatever else is wrong, get 32 before everything, before 17 for the number of the search too, and nothing changes. The
 * product of the sides does not wrap: 3 and 1, 65,536 and 65,536 get 32. The rest is rdoq_block's, with these differences:
 *
 *   the window      32 positions from scan position c on; of these 20 may be restored where c is 1, all where it is 2. The levels past
 *                   it stay, and their ideals are not looked at: a NaN there is no refusal
 *   half-width      6; it is no argument, and 26 is not given
 *   working room    greedy   none
 *                   beam     RDOQ_SMALL_BEAM_CHOICES, 192 choice bytes
 *                   trellis  RDOQ_SMALL_TRELLIS_CHOICES, 448 choice bytes, and two rows of RDOQ_SMALL_ROW, 28 floats
 *
 * What is promised of a trellis's answer there is promised here, of this window: its levels are of least cost in the band (proved).
 */
uint32_t rdoq_small_block(uint32_t search, uint32_t clusters, const uint8_t *map, size_t map_len, const uint8_t *configs,
                          size_t configs_len, const float *symbols, size_t symbols_len, const float *ready, size_t ready_len,
                          uint32_t cx, uint32_t cy, uint8_t strategy, uint8_t channel, bool qf_hi, uint8_t predicted,
                          float channel_weight, float lambda, float penalty, float distance, float one, float numerator,
                          float scale, const uint32_t *scan, size_t scan_len, const float *source, size_t source_len,
                          const float *inv_qm, size_t inv_qm_len, int32_t *levels, size_t levels_len, uint8_t *choices,
                          size_t choices_len, float *row_a, size_t row_a_len, float *row_b, size_t row_b_len, float *cost,
                          uint32_t *count);

/*
 * Writes the tokens of a block: the count of nonzero levels from scan position c on, then each level from there until nothing
 * remains. For each token: its context, and its symbol, number of extra bits and extra bits under the configuration of the
 * context's cluster. No prices are asked for. count is the number of tokens, at most 63 * c + 1, and each output has room for that
 * many; nothing past the tokens changes. Returns 0, or a refusal (the order stands above) and writes nothing.
 */
uint32_t rdoq_write_tokens(uint32_t clusters, const uint8_t *map, size_t map_len, const uint8_t *configs, size_t configs_len,
                           uint32_t cx, uint32_t cy, uint8_t strategy, uint8_t channel, bool qf_hi, uint8_t predicted,
                           const uint32_t *scan, size_t scan_len, const int32_t *levels, size_t levels_len, uint32_t *contexts,
                           size_t contexts_len, uint32_t *symbols, size_t symbols_len, uint32_t *extra_bits, size_t extra_bits_len,
                           uint32_t *bits, size_t bits_len, uint32_t *count);

/*
 * Restores the levels from scan position c on from the symbols and extra bits of exactly one block's tokens, 0 past the last token;
 * the first c stay, and what the others held before does not matter. count is the number of tokens. What rdoq_write_tokens gives is
 * turned back into those levels, and what this call accepts rdoq_write_tokens gives again, symbol by symbol (proved). Returns 0, or
 * a refusal and changes no level.
 */
uint32_t rdoq_read_tokens(uint32_t clusters, const uint8_t *map, size_t map_len, const uint8_t *configs, size_t configs_len,
                          uint32_t cx, uint32_t cy, uint8_t strategy, uint8_t channel, bool qf_hi, uint8_t predicted,
                          const uint32_t *scan, size_t scan_len, const uint32_t *symbols, size_t symbols_len, const uint32_t *bits,
                          size_t bits_len, int32_t *levels, size_t levels_len, uint32_t *count);

/*
 * A tally: counts, 128 a cluster, and the total of extra bits; all 0 to begin with. Adds the tokens given as contexts and values,
 * or takes them out. A symbol above 127 counts as 127. Returns 0, or the first of 1, 2, 3, 4, 17 and 27 (add) or 28 (remove), and
 * the tally stays what it was.
 */
uint32_t rdoq_tally_add(uint32_t clusters, const uint8_t *map, size_t map_len, const uint8_t *configs, size_t configs_len,
                        const uint32_t *contexts, size_t contexts_len, const uint32_t *values, size_t values_len, uint32_t *counts,
                        size_t counts_len, uint64_t *extra);
uint32_t rdoq_tally_remove(uint32_t clusters, const uint8_t *map, size_t map_len, const uint8_t *configs, size_t configs_len,
                           const uint32_t *contexts, size_t contexts_len, const uint32_t *values, size_t values_len,
                           uint32_t *counts, size_t counts_len, uint64_t *extra);

/* The leaves. Each returns 0, or 17 outside its domain. */

/* The packed form of a level within -32,768 to 32,768: 2v where v >= 0, else -2v - 1. */
uint32_t rdoq_pack_signed(int32_t level, uint32_t *packed);

/*
 * The symbol of a value of at most 131,071 under a configuration that passes check 4, how many extra bits it has, and the bits. Symbols
 * run up to 767; those above 127 have no price in a book.
 */
uint32_t rdoq_uint_encode_with_config(uint32_t value, uint32_t split_exponent, uint32_t msb_in_token, uint32_t lsb_in_token,
                                      uint32_t *symbol, uint32_t *extra_bits, uint32_t *bits);

/* The block context, below 30, of a channel of at most 2, a strategy code of at most 26 and a quant class. */
uint32_t rdoq_fine_block_context(uint32_t channel, uint32_t strategy, bool qf_hi, uint32_t *context);

/* The context of a block's nonzero count, by its predicted count, any number, and a block context below 30. */
uint32_t rdoq_fine_non_zero_context(uint32_t non_zeros, uint32_t fine_block_ctx, uint32_t *context);

/* The first coefficient context of a block context below 30. */
uint32_t rdoq_fine_zero_density_contexts_offset(uint32_t fine_block_ctx, uint32_t *offset);

/*
 * The context, below 458, of the coefficient at scan position k within its block context. nonzeros_left counts the nonzero levels from
 * k on: 1 to 64c - k. covered_blocks, c, is a power of two of at most 1,024, k is c to 64c - 1, prev 0 or 1.
 */
uint32_t rdoq_zero_density_context(uint32_t nonzeros_left, uint32_t k, uint32_t covered_blocks, uint32_t prev, uint32_t *context);

/* The same for one covered block. */
uint32_t rdoq_zero_density_context_8x8(uint32_t nonzeros_left, uint32_t k, uint32_t prev, uint32_t *context);

/* The value that a decoder restores from a level within -32,768 to 32,768, by a bias that passes check 10. */
uint32_t rdoq_level(float one, float numerator, int32_t quant, float *level);

/* Lambda from two constants of the encoder and the quant field ratio, which is not NaN. */
uint32_t rdoq_lambda(float rd, float tuning, float ratio, float *lambda);

/* The multiplier of chroma distortion at a distance of 0 to 25. */
uint32_t rdoq_chroma_rdoq_weight(float distance, float *weight);

/* The weight of a position in a window of at most 1,024, at an index of at most the length, at a distance of 0 to 25. */
uint32_t rdoq_distortion_weight(uint32_t window_index, uint32_t window_len, float distance, float *weight);

/*
 * The levels that may be picked for a coefficient, the current one first, and how many there are, 1 to 5. levels has room for exactly
 * five; past the count stands 0, or where `restore` is true the current level. current and ideal lie within -32,767 to 32,767.
 */
uint32_t rdoq_candidates(float ideal, int32_t current, bool restore, int32_t *levels, size_t levels_len, uint32_t *count);

/* How many positions a search covers, and how many of them it may restore. covered_blocks is a power of two of at most 1,024. */
uint32_t rdoq_window_len(uint32_t covered_blocks, size_t *length, size_t *restoring);

/*
 * A store of token runs, each under a block number below 1,024. The caller keeps room (any length) and record (3,073 numbers, all 0
 * in an empty store) and hands both on as the last call left them. record[0] is the number of runs; block number, start and length
 * of each follow, in the order in which the runs stand in room. What stands past them is not read. A run may be empty and is held
 * all the same. From an empty store the answers are those of a plain map from block number to tokens (proved). Returns 0, or the
 * first of 37, 33, then 34 (put) or 35 (drop, read), then 36 (read); a refusal changes nothing.
 *
 * put   holds the tokens under the block number, in place of a run already there. Where they do not fit behind the last run, the
 *       runs are first moved together at the front of room.
 * drop  gives a run's room back; room itself does not change.
 * read  copies the run to the front of tokens, and nothing past it changes; length is its length.
 */
uint32_t rdoq_store_put(uint64_t *room, size_t room_len, uint64_t *record, size_t record_len, uint32_t block,
                        const uint64_t *tokens, size_t tokens_len);
uint32_t rdoq_store_drop(const uint64_t *room, size_t room_len, uint64_t *record, size_t record_len, uint32_t block);
uint32_t rdoq_store_read(const uint64_t *room, size_t room_len, const uint64_t *record, size_t record_len, uint32_t block,
                         uint64_t *tokens, size_t tokens_len, size_t *length);

#ifdef __cplusplus
}
#endif

#endif
