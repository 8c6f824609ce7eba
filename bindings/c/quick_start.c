#include <stdio.h>

#include "rdoq_easy.h"

int main(void) {
    /* once for each entropy code: a price for every symbol, here of one cluster with split 4,2,0 */
    static uint8_t map[RDOQ_CONTEXTS];
    static const uint8_t configs[3] = {4, 2, 0};
    static float symbols[RDOQ_SYMBOLS], ready[RDOQ_READY];
    for (unsigned s = 0; s < RDOQ_SYMBOLS; s++) symbols[s] = 1.0f + 0.25f * (float)s;
    rdoq_book book = rdoq_book_of(1, RDOQ_LIST(map), RDOQ_LIST(configs));
    rdoq_book_symbols(&book, RDOQ_LIST(symbols));
    uint32_t code = rdoq_book_fill(&book, RDOQ_LIST(ready));

    /* once for each thread: this much serves every block and search */
    static rdoq_room_memory memory;
    const rdoq_room room = rdoq_room_of(&memory);

    /* for each block */
    uint32_t scan[64];
    float source[64], inv_qm[64];
    int32_t levels[64];
    for (int i = 0; i < 64; i++) {
        scan[i] = (uint32_t)i;
        source[i] = 5.9f / (1.0f + (float)i);
        inv_qm[i] = 1.0f;
        levels[i] = (int32_t)(source[i] + 0.5f);
    }
    rdoq_block_data block = {
        {1, 1, 0, 1, false, 4}, /* sides in 8-sample units, strategy, channel Y, quant class, predicted count */
        rdoq_settings_default(),
        rdoq_bias_default(1),
        1.0f, /* scale */
        RDOQ_LIST(scan), RDOQ_LIST(source), RDOQ_LIST(inv_qm),
    };
    block.settings.lambda = 0.1f;
    rdoq_answer before, after;
    if (code == 0) code = rdoq_cost_of_input(&book, &block, RDOQ_LIST(levels), &before);
    if (code == 0) code = rdoq_search_block(RDOQ_TRELLIS, &book, &block, RDOQ_LIST(levels), &room, &after);
    if (code == 0)
        printf("%u nonzero levels, cost %.4f; %.4f before, %.4f saved\n", (unsigned)after.count, after.cost, before.cost,
               before.cost - after.cost);
    else printf("refusal %u: %s\n", (unsigned)code, rdoq_refusal_text(code));
    return (int)code;
}
