/*
 * What a caller owes the floating-point environment, and what happens otherwise: a book that was filled while sums were rounded to nearest gets refusal 6
 * while they are rounded upward, and passes again afterwards. The exit status counts the answers that differ.
 */
#include <fenv.h>
#include <stdio.h>

#include "rdoq.h"

int main(void) {
    static uint8_t map[RDOQ_CONTEXTS];
    static const uint8_t configs[3] = {4, 2, 0};
    static float symbols[RDOQ_SYMBOLS], ready[RDOQ_READY];
    for (unsigned i = 0; i < RDOQ_SYMBOLS; i++) symbols[i] = 0.1f + 0.3f * (float)i;
    static const struct { const char *name; int mode; uint32_t due; } turns[] = {
        {"rounding to nearest", FE_TONEAREST, 0}, {"rounding upward", FE_UPWARD, 6}, {"rounding to nearest again", FE_TONEAREST, 0},
    };
    int wrong = 0;
    uint32_t filled = rdoq_fill_ready(1, map, sizeof map, configs, sizeof configs, symbols, RDOQ_SYMBOLS, ready, RDOQ_READY);
    wrong += filled != 0;
    for (unsigned i = 0; i < 3; i++) {
        fesetround(turns[i].mode);
        uint32_t code = rdoq_check_book(1, map, sizeof map, configs, sizeof configs, symbols, RDOQ_SYMBOLS, ready, RDOQ_READY);
        fesetround(FE_TONEAREST);
        printf("%-26s %u\n", turns[i].name, (unsigned)code);
        wrong += code != turns[i].due;
    }
    return wrong;
}
