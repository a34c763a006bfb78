/* The small interface of small.py, so that what is made for it can be called; vrk_touch does what no function may. */
#include "vrikshonem.h"

vrk_sums vrk_sum(const uint8_t *label, size_t label_count, uint32_t scale, const int64_t *words, size_t words_count,
                 int64_t *dates, size_t dates_count, const uint64_t *offsets, size_t offsets_count, uint8_t *out,
                 size_t out_count) {
    vrk_sums sums = {scale, 0, 0, 0};
    for (size_t k = 0; k < label_count; k++) sums.label += label[k];
    for (size_t k = 0; k < words_count; k++) sums.words += words[k];
    for (size_t k = 0; k < offsets_count; k++) sums.offsets += offsets[k];
    for (size_t k = 0; k < dates_count && k < words_count; k++) dates[k] = -words[k];
    for (size_t k = 0; k < out_count; k++) out[k] ^= 0xFF;
    return sums;
}

vrk_outer vrk_turn(vrk_outer given, int32_t times, uint16_t narrow) {
    vrk_outer turned = {given.first + narrow, {(uint8_t)(given.inner.a + 1), given.inner.b * times}, -given.last};
    return turned;
}

double vrk_half(double x) { return x / 2; }

int64_t vrk_nothing(void) { return -1; }

uint32_t vrk_touch(uint32_t how, const int64_t *words, size_t words_count, int64_t *out, size_t out_count) {
    volatile int64_t *given = (volatile int64_t *)words, *lent = out;
    switch (how) {
    case 1: return (uint32_t)given[words_count];
    case 2: lent[out_count] = 0; break;
    case 3: lent[-1] = 0; break;
    case 4: given[-1] = 0; break;
    case 5: for (volatile int again = 1; again;) {}
    }
    return 0;
}
