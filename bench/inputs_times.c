/* Numbers by chance, times and leap lists. */
#include "inputs.h"

static uint64_t state;

/* A step of splitmix64: any generator does that is the same at every time. */
static uint64_t below(uint64_t n) {
    uint64_t z = state += UINT64_C(0x9E3779B97F4A7C15);
    z = (z ^ z >> 30) * UINT64_C(0xBF58476D1CE4E5B9);
    z = (z ^ z >> 27) * UINT64_C(0x94D049BB133111EB);
    return (z ^ z >> 31) % n;
}

/* Of four times that are not refused for their mark one is from Proteus, one correlated and two are plain, one of these with a
 * source that nothing may look at. The chance is its own: times to be refused and decimal days have marks too, and no other number
 * of an input depends on them. */
static void mark(vrk_handed *h, size_t i) {
    uint64_t chance = i * UINT64_C(0x9E3779B97F4A7C15);
    if (h->mark != VRK_PLAIN) return;
    if (chance >> 62 == 1) h->mark = VRK_PROTEUS, h->source = chance >> 61 & 1;
    if (chance >> 62 == 2) h->mark = VRK_CORRELATED, h->source = chance;
    if (chance >> 62 == 3) h->source = chance;
}

/* Makes n inputs of one kind, the same at every time. */
static void make_inputs(struct input *x, size_t n, making *make, size_t steps) {
    state = 1;
    for (size_t i = 0; i < n; i++) {
        x[i] = (struct input){0};
        make(x + i, i, steps);
        mark(&x[i].time, i);
    }
}

static vrk_handed any_record(uint32_t scale, int64_t first) {
    int64_t from = first > FIRST_GPS_DAY || scale != VRK_GPS ? first : FIRST_GPS_DAY;
    return (vrk_handed){VRK_RECORD, scale, from + (int64_t)below((uint64_t)(LISTED - from + 1)), below(DAY), 0, 0, 0};
}

static vrk_handed any_time(uint32_t scale, int64_t first) {
    vrk_handed h = any_record(scale, first);
    if (below(8) != 0) return h;
    h.kind = VRK_DECIMAL;
    h.decimal = (double)h.day + (double)below(UINT64_C(1) << 36) / (double)(UINT64_C(1) << 36);
    h.day = 0, h.micro = 0;
    return h;
}

static vrk_handed bad_time(size_t which) {
    vrk_handed h = {VRK_RECORD, VRK_TAI, 0, 0, 0, 0, 0};
    switch (which % BAD_TIMES) {
    case 0: h.kind = 2; break;
    case 1: h.scale = 3; break;
    case 2: h.kind = VRK_DECIMAL, h.decimal = __builtin_nan(""); break;
    case 3: h.kind = VRK_DECIMAL, h.decimal = -__builtin_inf(); break;
    case 4: h.scale = VRK_GPS, h.day = FIRST_GPS_DAY - 1; break;
    case 5: h.scale = VRK_UTC, h.micro = DAY + SECOND; break;
    case 6: h.kind = VRK_DECIMAL, h.decimal = 36525; break;
    case 7: h.day = LAST_DAY + 1; break;
    case 8: h.micro = DAY; break;
    case 9: h.mark = VRK_CORRELATED + 1; break;
    case 10: h.mark = VRK_PROTEUS, h.source = 2; break;
    }
    return h;
}

/* ---- leap lists */

static int64_t yearly_days[MOST + 1], wrong_days[4][PUBLISHED];
static uint64_t offsets[MOST + 1], wrong_offsets[2][PUBLISHED];
static struct leap_list good, bad[BAD_LISTS];

static vrk_handed second_60(void) {
    return (vrk_handed){VRK_RECORD, VRK_UTC, published_days[1 + below(PUBLISHED - 1)] - 1, DAY + below(SECOND), 0, 0, 0};
}

/* The published list, or one with a step on each 1 January from 1972 on that speaks of all days. */
static const struct leap_list *listed(size_t steps) {
    for (size_t k = 0; k <= MOST; k++) {
        struct date d = {1972 + (unsigned)k, 1, 1};
        yearly_days[k] = day_of(d), offsets[k] = 10 + k;
    }
    good = steps ? (struct leap_list){yearly_days, offsets, steps, steps, LAST_DAY}
                 : (struct leap_list){published_days, offsets, PUBLISHED, PUBLISHED, LISTED};
    return &good;
}

/* The published list with one thing wrong, and a list that is too long. */
static const struct leap_list *bad_list(size_t which) {
    enum { END = PUBLISHED - 1, MIDDLE = PUBLISHED / 2 };
    for (size_t k = 0; k < BAD_LISTS; k++) bad[k] = *listed(0);
    for (size_t k = 0; k < PUBLISHED; k++) {
        for (size_t n = 0; n < 4; n++) wrong_days[n][k] = published_days[k];
        wrong_offsets[0][k] = offsets[k], wrong_offsets[1][k] = offsets[k] + 1;
    }
    wrong_days[0][END]++, wrong_days[1][MIDDLE]--;       /* no firsts of a month */
    wrong_days[2][MIDDLE] = published_days[MIDDLE - 1];  /* days that do not rise */
    wrong_days[3][0] = FIRST_DAY + 31;                   /* another first step */
    wrong_offsets[0][END]++;                             /* an offset that does not count up */
    for (size_t k = 0; k < 4; k++) bad[k].days = wrong_days[k];
    for (size_t k = 0; k < 2; k++) bad[4 + k].offsets = wrong_offsets[k];
    bad[6].last = published_days[END] - 2;
    bad[7].last = LAST_DAY + 1;
    bad[8].offset_count--;
    bad[9] = (struct leap_list){0, 0, 0, 0, LISTED};
    bad[10] = (struct leap_list){yearly_days, offsets, MOST + 1, MOST + 1, LAST_DAY};
    return &bad[which % BAD_LISTS];
}
