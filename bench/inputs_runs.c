/* The inputs of SIRAL's runs: packets of one second, whose extra counter goes on by chance. */
#include "inputs.h"

enum { LONGEST = 512, SHORT = 16, PLACES = WIDE / (INPUTS / FILES), UNITS = 484848, ROLL = 65536, SPOILS = 9 };

#define SPAN_END ((uint64_t)((LAST_DAY + 1) * DAY))

/* Of short runs each input has its own, and places of its own in what is lent, two more than its packets at most. */
static uint8_t long_runs[FILES][10 * LONGEST], short_runs[INPUTS][10 * SHORT];
_Static_assert(SHORT + 2 <= PLACES, "the places of two short runs do not meet");

/* A field of n packets. */
static void put_all(uint8_t *b, size_t n, size_t at, size_t length, uint64_t value) {
    for (; n > 0; n--, b += 10) put(b + at, length, value);
}

/* The three fields at so many microseconds since day 0. */
static void put_fronts(uint8_t *b, size_t n, uint64_t at) {
    put_all(b, n, 0, 2, at / DAY), put_all(b, n, 2, 4, at % DAY / 1000), put_all(b, n, 6, 2, at % 1000);
}

/* Totals from a told one on that stay within the second, of eight one as the one before; the last is returned. */
static uint64_t put_counters(uint8_t *b, size_t n, uint64_t told) {
    uint64_t total = told, step = (UNITS - told) / n;
    for (; n > 0; n--, b += 10) {
        if (below(8)) total += below(step < ROLL ? step + 1 : ROLL);
        put(b + 8, 2, total);
    }
    return total;
}

/* The same with a last total that is given, less than a roll after a told one. */
static uint64_t end_with(struct run *r, uint8_t *b, size_t n, uint64_t last) {
    r->told = last - 1 - below(ROLL - 1);
    put_counters(b, n, r->told), put(b + 10 * n - 2, 2, last);
    return last;
}

/* When a second with this last total begins; of sixteen one begins just before midnight, and one ends with the span. */
static uint64_t any_pulse(uint64_t last) {
    uint64_t chance = below(16);
    if (chance == 0) return (1 + below(LAST_DAY)) * DAY - 1 - below(SECOND);
    return chance == 1 ? SPAN_END - 1 - last * 33 / 16 : below(SPAN_END - SECOND);
}

/* One thing wrong, in all packets or from one on. */
static void spoil(struct run *r, uint8_t *b, size_t n, uint64_t last, size_t which) {
    const size_t k = below(2) * below(n);
    switch (which % SPOILS) {
    case 0: r->count = 10 * n - 1 - below(9); break;
    case 1: put_all(b + 10 * k, n - k, 2, 4, 86400000); break;
    case 2: put_all(b + 10 * k, n - k, 6, 2, 1000); break;
    case 3: b[10 * below(n) + below(8)] ^= 1; break; /* a run of one packet differs from none */
    case 4: end_with(r, b, n, UNITS + 1); break;
    case 5: r->told = below(2) ? UNITS + 1 + below(ROLL) : UINT64_MAX - below(ROLL); break;
    case 6: put_fronts(b, n, SPAN_END - last * 33 / 16); break;
    case 7: put_fronts(b, n, SPAN_END + below(29000 * DAY)); break;
    case 8: r->date_count = below(n); break;
    }
}

/* Of the runs that are answered one in eight ends with the last total of all, and one in sixteen is empty; of those that are
 * refused one in two has two things wrong. */
static void make_siral_run(struct input *x, size_t i, size_t steps) {
    (void)steps;
    uint8_t *b = short_runs[i];
    const size_t bad = refused(i), n = 1 + below(SHORT);
    struct run *r = &x->run;
    *r = (struct run){b, 10 * n, below(2) * below(UNITS + 1), i / FILES * PLACES, n + below(3)};
    const uint64_t last = below(8) ? put_counters(b, n, r->told) : end_with(r, b, n, UNITS);
    put_fronts(b, n, any_pulse(last));
    if (bad) spoil(r, b, n, last, bad);
    else if (below(16) == 0) r->count = 0, r->told = ~r->told;
    if (bad / SPOILS % 2) spoil(r, b, n, last, bad / SPOILS / 2);
}

/* Nothing told, and all answered. */
static void make_run(struct input *x, size_t i, size_t n) {
    uint8_t *b = long_runs[i % FILES];
    if (i < FILES) put_fronts(b, n, any_pulse(put_counters(b, n, 0)));
    x->run = (struct run){b, 10 * n, 0, 0, n};
}

static void make_run_1(struct input *x, size_t i, size_t steps) { (void)steps, make_run(x, i, 1); }
static void make_run_22(struct input *x, size_t i, size_t steps) { (void)steps, make_run(x, i, 22); }
static void make_run_512(struct input *x, size_t i, size_t steps) { (void)steps, make_run(x, i, 512); }

#define RUN_AND_DATES x->run.bytes, x->run.count, x->run.told, wide[i % FILES].words + x->run.first, x->run.date_count

#define ROWS_OF_RUNS(FUNCTION, USE)                              \
    FUNCTION(siral_run, make_siral_run, vrk_run, RUN_AND_DATES)  \
    USE("siral_run, 1 packet", make_run_1, siral_run)            \
    USE("siral_run, 22", make_run_22, siral_run)                 \
    USE("siral_run, 512", make_run_512, siral_run)
