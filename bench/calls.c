/* Calls every function of the library beside the same work of the other contenders, over the same inputs.
 *
 *    calls time REPEATS                        compares all answers, then measures: best of REPEATS, the contenders in turn
 *    calls count ROW STEPS WHO INPUTS CALLS    makes that many inputs and calls, and prints nothing: for counting instructions */
#include "calls.h"
#include "others.h"
#include "plain.h"

extern int printf(const char *, ...);
extern int strcmp(const char *, const char *);
extern int atoi(const char *);
extern void *memset(void *, int, size_t);
extern int memcmp(const void *, const void *, size_t);
extern void *memcpy(void *, const void *, size_t);
struct timespec { long seconds, nanos; };
extern int clock_gettime(int, struct timespec *);
enum { MONOTONIC = 1 };

#include "inputs_times.c"

#include "inputs_bytes.c"
#include "inputs_runs.c"
#include "inputs_text.c"
#include "inputs_clocks.c"
#include "inputs_uses.c"
#include "inputs_season.c"

#define EACH_ROW(FUNCTION, USE)                                \
    ROWS_OF_USES(FUNCTION, USE) ROWS_OF_SEASONS(FUNCTION, USE) \
    ROWS_OF_BYTES(FUNCTION, USE) ROWS_OF_RUNS(FUNCTION, USE)   \
    ROWS_OF_TEXTS(FUNCTION, USE)

static struct input inputs[INPUTS];
static uint64_t answers[INPUTS][5], expected[INPUTS][5];
static uint8_t lent[INPUTS][LENT], expected_lent[INPUTS][LENT];
static union { int64_t words[WIDE]; uint8_t bytes[WIDE * 8]; } wide[FILES], expected_wide[FILES];

/* ---- a loop for each contender of each function; the answer is kept as it is returned */

#define RUN(function, type, ...)                                                            \
    static void run_##function(size_t n) {                                                  \
        _Static_assert(sizeof(type) <= sizeof answers[0], "no answer is longer");           \
        for (size_t i = 0; i < n; i++) {                                                    \
            const struct input *x = inputs + i;                                             \
            type answer = function(__VA_ARGS__);                                            \
            __builtin_memcpy(answers[i], &answer, sizeof answer);                           \
        }                                                                                   \
    }
/* A twin is weak here, so that one that is not there is null; plain.c does not see it so, since nothing weak is inlined. */
#define WEAK(name) __attribute__((weak)) __typeof__(vrk_##name) plain_##name;
EACH_FUNCTION(WEAK)
#define BOTH(name, make, type, ...)                                                         \
    enum { halves_of_##name = halves_##type };                                              \
    RUN(vrk_##name, type, __VA_ARGS__)                                                      \
    RUN(plain_##name, type, __VA_ARGS__)
#define NEITHER(...)

EACH_ROW(BOTH, NEITHER)
RUN(plain_change_listed, vrk_time, x->time, x->code, LIST)
RUN(plain_nothing, vrk_time, GIVEN)
#ifdef HAS_ERFA
RUN(erfa_change, vrk_time, x->time, x->code)
#else
#define run_erfa_change 0
#endif
#ifdef HAS_DATE
RUN(date_text_read, vrk_time, GIVEN)
#else
#define run_date_text_read 0
#endif

/* ---- the rows */

enum { DESK, PLAIN, LISTED_ONLY, ERFA, DATE, CONTENDERS };
static const char *const who[CONTENDERS] = {"desk", "plain", "listed", "erfa", "date"};

struct row {
    const char *name;
    making *make;
    int halves; /* of the answer, that count */
    int grows;  /* measured at 1 to 64 steps */
    void (*run[CONTENDERS])(size_t);
    void (*twin)(void); /* null where there is none */
};

#define ROW(words, maker, function, growth, ...)                                            \
    {                                                                                       \
        .name = words, .make = maker, .halves = halves_of_##function, .grows = growth,      \
        .run = {[DESK] = run_vrk_##function, [PLAIN] = run_plain_##function, __VA_ARGS__},  \
        .twin = (void (*)(void))plain_##function,                                           \
    },
#define FUNCTION_ROW(name, maker, ...) ROW(#name, maker, name, 0)
#define USE_ROW(words, maker, function, ...) ROW(words, maker, function, 0, __VA_ARGS__)

static const struct row rows[] = {
    EACH_ROW(FUNCTION_ROW, USE_ROW)
    {
        .name = "nothing", .make = make_cuc_read, .halves = halves_vrk_time,
        .run = {[PLAIN] = run_plain_nothing},
        .twin = (void (*)(void))plain_nothing,
    },
    ROW("list_accepted", make_list, list_accepted, 1)
    ROW("change, young", make_young, change, 1, [LISTED_ONLY] = run_plain_change_listed)
    ROW("change, any", make_any, change, 1, [LISTED_ONLY] = run_plain_change_listed)
};
enum { ROWS = sizeof rows / sizeof rows[0] };

static int is_there(const struct row *row, int c) { return row->run[c] && (c != PLAIN || row->twin); }

/* ---- comparing */

static int is_flag(const struct row *row) { return row->halves == halves_uint32_t; }

static int is_refused(const struct row *row, const uint64_t *answer) {
    return is_flag(row) ? (uint32_t)answer[0] == 0 : (uint32_t)answer[0] != 0;
}

static int same(const struct row *row, const uint64_t *a, const uint64_t *b) {
    for (int half = 0; row->halves >> half; half++)
        if (row->halves >> half & 1 && (uint32_t)((a[half / 2] ^ b[half / 2]) >> half % 2 * 32) != 0) return 0;
    return 1;
}

static void fresh(const struct row *row, int c) {
    memset(answers, 0, sizeof answers);
    memset(lent, 0xA5, sizeof lent);
    memset(wide, 0xA5, sizeof wide);
    row->run[c](INPUTS);
}

static void tell(int c, const uint64_t *answer) {
    printf(" %s", who[c]);
    for (size_t k = 0; k < sizeof answers[0] / sizeof answers[0][0]; k++) printf(" %lx", answer[k]);
}

/* How many are refused, or -1 where two contenders differ. One that does less is held to the answers, not to the
 * refusals, and date not to second 60. */
static int compared(const struct row *row, uint64_t *numbers) {
    int count = 0, first = is_there(row, DESK) ? DESK : PLAIN;
    fresh(row, first);
    memcpy(expected, answers, sizeof expected);
    memcpy(expected_lent, lent, sizeof lent);
    memcpy(expected_wide, wide, sizeof wide);
    for (size_t i = 0; i < INPUTS; i++) {
        if (!is_refused(row, expected[i])) continue;
        count++;
        if (!is_flag(row)) *numbers |= UINT64_C(1) << (uint32_t)expected[i][0];
    }
    for (int c = first + 1; c < CONTENDERS; c++) {
        if (!is_there(row, c)) continue;
        fresh(row, c);
        for (size_t i = 0; i < INPUTS; i++) {
            if (c > PLAIN && is_refused(row, expected[i])) continue;
            if (c == DATE && expected[i][2] >= UINT64_C(86400000000)) continue;
            int as_lent = memcmp(lent[i], expected_lent[i], LENT) == 0;
            int as_wide = memcmp(wide + i % FILES, expected_wide + i % FILES, sizeof *wide) == 0;
            if (same(row, answers[i], expected[i]) && as_lent && as_wide) continue;
            printf("answer or lent bytes differ: %s, input %d:", row->name, (int)i);
            tell(first, expected[i]), tell(c, answers[i]), printf("\n");
            return -1;
        }
    }
    return count;
}

/* ---- measuring */

static double now(void) {
    struct timespec t;
    clock_gettime(MONOTONIC, &t);
    return (double)t.seconds * 1e9 + (double)t.nanos;
}

/* Nanoseconds a call, best of all repeats. A turn is long enough for the clock. */
static void measure(const struct row *row, int repeats, double *best) {
    enum { TURN = 500000 };
    int loops[CONTENDERS];
    for (int c = 0; c < CONTENDERS; c++) {
        best[c] = 0, loops[c] = 1;
        if (!is_there(row, c)) continue;
        row->run[c](INPUTS);
        double began = now();
        row->run[c](INPUTS);
        double once = now() - began;
        if (once > 0 && once < TURN) loops[c] = (int)(TURN / once) + 1;
    }
    for (int r = 0; r < repeats; r++)
        for (int c = 0; c < CONTENDERS; c++) {
            if (!is_there(row, c)) continue;
            double began = now();
            for (int k = 0; k < loops[c]; k++) row->run[c](INPUTS);
            double each = (now() - began) / loops[c] / INPUTS;
            if (best[c] == 0 || each < best[c]) best[c] = each;
        }
}

static int all(int repeats) {
    for (int pass = 0; pass < 2; pass++)
        for (int r = 0; r < ROWS; r++)
            for (size_t steps = rows[r].grows; steps <= MOST; steps *= 2) {
                double best[CONTENDERS];
                uint64_t numbers = 0;
                make_inputs(inputs, INPUTS, rows[r].make, steps);
                if (pass == 0) {
                    int count = compared(rows + r, &numbers);
                    if (count < 0) return 1;
                    printf("compared|%d|%s|%d|%d|%d|%lu\n", r, rows[r].name, (int)steps, INPUTS, count, numbers);
                } else {
                    measure(rows + r, repeats, best);
                    for (int c = 0; c < CONTENDERS; c++)
                        if (is_there(rows + r, c)) printf("ns|%d|%d|%s|%.3f\n", r, (int)steps, who[c], best[c]);
                }
                if (steps == 0) break;
            }
    return 0;
}

/* So many calls of one contender, over the same inputs whether it is called or not. */
static int counted(int r, size_t steps, int c, size_t made, size_t calls) {
    if (r < 0 || r >= ROWS || c < 0 || c >= CONTENDERS || made > INPUTS || calls > made || !is_there(rows + r, c)) return 2;
    make_inputs(inputs, made, rows[r].make, steps);
    rows[r].run[c](calls);
    return 0;
}

/* Moves all code by so many bytes: the same code takes another time at another place. */
#define TOLD(n) #n
#define SPACE(n) __asm__(".text\n.space " TOLD(n))
SPACE(GAP);

int main(int count, char **words) {
    if (count == 3 && strcmp(words[1], "time") == 0) return all(atoi(words[2]));
    if (count != 7 || strcmp(words[1], "count") != 0) return 2;
    int c = 0;
    while (c < CONTENDERS && strcmp(words[4], who[c]) != 0) c++;
    return counted(atoi(words[2]), (size_t)atoi(words[3]), c, (size_t)atoi(words[5]), (size_t)atoi(words[6]));
}
