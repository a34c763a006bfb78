/* The inputs of functions of times: decimal days, lists, changes; among their rows stand those of clocks. */
#include "inputs.h"

static void make_decimal_read(struct input *x, size_t i, size_t steps) {
    (void)steps;
    size_t bad = refused(i);
    x->time = any_record((uint32_t)(i % 3), FIRST_DAY);
    x->time.decimal = (double)x->time.day + (double)below(UINT64_C(1) << 36) / (double)(UINT64_C(1) << 36);
    if (!bad) return;
    x->time.scale = bad % 4 == 0 ? 3 : 0;
    x->time.decimal = bad % 4 == 1 ? __builtin_nan("") : bad % 4 == 2 ? 36525.0 : -10227.5;
}

static void make_decimal_write(struct input *x, size_t i, size_t steps) {
    (void)steps;
    size_t bad = refused(i);
    x->time = !bad ? any_time((uint32_t)(i % 3), FIRST_DAY) : bad % 8 == 0 ? second_60() : bad_time(bad);
}

/* ---- lists and changes */

static void make_list(struct input *x, size_t i, size_t steps) {
    x->list = refused(i) && steps == 0 ? bad_list(refused(i)) : listed(steps);
}

/* Of the UTC times one in sixteen is within a second 60. A time that is refused: in itself, expired, in a second that its day
 * lacks, or with a result outside its scale's span. */
static void change(struct input *x, size_t i, uint32_t from, uint32_t to) {
    size_t bad = refused(i);
    x->list = listed(0);
    x->code = to;
    x->time = from == VRK_UTC && below(16) == 0 ? second_60() : any_time(from, to == VRK_GPS ? FIRST_GPS_DAY : FIRST_DAY + 1);
    if (!bad) return;
    switch (bad % 4) {
    case 0: x->time = bad_time(bad / 4); break;
    case 1: x->time = (vrk_handed){VRK_RECORD, from, LISTED + 2, 0, 0, 0, 0}; break;
    case 2: x->time = (vrk_handed){VRK_RECORD, VRK_UTC, 1, DAY, 0, 0, 0}; break;
    case 3: x->time = (vrk_handed){VRK_RECORD, from, from == VRK_GPS ? FIRST_GPS_DAY : FIRST_DAY, 1, 0, 0, 0}; break;
    }
}

static void make_change(struct input *x, size_t i, size_t steps) {
    (void)steps;
    uint32_t from = (uint32_t)(i % 3), to = (from + 1 + (uint32_t)(i / 3 % 2)) % 3;
    change(x, i, from, to);
    size_t bad = refused(i);
    if (bad % 5 == 4) x->code = 3;
    if (bad % 5 == 3) x->list = bad_list(bad / 5);
}

static void make_utc_tai(struct input *x, size_t i, size_t steps) { (void)steps, change(x, i, VRK_UTC, VRK_TAI); }
static void make_tai_utc(struct input *x, size_t i, size_t steps) { (void)steps, change(x, i, VRK_TAI, VRK_UTC); }
static void make_tai_gps(struct input *x, size_t i, size_t steps) {
    (void)steps;
    change(x, i, VRK_TAI, VRK_GPS);
    if (x->time.scale == VRK_UTC) x->time.scale = VRK_TAI;
}

/* UTC to TAI, all answered: times after the last of 64 yearly steps, and times of the whole span. */
static void make_young(struct input *x, size_t i, size_t steps) {
    (void)i;
    *x = (struct input){.time = {VRK_RECORD, VRK_UTC, 13149 + (int64_t)below(23000), below(DAY), 0, 0, 0}, .code = VRK_TAI};
    x->list = listed(steps);
}

static void make_any(struct input *x, size_t i, size_t steps) {
    (void)i;
    *x = (struct input){.time = {VRK_RECORD, VRK_UTC, FIRST_DAY + (int64_t)below(46000), below(DAY), 0, 0, 0}, .code = VRK_TAI};
    x->list = listed(steps);
}

#define ROWS_OF_USES(FUNCTION, USE)                                                                                \
    FUNCTION(decimal_read, make_decimal_read, vrk_time, x->time.decimal, x->time.scale)                            \
    FUNCTION(decimal_write, make_decimal_write, vrk_decimal, x->time)                                              \
    ROWS_OF_CLOCKS(FUNCTION, USE)                                                                                  \
    FUNCTION(list_accepted, make_list, uint32_t, LIST)                                                             \
    FUNCTION(change, make_change, vrk_time, x->time, x->code, LIST)                                                \
    USE("change UTC TAI", make_utc_tai, change, [LISTED_ONLY] = run_plain_change_listed, [ERFA] = run_erfa_change) \
    USE("change TAI UTC", make_tai_utc, change, [LISTED_ONLY] = run_plain_change_listed, [ERFA] = run_erfa_change) \
    USE("change TAI GPS", make_tai_gps, change)
