/* The inputs of clocks: ticks and counts, and their receipts. A window has 2^20 ticks or 2^28 counts, 68 minutes, to either side. */
#include "inputs.h"

static vrk_handed record_at(uint32_t scale, int64_t t) {
    int64_t day = t / DAY - (t % DAY < 0);
    return (vrk_handed){VRK_RECORD, scale, day, (uint64_t)(t - day * DAY), 0, 0, 0};
}

/* A time within the window, told by its microseconds from the reference. */
static vrk_handed near(uint32_t scale, int64_t reference) {
    return record_at(scale, reference + (int64_t)below(7200 * SECOND) - 3600 * SECOND);
}

/* One of eight as a decimal day. */
static vrk_handed or_decimal(size_t i, vrk_handed time) {
    if (i % 8 == 0) time.kind = VRK_DECIMAL, time.decimal = (double)time.day + (double)time.micro / (double)DAY;
    return time;
}

/* A day that no window reaches. */
static int64_t far(int64_t day) { return day + (day < 0 ? 2 : -2); }

/* Of the UTC references one in sixteen lies within an hour before a leap second; the step is then told, and otherwise 0. From the
 * 23rd step on they lie after 1999. */
static size_t any_step(uint32_t scale, size_t first) {
    return scale == VRK_UTC && below(16) == 0 ? first + below(PUBLISHED - first) : 0;
}

/* What is received about it is received in second 60, one in two. */
static vrk_handed or_second_60(size_t step, vrk_handed time) {
    if (step && below(2)) time.day = published_days[step] - 1, time.micro = (uint64_t)DAY + below(SECOND);
    return time;
}

/* How many counts of the window come before the receipt, where each takes rate / per microseconds. The last second before it is
 * left out, since a leap second between receipt and reference may take it away. */
static uint64_t sent(int64_t reference, vrk_handed receipt, int64_t window, int64_t rate, int64_t per) {
    int64_t t = receipt.day * DAY + (int64_t)receipt.micro - reference - SECOND;
    return (uint64_t)((window * rate + t * per) / rate);
}

/* One of 64 is received at its own time, to the microsecond: the reference's count, or, where a leap second is near, the window's
 * last, which comes after it. */
static int is_at_receipt(size_t i) { return i % 64 == 0; }

enum { WINDOW = 1 << 20 };

static vrk_sbt_correlation any_correlation(uint32_t scale, size_t step) {
    vrk_handed r = any_record(scale, FIRST_DAY + 1);
    if (step) r.day = published_days[step] - 1, r.micro = (uint64_t)DAY - 1 - below(3600 * SECOND);
    return (vrk_sbt_correlation){(uint32_t)below(UINT64_C(1) << 32), scale, r.day, r.micro, 3906000000 + below(500001), WINDOW, WINDOW};
}

static int64_t reference_of(const vrk_sbt_correlation *c) { return c->day * DAY + (int64_t)c->micro; }

static vrk_handed near_tick(const vrk_sbt_correlation *c) { return near(c->scale, reference_of(c)); }

static uint32_t tick_before(const vrk_sbt_correlation *c, vrk_handed receipt) {
    return c->tick - WINDOW + (uint32_t)below(sent(reference_of(c), receipt, WINDOW, (int64_t)c->period, 1000000));
}

static void receive_at_once(struct input *x, size_t step) {
    int64_t k = step ? WINDOW : 0, t = k * (int64_t)x->correlation.period / 1000000 - (step ? SECOND : 0);
    x->code = x->correlation.tick + (uint32_t)k;
    x->time = record_at(x->correlation.scale, reference_of(&x->correlation) + t);
}

static void make_unaccepted(vrk_sbt_correlation *c, size_t which) {
    switch (which % 7) {
    case 0: c->period = 3905999999; break;
    case 1: c->period = 3906500001; break;
    case 2: c->scale = 3; break;
    case 3: c->back = (UINT64_C(1) << 31) + 1; break;
    case 4: c->ahead = UINT64_C(1) << 31; break;
    case 5: c->day = LAST_DAY + 1; break;
    case 6: c->micro = DAY; break;
    }
}

/* Outside the window: by days, or half a second past its end, which a leap second brings that much nearer. */
static void put_outside(struct input *x, size_t which) {
    if (x->correlation.scale != VRK_UTC || which % 2 == 0) {
        x->time.day = far(x->time.day);
        return;
    }
    x->correlation = any_correlation(VRK_UTC, 1 + which % (PUBLISHED - 1));
    x->code = x->correlation.tick;
    x->time.day = x->correlation.day + 1;
    x->time.micro = x->correlation.micro + WINDOW * x->correlation.period / 1000000 - (uint64_t)SECOND / 2 - (uint64_t)DAY;
}

static void date_tick(struct input *x, size_t i, uint32_t scale) {
    size_t step = any_step(scale, 1), bad = refused(i);
    x->list = listed(0);
    x->correlation = any_correlation(scale, step);
    x->time = or_second_60(step, near_tick(&x->correlation));
    x->code = tick_before(&x->correlation, x->time);
    if (is_at_receipt(i)) receive_at_once(x, step);
    if (!bad) return;
    switch (bad % 10) {
    case 0: make_unaccepted(&x->correlation, bad / 10); break;
    case 1: x->time.micro = (uint64_t)(scale == VRK_UTC ? DAY + SECOND : DAY); break;
    case 2: x->code = x->correlation.tick + WINDOW + 1; break;
    case 3: put_outside(x, bad / 10); break;
    case 4: /* a reference in the first microsecond of the span */
        x->correlation.day = x->time.day = scale == VRK_GPS ? FIRST_GPS_DAY : FIRST_DAY;
        x->correlation.micro = x->time.micro = 0;
        x->code = x->correlation.tick - 1;
        break;
    case 5: x->list = bad_list(bad / 10); break;
    case 6: x->time.day = 1, x->time.micro = (uint64_t)DAY; break;
    case 7: /* where the list has ended: the reference, the receipt, or the result with a receipt in no second of its day */
        if (bad / 10 % 3 == 0) x->correlation.day = LISTED + 1;
        if (bad / 10 % 3 == 1) x->time.day = LISTED + 1;
        if (bad / 10 % 3 != 2) break;
        x->correlation.day = x->time.day = LISTED;
        x->correlation.micro = (uint64_t)DAY - 1, x->time.micro = (uint64_t)DAY;
        x->code = x->correlation.tick + WINDOW;
        break;
    case 8: x->code = x->correlation.tick + WINDOW; break; /* later than the receipt */
    case 9: /* and past the span's end, where of UTC the list has ended */
        x->correlation.day = x->time.day = LAST_DAY;
        x->correlation.micro = x->time.micro = (uint64_t)DAY - 1;
        x->code = x->correlation.tick + WINDOW;
        break;
    }
}

static void turn_tick(struct input *x, size_t i, uint32_t scale) {
    size_t step = any_step(scale, 1), bad = refused(i);
    x->list = listed(0);
    x->correlation = any_correlation(scale, step);
    x->time = or_decimal(i, or_second_60(step, near_tick(&x->correlation)));
    if (!bad) return;
    switch (bad % 7) {
    case 0: make_unaccepted(&x->correlation, bad / 7); break;
    case 1: x->time = bad_time(bad / 7); break;
    case 2: x->time.scale = (x->time.scale + 1) % 3; break;
    case 3: put_outside(x, bad / 7); break;
    case 4: x->list = bad_list(bad / 7); break;
    case 5: x->time.day = 1, x->time.micro = (uint64_t)DAY; break;
    case 6: x->correlation.day = LISTED + 1; break;
    }
}

static void make_sbt_date(struct input *x, size_t i, size_t steps) { (void)steps, date_tick(x, i, (uint32_t)(i % 3)); }
static void make_sbt_tick(struct input *x, size_t i, size_t steps) { (void)steps, turn_tick(x, i, (uint32_t)(i % 3)); }
static void make_tai_date(struct input *x, size_t i, size_t steps) { (void)steps, date_tick(x, i, VRK_TAI); }
static void make_gps_date(struct input *x, size_t i, size_t steps) { (void)steps, date_tick(x, i, VRK_GPS); }
static void make_utc_date(struct input *x, size_t i, size_t steps) { (void)steps, date_tick(x, i, VRK_UTC); }
static void make_tai_tick(struct input *x, size_t i, size_t steps) { (void)steps, turn_tick(x, i, VRK_TAI); }
static void make_gps_tick(struct input *x, size_t i, size_t steps) { (void)steps, turn_tick(x, i, VRK_GPS); }
static void make_utc_tick(struct input *x, size_t i, size_t steps) { (void)steps, turn_tick(x, i, VRK_UTC); }

enum { GOCE_WINDOW = 1 << 28 };

static uint64_t near_obt(uint64_t obt) { return (obt + below(2 * GOCE_WINDOW) - GOCE_WINDOW) % COUNTS; }

/* A reference of day -1 on to 2024; in one of sixteen the count wraps within the window. */
static vrk_goce_correlation any_goce(size_t step) {
    uint64_t obt0 = below(16) ? below(COUNTS) : near_obt(0), utc0 = below(LISTED * DAY_COUNTS);
    int64_t offset = (int64_t)below(2 * DAY_COUNTS + 1) - DAY_COUNTS;
    if (step) utc0 = (uint64_t)(published_days[step] * DAY_COUNTS - 1 - offset) - below(3600 << 16);
    return (vrk_goce_correlation){obt0, utc0, offset, 999000000 + below(2000001), GOCE_WINDOW, GOCE_WINDOW};
}

static int64_t goce_reference(const vrk_goce_correlation *c) { return ((int64_t)c->utc0 + c->offset) * 15625 / 1024; }

static vrk_handed near_count(const vrk_goce_correlation *c) { return near(VRK_UTC, goce_reference(c)); }

static uint64_t obt_before(const vrk_goce_correlation *c, vrk_handed receipt) {
    uint64_t counts = below(sent(goce_reference(c), receipt, GOCE_WINDOW, (int64_t)c->gradient, 65536000));
    return (c->obt0 + counts - GOCE_WINDOW) % COUNTS;
}

static void receive_goce_at_once(struct input *x, size_t step) {
    int64_t k = step ? GOCE_WINDOW : 0;
    __int128 n = ((__int128)x->goce.utc0 + x->goce.offset) * 1000000000 + (__int128)k * x->goce.gradient;
    x->obt = (x->goce.obt0 + (uint64_t)k) % COUNTS;
    x->time = record_at(VRK_UTC, (int64_t)(n / 65536000) - (step ? SECOND : 0));
}

static void make_unaccepted_goce(vrk_goce_correlation *c, size_t which) {
    switch (which % 9) {
    case 0: c->obt0 = COUNTS; break;
    case 1: c->utc0 += UINT64_C(1) << 63; break;
    case 2: c->offset = DAY_COUNTS + 1; break;
    case 3: c->offset = -DAY_COUNTS - 1; break;
    case 4: c->gradient = 998999999; break;
    case 5: c->gradient = 1001000001; break;
    case 6: c->back = COUNTS / 2 + 1; break;
    case 7: c->ahead = COUNTS / 2; break;
    case 8: c->utc0 = (uint64_t)((LAST_DAY + 1) * DAY_COUNTS - c->offset); break;
    }
}

enum { AFTER_1999 = 23 };

static void make_goce_date(struct input *x, size_t i, size_t steps) {
    (void)steps;
    size_t step = any_step(VRK_UTC, AFTER_1999), bad = refused(i);
    x->list = listed(0);
    x->goce = any_goce(step);
    x->time = or_second_60(step, near_count(&x->goce));
    x->obt = obt_before(&x->goce, x->time);
    if (is_at_receipt(i)) receive_goce_at_once(x, step);
    if (!bad) return;
    switch (bad % 11) {
    case 0: make_unaccepted_goce(&x->goce, bad / 11); break;
    case 1: x->time.micro = (uint64_t)(DAY + SECOND); break;
    case 2: x->obt = (x->goce.obt0 + GOCE_WINDOW + 1) % COUNTS; break;
    case 3: x->time.day = far(x->time.day); break;
    case 4: x->obt |= COUNTS; break;
    case 5: /* a reference in the last count of the span, where the list has ended */
        x->goce.utc0 = (uint64_t)((LAST_DAY + 1) * DAY_COUNTS - 1 - x->goce.offset);
        x->time.day = LAST_DAY, x->time.micro = (uint64_t)DAY - 1;
        x->obt = (x->goce.obt0 + GOCE_WINDOW) % COUNTS;
        break;
    case 6: /* as far back as a count can be, before the span */
        x->goce.back = COUNTS / 2, x->obt = x->goce.obt0 ^ COUNTS / 2;
        break;
    case 7: /* several at once */
        make_unaccepted_goce(&x->goce, bad / 11);
        x->time.micro = (uint64_t)(DAY + SECOND);
        if (bad / 11 % 2) x->obt |= COUNTS;
        break;
    case 8: x->list = bad_list(bad / 11); break;
    case 9: x->time.day = 1, x->time.micro = (uint64_t)DAY; break;
    case 10: x->obt = (x->goce.obt0 + GOCE_WINDOW) % COUNTS; break; /* later than the receipt */
    }
}

static void make_goce_count(struct input *x, size_t i, size_t steps) {
    (void)steps;
    size_t step = any_step(VRK_UTC, AFTER_1999), bad = refused(i);
    x->list = listed(0);
    x->goce = any_goce(step);
    x->time = or_decimal(i, or_second_60(step, near_count(&x->goce)));
    if (!bad) return;
    switch (bad % 8) {
    case 0: make_unaccepted_goce(&x->goce, bad / 8); break;
    case 1: x->time = bad_time(bad / 8); break;
    case 2: x->time.scale = bad / 8 % 2 ? VRK_TAI : VRK_GPS; break;
    case 3: x->time.day = far(x->time.day); break;
    case 4: x->time.day = 1, x->time.micro = (uint64_t)DAY; break;
    case 5: make_unaccepted_goce(&x->goce, bad / 8), x->time = bad_time(bad / 8); break;
    case 6: x->list = bad_list(bad / 8); break;
    case 7: x->goce.utc0 = (uint64_t)((LISTED + 2) * DAY_COUNTS - x->goce.offset); break;
    }
}

#define ROWS_OF_CLOCKS(FUNCTION, USE)                                                                      \
    FUNCTION(sbt_date, make_sbt_date, vrk_time, x->code, x->correlation, x->time.day, x->time.micro, LIST) \
    USE("sbt_date TAI", make_tai_date, sbt_date)                                                           \
    USE("sbt_date GPS", make_gps_date, sbt_date)                                                           \
    USE("sbt_date UTC", make_utc_date, sbt_date)                                                           \
    FUNCTION(sbt_tick, make_sbt_tick, vrk_count, x->time, x->correlation, LIST)                            \
    USE("sbt_tick TAI", make_tai_tick, sbt_tick)                                                           \
    USE("sbt_tick GPS", make_gps_tick, sbt_tick)                                                           \
    USE("sbt_tick UTC", make_utc_tick, sbt_tick)                                                           \
    FUNCTION(goce_date, make_goce_date, vrk_time, x->obt, x->goce, x->time.day, x->time.micro, LIST)       \
    FUNCTION(goce_count, make_goce_count, vrk_count, x->time, x->goce, LIST)
