/* Plain C: SBT ticks by a correlation. A part of plain.c. */

enum { LEAST_PERIOD = 3906000000u, MOST_PERIOD = 3906500000u };

static inline int is_correlation(const vrk_sbt_correlation *c) {
    return c->scale <= VRK_GPS && spans_plainly(c->scale, c->day, c->micro) && c->period >= LEAST_PERIOD &&
           c->period <= MOST_PERIOD && c->back <= UINT64_C(1) << 31 && c->ahead < UINT64_C(1) << 31;
}

/* Microseconds since day 0 of the tick that is k after the reference, rounded down. No product is above 2^63. */
static inline int64_t time_of_tick(const vrk_sbt_correlation *c, int64_t k) {
    return c->day * DAY + (int64_t)c->micro + floored(k * (int64_t)c->period, 1000000);
}

vrk_time plain_sbt_date(uint32_t tick, vrk_sbt_correlation c, int64_t receipt_day, uint64_t receipt_micro, const int64_t *days,
                        size_t day_count, const uint64_t *offsets, size_t offset_count, int64_t last) {
    if (c.scale == VRK_UTC && !is_accepted(days, day_count, offsets, offset_count, last))
        return no_time(VRK_LIST_NOT_ACCEPTED, VRK_UTC);
    if (!is_correlation(&c)) return no_time(VRK_CORRELATION_NOT_ACCEPTED, c.scale <= VRK_GPS ? c.scale : 0);
    if (!spans(c.scale, receipt_day, receipt_micro)) return no_time(VRK_OUTSIDE_SPAN, c.scale);
    int64_t k = (int32_t)(tick - c.tick), back = -(int64_t)c.back, ahead = (int64_t)c.ahead;
    if (k < back || k > ahead) return no_time(VRK_NOT_IN_FORCE, c.scale);
    vrk_time receipt = a_time(c.scale, receipt_day, (int64_t)receipt_micro);
    int64_t begin = time_of_tick(&c, back), end = time_of_tick(&c, ahead), at = time_of_tick(&c, k);
    if (c.scale == VRK_UTC) {
        struct list l = {days, offsets, day_count, last};
        return marked(clocked(&l, c.day, receipt, begin, end, at), VRK_CORRELATED, c.tick);
    }
    if (micros_of(receipt) < begin || micros_of(receipt) > end) return no_time(VRK_NOT_IN_FORCE, c.scale);
    if (at > micros_of(receipt)) return no_time(VRK_RESULT_LATER, c.scale);
    return marked(time_at(c.scale, at, VRK_RESULT_OUTSIDE), VRK_CORRELATED, c.tick);
}

/* The last k with k * P < (t + 1) * 10^6, t being counted from the reference. */
vrk_count plain_sbt_tick(vrk_handed time, vrk_sbt_correlation c, const int64_t *days, size_t day_count, const uint64_t *offsets,
                         size_t offset_count, int64_t last) {
    vrk_time t = taken(time);
    if (t.refusal && t.refusal <= VRK_DECIMAL_NOT_FINITE) return (vrk_count){t.refusal, 0};
    if (c.scale == VRK_UTC && !is_accepted(days, day_count, offsets, offset_count, last))
        return (vrk_count){VRK_LIST_NOT_ACCEPTED, 0};
    if (!is_correlation(&c)) return (vrk_count){VRK_CORRELATION_NOT_ACCEPTED, 0};
    if (t.refusal) return (vrk_count){t.refusal, 0};
    int64_t at = micros_of(t);
    struct list l = {days, offsets, day_count, last};
    uint32_t refusal = c.scale == VRK_UTC ? unclocked(&l, c.day, t, &at) : t.scale != c.scale ? VRK_NO_IMAGE : 0;
    if (refusal) return (vrk_count){refusal, 0};
    if (at < time_of_tick(&c, -(int64_t)c.back) || at > time_of_tick(&c, (int64_t)c.ahead))
        return (vrk_count){VRK_NOT_IN_FORCE, 0};
    int64_t k = floored((at - time_of_tick(&c, 0) + 1) * 1000000 - 1, (int64_t)c.period);
    if (k > (int64_t)c.ahead) k = (int64_t)c.ahead;
    return (vrk_count){0, (uint32_t)(c.tick + (uint32_t)k)};
}
