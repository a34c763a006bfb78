/* Plain C: GOCE counts by a correlation. A part of plain.c. */

enum { LEAST_GRADIENT = 999000000, MOST_GRADIENT = 1001000000 };

static inline int64_t reference(const vrk_goce_correlation *c) { return (int64_t)c->utc0 + c->offset; }

/* The reference is never before day -1, so that only the end of the span is tested. */
static inline int is_goce_correlation(const vrk_goce_correlation *c) {
    return c->obt0 < COUNTS && c->utc0 < COUNTS && c->offset >= -DAY_COUNTS && c->offset <= DAY_COUNTS &&
           c->gradient >= LEAST_GRADIENT && c->gradient <= MOST_GRADIENT && c->back <= COUNTS / 2 && c->ahead < COUNTS / 2 &&
           reference(c) < (LAST_DAY + 1) * DAY_COUNTS;
}

/* Microseconds since day 0 of the count that is k after the reference, rounded down: 65,536,000 is 2^16 * 1,000, and what the
 * shift leaves is below 2^63. */
static inline int64_t time_of_count(const vrk_goce_correlation *c, int64_t k) {
    __int128 n = (__int128)reference(c) * 1000000000 + (__int128)k * (int64_t)c->gradient;
    return floored((int64_t)(n >> 16), 1000);
}

static inline int64_t reference_day(const vrk_goce_correlation *c) { return floored(reference(c), DAY_COUNTS); }

vrk_time plain_goce_date(uint64_t obt, vrk_goce_correlation c, int64_t receipt_day, uint64_t receipt_micro, const int64_t *days,
                         size_t day_count, const uint64_t *offsets, size_t offset_count, int64_t last) {
    if (obt >= COUNTS) return no_time(VRK_FIELD_OVER, VRK_UTC);
    if (!is_accepted(days, day_count, offsets, offset_count, last)) return no_time(VRK_LIST_NOT_ACCEPTED, VRK_UTC);
    if (!is_goce_correlation(&c)) return no_time(VRK_CORRELATION_NOT_ACCEPTED, VRK_UTC);
    if (!spans(VRK_UTC, receipt_day, receipt_micro)) return no_time(VRK_OUTSIDE_SPAN, VRK_UTC);
    int64_t k = (int64_t)((obt - c.obt0) << 16) >> 16, back = -(int64_t)c.back, ahead = (int64_t)c.ahead;
    if (k < back || k > ahead) return no_time(VRK_NOT_IN_FORCE, VRK_UTC);
    struct list l = {days, offsets, day_count, last};
    vrk_time receipt = a_time(VRK_UTC, receipt_day, (int64_t)receipt_micro);
    vrk_time t = clocked(&l, reference_day(&c), receipt, time_of_count(&c, back), time_of_count(&c, ahead), time_of_count(&c, k));
    return marked(t, VRK_CORRELATED, c.obt0);
}

/* The last k with (UTC0 + Offset) * 10^9 + k * Gradient < (t + 1) * 65,536,000: a division of 128 bits, in two of 64. */
vrk_count plain_goce_count(vrk_handed time, vrk_goce_correlation c, const int64_t *days, size_t day_count, const uint64_t *offsets,
                           size_t offset_count, int64_t last) {
    vrk_time t = taken(time);
    if (t.refusal && t.refusal <= VRK_DECIMAL_NOT_FINITE) return (vrk_count){t.refusal, 0};
    if (!is_accepted(days, day_count, offsets, offset_count, last)) return (vrk_count){VRK_LIST_NOT_ACCEPTED, 0};
    if (!is_goce_correlation(&c)) return (vrk_count){VRK_CORRELATION_NOT_ACCEPTED, 0};
    if (t.refusal) return (vrk_count){t.refusal, 0};
    struct list l = {days, offsets, day_count, last};
    int64_t at = 0, gradient = (int64_t)c.gradient;
    uint32_t refusal = unclocked(&l, reference_day(&c), t, &at);
    if (refusal) return (vrk_count){refusal, 0};
    if (at < time_of_count(&c, -(int64_t)c.back) || at > time_of_count(&c, (int64_t)c.ahead))
        return (vrk_count){VRK_NOT_IN_FORCE, 0};
    __int128 n = (__int128)(at + 1) * 65536000 - 1 - (__int128)reference(&c) * 1000000000;
    int64_t high = (int64_t)(n >> 16), k = floored(high, gradient), left = high - k * gradient;
    k = k * 65536 + (left << 16 | (int64_t)(n & 65535)) / gradient;
    if (k > (int64_t)c.ahead) k = (int64_t)c.ahead;
    return (vrk_count){0, (c.obt0 + (uint64_t)k) % COUNTS};
}
