/* Plain C: the leap list and the changes of scale. A part of plain.c. */

enum { MOST_STEPS = 64 };

struct list {
    const int64_t *days;
    const uint64_t *offsets;
    size_t count;
    int64_t last;
};

/* First days of the 48 months of four years, counted from 1 January 1972, and of the next. */
#define YEAR(n, leap)                                                                                                     \
    n, n + 31, n + 59 + leap, n + 90 + leap, n + 120 + leap, n + 151 + leap, n + 181 + leap, n + 212 + leap, n + 243 + leap, \
        n + 273 + leap, n + 304 + leap, n + 334 + leap
static const uint16_t firsts[49] = {YEAR(0, 1), YEAR(366, 0), YEAR(731, 0), YEAR(1096, 0), 1461};

/* A month has 487/16 days in the mean of four years, and no first of a month is far from that. */
static inline int is_first(int64_t day) {
    unsigned n = (unsigned)(day - FIRST_DAY) % 1461;
    return firsts[(n * 16 + 26) / 487] == n;
}

/* Called, and not inlined: within the reading of a text its loop would find too few registers. */
__attribute__((noinline)) static int is_accepted(const int64_t *days, size_t day_count, const uint64_t *offsets,
                                                 size_t offset_count, int64_t last) {
    if (day_count != offset_count || day_count < 1 || day_count > MOST_STEPS) return 0;
    if (last < FIRST_DAY || last > LAST_DAY) return 0;
    if (days[0] != FIRST_DAY || offsets[0] != FIRST_OFFSET) return 0;
    for (size_t i = 1; i < day_count; i++) {
        if (days[i] <= days[i - 1] || days[i] > last + 1) return 0;
        if (offsets[i] != FIRST_OFFSET + i) return 0;
        if (!is_first(days[i])) return 0;
    }
    return 1;
}

/* The last step on or before a day; packets are young, so the search begins at the end. */
static inline size_t step_on(const struct list *l, int64_t day) {
    size_t i = l->count - 1;
    while (l->days[i] > day) i--;
    return i;
}

/* What a UTC time is refused with by the list, or 0 and TAI minus UTC in seconds. */
static inline uint32_t utc_refusal(const struct list *l, vrk_time t, int64_t *offset) {
    if (t.day > l->last) return VRK_LIST_EXPIRED;
    size_t i = step_on(l, t.day);
    if (in_second_60(t) && (i + 1 == l->count || l->days[i + 1] != t.day + 1)) return VRK_SECOND_LACKING;
    *offset = (int64_t)l->offsets[i];
    return 0;
}

/* The one UTC record whose TAI is t. */
static inline vrk_time utc_of(const struct list *l, int64_t t) {
    if (t >= (l->last + 1) * DAY + (int64_t)l->offsets[l->count - 1] * SECOND) return no_time(VRK_LIST_EXPIRED, VRK_UTC);
    size_t i = l->count;
    while (i > 0 && t < l->days[i - 1] * DAY + (int64_t)l->offsets[i - 1] * SECOND) i--;
    if (i == 0) return no_time(VRK_RESULT_OUTSIDE, VRK_UTC);
    int64_t utc = t - (int64_t)l->offsets[i - 1] * SECOND;
    /* What is left before the next step is the second 60 of the day before it. */
    if (i < l->count && utc >= l->days[i] * DAY)
        return a_time(VRK_UTC, l->days[i] - 1, DAY + utc - l->days[i] * DAY);
    return time_at(VRK_UTC, utc, VRK_RESULT_OUTSIDE);
}

static inline vrk_time changed(vrk_time t, uint32_t to, const struct list *l) {
    int64_t offset = t.scale == VRK_GPS ? GPS_OFFSET : 0;
    if (t.scale == VRK_UTC) {
        uint32_t refusal = utc_refusal(l, t, &offset);
        if (refusal) return no_time(refusal, to);
    }
    if (t.scale == to) return t;
    int64_t tai = micros_of(t) + offset * SECOND;
    if (to == VRK_UTC) return marked(utc_of(l, tai), t.mark, t.source);
    return marked(time_at(to, to == VRK_GPS ? tai - GPS_OFFSET * SECOND : tai, VRK_RESULT_OUTSIDE), t.mark, t.source);
}

/* ---- clocks that are kept in UTC; their times are microseconds since day 0 in days of 86,400 s, from the reference's on */

static inline int64_t offset_on(const struct list *l, int64_t day) { return (int64_t)l->offsets[step_on(l, day)]; }

/* The time `at` of a clock whose window is from `begin` to `end`: the rest of 8 and 17, where reference and receipt are both known,
 * and 9, 10, 11. */
static inline vrk_time clocked(const struct list *l, int64_t reference_day, vrk_time receipt, int64_t begin, int64_t end, int64_t at) {
    if (reference_day > l->last || receipt.day > l->last) return no_time(VRK_LIST_EXPIRED, VRK_UTC);
    int64_t offset = 0, own = offset_on(l, reference_day);
    uint32_t lacking = utc_refusal(l, receipt, &offset);
    int64_t received = micros_of(receipt) + (offset - own) * SECOND;
    if (!lacking && (received < begin || received > end)) return no_time(VRK_NOT_IN_FORCE, VRK_UTC);
    if (!lacking && at > received) return no_time(VRK_RESULT_LATER, VRK_UTC);
    vrk_time result = utc_of(l, at + own * SECOND);
    return lacking && result.refusal != VRK_LIST_EXPIRED ? no_time(lacking, VRK_UTC) : result;
}

/* What a time that is turned back is refused with, 9, 10 or 12, or 0 and where it lies. */
static inline uint32_t unclocked(const struct list *l, int64_t reference_day, vrk_time t, int64_t *at) {
    if (reference_day > l->last) return VRK_LIST_EXPIRED;
    if (t.scale != VRK_UTC) return VRK_NO_IMAGE;
    int64_t offset = 0;
    uint32_t refusal = utc_refusal(l, t, &offset);
    *at = micros_of(t) + (offset - offset_on(l, reference_day)) * SECOND;
    return refusal;
}

uint32_t plain_list_accepted(const int64_t *days, size_t day_count, const uint64_t *offsets, size_t offset_count, int64_t last) {
    return (uint32_t)is_accepted(days, day_count, offsets, offset_count, last);
}

vrk_time plain_change(vrk_handed time, uint32_t to_scale, const int64_t *days, size_t day_count, const uint64_t *offsets,
                      size_t offset_count, int64_t last) {
    if (to_scale > VRK_GPS) return no_time(VRK_FIELD_OVER, 0);
    vrk_time t = taken(time);
    if (t.refusal && t.refusal <= VRK_DECIMAL_NOT_FINITE) return no_time(t.refusal, to_scale);
    if ((time.scale == VRK_UTC || to_scale == VRK_UTC) && !is_accepted(days, day_count, offsets, offset_count, last))
        return no_time(VRK_LIST_NOT_ACCEPTED, to_scale);
    if (t.refusal) return no_time(t.refusal, to_scale);
    struct list l = {days, offsets, day_count, last};
    return changed(t, to_scale, &l);
}

vrk_time plain_change_listed(vrk_handed time, uint32_t to_scale, const int64_t *days, size_t day_count, const uint64_t *offsets,
                             size_t offset_count, int64_t last) {
    (void)offset_count;
    if (to_scale > VRK_GPS) return no_time(VRK_FIELD_OVER, 0);
    vrk_time t = taken(time);
    if (t.refusal) return no_time(t.refusal, to_scale);
    struct list l = {days, offsets, day_count, last};
    return changed(t, to_scale, &l);
}
