/* Plain C: spans, times handed in, decimal days. A part of plain.c. */

static inline vrk_time a_time(uint32_t scale, int64_t day, int64_t micro) {
    return (vrk_time){0, scale, day, (uint64_t)micro, VRK_PLAIN, 0};
}
static inline vrk_time no_time(uint32_t refusal, uint32_t scale) { return (vrk_time){refusal, scale, 0, 0, VRK_PLAIN, 0}; }

/* An answer with a mark; a refusal stays plain. */
static inline vrk_time marked(vrk_time t, uint32_t mark, uint64_t source) {
    if (!t.refusal) t.mark = mark, t.source = source;
    return t;
}

static inline int64_t first_day(uint32_t scale) { return scale == VRK_GPS ? FIRST_GPS_DAY : FIRST_DAY; }

static inline int spans(uint32_t scale, int64_t day, uint64_t micro) {
    return day >= first_day(scale) && day <= LAST_DAY && micro < (uint64_t)(scale == VRK_UTC ? DAY + SECOND : DAY);
}

/* As a reference must: in second 60 there is none. */
static inline int spans_plainly(uint32_t scale, int64_t day, uint64_t micro) {
    return spans(scale, day, micro) && micro < (uint64_t)DAY;
}

/* Rounded down, towards the past; d is above 0. */
static inline int64_t floored(int64_t n, int64_t d) { return n / d - (n % d < 0); }

/* The record at a number of microseconds since day 0, or the refusal where it lies outside its scale's span. */
static inline vrk_time time_at(uint32_t scale, int64_t t, uint32_t refusal) {
    int64_t day = t / DAY, micro = t % DAY;
    if (micro < 0) micro += DAY, day--;
    return spans(scale, day, (uint64_t)micro) ? a_time(scale, day, micro) : no_time(refusal, scale);
}

/* The exact value of a finite double is m * 2^e; a day has 10,546,875 * 2^13 microseconds, so no bit is lost before the
 * rounding. Half a microsecond is added and the rest cut off downwards: ties to the later. */
static inline int64_t nearest_micro(double x) {
    uint64_t bits;
    __builtin_memcpy(&bits, &x, 8);
    int power = (int)(bits >> 52 & 2047);
    int64_t m = (int64_t)(bits & ((UINT64_C(1) << 52) - 1));
    if (power) m += INT64_C(1) << 52;
    else power = 1;
    if (bits >> 63) m = -m;
    int down = 1075 - 13 - power;
    if (down > 100) return 0;
    __int128 whole = (__int128)m * 10546875;
    /* In the span a double has at least 37 bits after the point. */
    return (int64_t)((whole + ((__int128)1 << (down - 1))) >> down);
}

static vrk_time decimal_time(double x, uint32_t scale) {
    if (!(x - x == 0)) return no_time(VRK_DECIMAL_NOT_FINITE, scale);
    if (!(x >= (double)first_day(scale) && x < LAST_DAY + 1)) return no_time(VRK_OUTSIDE_SPAN, scale);
    return time_at(scale, nearest_micro(x), VRK_OUTSIDE_SPAN);
}

/* A time handed in, as a record with its mark: refused 3, 4 or 7. Callers judge 5 and 6 between 4 and 7. */
static inline vrk_time taken(vrk_handed h) {
    if (h.kind > VRK_DECIMAL || h.scale > VRK_GPS) return no_time(VRK_FIELD_OVER, VRK_TAI);
    if (h.kind == VRK_DECIMAL) return decimal_time(h.decimal, h.scale);
    if (h.mark > VRK_CORRELATED || (h.mark == VRK_PROTEUS && h.source > 1)) return no_time(VRK_FIELD_OVER, VRK_TAI);
    if (!spans(h.scale, h.day, h.micro)) return no_time(VRK_OUTSIDE_SPAN, h.scale);
    return marked(a_time(h.scale, h.day, (int64_t)h.micro), h.mark, h.mark == VRK_PLAIN ? 0 : h.source);
}

static inline int64_t micros_of(vrk_time t) { return t.day * DAY + (int64_t)t.micro; }

static inline int in_second_60(vrk_time t) { return t.micro >= (uint64_t)DAY; }

vrk_time plain_decimal_read(double day, uint32_t scale) {
    return scale > VRK_GPS ? no_time(VRK_FIELD_OVER, 0) : decimal_time(day, scale);
}

/* Both numbers are whole and below 2^53, so the one division is rounded once. */
vrk_decimal plain_decimal_write(vrk_handed time) {
    vrk_time t = taken(time);
    if (t.refusal) return (vrk_decimal){t.refusal, 0};
    if (in_second_60(t)) return (vrk_decimal){VRK_NO_IMAGE, 0};
    return (vrk_decimal){0, (double)micros_of(t) / (double)DAY};
}
