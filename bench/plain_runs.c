/* Plain C: SIRAL's runs. A part of plain.c. */

enum { PACKET = 10, FRONT = 8, MOST_UNITS = 484848 };

static inline vrk_run not_run(uint32_t refusal) { return (vrk_run){refusal, 0, 0}; }

/* The three fields of a packet by one load, to be compared only. */
static inline uint64_t front(const uint8_t *b) {
    uint64_t n;
    __builtin_memcpy(&n, b, FRONT);
    return n;
}

/* A total, and the extra counter that it was reached with. */
struct unrolled { uint64_t total; uint16_t extra; };

/* The extra counter has 16 bits, and so has its way from packet to packet. The way from the total before is the same, but must
 * wait for that total. */
static inline void unroll(struct unrolled *u, const uint8_t *b) {
    const uint16_t extra = (uint16_t)get16(b + FRONT);
    u->total += (uint16_t)(extra - u->extra), u->extra = extra;
}

/* 16, but for a field over its limit in any packet. */
static vrk_run not_one_second(const uint8_t *bytes, size_t count) {
    for (size_t at = 0; at < count; at += PACKET)
        if (plain_cryosat_fields_read(bytes + at, FRONT).refusal) return not_run(VRK_FIELD_OVER);
    return not_run(VRK_NOT_ONE_SECOND);
}

vrk_run plain_siral_run(const uint8_t *bytes, size_t count, uint64_t told, int64_t *dates, size_t date_count) {
    const size_t n = count / PACKET;
    if (count % PACKET != 0) return not_run(VRK_LENGTH_IS_NONE);
    if (n == 0) return (vrk_run){0, 0, told};
    if (told > MOST_UNITS) return not_one_second(bytes, count);
    const struct unrolled begin = {told, (uint16_t)told};
    struct unrolled last = begin, each = begin;
    for (size_t i = 0; i < n; i++) {
        unroll(&last, bytes + PACKET * i);
        if (front(bytes + PACKET * i) != front(bytes) || last.total > MOST_UNITS) return not_one_second(bytes, count);
    }
    const vrk_cryosat_fields f = plain_cryosat_fields_read(bytes, FRONT);
    if (f.refusal) return not_run(f.refusal);
    const int64_t from = f.day * DAY + f.millisecond * INT64_C(1000) + f.microsecond;
    /* No date is later than the last. */
    if (from + (int64_t)(last.total * 33 / 16) >= (LAST_DAY + 1) * DAY) return not_run(VRK_OUTSIDE_SPAN);
    if (date_count < n) return not_run(VRK_OUTPUT_SHORTER);
    for (size_t i = 0; i < n; i++) {
        unroll(&each, bytes + PACKET * i);
        dates[i] = from + (int64_t)(each.total * 33 / 16);
    }
    return (vrk_run){0, n, last.total};
}
