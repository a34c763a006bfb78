/* Plain C: the byte layouts, their fields and their times. A part of plain.c. */

enum { WEEK_SECONDS = 604800, LAST_WEEK = 4095, DAY_MILLIS = 86400000, LAST_PROTEUS_DAY = 21371 };

static inline uint32_t get16(const uint8_t *b) { return (uint32_t)b[0] << 8 | b[1]; }
static inline uint32_t get32(const uint8_t *b) { return get16(b) << 16 | get16(b + 2); }
static inline void put16(uint8_t *b, uint32_t n) { b[0] = (uint8_t)(n >> 8), b[1] = (uint8_t)n; }
static inline void put32(uint8_t *b, uint32_t n) { put16(b, n >> 16), put16(b + 2, n); }

static inline vrk_written wrote(uint64_t length) { return (vrk_written){0, length}; }
static inline vrk_written not_written(uint32_t refusal) { return (vrk_written){refusal, 0}; }

/* The fraction f stands for the microsecond nearest f * 15625 / 1024, halves upward. */
static inline int64_t micros_of_fraction(uint32_t f) { return (f * INT64_C(15625) + 512) / 1024; }
/* The last fraction whose reading is not later. */
static inline uint32_t fraction_of(int64_t micros) { return (uint32_t)((micros * 1024 + 511) / 15625); }

/* ---- fields */

vrk_cuc_fields plain_cuc_fields_read(const uint8_t *b, size_t count) {
    if (count != 6) return (vrk_cuc_fields){VRK_LENGTH_IS_NONE, 0, 0};
    return (vrk_cuc_fields){0, get32(b), get16(b + 4)};
}

vrk_written plain_cuc_fields_write(uint32_t seconds, uint32_t fraction, uint8_t *out, size_t count) {
    if (fraction > 65535) return not_written(VRK_FIELD_OVER);
    if (count < 6) return not_written(VRK_OUTPUT_SHORTER);
    put32(out, seconds), put16(out + 4, fraction);
    return wrote(6);
}

vrk_proteus_fields plain_proteus_fields_read(const uint8_t *b, size_t count) {
    if (count != 8) return (vrk_proteus_fields){VRK_LENGTH_IS_NONE, 0, 0, 0, 0};
    uint32_t head = get16(b), second = get32(b + 2);
    if (head & 14) return (vrk_proteus_fields){VRK_MARKER_WRONG, 0, 0, 0, 0};
    if (second >= WEEK_SECONDS) return (vrk_proteus_fields){VRK_FIELD_OVER, 0, 0, 0, 0};
    return (vrk_proteus_fields){0, head >> 4, head & 1, second, get16(b + 6)};
}

vrk_written plain_proteus_fields_write(uint32_t week, uint32_t h3, uint32_t second, uint32_t fraction, uint8_t *out, size_t count) {
    if (week > LAST_WEEK || h3 > 1 || second >= WEEK_SECONDS || fraction > 65535) return not_written(VRK_FIELD_OVER);
    if (count < 8) return not_written(VRK_OUTPUT_SHORTER);
    put16(out, week << 4 | h3), put32(out + 2, second), put16(out + 6, fraction);
    return wrote(8);
}

vrk_cryosat_fields plain_cryosat_fields_read(const uint8_t *b, size_t count) {
    if (count != 8) return (vrk_cryosat_fields){VRK_LENGTH_IS_NONE, 0, 0, 0};
    uint32_t milli = get32(b + 2), micro = get16(b + 6);
    if (milli >= DAY_MILLIS || micro >= 1000) return (vrk_cryosat_fields){VRK_FIELD_OVER, 0, 0, 0};
    return (vrk_cryosat_fields){0, get16(b), milli, micro};
}

vrk_written plain_cryosat_fields_write(uint32_t day, uint32_t milli, uint32_t micro, uint8_t *out, size_t count) {
    if (day > 65535 || milli >= DAY_MILLIS || micro >= 1000) return not_written(VRK_FIELD_OVER);
    if (count < 8) return not_written(VRK_OUTPUT_SHORTER);
    put16(out, day), put32(out + 2, milli), put16(out + 6, micro);
    return wrote(8);
}

vrk_siral_fields plain_siral_fields_read(const uint8_t *b, size_t count) {
    if (count != 10) return (vrk_siral_fields){VRK_LENGTH_IS_NONE, 0, 0, 0, 0};
    uint32_t milli = get32(b + 2), micro = get16(b + 6);
    if (milli >= DAY_MILLIS || micro >= 1000) return (vrk_siral_fields){VRK_FIELD_OVER, 0, 0, 0, 0};
    return (vrk_siral_fields){0, get16(b), milli, micro, get16(b + 8)};
}

vrk_written plain_siral_fields_write(uint32_t day, uint32_t milli, uint32_t micro, uint32_t extra, uint8_t *out, size_t count) {
    if (day > 65535 || milli >= DAY_MILLIS || micro >= 1000 || extra > 65535) return not_written(VRK_FIELD_OVER);
    if (count < 10) return not_written(VRK_OUTPUT_SHORTER);
    put16(out, day), put32(out + 2, milli), put16(out + 6, micro), put16(out + 8, extra);
    return wrote(10);
}

/* ---- counts */

vrk_count plain_goce_read(const uint8_t *b, size_t count) {
    if (count != 6) return (vrk_count){VRK_LENGTH_IS_NONE, 0};
    return (vrk_count){0, (uint64_t)get32(b) << 16 | get16(b + 4)};
}

vrk_written plain_goce_write(uint64_t value, uint8_t *out, size_t count) {
    if (value >> 48) return not_written(VRK_FIELD_OVER);
    if (count < 6) return not_written(VRK_OUTPUT_SHORTER);
    put32(out, (uint32_t)(value >> 16)), put16(out + 4, (uint32_t)value);
    return wrote(6);
}

vrk_count plain_obet_read(const uint8_t *b, size_t count) {
    if (count != 8) return (vrk_count){VRK_LENGTH_IS_NONE, 0};
    if (b[0] != 0x66) return (vrk_count){VRK_MARKER_WRONG, 0};
    return (vrk_count){0, ((uint64_t)get32(b) << 32 | get32(b + 4)) & ((UINT64_C(1) << 56) - 1)};
}

vrk_written plain_obet_write(uint64_t value, uint8_t *out, size_t count) {
    if (value >> 56) return not_written(VRK_FIELD_OVER);
    if (count < 8) return not_written(VRK_OUTPUT_SHORTER);
    put32(out, 0x66000000u | (uint32_t)(value >> 32)), put32(out + 4, (uint32_t)value);
    return wrote(8);
}

vrk_count plain_sbt_read(const uint8_t *b, size_t count) {
    if (count != 4) return (vrk_count){VRK_LENGTH_IS_NONE, 0};
    return (vrk_count){0, get32(b)};
}

vrk_written plain_sbt_write(uint32_t tick, uint8_t *out, size_t count) {
    if (count < 4) return not_written(VRK_OUTPUT_SHORTER);
    put32(out, tick);
    return wrote(4);
}

/* ---- times */

vrk_time plain_cuc_read(const uint8_t *b, size_t count) {
    if (count != 6) return no_time(VRK_LENGTH_IS_NONE, VRK_GPS);
    uint32_t seconds = get32(b), day = seconds / 86400;
    if (day > LAST_DAY - FIRST_GPS_DAY) return no_time(VRK_OUTSIDE_SPAN, VRK_GPS);
    return a_time(VRK_GPS, FIRST_GPS_DAY + (int64_t)day, seconds % 86400 * SECOND + micros_of_fraction(get16(b + 4)));
}

vrk_written plain_cuc_write(vrk_handed time, uint8_t *out, size_t count) {
    vrk_time t = taken(time);
    if (t.refusal) return not_written(t.refusal);
    if (t.scale != VRK_GPS) return not_written(VRK_NO_IMAGE);
    if (count < 6) return not_written(VRK_OUTPUT_SHORTER);
    put32(out, (uint32_t)(t.day - FIRST_GPS_DAY) * 86400 + (uint32_t)(t.micro / SECOND));
    put16(out + 4, fraction_of((int64_t)(t.micro % SECOND)));
    return wrote(6);
}

/* Its last week ends with day 21371, so no reading lies outside the span. */
vrk_time plain_proteus_read(const uint8_t *b, size_t count) {
    vrk_proteus_fields f = plain_proteus_fields_read(b, count);
    if (f.refusal) return no_time(f.refusal, VRK_UTC);
    int64_t micro = f.second % 86400 * SECOND + micros_of_fraction(f.fraction);
    return marked(a_time(VRK_UTC, FIRST_GPS_DAY + (int64_t)(f.week * 7 + f.second / 86400), micro), VRK_PROTEUS, f.h3);
}

vrk_written plain_proteus_write(vrk_handed time, uint8_t *out, size_t count) {
    vrk_time t = taken(time);
    if (t.refusal) return not_written(t.refusal);
    if (t.scale != VRK_UTC || in_second_60(t) || t.day < FIRST_GPS_DAY || t.day > LAST_PROTEUS_DAY)
        return not_written(VRK_NO_IMAGE);
    if (count < 8) return not_written(VRK_OUTPUT_SHORTER);
    uint32_t days = (uint32_t)(t.day - FIRST_GPS_DAY);
    put16(out, days / 7 << 4 | (t.mark == VRK_PROTEUS ? (uint32_t)t.source : 0));
    put32(out + 2, days % 7 * 86400 + (uint32_t)(t.micro / SECOND));
    put16(out + 6, fraction_of((int64_t)(t.micro % SECOND)));
    return wrote(8);
}

vrk_time plain_cryosat_read(const uint8_t *b, size_t count) {
    vrk_cryosat_fields f = plain_cryosat_fields_read(b, count);
    if (f.refusal) return no_time(f.refusal, VRK_TAI);
    if (f.day > LAST_DAY) return no_time(VRK_OUTSIDE_SPAN, VRK_TAI);
    return a_time(VRK_TAI, f.day, f.millisecond * INT64_C(1000) + f.microsecond);
}

vrk_time plain_siral_read(const uint8_t *b, size_t count) {
    vrk_siral_fields f = plain_siral_fields_read(b, count);
    if (f.refusal) return no_time(f.refusal, VRK_TAI);
    int64_t day = f.day, micro = f.millisecond * INT64_C(1000) + f.microsecond + f.extra * INT64_C(33) / 16;
    if (micro >= DAY) micro -= DAY, day++;
    if (day > LAST_DAY) return no_time(VRK_OUTSIDE_SPAN, VRK_TAI);
    return a_time(VRK_TAI, day, micro);
}

/* CryoSat general's eight bytes onto the front of a layout of `length` bytes. */
static inline vrk_written tai_write(vrk_handed time, uint8_t *out, size_t count, size_t length) {
    vrk_time t = taken(time);
    if (t.refusal) return not_written(t.refusal);
    if (t.scale != VRK_TAI || t.day < 0) return not_written(VRK_NO_IMAGE);
    if (count < length) return not_written(VRK_OUTPUT_SHORTER);
    put16(out, (uint32_t)t.day), put32(out + 2, (uint32_t)(t.micro / 1000)), put16(out + 6, (uint32_t)(t.micro % 1000));
    return wrote(length);
}

vrk_written plain_cryosat_write(vrk_handed time, uint8_t *out, size_t count) { return tai_write(time, out, count, 8); }

vrk_written plain_siral_write(vrk_handed time, uint8_t *out, size_t count) {
    vrk_written w = tai_write(time, out, count, 10);
    if (!w.refusal) put16(out + 8, 0);
    return w;
}
