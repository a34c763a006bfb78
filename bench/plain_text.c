/* Plain C: Envisat text with a leap list. A part of plain.c. */

vrk_time plain_text_read(const uint8_t *s, size_t n, const int64_t *days, size_t day_count, const uint64_t *offsets,
                         size_t offset_count, int64_t last) {
    struct date d;
    uint32_t scale;
    int64_t micro, offset;
    uint32_t refusal = text_refusal(s, n, &scale, &d, &micro);
    if (refusal) return no_time(refusal, VRK_TAI);
    if (scale == VRK_UTC && !is_accepted(days, day_count, offsets, offset_count, last))
        return no_time(VRK_LIST_NOT_ACCEPTED, VRK_TAI);
    if (d.year < 1972 || d.year > 2099) return no_time(VRK_OUTSIDE_SPAN, VRK_TAI);
    vrk_time t = a_time(scale, day_of(d), micro);
    if (t.day < first_day(scale)) return no_time(VRK_OUTSIDE_SPAN, VRK_TAI);
    struct list l = {days, offsets, day_count, last};
    if (scale == VRK_UTC && (refusal = utc_refusal(&l, t, &offset)) != 0) return no_time(refusal, VRK_TAI);
    return t;
}

vrk_written plain_text_write(vrk_handed time, const int64_t *days, size_t day_count, const uint64_t *offsets, size_t offset_count,
                             int64_t last, uint32_t form, uint8_t *out, size_t count) {
    static const char prefixes[3][5] = {"TAI=", "UTC=", "GPS="};
    if (!is_form(form)) return not_written(VRK_FIELD_OVER);
    vrk_time t = taken(time);
    if (t.refusal && t.refusal <= VRK_DECIMAL_NOT_FINITE) return not_written(t.refusal);
    if (time.scale == VRK_UTC && !is_accepted(days, day_count, offsets, offset_count, last))
        return not_written(VRK_LIST_NOT_ACCEPTED);
    if (t.refusal) return not_written(t.refusal);
    struct list l = {days, offsets, day_count, last};
    int64_t offset;
    uint32_t refusal = t.scale == VRK_UTC ? utc_refusal(&l, t, &offset) : 0;
    if (refusal) return not_written(refusal);
    if (t.scale != VRK_UTC && !has_prefix(form)) return not_written(VRK_NO_IMAGE);
    if (!has_micros(form) && t.micro % SECOND != 0) return not_written(VRK_NO_IMAGE);
    if (count < form) return not_written(VRK_OUTPUT_SHORTER);
    if (has_prefix(form)) __builtin_memcpy(out, prefixes[t.scale], 4), out += 4;
    put_text(out, (int)t.day, (int64_t)t.micro, has_micros(form));
    return wrote(form);
}
