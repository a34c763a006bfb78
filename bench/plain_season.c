/* Plain C: the season's file. A part of plain.c. */

enum { MOST_ENTRIES = 512, ENTRY = 20, BODY = 28, BODY_WORDS = 7, ENTRY_WORDS = 9 };

/* One expression of eight bytes, which the compiler makes one load. */
static inline int64_t get64(const uint8_t *b) {
    return (int64_t)((uint64_t)b[0] << 56 | (uint64_t)b[1] << 48 | (uint64_t)b[2] << 40 | (uint64_t)b[3] << 32 | (uint64_t)b[4] << 24 |
                     (uint64_t)b[5] << 16 | (uint64_t)b[6] << 8 | (uint64_t)b[7]);
}
static inline void put64(uint8_t *b, uint64_t n) { put32(b, (uint32_t)(n >> 32)), put32(b + 4, (uint32_t)n); }

struct cover { int64_t first, last; };

static inline vrk_cover no_cover(uint32_t refusal) { return (vrk_cover){refusal, 0, 0}; }
static inline vrk_count not_read(uint32_t refusal) { return (vrk_count){refusal, 0}; }

static inline int is_sized(const uint8_t *b, size_t count) {
    return count >= 2 && get16(b) <= MOST_ENTRIES && count == 2 + (ENTRY + BODY) * (size_t)get16(b);
}

/* A body stands where its entry says, and its cover begins after the one before; before the first entry there is none. */
static inline int is_entry(const uint8_t *entry, size_t position, size_t i, int64_t before, struct cover *c) {
    *c = (struct cover){get64(entry), get64(entry + 8)};
    return get32(entry + 16) == position && c->first <= c->last && (i == 0 || before < c->first);
}

static inline vrk_sbt_correlation body_at(const uint8_t *b) {
    int64_t t = get64(b + 4), day = floored(t, DAY);
    return (vrk_sbt_correlation){
        get32(b), VRK_TAI, day, (uint64_t)(t - day * DAY), (uint64_t)get64(b + 12), get32(b + 20), get32(b + 24)};
}

/* Of an accepted correlation. */
static inline struct cover covered(const vrk_sbt_correlation *c) {
    return (struct cover){time_of_tick(c, -(int64_t)c->back), time_of_tick(c, (int64_t)c->ahead)};
}

vrk_count plain_season_read(const uint8_t *bytes, size_t count, int64_t *words, size_t word_count) {
    if (!is_sized(bytes, count)) return not_read(VRK_SEASON_BROKEN);
    const size_t n = get16(bytes), bodies = 2 + ENTRY * n;
    struct cover c = {0, 0};
    for (size_t i = 0; i < n; i++) {
        if (!is_entry(bytes + 2 + ENTRY * i, bodies + BODY * i, i, c.last, &c)) return not_read(VRK_SEASON_BROKEN);
        vrk_sbt_correlation body = body_at(bytes + bodies + BODY * i);
        if (!is_correlation(&body)) return not_read(VRK_SEASON_BROKEN);
        struct cover own = covered(&body);
        if (own.first != c.first || own.last != c.last) return not_read(VRK_SEASON_BROKEN);
    }
    if (word_count < ENTRY_WORDS * n) return not_read(VRK_OUTPUT_SHORTER);
    for (size_t i = 0; i < n; i++, words += ENTRY_WORDS) {
        const uint8_t *entry = bytes + 2 + ENTRY * i;
        vrk_sbt_correlation body = body_at(bytes + bodies + BODY * i);
        words[0] = get64(entry), words[1] = get64(entry + 8);
        words[2] = body.tick, words[3] = VRK_TAI, words[4] = body.day, words[5] = (int64_t)body.micro;
        words[6] = (int64_t)body.period, words[7] = (int64_t)body.back, words[8] = (int64_t)body.ahead;
    }
    return (vrk_count){0, n};
}

/* Words that are no correlation of TAI give one that is not accepted: a negative word is above every limit. */
static inline vrk_sbt_correlation correlation_at(const int64_t *w) {
    const int is_fit = (uint64_t)w[0] <= UINT32_MAX && w[1] == VRK_TAI;
    return (vrk_sbt_correlation){
        (uint32_t)w[0], VRK_TAI, w[2], (uint64_t)w[3], is_fit ? (uint64_t)w[4] : 0, (uint64_t)w[5], (uint64_t)w[6]};
}

vrk_written plain_season_write(const int64_t *words, size_t word_count, uint8_t *out, size_t count) {
    const size_t n = word_count / BODY_WORDS, bodies = 2 + ENTRY * n;
    if (word_count % BODY_WORDS != 0 || n > MOST_ENTRIES) return not_written(VRK_SEASON_BROKEN);
    int64_t before = 0;
    for (size_t i = 0; i < n; i++) {
        vrk_sbt_correlation body = correlation_at(words + BODY_WORDS * i);
        if (!is_correlation(&body)) return not_written(VRK_SEASON_BROKEN);
        struct cover c = covered(&body);
        if (i > 0 && before >= c.first) return not_written(VRK_SEASON_BROKEN);
        before = c.last;
    }
    if (count < bodies + BODY * n) return not_written(VRK_OUTPUT_SHORTER);
    put16(out, (uint32_t)n);
    for (size_t i = 0; i < n; i++) {
        vrk_sbt_correlation body = correlation_at(words + BODY_WORDS * i);
        struct cover c = covered(&body);
        uint8_t *entry = out + 2 + ENTRY * i, *b = out + bodies + BODY * i;
        put64(entry, (uint64_t)c.first), put64(entry + 8, (uint64_t)c.last), put32(entry + 16, (uint32_t)(bodies + BODY * i));
        put32(b, body.tick), put64(b + 4, (uint64_t)(body.day * DAY + (int64_t)body.micro)), put64(b + 12, body.period);
        put32(b + 20, (uint32_t)body.back), put32(b + 24, (uint32_t)body.ahead);
    }
    return wrote(bodies + BODY * n);
}

vrk_cover plain_season_covering(const uint8_t *bytes, size_t count, int64_t receipt_day, uint64_t receipt_micro) {
    if (!is_sized(bytes, count)) return no_cover(VRK_SEASON_BROKEN);
    const size_t n = get16(bytes), bodies = 2 + ENTRY * n;
    const int is_in_span = spans(VRK_TAI, receipt_day, receipt_micro);
    const int64_t at = is_in_span ? receipt_day * DAY + (int64_t)receipt_micro : 0;
    vrk_cover found = no_cover(VRK_NO_ENTRY);
    struct cover c = {0, 0};
    for (size_t i = 0; i < n; i++) {
        if (!is_entry(bytes + 2 + ENTRY * i, bodies + BODY * i, i, c.last, &c)) return no_cover(VRK_SEASON_BROKEN);
        if (c.first <= at && at <= c.last) found = (vrk_cover){0, c.first, c.last};
    }
    return is_in_span ? found : no_cover(VRK_OUTSIDE_SPAN);
}
