/* The inputs of the season's file: sixteen files with the same number of entries, their correlations, and receipts that they
 * cover. */
#include "inputs.h"

enum { TAKEN = 512, BYTES = 2 + 48 * TAKEN, SPOILT = 8 };

struct season {
    uint8_t bytes[BYTES];
    int64_t words[7 * TAKEN];
    uint32_t count, word_count; /* of bytes and of words */
};

static struct season seasons[FILES], spoilt[SPOILT];

/* Correlations with a window of 2^20 ticks, 68 minutes, to either side, each less than a day after the one before. */
static void make_season(struct season *s, size_t entries) {
    vrk_season_body bodies[TAKEN];
    int64_t t = FIRST_DAY * DAY + (int64_t)below(10000 * (uint64_t)DAY);
    for (size_t k = 0; k < entries; k++) {
        t += 3 * 3600 * SECOND + (int64_t)below(21 * 3600 * (uint64_t)SECOND);
        int64_t day = t / DAY - (t % DAY < 0), period = 3906000000 + (int64_t)below(500001);
        bodies[k] = (vrk_season_body){(int64_t)below(UINT64_C(1) << 32), VRK_TAI, day, t - day * DAY, period, WINDOW, WINDOW};
    }
    memcpy(s->words, bodies, entries * sizeof *bodies);
    s->word_count = (uint32_t)(7 * entries);
    s->count = (uint32_t)vrk_season_write_bodies(bodies, entries, s->bytes, BYTES).length;
}

/* A file of two entries with one thing wrong, and its correlations with another. */
static void make_spoilt(size_t which) {
    enum { FIRST = 2, SECOND_ENTRY = FIRST + 20, BODIES = SECOND_ENTRY + 20 };
    struct season *s = &spoilt[which];
    make_season(s, 2);
    uint8_t *b = s->bytes;
    switch (which) {
    case 0: b[1] = 3, s->word_count--; break;                                           /* another count */
    case 1: b[SECOND_ENTRY + 19] ^= 1, s->words[8] = VRK_GPS; break;                    /* a body that stands elsewhere */
    case 2: memcpy(b + FIRST + 8, b + SECOND_ENTRY, 8), s->words[0] = -1; break;        /* a cover that touches the next */
    case 3: b[FIRST] ^= 0x80, s->words[7] = INT64_C(1) << 32; break;                    /* one that ends before it begins */
    case 4: b[FIRST + 7] ^= 1, s->words[3] = DAY; break;                                /* one that is not its body's */
    case 5: b[BODIES + 28 + 12] ^= 1, s->words[11] = 3906500001; break;                 /* a period over its limit */
    case 6: b[BODIES + 24] ^= 0x80, s->words[6] = INT64_C(1) << 31; break;              /* a window over its limit */
    case 7: b[BODIES + 4] ^= 0x40, memcpy(s->words + 7, s->words, 56); break;           /* a reference outside the span */
    }
}

static const struct season *a_season(size_t i, size_t entries) {
    for (size_t f = 0; f < FILES && i == 0; f++) make_season(seasons + f, entries);
    for (size_t f = 0; f < SPOILT && i == 0; f++) make_spoilt(f);
    return seasons + i % FILES;
}

static void read_season(struct input *x, size_t i, size_t entries) {
    x->season = a_season(i, entries);
    x->count = x->season->count, x->part[0] = (uint32_t)(9 * entries);
}

static void write_season(struct input *x, size_t i, size_t entries) {
    x->season = a_season(i, entries);
    x->count = x->season->word_count, x->part[0] = x->season->count;
}

/* A receipt within an hour of some reference. */
static void ask_season(struct input *x, size_t i, size_t entries) {
    x->season = a_season(i, entries);
    x->count = x->season->count;
    const int64_t *body = x->season->words + 7 * below(entries);
    x->time = near(VRK_TAI, body[2] * DAY + body[3]);
}

static void make_season_read(struct input *x, size_t i, size_t steps) {
    (void)steps;
    size_t bad = refused(i);
    read_season(x, i, 8);
    if (!bad) return;
    if (bad % 3 == 0) x->part[0]--;
    else x->season = &spoilt[bad / 3 % SPOILT], x->count = x->season->count - (bad % 5 == 0);
}

static void make_season_write(struct input *x, size_t i, size_t steps) {
    (void)steps;
    size_t bad = refused(i);
    write_season(x, i, 8);
    if (!bad) return;
    if (bad % 3 == 0) x->part[0]--;
    else x->season = &spoilt[bad / 3 % SPOILT], x->count = x->season->word_count;
}

static void make_season_covering(struct input *x, size_t i, size_t steps) {
    (void)steps;
    size_t bad = refused(i);
    ask_season(x, i, 8);
    if (!bad) return;
    switch (bad % 4) {
    case 0: x->time.micro = (uint64_t)DAY; break;
    case 1: x->time.day = LAST_DAY; break;
    case 2: x->season = &spoilt[bad / 4 % 4], x->count = x->season->count; break;
    case 3: x->season = &spoilt[bad / 4 % 4], x->count = x->season->count, x->time.day = LAST_DAY + 1; break;
    }
}

#define SIZES(SIZE) SIZE(1) SIZE(8) SIZE(64) SIZE(512)
#define MAKERS(n)                                                                                                 \
    static void make_read_##n(struct input *x, size_t i, size_t steps) { (void)steps, read_season(x, i, n); }     \
    static void make_write_##n(struct input *x, size_t i, size_t steps) { (void)steps, write_season(x, i, n); }   \
    static void make_covering_##n(struct input *x, size_t i, size_t steps) { (void)steps, ask_season(x, i, n); }
SIZES(MAKERS)

#define SEASON_FILE x->season->bytes, x->count

#define ROWS_OF_SEASONS(FUNCTION, USE)                                                                            \
    FUNCTION(season_read, make_season_read, vrk_count, SEASON_FILE, wide[i % FILES].words, x->part[0])            \
    USE("season_read, 1 entry", make_read_1, season_read)                                                         \
    USE("season_read, 8", make_read_8, season_read)                                                               \
    USE("season_read, 64", make_read_64, season_read)                                                             \
    USE("season_read, 512", make_read_512, season_read)                                                           \
    FUNCTION(season_write, make_season_write, vrk_written, x->season->words, x->count, wide[i % FILES].bytes, x->part[0]) \
    USE("season_write, 1 entry", make_write_1, season_write)                                                      \
    USE("season_write, 8", make_write_8, season_write)                                                            \
    USE("season_write, 64", make_write_64, season_write)                                                          \
    USE("season_write, 512", make_write_512, season_write)                                                        \
    FUNCTION(season_covering, make_season_covering, vrk_cover, SEASON_FILE, x->time.day, x->time.micro)           \
    USE("season_covering, 1 entry", make_covering_1, season_covering)                                             \
    USE("season_covering, 8", make_covering_8, season_covering)                                                   \
    USE("season_covering, 64", make_covering_64, season_covering)                                                 \
    USE("season_covering, 512", make_covering_512, season_covering)
