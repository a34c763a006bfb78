/* Made by tools/interface.py --write; not by hand. The functions' numbers and shapes, and how each is called. */
enum {
    CUC_READ, CRYOSAT_READ, SIRAL_READ, GOCE_READ, OBET_READ, SBT_READ, CUC_WRITE, CRYOSAT_WRITE, SIRAL_WRITE, GOCE_WRITE,
    OBET_WRITE, SBT_WRITE, PROTEUS_READ, PROTEUS_WRITE, GOCE_DATE, GOCE_COUNT, DECIMAL_READ, DECIMAL_WRITE, SBT_DATE, SBT_TICK,
    LIST_ACCEPTED, CHANGE, CUC_FIELDS_READ, CUC_FIELDS_WRITE, PROTEUS_FIELDS_READ, PROTEUS_FIELDS_WRITE, CRYOSAT_FIELDS_READ,
    CRYOSAT_FIELDS_WRITE, SIRAL_FIELDS_READ, SIRAL_FIELDS_WRITE, SIRAL_RUN, SEASON_READ, SEASON_WRITE, SEASON_COVERING,
    TEXT_READ, TEXT_WRITE,
};

enum { ANSWER = 6 };
enum { WORDS = 15, SLICES = 3 };

/* How many words and slices a function takes; the bytes of a slice's element, and whether it is written. */
static const struct shape {
    uint32_t words, slices;
    struct { uint32_t width, written; } slice[SLICES];
} shapes[] = {
    [CUC_READ] = {0, 1, {{1, 0}}},
    [CRYOSAT_READ] = {0, 1, {{1, 0}}},
    [SIRAL_READ] = {0, 1, {{1, 0}}},
    [GOCE_READ] = {0, 1, {{1, 0}}},
    [OBET_READ] = {0, 1, {{1, 0}}},
    [SBT_READ] = {0, 1, {{1, 0}}},
    [CUC_WRITE] = {7, 1, {{1, 1}}},
    [CRYOSAT_WRITE] = {7, 1, {{1, 1}}},
    [SIRAL_WRITE] = {7, 1, {{1, 1}}},
    [GOCE_WRITE] = {1, 1, {{1, 1}}},
    [OBET_WRITE] = {1, 1, {{1, 1}}},
    [SBT_WRITE] = {1, 1, {{1, 1}}},
    [PROTEUS_READ] = {0, 1, {{1, 0}}},
    [PROTEUS_WRITE] = {7, 1, {{1, 1}}},
    [GOCE_DATE] = {10, 2, {{8, 0}, {8, 0}}},
    [GOCE_COUNT] = {14, 2, {{8, 0}, {8, 0}}},
    [DECIMAL_READ] = {2, 0, {{0, 0}}},
    [DECIMAL_WRITE] = {7, 0, {{0, 0}}},
    [SBT_DATE] = {11, 2, {{8, 0}, {8, 0}}},
    [SBT_TICK] = {15, 2, {{8, 0}, {8, 0}}},
    [LIST_ACCEPTED] = {1, 2, {{8, 0}, {8, 0}}},
    [CHANGE] = {9, 2, {{8, 0}, {8, 0}}},
    [CUC_FIELDS_READ] = {0, 1, {{1, 0}}},
    [CUC_FIELDS_WRITE] = {2, 1, {{1, 1}}},
    [PROTEUS_FIELDS_READ] = {0, 1, {{1, 0}}},
    [PROTEUS_FIELDS_WRITE] = {4, 1, {{1, 1}}},
    [CRYOSAT_FIELDS_READ] = {0, 1, {{1, 0}}},
    [CRYOSAT_FIELDS_WRITE] = {3, 1, {{1, 1}}},
    [SIRAL_FIELDS_READ] = {0, 1, {{1, 0}}},
    [SIRAL_FIELDS_WRITE] = {4, 1, {{1, 1}}},
    [SIRAL_RUN] = {1, 2, {{1, 0}, {8, 1}}},
    [SEASON_READ] = {0, 2, {{1, 0}, {8, 1}}},
    [SEASON_WRITE] = {0, 2, {{8, 0}, {1, 1}}},
    [SEASON_COVERING] = {2, 1, {{1, 0}}},
    [TEXT_READ] = {1, 3, {{1, 0}, {8, 0}, {8, 0}}},
    [TEXT_WRITE] = {9, 3, {{8, 0}, {8, 0}, {1, 1}}},
};

static uint64_t w[WORDS], answer[ANSWER];
static struct { void *at; size_t count; } slices[SLICES];

#define GIVEN(type, k) (const type *)slices[k].at, slices[k].count
#define LENT(type, k) (type *)slices[k].at, slices[k].count

static vrk_handed handed_at(const uint64_t *a) {
    vrk_handed made = {(uint32_t)a[0], (uint32_t)a[1], (int64_t)a[2], a[3], double_of(a[4]), (uint32_t)a[5], a[6]};
    return made;
}

static vrk_goce_correlation goce_correlation_at(const uint64_t *a) {
    vrk_goce_correlation made = {a[0], a[1], (int64_t)a[2], a[3], a[4], a[5]};
    return made;
}

static vrk_sbt_correlation sbt_correlation_at(const uint64_t *a) {
    vrk_sbt_correlation made = {(uint32_t)a[0], (uint32_t)a[1], (int64_t)a[2], a[3], a[4], a[5], a[6]};
    return made;
}

static void time_is(vrk_time r) {
    answer[0] = r.refusal, answer[1] = r.scale, answer[2] = (uint64_t)r.day, answer[3] = r.micro, answer[4] = r.mark, answer[5] = r.source;
}

static void count_is(vrk_count r) {
    answer[0] = r.refusal, answer[1] = r.count;
}

static void written_is(vrk_written r) {
    answer[0] = r.refusal, answer[1] = r.length;
}

static void decimal_is(vrk_decimal r) {
    answer[0] = r.refusal, answer[1] = bits_of(r.day);
}

static void cuc_fields_is(vrk_cuc_fields r) {
    answer[0] = r.refusal, answer[1] = r.seconds, answer[2] = r.fraction;
}

static void proteus_fields_is(vrk_proteus_fields r) {
    answer[0] = r.refusal, answer[1] = r.week, answer[2] = r.h3, answer[3] = r.second, answer[4] = r.fraction;
}

static void cryosat_fields_is(vrk_cryosat_fields r) {
    answer[0] = r.refusal, answer[1] = r.day, answer[2] = r.millisecond, answer[3] = r.microsecond;
}

static void siral_fields_is(vrk_siral_fields r) {
    answer[0] = r.refusal, answer[1] = r.day, answer[2] = r.millisecond, answer[3] = r.microsecond, answer[4] = r.extra;
}

static void run_is(vrk_run r) {
    answer[0] = r.refusal, answer[1] = r.count, answer[2] = r.last;
}

static void cover_is(vrk_cover r) {
    answer[0] = r.refusal, answer[1] = (uint64_t)r.first, answer[2] = (uint64_t)r.last;
}

static int call(uint64_t function) {
    switch (function) {
    case CUC_READ: time_is(vrk_cuc_read(GIVEN(uint8_t, 0))); return 1;
    case CRYOSAT_READ: time_is(vrk_cryosat_read(GIVEN(uint8_t, 0))); return 1;
    case SIRAL_READ: time_is(vrk_siral_read(GIVEN(uint8_t, 0))); return 1;
    case GOCE_READ: count_is(vrk_goce_read(GIVEN(uint8_t, 0))); return 1;
    case OBET_READ: count_is(vrk_obet_read(GIVEN(uint8_t, 0))); return 1;
    case SBT_READ: count_is(vrk_sbt_read(GIVEN(uint8_t, 0))); return 1;
    case CUC_WRITE: written_is(vrk_cuc_write(handed_at(w), LENT(uint8_t, 0))); return 1;
    case CRYOSAT_WRITE: written_is(vrk_cryosat_write(handed_at(w), LENT(uint8_t, 0))); return 1;
    case SIRAL_WRITE: written_is(vrk_siral_write(handed_at(w), LENT(uint8_t, 0))); return 1;
    case GOCE_WRITE: written_is(vrk_goce_write(w[0], LENT(uint8_t, 0))); return 1;
    case OBET_WRITE: written_is(vrk_obet_write(w[0], LENT(uint8_t, 0))); return 1;
    case SBT_WRITE: written_is(vrk_sbt_write((uint32_t)w[0], LENT(uint8_t, 0))); return 1;
    case PROTEUS_READ: time_is(vrk_proteus_read(GIVEN(uint8_t, 0))); return 1;
    case PROTEUS_WRITE: written_is(vrk_proteus_write(handed_at(w), LENT(uint8_t, 0))); return 1;
    case GOCE_DATE: time_is(vrk_goce_date(w[0], goce_correlation_at(w + 1), (int64_t)w[7], w[8], GIVEN(int64_t, 0), GIVEN(uint64_t, 1), (int64_t)w[9])); return 1;
    case GOCE_COUNT: count_is(vrk_goce_count(handed_at(w), goce_correlation_at(w + 7), GIVEN(int64_t, 0), GIVEN(uint64_t, 1), (int64_t)w[13])); return 1;
    case DECIMAL_READ: time_is(vrk_decimal_read(double_of(w[0]), (uint32_t)w[1])); return 1;
    case DECIMAL_WRITE: decimal_is(vrk_decimal_write(handed_at(w))); return 1;
    case SBT_DATE: time_is(vrk_sbt_date((uint32_t)w[0], sbt_correlation_at(w + 1), (int64_t)w[8], w[9], GIVEN(int64_t, 0), GIVEN(uint64_t, 1), (int64_t)w[10])); return 1;
    case SBT_TICK: count_is(vrk_sbt_tick(handed_at(w), sbt_correlation_at(w + 7), GIVEN(int64_t, 0), GIVEN(uint64_t, 1), (int64_t)w[14])); return 1;
    case LIST_ACCEPTED: answer[0] = vrk_list_accepted(GIVEN(int64_t, 0), GIVEN(uint64_t, 1), (int64_t)w[0]); return 1;
    case CHANGE: time_is(vrk_change(handed_at(w), (uint32_t)w[7], GIVEN(int64_t, 0), GIVEN(uint64_t, 1), (int64_t)w[8])); return 1;
    case CUC_FIELDS_READ: cuc_fields_is(vrk_cuc_fields_read(GIVEN(uint8_t, 0))); return 1;
    case CUC_FIELDS_WRITE: written_is(vrk_cuc_fields_write((uint32_t)w[0], (uint32_t)w[1], LENT(uint8_t, 0))); return 1;
    case PROTEUS_FIELDS_READ: proteus_fields_is(vrk_proteus_fields_read(GIVEN(uint8_t, 0))); return 1;
    case PROTEUS_FIELDS_WRITE: written_is(vrk_proteus_fields_write((uint32_t)w[0], (uint32_t)w[1], (uint32_t)w[2], (uint32_t)w[3], LENT(uint8_t, 0))); return 1;
    case CRYOSAT_FIELDS_READ: cryosat_fields_is(vrk_cryosat_fields_read(GIVEN(uint8_t, 0))); return 1;
    case CRYOSAT_FIELDS_WRITE: written_is(vrk_cryosat_fields_write((uint32_t)w[0], (uint32_t)w[1], (uint32_t)w[2], LENT(uint8_t, 0))); return 1;
    case SIRAL_FIELDS_READ: siral_fields_is(vrk_siral_fields_read(GIVEN(uint8_t, 0))); return 1;
    case SIRAL_FIELDS_WRITE: written_is(vrk_siral_fields_write((uint32_t)w[0], (uint32_t)w[1], (uint32_t)w[2], (uint32_t)w[3], LENT(uint8_t, 0))); return 1;
    case SIRAL_RUN: run_is(vrk_siral_run(GIVEN(uint8_t, 0), w[0], LENT(int64_t, 1))); return 1;
    case SEASON_READ: count_is(vrk_season_read(GIVEN(uint8_t, 0), LENT(int64_t, 1))); return 1;
    case SEASON_WRITE: written_is(vrk_season_write(GIVEN(int64_t, 0), LENT(uint8_t, 1))); return 1;
    case SEASON_COVERING: cover_is(vrk_season_covering(GIVEN(uint8_t, 0), (int64_t)w[0], w[1])); return 1;
    case TEXT_READ: time_is(vrk_text_read(GIVEN(uint8_t, 0), GIVEN(int64_t, 1), GIVEN(uint64_t, 2), (int64_t)w[0])); return 1;
    case TEXT_WRITE: written_is(vrk_text_write(handed_at(w), GIVEN(int64_t, 0), GIVEN(uint64_t, 1), (int64_t)w[7], (uint32_t)w[8], LENT(uint8_t, 2))); return 1;
    }
    return 0;
}
