/* Made by tools/interface.py --write; not by hand. Each function, as it hands its call on. */
enum {
    CUC_READ, CRYOSAT_READ, SIRAL_READ, GOCE_READ, OBET_READ, SBT_READ, CUC_WRITE, CRYOSAT_WRITE, SIRAL_WRITE, GOCE_WRITE,
    OBET_WRITE, SBT_WRITE, PROTEUS_READ, PROTEUS_WRITE, GOCE_DATE, GOCE_COUNT, DECIMAL_READ, DECIMAL_WRITE, SBT_DATE, SBT_TICK,
    LIST_ACCEPTED, CHANGE, CUC_FIELDS_READ, CUC_FIELDS_WRITE, PROTEUS_FIELDS_READ, PROTEUS_FIELDS_WRITE, CRYOSAT_FIELDS_READ,
    CRYOSAT_FIELDS_WRITE, SIRAL_FIELDS_READ, SIRAL_FIELDS_WRITE, SIRAL_RUN, SEASON_READ, SEASON_WRITE, SEASON_COVERING,
    TEXT_READ, TEXT_WRITE,
};

enum { ANSWER = 6 };

static void ask(uint64_t function, const uint64_t *words, size_t word_count, const struct slice *slices,
                size_t slice_count, uint64_t *answer);

vrk_time vrk_cuc_read(const uint8_t *bytes, size_t bytes_count) {
    uint64_t the_answer[ANSWER];
    const struct slice the_slices[] = {{bytes, bytes_count, 1, 0}};
    ask(CUC_READ, 0, 0, the_slices, 1, the_answer);
    vrk_time the_result = {.refusal = (uint32_t)the_answer[0], .scale = (uint32_t)the_answer[1], .day = (int64_t)the_answer[2], .micro = the_answer[3], .mark = (uint32_t)the_answer[4], .source = the_answer[5]};
    return the_result;
}

vrk_time vrk_cryosat_read(const uint8_t *bytes, size_t bytes_count) {
    uint64_t the_answer[ANSWER];
    const struct slice the_slices[] = {{bytes, bytes_count, 1, 0}};
    ask(CRYOSAT_READ, 0, 0, the_slices, 1, the_answer);
    vrk_time the_result = {.refusal = (uint32_t)the_answer[0], .scale = (uint32_t)the_answer[1], .day = (int64_t)the_answer[2], .micro = the_answer[3], .mark = (uint32_t)the_answer[4], .source = the_answer[5]};
    return the_result;
}

vrk_time vrk_siral_read(const uint8_t *bytes, size_t bytes_count) {
    uint64_t the_answer[ANSWER];
    const struct slice the_slices[] = {{bytes, bytes_count, 1, 0}};
    ask(SIRAL_READ, 0, 0, the_slices, 1, the_answer);
    vrk_time the_result = {.refusal = (uint32_t)the_answer[0], .scale = (uint32_t)the_answer[1], .day = (int64_t)the_answer[2], .micro = the_answer[3], .mark = (uint32_t)the_answer[4], .source = the_answer[5]};
    return the_result;
}

vrk_count vrk_goce_read(const uint8_t *bytes, size_t bytes_count) {
    uint64_t the_answer[ANSWER];
    const struct slice the_slices[] = {{bytes, bytes_count, 1, 0}};
    ask(GOCE_READ, 0, 0, the_slices, 1, the_answer);
    vrk_count the_result = {.refusal = (uint32_t)the_answer[0], .count = the_answer[1]};
    return the_result;
}

vrk_count vrk_obet_read(const uint8_t *bytes, size_t bytes_count) {
    uint64_t the_answer[ANSWER];
    const struct slice the_slices[] = {{bytes, bytes_count, 1, 0}};
    ask(OBET_READ, 0, 0, the_slices, 1, the_answer);
    vrk_count the_result = {.refusal = (uint32_t)the_answer[0], .count = the_answer[1]};
    return the_result;
}

vrk_count vrk_sbt_read(const uint8_t *bytes, size_t bytes_count) {
    uint64_t the_answer[ANSWER];
    const struct slice the_slices[] = {{bytes, bytes_count, 1, 0}};
    ask(SBT_READ, 0, 0, the_slices, 1, the_answer);
    vrk_count the_result = {.refusal = (uint32_t)the_answer[0], .count = the_answer[1]};
    return the_result;
}

vrk_written vrk_cuc_write(vrk_handed time, uint8_t *out, size_t out_count) {
    uint64_t the_answer[ANSWER];
    const uint64_t the_words[] = {time.kind, time.scale, (uint64_t)time.day, time.micro, bits_of(time.decimal), time.mark, time.source};
    const struct slice the_slices[] = {{out, out_count, 1, 1}};
    ask(CUC_WRITE, the_words, 7, the_slices, 1, the_answer);
    vrk_written the_result = {.refusal = (uint32_t)the_answer[0], .length = the_answer[1]};
    return the_result;
}

vrk_written vrk_cryosat_write(vrk_handed time, uint8_t *out, size_t out_count) {
    uint64_t the_answer[ANSWER];
    const uint64_t the_words[] = {time.kind, time.scale, (uint64_t)time.day, time.micro, bits_of(time.decimal), time.mark, time.source};
    const struct slice the_slices[] = {{out, out_count, 1, 1}};
    ask(CRYOSAT_WRITE, the_words, 7, the_slices, 1, the_answer);
    vrk_written the_result = {.refusal = (uint32_t)the_answer[0], .length = the_answer[1]};
    return the_result;
}

vrk_written vrk_siral_write(vrk_handed time, uint8_t *out, size_t out_count) {
    uint64_t the_answer[ANSWER];
    const uint64_t the_words[] = {time.kind, time.scale, (uint64_t)time.day, time.micro, bits_of(time.decimal), time.mark, time.source};
    const struct slice the_slices[] = {{out, out_count, 1, 1}};
    ask(SIRAL_WRITE, the_words, 7, the_slices, 1, the_answer);
    vrk_written the_result = {.refusal = (uint32_t)the_answer[0], .length = the_answer[1]};
    return the_result;
}

vrk_written vrk_goce_write(uint64_t count, uint8_t *out, size_t out_count) {
    uint64_t the_answer[ANSWER];
    const uint64_t the_words[] = {count};
    const struct slice the_slices[] = {{out, out_count, 1, 1}};
    ask(GOCE_WRITE, the_words, 1, the_slices, 1, the_answer);
    vrk_written the_result = {.refusal = (uint32_t)the_answer[0], .length = the_answer[1]};
    return the_result;
}

vrk_written vrk_obet_write(uint64_t count, uint8_t *out, size_t out_count) {
    uint64_t the_answer[ANSWER];
    const uint64_t the_words[] = {count};
    const struct slice the_slices[] = {{out, out_count, 1, 1}};
    ask(OBET_WRITE, the_words, 1, the_slices, 1, the_answer);
    vrk_written the_result = {.refusal = (uint32_t)the_answer[0], .length = the_answer[1]};
    return the_result;
}

vrk_written vrk_sbt_write(uint32_t tick, uint8_t *out, size_t out_count) {
    uint64_t the_answer[ANSWER];
    const uint64_t the_words[] = {tick};
    const struct slice the_slices[] = {{out, out_count, 1, 1}};
    ask(SBT_WRITE, the_words, 1, the_slices, 1, the_answer);
    vrk_written the_result = {.refusal = (uint32_t)the_answer[0], .length = the_answer[1]};
    return the_result;
}

vrk_time vrk_proteus_read(const uint8_t *bytes, size_t bytes_count) {
    uint64_t the_answer[ANSWER];
    const struct slice the_slices[] = {{bytes, bytes_count, 1, 0}};
    ask(PROTEUS_READ, 0, 0, the_slices, 1, the_answer);
    vrk_time the_result = {.refusal = (uint32_t)the_answer[0], .scale = (uint32_t)the_answer[1], .day = (int64_t)the_answer[2], .micro = the_answer[3], .mark = (uint32_t)the_answer[4], .source = the_answer[5]};
    return the_result;
}

vrk_written vrk_proteus_write(vrk_handed time, uint8_t *out, size_t out_count) {
    uint64_t the_answer[ANSWER];
    const uint64_t the_words[] = {time.kind, time.scale, (uint64_t)time.day, time.micro, bits_of(time.decimal), time.mark, time.source};
    const struct slice the_slices[] = {{out, out_count, 1, 1}};
    ask(PROTEUS_WRITE, the_words, 7, the_slices, 1, the_answer);
    vrk_written the_result = {.refusal = (uint32_t)the_answer[0], .length = the_answer[1]};
    return the_result;
}

vrk_time vrk_goce_date(uint64_t obt, vrk_goce_correlation correlation, int64_t receipt_day, uint64_t receipt_micro, const int64_t *days, size_t days_count, const uint64_t *offsets, size_t offsets_count, int64_t last) {
    uint64_t the_answer[ANSWER];
    const uint64_t the_words[] = {obt, correlation.obt0, correlation.utc0, (uint64_t)correlation.offset, correlation.gradient, correlation.back, correlation.ahead, (uint64_t)receipt_day, receipt_micro, (uint64_t)last};
    const struct slice the_slices[] = {{days, days_count, 8, 0}, {offsets, offsets_count, 8, 0}};
    ask(GOCE_DATE, the_words, 10, the_slices, 2, the_answer);
    vrk_time the_result = {.refusal = (uint32_t)the_answer[0], .scale = (uint32_t)the_answer[1], .day = (int64_t)the_answer[2], .micro = the_answer[3], .mark = (uint32_t)the_answer[4], .source = the_answer[5]};
    return the_result;
}

vrk_count vrk_goce_count(vrk_handed time, vrk_goce_correlation correlation, const int64_t *days, size_t days_count, const uint64_t *offsets, size_t offsets_count, int64_t last) {
    uint64_t the_answer[ANSWER];
    const uint64_t the_words[] = {time.kind, time.scale, (uint64_t)time.day, time.micro, bits_of(time.decimal), time.mark, time.source, correlation.obt0, correlation.utc0, (uint64_t)correlation.offset, correlation.gradient, correlation.back, correlation.ahead, (uint64_t)last};
    const struct slice the_slices[] = {{days, days_count, 8, 0}, {offsets, offsets_count, 8, 0}};
    ask(GOCE_COUNT, the_words, 14, the_slices, 2, the_answer);
    vrk_count the_result = {.refusal = (uint32_t)the_answer[0], .count = the_answer[1]};
    return the_result;
}

vrk_time vrk_decimal_read(double day, uint32_t scale) {
    uint64_t the_answer[ANSWER];
    const uint64_t the_words[] = {bits_of(day), scale};
    ask(DECIMAL_READ, the_words, 2, 0, 0, the_answer);
    vrk_time the_result = {.refusal = (uint32_t)the_answer[0], .scale = (uint32_t)the_answer[1], .day = (int64_t)the_answer[2], .micro = the_answer[3], .mark = (uint32_t)the_answer[4], .source = the_answer[5]};
    return the_result;
}

vrk_decimal vrk_decimal_write(vrk_handed time) {
    uint64_t the_answer[ANSWER];
    const uint64_t the_words[] = {time.kind, time.scale, (uint64_t)time.day, time.micro, bits_of(time.decimal), time.mark, time.source};
    ask(DECIMAL_WRITE, the_words, 7, 0, 0, the_answer);
    vrk_decimal the_result = {.refusal = (uint32_t)the_answer[0], .day = double_of(the_answer[1])};
    return the_result;
}

vrk_time vrk_sbt_date(uint32_t tick, vrk_sbt_correlation correlation, int64_t receipt_day, uint64_t receipt_micro, const int64_t *days, size_t days_count, const uint64_t *offsets, size_t offsets_count, int64_t last) {
    uint64_t the_answer[ANSWER];
    const uint64_t the_words[] = {tick, correlation.tick, correlation.scale, (uint64_t)correlation.day, correlation.micro, correlation.period, correlation.back, correlation.ahead, (uint64_t)receipt_day, receipt_micro, (uint64_t)last};
    const struct slice the_slices[] = {{days, days_count, 8, 0}, {offsets, offsets_count, 8, 0}};
    ask(SBT_DATE, the_words, 11, the_slices, 2, the_answer);
    vrk_time the_result = {.refusal = (uint32_t)the_answer[0], .scale = (uint32_t)the_answer[1], .day = (int64_t)the_answer[2], .micro = the_answer[3], .mark = (uint32_t)the_answer[4], .source = the_answer[5]};
    return the_result;
}

vrk_count vrk_sbt_tick(vrk_handed time, vrk_sbt_correlation correlation, const int64_t *days, size_t days_count, const uint64_t *offsets, size_t offsets_count, int64_t last) {
    uint64_t the_answer[ANSWER];
    const uint64_t the_words[] = {time.kind, time.scale, (uint64_t)time.day, time.micro, bits_of(time.decimal), time.mark, time.source, correlation.tick, correlation.scale, (uint64_t)correlation.day, correlation.micro, correlation.period, correlation.back, correlation.ahead, (uint64_t)last};
    const struct slice the_slices[] = {{days, days_count, 8, 0}, {offsets, offsets_count, 8, 0}};
    ask(SBT_TICK, the_words, 15, the_slices, 2, the_answer);
    vrk_count the_result = {.refusal = (uint32_t)the_answer[0], .count = the_answer[1]};
    return the_result;
}

uint32_t vrk_list_accepted(const int64_t *days, size_t days_count, const uint64_t *offsets, size_t offsets_count, int64_t last) {
    uint64_t the_answer[ANSWER];
    const uint64_t the_words[] = {(uint64_t)last};
    const struct slice the_slices[] = {{days, days_count, 8, 0}, {offsets, offsets_count, 8, 0}};
    ask(LIST_ACCEPTED, the_words, 1, the_slices, 2, the_answer);
    return (uint32_t)the_answer[0];
}

vrk_time vrk_change(vrk_handed time, uint32_t to_scale, const int64_t *days, size_t days_count, const uint64_t *offsets, size_t offsets_count, int64_t last) {
    uint64_t the_answer[ANSWER];
    const uint64_t the_words[] = {time.kind, time.scale, (uint64_t)time.day, time.micro, bits_of(time.decimal), time.mark, time.source, to_scale, (uint64_t)last};
    const struct slice the_slices[] = {{days, days_count, 8, 0}, {offsets, offsets_count, 8, 0}};
    ask(CHANGE, the_words, 9, the_slices, 2, the_answer);
    vrk_time the_result = {.refusal = (uint32_t)the_answer[0], .scale = (uint32_t)the_answer[1], .day = (int64_t)the_answer[2], .micro = the_answer[3], .mark = (uint32_t)the_answer[4], .source = the_answer[5]};
    return the_result;
}

vrk_cuc_fields vrk_cuc_fields_read(const uint8_t *bytes, size_t bytes_count) {
    uint64_t the_answer[ANSWER];
    const struct slice the_slices[] = {{bytes, bytes_count, 1, 0}};
    ask(CUC_FIELDS_READ, 0, 0, the_slices, 1, the_answer);
    vrk_cuc_fields the_result = {.refusal = (uint32_t)the_answer[0], .seconds = (uint32_t)the_answer[1], .fraction = (uint32_t)the_answer[2]};
    return the_result;
}

vrk_written vrk_cuc_fields_write(uint32_t seconds, uint32_t fraction, uint8_t *out, size_t out_count) {
    uint64_t the_answer[ANSWER];
    const uint64_t the_words[] = {seconds, fraction};
    const struct slice the_slices[] = {{out, out_count, 1, 1}};
    ask(CUC_FIELDS_WRITE, the_words, 2, the_slices, 1, the_answer);
    vrk_written the_result = {.refusal = (uint32_t)the_answer[0], .length = the_answer[1]};
    return the_result;
}

vrk_proteus_fields vrk_proteus_fields_read(const uint8_t *bytes, size_t bytes_count) {
    uint64_t the_answer[ANSWER];
    const struct slice the_slices[] = {{bytes, bytes_count, 1, 0}};
    ask(PROTEUS_FIELDS_READ, 0, 0, the_slices, 1, the_answer);
    vrk_proteus_fields the_result = {.refusal = (uint32_t)the_answer[0], .week = (uint32_t)the_answer[1], .h3 = (uint32_t)the_answer[2], .second = (uint32_t)the_answer[3], .fraction = (uint32_t)the_answer[4]};
    return the_result;
}

vrk_written vrk_proteus_fields_write(uint32_t week, uint32_t h3, uint32_t second, uint32_t fraction, uint8_t *out, size_t out_count) {
    uint64_t the_answer[ANSWER];
    const uint64_t the_words[] = {week, h3, second, fraction};
    const struct slice the_slices[] = {{out, out_count, 1, 1}};
    ask(PROTEUS_FIELDS_WRITE, the_words, 4, the_slices, 1, the_answer);
    vrk_written the_result = {.refusal = (uint32_t)the_answer[0], .length = the_answer[1]};
    return the_result;
}

vrk_cryosat_fields vrk_cryosat_fields_read(const uint8_t *bytes, size_t bytes_count) {
    uint64_t the_answer[ANSWER];
    const struct slice the_slices[] = {{bytes, bytes_count, 1, 0}};
    ask(CRYOSAT_FIELDS_READ, 0, 0, the_slices, 1, the_answer);
    vrk_cryosat_fields the_result = {.refusal = (uint32_t)the_answer[0], .day = (uint32_t)the_answer[1], .millisecond = (uint32_t)the_answer[2], .microsecond = (uint32_t)the_answer[3]};
    return the_result;
}

vrk_written vrk_cryosat_fields_write(uint32_t day, uint32_t millisecond, uint32_t microsecond, uint8_t *out, size_t out_count) {
    uint64_t the_answer[ANSWER];
    const uint64_t the_words[] = {day, millisecond, microsecond};
    const struct slice the_slices[] = {{out, out_count, 1, 1}};
    ask(CRYOSAT_FIELDS_WRITE, the_words, 3, the_slices, 1, the_answer);
    vrk_written the_result = {.refusal = (uint32_t)the_answer[0], .length = the_answer[1]};
    return the_result;
}

vrk_siral_fields vrk_siral_fields_read(const uint8_t *bytes, size_t bytes_count) {
    uint64_t the_answer[ANSWER];
    const struct slice the_slices[] = {{bytes, bytes_count, 1, 0}};
    ask(SIRAL_FIELDS_READ, 0, 0, the_slices, 1, the_answer);
    vrk_siral_fields the_result = {.refusal = (uint32_t)the_answer[0], .day = (uint32_t)the_answer[1], .millisecond = (uint32_t)the_answer[2], .microsecond = (uint32_t)the_answer[3], .extra = (uint32_t)the_answer[4]};
    return the_result;
}

vrk_written vrk_siral_fields_write(uint32_t day, uint32_t millisecond, uint32_t microsecond, uint32_t extra, uint8_t *out, size_t out_count) {
    uint64_t the_answer[ANSWER];
    const uint64_t the_words[] = {day, millisecond, microsecond, extra};
    const struct slice the_slices[] = {{out, out_count, 1, 1}};
    ask(SIRAL_FIELDS_WRITE, the_words, 4, the_slices, 1, the_answer);
    vrk_written the_result = {.refusal = (uint32_t)the_answer[0], .length = the_answer[1]};
    return the_result;
}

vrk_run vrk_siral_run(const uint8_t *bytes, size_t bytes_count, uint64_t told, int64_t *dates, size_t dates_count) {
    uint64_t the_answer[ANSWER];
    const uint64_t the_words[] = {told};
    const struct slice the_slices[] = {{bytes, bytes_count, 1, 0}, {dates, dates_count, 8, 1}};
    ask(SIRAL_RUN, the_words, 1, the_slices, 2, the_answer);
    vrk_run the_result = {.refusal = (uint32_t)the_answer[0], .count = the_answer[1], .last = the_answer[2]};
    return the_result;
}

vrk_count vrk_season_read(const uint8_t *bytes, size_t bytes_count, int64_t *words, size_t words_count) {
    uint64_t the_answer[ANSWER];
    const struct slice the_slices[] = {{bytes, bytes_count, 1, 0}, {words, words_count, 8, 1}};
    ask(SEASON_READ, 0, 0, the_slices, 2, the_answer);
    vrk_count the_result = {.refusal = (uint32_t)the_answer[0], .count = the_answer[1]};
    return the_result;
}

vrk_written vrk_season_write(const int64_t *words, size_t words_count, uint8_t *out, size_t out_count) {
    uint64_t the_answer[ANSWER];
    const struct slice the_slices[] = {{words, words_count, 8, 0}, {out, out_count, 1, 1}};
    ask(SEASON_WRITE, 0, 0, the_slices, 2, the_answer);
    vrk_written the_result = {.refusal = (uint32_t)the_answer[0], .length = the_answer[1]};
    return the_result;
}

vrk_cover vrk_season_covering(const uint8_t *bytes, size_t bytes_count, int64_t receipt_day, uint64_t receipt_micro) {
    uint64_t the_answer[ANSWER];
    const uint64_t the_words[] = {(uint64_t)receipt_day, receipt_micro};
    const struct slice the_slices[] = {{bytes, bytes_count, 1, 0}};
    ask(SEASON_COVERING, the_words, 2, the_slices, 1, the_answer);
    vrk_cover the_result = {.refusal = (uint32_t)the_answer[0], .first = (int64_t)the_answer[1], .last = (int64_t)the_answer[2]};
    return the_result;
}

vrk_time vrk_text_read(const uint8_t *text, size_t text_count, const int64_t *days, size_t days_count, const uint64_t *offsets, size_t offsets_count, int64_t last) {
    uint64_t the_answer[ANSWER];
    const uint64_t the_words[] = {(uint64_t)last};
    const struct slice the_slices[] = {{text, text_count, 1, 0}, {days, days_count, 8, 0}, {offsets, offsets_count, 8, 0}};
    ask(TEXT_READ, the_words, 1, the_slices, 3, the_answer);
    vrk_time the_result = {.refusal = (uint32_t)the_answer[0], .scale = (uint32_t)the_answer[1], .day = (int64_t)the_answer[2], .micro = the_answer[3], .mark = (uint32_t)the_answer[4], .source = the_answer[5]};
    return the_result;
}

vrk_written vrk_text_write(vrk_handed time, const int64_t *days, size_t days_count, const uint64_t *offsets, size_t offsets_count, int64_t last, uint32_t form, uint8_t *out, size_t out_count) {
    uint64_t the_answer[ANSWER];
    const uint64_t the_words[] = {time.kind, time.scale, (uint64_t)time.day, time.micro, bits_of(time.decimal), time.mark, time.source, (uint64_t)last, form};
    const struct slice the_slices[] = {{days, days_count, 8, 0}, {offsets, offsets_count, 8, 0}, {out, out_count, 1, 1}};
    ask(TEXT_WRITE, the_words, 9, the_slices, 3, the_answer);
    vrk_written the_result = {.refusal = (uint32_t)the_answer[0], .length = the_answer[1]};
    return the_result;
}
