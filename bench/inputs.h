/* What makes inputs: numbers by chance, times, leap lists. */
#ifndef INPUTS_H
#define INPUTS_H

#include "calls.h"
#include "plain_dates.h"

enum { BAD_TIMES = 11, BAD_LISTS = 11 };

static uint64_t below(uint64_t n);

/* 0 for an input that is to be answered, else the number, from 1 on, of the refused one. */
static inline size_t refused(size_t i) { return i % 16 == 15 ? i / 16 + 1 : 0; }

/* A time of the scale, from its first day (or the one that is given) to the last day of 2024; one in eight is a decimal day. */
static vrk_handed any_time(uint32_t scale, int64_t first);
static vrk_handed any_record(uint32_t scale, int64_t first);
static vrk_handed second_60(void);
/* Times that are refused 3, 4 or 7. */
static vrk_handed bad_time(size_t which);

static const struct leap_list *listed(size_t steps);
static const struct leap_list *bad_list(size_t which);

#endif
