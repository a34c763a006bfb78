/* What plain C has of the papers in all its programs: the refusals, the spans, the published list and the calendar. */
#ifndef PLAIN_DATES_H
#define PLAIN_DATES_H

#include <stdint.h>

#include "vrikshonem_refusals.h"

enum { FIRST_DAY = -10227, FIRST_GPS_DAY = -7300, LAST_DAY = 36524 };
/* TAI minus UTC is 10 from the first step on, and one more from each further one; TAI minus GPS is 19. */
enum { FIRST_OFFSET = 10, GPS_OFFSET = 19 };

#define SECOND INT64_C(1000000)
#define DAY (86400 * SECOND)

/* GOCE's counter: 48 bits, in 1/65536 s. */
#define COUNTS (UINT64_C(1) << 48)
#define DAY_COUNTS (86400 * INT64_C(65536))

enum { PUBLISHED = 28, LISTED = 9131 };
static const int64_t published_days[PUBLISHED] = {
    -10227, -10045, -9861, -9496, -9131, -8766, -8400, -8035, -7670, -7305, -6758, -6393, -6028, -5297,
    -4383,  -3652,  -3287, -2740, -2375, -2010, -1461, -914,  -365,  2192,  3288,  4565,  5660,  6210,
};

/* Days of a common year before each month. */
static const uint16_t before[13] = {0, 31, 59, 90, 120, 151, 181, 212, 243, 273, 304, 334, 365};

struct date { unsigned year, month, day; };

static inline int is_leap(unsigned year) { return year % 4 == 0 && (year % 100 != 0 || year % 400 == 0); }

/* By itself the compiler would call it, and the reading of a text would be slower. */
#define INLINED __attribute__((always_inline)) static inline

INLINED int is_date(struct date d) {
    if (d.month == 0 || d.day == 0) return 0;
    return d.day <= (unsigned)(before[d.month] - before[d.month - 1]) + (d.month == 2 && is_leap(d.year));
}

/* From 1972 to 2099 every fourth year is a leap year. */
static inline int day_of(struct date d) {
    unsigned years = d.year - 1972;
    return FIRST_DAY + (int)(years * 365 + (years + 3) / 4 + before[d.month - 1] + (d.month > 2 && is_leap(d.year)) + d.day - 1);
}

static inline struct date date_of(int day) {
    unsigned n = (unsigned)(day - FIRST_DAY), of_four = n % 1461, year = of_four < 366 ? 0 : (of_four - 1) / 365;
    /* The month, or the one before it: no month has more than 31 days. */
    unsigned left = of_four - (year ? year * 365 + 1 : 0), leap = year == 0, month = left / 32 + 1;
    if (left >= before[month] + (month > 1 ? leap : 0)) month++;
    struct date d = {1972 + n / 1461 * 4 + year, month, left - before[month - 1] - (month > 2 ? leap : 0) + 1};
    return d;
}

#endif
