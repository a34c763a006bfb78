/* What the benchmark hands to every contender alike. */
#ifndef CALLS_H
#define CALLS_H

#include "vrikshonem.h"

enum { INPUTS = 4096, LENT = 32, MOST = 64 };
/* What is lent for a season or a run is wider: the inputs whose files or packets are the same share it. */
enum { FILES = 16, WIDE = 9 * 512 };

struct leap_list {
    const int64_t *days;
    const uint64_t *offsets;
    size_t day_count, offset_count;
    int64_t last;
};

/* A run's packets and what it is told; the first of the dates that are lent, and how many they are. */
struct run {
    const uint8_t *bytes;
    size_t count;
    uint64_t told;
    size_t first, date_count;
};

/* One call's arguments; a function takes those that it has. */
struct input {
    vrk_handed time; /* also a receipt's day and microsecond, and a decimal day with its scale */
    union {
        vrk_sbt_correlation correlation;
        vrk_goce_correlation goce;
        struct run run;
        uint8_t bytes[48];
        uint32_t part[4];
        uint64_t value;
    };
    union {
        const struct leap_list *list;
        const struct season *season;
    };
    union {
        struct {
            uint32_t code;  /* a tick, a form or the scale that is wanted */
            uint32_t count; /* bytes given or lent; of a season what is given, and in part[0] what is lent */
        };
        uint64_t obt; /* a count that is dated */
    };
};

/* What many functions take of the i-th input x. */
#define GIVEN x->bytes, x->count
#define ROOM lent[i], x->count
#define LIST x->list->days, x->list->day_count, x->list->offsets, x->list->offset_count, x->list->last

/* Makes the i-th input; `steps` is the length of its leap list, 0 for the published one. Of sixteen inputs the last is one that
 * is refused, but for the functions that cannot refuse it and for the growth with the number of steps. */
typedef void making(struct input *x, size_t i, size_t steps);

/* Rows stand beside what makes their inputs, in an inputs_*.c. The twin of a function, plain_NAME, is in a plain_*.c; one that has
 * none is measured alone.
 *
 *    FUNCTION(name, maker, type of its answer, arguments..)
 *    USE(words, maker, function, contenders that do less..)      the same function with other inputs */

#endif
