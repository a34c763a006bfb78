/* The program of text lines in plain C, to measure desk against: the same lines, the same refusals, the same blocks. The published
 * list stands in constant arrays and is not tested, as in desk. */
#include "plain_text.h"

extern long read(int, void *, size_t);
extern long write(int, const void *, size_t);
extern void *memchr(const void *, int, size_t);
extern void perror(const char *);

enum { BLOCK = 65536, LINE = 32 };

/* TAI minus UTC of a UTC time in seconds, or a refusal below zero. */
static int offset_of(int day, int64_t micro) {
    if (day > LISTED) return -VRK_LIST_EXPIRED;
    int i = PUBLISHED - 1;
    while (published_days[i] > day) i--;
    if (micro >= DAY && (i + 1 == PUBLISHED || published_days[i + 1] != day + 1)) return -VRK_SECOND_LACKING;
    return FIRST_OFFSET + i;
}

/* The refusal of a line, or 0 and its TAI time. */
static int dated(const unsigned char *s, size_t n, int *tai_day, int64_t *tai_micro) {
    struct date d;
    uint32_t scale;
    int64_t micro;
    uint32_t refusal = text_refusal(s, n, &scale, &d, &micro);
    if (refusal) return (int)refusal;
    if (d.year < 1972 || d.year > 2099) return VRK_OUTSIDE_SPAN;
    int day = day_of(d), offset = scale == VRK_GPS ? GPS_OFFSET : 0;
    if (scale == VRK_GPS && day < FIRST_GPS_DAY) return VRK_OUTSIDE_SPAN;
    if (scale == VRK_UTC && (offset = offset_of(day, micro)) < 0) return -offset;
    micro += offset * SECOND;
    if (micro >= DAY) micro -= DAY, day++;
    if (day > LAST_DAY) return VRK_RESULT_OUTSIDE;
    *tai_day = day, *tai_micro = micro;
    return 0;
}

static size_t print_time(unsigned char *out, int day, int64_t micro) {
    __builtin_memcpy(out, "TAI=", 4);
    put_text(out + 4, day, micro, 1);
    out[LINE - 1] = '\n';
    return LINE;
}

static size_t print_refusal(unsigned char *out, int number) {
    size_t n = 8;
    __builtin_memcpy(out, "refused ", 8);
    if (number > 9) out[n++] = '1';
    out[n++] = (unsigned char)('0' + number % 10);
    out[n++] = '\n';
    return n;
}

static size_t answer(const unsigned char *line, size_t n, unsigned char *out) {
    int day = 0;
    int64_t micro = 0;
    int refusal = dated(line, n, &day, &micro);
    return refusal ? print_refusal(out, refusal) : print_time(out, day, micro);
}

/* ---- blocks */

static unsigned char block[BLOCK], out[BLOCK];
static size_t made;

static int flush(void) {
    for (size_t done = 0; done < made;) {
        long n = write(1, out + done, made - done);
        if (n <= 0) return 0;
        done += (size_t)n;
    }
    made = 0;
    return 1;
}

/* The whole lines of the first n bytes; gives where the line that has begun stands, or -1. */
static long print_lines(size_t n) {
    size_t at = 0;
    for (const unsigned char *end; (end = memchr(block + at, '\n', n - at)) != NULL;) {
        size_t length = (size_t)(end - block) - at;
        if (BLOCK - made < LINE && !flush()) return -1;
        made += answer(block + at, length, out + made);
        at += length + 1;
    }
    return flush() ? (long)at : -1;
}

int main(int count, char **words) {
    (void)words;
    if (count > 1) {
        static const char usage[] = "usage: desk < LINES (it takes no arguments)\n";
        return write(2, usage, sizeof usage - 1) < 0;
    }
    size_t kept = 0;
    for (;;) {
        long got = read(0, block + kept, BLOCK - kept);
        if (got < 0) return perror("desk: read"), 1;
        if (got == 0 && kept == 0) return 0;
        size_t n = kept + (size_t)got;
        /* A last line without a newline counts; what is kept leaves room for one. */
        if (got == 0) block[n++] = '\n';
        long at = print_lines(n);
        if (at < 0) return perror("desk: write"), 1;
        /* Of a line that has begun 32 bytes are enough: no form has as many. */
        kept = n - (size_t)at;
        if (kept > LINE) kept = LINE;
        __builtin_memmove(block, block + at, kept);
    }
}
