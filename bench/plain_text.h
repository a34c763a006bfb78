/* Plain C: Envisat text taken apart and put together, for the functions and for the program of text lines. */
#ifndef PLAIN_TEXT_H
#define PLAIN_TEXT_H

#include "plain_dates.h"
#include "vrikshonem.h"

static const char month_names[] = "JANFEBMARAPRMAYJUNJULAUGSEPOCTNOVDEC";

/* Two digits, or a number over every limit. */
static inline unsigned two(const uint8_t *s) {
    unsigned a = s[0] - (unsigned)'0', b = s[1] - (unsigned)'0';
    return a < 10 && b < 10 ? a * 10 + b : 1000000;
}

static inline void put_two(uint8_t *out, unsigned n) {
    out[0] = (uint8_t)('0' + n / 10);
    out[1] = (uint8_t)('0' + n % 10);
}

#define LETTERS(a, b, c) ((unsigned)(a) << 16 | (unsigned)(b) << 8 | (unsigned)(c))

/* 1 to 12, or 0. */
INLINED unsigned month_of(const uint8_t *s) {
    switch (LETTERS(s[0], s[1], s[2])) {
    case LETTERS('J', 'A', 'N'): return 1;
    case LETTERS('F', 'E', 'B'): return 2;
    case LETTERS('M', 'A', 'R'): return 3;
    case LETTERS('A', 'P', 'R'): return 4;
    case LETTERS('M', 'A', 'Y'): return 5;
    case LETTERS('J', 'U', 'N'): return 6;
    case LETTERS('J', 'U', 'L'): return 7;
    case LETTERS('A', 'U', 'G'): return 8;
    case LETTERS('S', 'E', 'P'): return 9;
    case LETTERS('O', 'C', 'T'): return 10;
    case LETTERS('N', 'O', 'V'): return 11;
    case LETTERS('D', 'E', 'C'): return 12;
    }
    return 0;
}

static inline int has_prefix(size_t form) { return form == 24 || form == 31; }
static inline int has_micros(size_t form) { return form > 24; }
static inline int is_form(size_t n) { return n == 20 || n == 24 || n == 27 || n == 31; }

/* 0 and the scale that a prefix names, or its refusal. */
static inline uint32_t prefix_refusal(const uint8_t *s, uint32_t *scale) {
    unsigned letters = LETTERS(s[0], s[1], s[2]);
    if (s[3] != '=') return VRK_FIELD_OVER;
    if (letters == LETTERS('T', 'A', 'I')) *scale = VRK_TAI;
    else if (letters == LETTERS('G', 'P', 'S')) *scale = VRK_GPS;
    else if (letters == LETTERS('U', 'T', 'C')) *scale = VRK_UTC;
    else return VRK_FIELD_OVER;
    return 0;
}

/* The refusal of a text by itself, or 0 and its scale, date and time of day. */
static inline uint32_t text_refusal(const uint8_t *s, size_t n, uint32_t *scale, struct date *d, int64_t *micro) {
    if (!is_form(n)) return VRK_LENGTH_IS_NONE;
    *scale = VRK_UTC;
    if (has_prefix(n)) {
        if (prefix_refusal(s, scale)) return VRK_FIELD_OVER;
        s += 4;
    }
    if (s[2] != '-' || s[6] != '-' || s[11] != ' ' || s[14] != ':' || s[17] != ':') return VRK_FIELD_OVER;
    *d = (struct date){two(s + 7) * 100 + two(s + 9), month_of(s + 3), two(s)};
    unsigned hour = two(s + 12), minute = two(s + 15), second = two(s + 18), part = 0;
    if (has_micros(n)) {
        if (s[20] != '.') return VRK_FIELD_OVER;
        unsigned a = two(s + 21), b = two(s + 23), c = two(s + 25);
        if (a > 99 || b > 99 || c > 99) return VRK_FIELD_OVER;
        part = (a * 100 + b) * 100 + c;
    }
    if (hour > 23 || minute > 59 || second > 60 || d->year > 9999) return VRK_FIELD_OVER;
    if (second == 60 && (*scale != VRK_UTC || hour != 23 || minute != 59)) return VRK_FIELD_OVER;
    if (!is_date(*d)) return VRK_FIELD_OVER;
    *micro = ((hour * 60 + minute) * 60 + second) * SECOND + part;
    return 0;
}

/* The form without a prefix. Second 60 comes after 23:59. */
static inline void put_text(uint8_t *out, int day, int64_t micro, int micros) {
    struct date d = date_of(day);
    unsigned seconds = (unsigned)(micro / SECOND), part = (unsigned)(micro % SECOND), extra = seconds == 86400;
    seconds -= extra;
    __builtin_memcpy(out, "dd-mmm-yyyy hh:mm:ss", 20);
    put_two(out, d.day);
    __builtin_memcpy(out + 3, month_names + 3 * (d.month - 1), 3);
    put_two(out + 7, d.year / 100);
    put_two(out + 9, d.year % 100);
    put_two(out + 12, seconds / 3600);
    put_two(out + 15, seconds / 60 % 60);
    put_two(out + 18, seconds % 60 + extra);
    if (!micros) return;
    out[20] = '.';
    put_two(out + 21, part / 10000);
    put_two(out + 23, part / 100 % 100);
    put_two(out + 25, part % 100);
}

#endif
