/* Vrikshonem, the dating desk: its interface for C, version 0.5. Before 1.0 names, structs and functions may change with the
 * middle number of the version; CHANGELOG.md says what to change then.
 *
 * Every function takes every input, and returns a value or the number of one refusal. None keeps anything between calls,
 * allocates memory or sets errno, and none relies on its caller having checked its arguments. Any number of threads may call
 * at once.
 *
 * Refusals. Look at `refusal` of a result first: where it is 0 (VRK_ANSWERED) the other fields hold. Else it is the number of
 * the first refusal that applies, in the order of vrikshonem_refusals.h. That header has a name for each number, such as
 * VRK_NOT_IN_FORCE, and vrk_words, which says in words what is wrong.
 *
 * Below, "Refused" lists the numbers that a function can return, in the order in which it tests for them. A number that
 * stands there without words means: 1 not as many bytes as the layout has; 4 a decimal day infinite or not a number; 5 leap
 * list not accepted; 6 correlation not accepted; 7 time outside the limits of its scale; 9 a time after the leap list's last
 * day; 10 second 60 on a day that has none; 11 result outside the limits of its scale; 13 `out` shorter than what is to be
 * written.
 *
 * An unknown scale, kind, mark, form or H3 code is refused 3; an unknown scale in a correlation, 6, or 14 where it is for the
 * season's file.
 *
 * With a refusal the other fields are empty: day, micro, mark, source, count, length, first, last and every field of a layout are
 * 0, a decimal day is plus zero, and `scale` is the scale that the answer would have had (0, which is TAI, where that code is
 * unknown).
 *
 * Slices. A slice is a pointer and a number of elements. The pointer is valid for that many; where the number is 0 it may be
 * null. `const` slices are only read. `out` is memory that the caller lends to be written to; it overlaps no other slice of
 * the call. An answer writes onto the front of `out` and leaves every byte after what it wrote; a refusal leaves every byte
 * of `out`.
 */
#ifndef VRIKSHONEM_H
#define VRIKSHONEM_H

#include <stddef.h>
#include <stdint.h>

#include "vrikshonem_refusals.h"

#ifdef __cplusplus
extern "C" {
#endif

/* ---- times */

/* The codes of a scale, of a time's kind, and of a record's mark. */
enum { VRK_TAI = 0, VRK_UTC = 1, VRK_GPS = 2 };
enum { VRK_RECORD = 0, VRK_DECIMAL = 1 };
enum { VRK_PLAIN = 0, VRK_PROTEUS = 1, VRK_CORRELATED = 2 };

/* A mark says where a record came from, and `source` belongs to it:
 *
 *    VRK_PLAIN        nothing is told, source 0: from text, a decimal day, CUC, CryoSat or SIRAL, and every empty record
 *    VRK_PROTEUS      from Proteus bytes, source is their H3, 0 or 1
 *    VRK_CORRELATED   dated by a correlation, source is its reference: `tick` of an SBT correlation, `obt0` of a GOCE one
 *
 * A change of scale keeps the mark, and writing Proteus takes H3 from it. No other function looks at it, and two times that
 * differ in it alone are the same time. */

/* A time that is passed in. It is a record (VRK_RECORD: scale, day counted from 1 January 2000, microsecond of that day) or a
 * decimal day (VRK_DECIMAL: scale, decimal), which stands for the record that vrk_decimal_read gives. Of a record `decimal`
 * is ignored; of a decimal day `day`, `micro`, `mark` and `source` are. A record whose mark was not set, with fields of 0, is
 * plain. A mark above VRK_CORRELATED, or VRK_PROTEUS with a source above 1, is unknown and refused 3. The source of VRK_PLAIN is
 * ignored, and that of VRK_CORRELATED may be any number. Each function that takes a time tests it against these limits:
 *
 *    scale   first day             last day              microsecond of day below
 *    TAI     -10227 (1 Jan 1972)   36524 (31 Dec 2099)   86,400,000,000
 *    UTC     -10227                36524                 86,401,000,000
 *    GPS      -7300 (6 Jan 1980)   36524                 86,400,000,000
 *
 * A time outside of them is refused 7. UTC microseconds from 86,400,000,000 on are second 60, the leap second 23:59:60. They
 * are within the limits on every day; on a day without a leap second they are refused 10 where a leap list is used. */
typedef struct {
    uint32_t kind;
    uint32_t scale;
    int64_t day;
    uint64_t micro;
    double decimal;
    uint32_t mark;
    uint64_t source;
} vrk_handed;

/* A time that is returned: a record within the limits of its scale with its mark, or with a refusal the empty one. */
typedef struct {
    uint32_t refusal;
    uint32_t scale;
    int64_t day;
    uint64_t micro;
    uint32_t mark;
    uint64_t source;
} vrk_time;

/* A decimal day that is returned. */
typedef struct {
    uint32_t refusal;
    double day;
} vrk_decimal;

/* A count or a tick that is returned. */
typedef struct {
    uint32_t refusal;
    uint64_t count;
} vrk_count;

/* How many bytes were written onto the front of `out`; 0 on a refusal. */
typedef struct {
    uint32_t refusal;
    uint64_t length;
} vrk_written;

/* ---- decimal days */

/* Given     a decimal day and the code of its scale.
 * Returned  the time to the microsecond nearest the exact value of the double; of two equally near, the later. Minus zero is
 *           day 0.
 * Refused   3 unknown scale; 4; 7 an exact value below the scale's first day, or 36525 or more. */
vrk_time vrk_decimal_read(double day, uint32_t scale);

/* Given     a time.
 * Returned  the double nearest (day x 86,400,000,000 + micro) / 86,400,000,000, correctly rounded. vrk_decimal_read gives the
 *           same record back.
 * Refused   3 unknown kind, scale or mark; 4; 7; 12 second 60. */
vrk_decimal vrk_decimal_write(vrk_handed time);

/* ---- SBT ticks */

/* A correlation says how to date ticks. `tick` is one tick, the reference, and `scale`, `day` and `micro` are the time it
 * stood for. `period` is the length of a tick in picoseconds. `back` and `ahead` are the window: how many ticks before and
 * after the reference the correlation may be relied on. It is accepted where all of this holds, otherwise refused 6: a known
 * scale; `day` within the limits of that scale; `micro` below 86,400,000,000; `period` from 3,906,000,000 to 3,906,500,000;
 * `back` at most 2^31; `ahead` at most 2^31 - 1. */
typedef struct {
    uint32_t tick;
    uint32_t scale;
    int64_t day;
    uint64_t micro;
    uint64_t period;
    uint64_t back;
    uint64_t ahead;
} vrk_sbt_correlation;

/* Under a UTC correlation ticks are counted in TAI, by the call's leap list (which is described below): a leap second between
 * two ticks counts, and a time may lie in second 60. A UTC time is known where its day is not after the list's last day and
 * has that second. Under a TAI or GPS correlation no list is looked at, and it may be empty. */

/* Given     a tick, a correlation, the receipt (the day and the microsecond at which the packet was received, in the
 *           correlation's scale), and a leap list.
 * Returned  the time of the tick in that scale, rounded down to the microsecond, marked VRK_CORRELATED with the reference tick.
 *           The counter wraps: `tick` is taken for the tick of this number from 2^31 before the reference to 2^31 - 1 after it.
 * Refused   5; 6; 7 the receipt is outside the limits of its scale; 8 the tick is outside the window, or the receipt is before
 *           the time of the window's first tick or after that of its last; 17 the result is later than the receipt, by a
 *           microsecond or more (in UTC the receipt is tested for 8 and 17 in TAI, and only where it and the reference are both
 *           known); 9 the reference, the receipt, or the result where the receipt's second is lacking; 10 the receipt; 11 a
 *           result before the first day of its scale. 5, 9 and 10 are for UTC correlations. With a refusal `scale` is the
 *           correlation's. */
vrk_time vrk_sbt_date(uint32_t tick, vrk_sbt_correlation correlation, int64_t receipt_day, uint64_t receipt_micro,
                      const int64_t *days, size_t day_count, const uint64_t *offsets, size_t offset_count, int64_t last);

/* Given     a time, a correlation and a leap list.
 * Returned  the last tick of the window whose time is not later than the given one; it is at most 3,906 microseconds earlier.
 * Refused   3 unknown kind, scale or mark of the time; 4; 5; 6; 7; 8 the time is before that of the window's first tick or
 *           after that of its last (in UTC tested only where it and the reference are both known); 9 the reference or the time;
 *           10 the time; 12 another scale than the correlation's. 5, 9 and 10 are for UTC correlations. A time of another scale is not
 *           tested for 8 and 10, and for 9 only the reference is. */
vrk_count vrk_sbt_tick(vrk_handed time, vrk_sbt_correlation correlation, const int64_t *days, size_t day_count,
                       const uint64_t *offsets, size_t offset_count, int64_t last);

/* ---- GOCE counts */

/* A correlation says how to date GOCE's counts, always in UTC. A count is 1/65536 s. `obt0` is one count, the reference; it
 * stood for `utc0` plus `offset`, in counts since 1 January 2000 in days of 86,400 s. `gradient` is the clock's rate in
 * billionths, 1,000,000,000 for a clock that keeps time. `back` and `ahead` are the window: how many counts before and after
 * the reference the correlation may be relied on. It is accepted where all of this holds, otherwise refused 6: `obt0` and
 * `utc0` below 2^48; `offset` at most one day (5,662,310,400 counts) either way; `gradient` from 999,000,000 to
 * 1,001,000,000; `back` at most 2^47; `ahead` at most 2^47 - 1; `utc0` plus `offset` below 206,815,887,360,000, the end of
 * 2099. */
typedef struct {
    uint64_t obt0;
    uint64_t utc0;
    int64_t offset;
    uint64_t gradient;
    uint64_t back;
    uint64_t ahead;
} vrk_goce_correlation;

/* Given     a count, a correlation, the receipt (the day and the microsecond at which the packet was received, in UTC), and a
 *           leap list: counts are counted in TAI by it, as the ticks of a UTC correlation are.
 * Returned  the time of the count in UTC: Gradient x (OBT - OBT0) after Offset + UTC0, the exact sum rounded down to the
 *           microsecond, marked VRK_CORRELATED with `obt0`. The counter wraps: `obt` is taken for the count of this number
 *           from 2^47 before the reference to 2^47 - 1 after it.
 * Refused   3 a count of 2^48 or more; 5; 6; 7 the receipt is outside the limits of UTC; 8 the count is outside the window, or
 *           the receipt is before the time of the window's first count or after that of its last; 17 the result is later than
 *           the receipt, by a microsecond or more (the receipt is tested for 8 and 17 in TAI, and only where it and the
 *           reference are both known); 9 the reference, the receipt, or the result where the receipt's second is lacking; 10
 *           the receipt; 11 a result before 1972. With a refusal `scale` is UTC. */
vrk_time vrk_goce_date(uint64_t obt, vrk_goce_correlation correlation, int64_t receipt_day, uint64_t receipt_micro,
                       const int64_t *days, size_t day_count, const uint64_t *offsets, size_t offset_count, int64_t last);

/* Given     a time, a correlation and a leap list.
 * Returned  the last count of the window whose time is not later than the given one; it is at most 15 microseconds earlier.
 * Refused   3 unknown kind, scale or mark of the time; 4; 5; 6; 7; 8 the time is before that of the window's first count or after
 *           that of its last (tested only where it and the reference are both known); 9 the reference or the time; 10 the
 *           time; 12 another scale than UTC. A time of another scale is not tested for 8 and 10, and for 9 only the reference
 *           is. */
vrk_count vrk_goce_count(vrk_handed time, vrk_goce_correlation correlation, const int64_t *days, size_t day_count,
                         const uint64_t *offsets, size_t offset_count, int64_t last);

/* ---- the season's file
 *
 * Up to 512 TAI correlations of SBT in one file. Most significant byte first, it has
 *
 *    2 bytes    n, the number of its entries
 *    n times    20 bytes, the contents: the first and the last microsecond that the entry covers (signed, 64 bits each), and
 *               where its body stands, in bytes from the start of the file (32 bits)
 *    n times    28 bytes, the bodies, in the same order: tick (32 bits), the reference's microsecond since day 0 (signed,
 *               64 bits), period (64 bits), back and ahead (32 bits each)
 *
 * A correlation covers the microseconds from the time of its window's first tick to that of its last, both included; they are
 * counted from the beginning of day 0 and may lie outside the limits of TAI. These are the rules: 2 + 48n bytes, n at most 512
 * (the file of no entry is two zero bytes); body i stands at 2 + 20n + 28i, i being counted from 0; no cover ends before it
 * begins, and each ends before the next begins; each body is an accepted correlation, and its cover is the one in the contents.
 * docs/SEASON.md has an example, byte by byte. */

/* A correlation that is written, with the fields of vrk_sbt_correlation, each of 64 bits. A number that none of its fields can
 * have, such as a negative `tick`, is refused 14, as any correlation is that is not accepted or not in TAI. */
typedef struct {
    int64_t tick;
    int64_t scale;
    int64_t day;
    int64_t micro;
    int64_t period;
    int64_t back;
    int64_t ahead;
} vrk_season_body;

/* An entry that is read: the first and the last microsecond that it covers, and its correlation, whose scale is VRK_TAI. */
typedef struct {
    int64_t first;
    int64_t last;
    vrk_season_body body;
} vrk_season_entry;

/* The first and the last microsecond that an entry covers. */
typedef struct {
    uint32_t refusal;
    int64_t first;
    int64_t last;
} vrk_cover;

/* vrk_season_read_entries, below, does the same with an array of entries.
 *
 * Given     the bytes of a file, and `words`, which is lent as `out` is.
 * Written   onto the front of `words` the entries, in their order, nine numbers each: those of vrk_season_entry.
 * Returned  the number of entries.
 * Refused   14 a rule of the file is broken; 13 fewer than nine words an entry. */
vrk_count vrk_season_read(const uint8_t *bytes, size_t count, int64_t *words, size_t word_count);

/* vrk_season_write_bodies, below, does the same with an array of bodies.
 *
 * Given     correlations in the order of their covers, seven numbers each: those of vrk_season_body.
 * Written   at most 24578 bytes: the file, which is 2 + 48n bytes for n correlations. vrk_season_read gives them back.
 * Refused   14 more than 512 correlations, one that is not accepted or not in TAI, one whose cover does not begin after that of
 *           the one before has ended, a number of words that is no multiple of seven; 13. */
vrk_written vrk_season_write(const int64_t *words, size_t word_count, uint8_t *out, size_t count);

/* Given     the bytes of a file, and a receipt: a day and the microsecond of that day, in TAI.
 * Returned  the first and the last microsecond of the one entry that covers the receipt. Only the count and the contents are
 *           read, not the bodies; vrk_season_read gives the entry that has this `first` and `last`.
 * Refused   14 a rule of the length, the count, the positions or the order of the covers is broken; 7 the receipt; 15 no entry
 *           covers the receipt. */
vrk_cover vrk_season_covering(const uint8_t *bytes, size_t count, int64_t receipt_day, uint64_t receipt_micro);

/* vrk_season_read into an array of entries. Refused 13 where there are fewer than the file has. */
static inline vrk_count vrk_season_read_entries(const uint8_t *bytes, size_t count, vrk_season_entry *entries,
                                                size_t entry_count) {
    return vrk_season_read(bytes, count, (int64_t *)entries, 9 * entry_count);
}

/* vrk_season_write from an array of correlations. */
static inline vrk_written vrk_season_write_bodies(const vrk_season_body *bodies, size_t body_count, uint8_t *out,
                                                  size_t count) {
    return vrk_season_write((const int64_t *)bodies, 7 * body_count, out, count);
}

/* ---- the leap list, and changes of scale
 *
 * A leap list is `days` and `offsets`, two slices of the same length, and `last`. From each of the days on, TAI minus UTC is
 * the offset beside it, in seconds; `last` is the last day for which the list is known. It is accepted where all of this
 * holds, otherwise refused 5: 1 to 64 steps; the first is day -10227 with offset 10; days rise and are firsts of months; each
 * offset is one more than the one before; `last` is from -10227 to 36524, and no step is later than `last` + 1. A UTC day
 * after `last` is refused 9. A new leap second needs a longer list and nothing else. A list is used for changes of scale, for
 * UTC text, and for ticks and counts under a UTC correlation. */

/* Returned  1 where the list is accepted, 0 where it is not. */
uint32_t vrk_list_accepted(const int64_t *days, size_t day_count, const uint64_t *offsets, size_t offset_count, int64_t last);

/* Given     a time, `to_scale`, the code of the scale to change it to, and a leap list, which is used only where one of the
 *           two scales is UTC.
 * Returned  the same instant in that scale, with the mark that was given; in its own scale a time stays as it is.
 * Refused   3 unknown `to_scale`, unknown kind, scale or mark of the time; 4; 5; 7; 9; 10; 11. With a refusal `scale` is
 *           `to_scale`. */
vrk_time vrk_change(vrk_handed time, uint32_t to_scale, const int64_t *days, size_t day_count, const uint64_t *offsets,
                    size_t offset_count, int64_t last);

/* ---- byte layouts
 *
 * Most significant byte first, all fields unsigned. A reader may be given any number of bytes. Where a layout cannot hold a
 * time exactly, its writer writes the latest time not after it that the layout can hold. */

/* CUC, Aeolus, 6 bytes: seconds (32 bits) since 6 January 1980 and a fraction of 1/65536 s (16 bits), in GPS. A fraction is
 * read as the nearest microsecond, halves upward: 1 as 15, 512 (7,812.5) as 7,813, 65535 as 999,985.
 *
 * Given     6 bytes.    Returned  a GPS time.    Refused  1; 7. */
vrk_time vrk_cuc_read(const uint8_t *bytes, size_t count);

/* Given     a time.    Written  6 bytes.
 * Refused   3 unknown kind, scale or mark; 4; 7; 12 a scale other than GPS; 13. */
vrk_written vrk_cuc_write(vrk_handed time, uint8_t *out, size_t count);

/* GOCE OBT, 6 bytes: a count of 48 bits, without an epoch; vrk_goce_date dates it.
 *
 * Given     6 bytes.    Returned  the count.    Refused  1. */
vrk_count vrk_goce_read(const uint8_t *bytes, size_t count);

/* Given     a count.    Written  6 bytes.    Refused  3 a count of 2^48 or more; 13. */
vrk_written vrk_goce_write(uint64_t value, uint8_t *out, size_t count);

/* OBET, SMOS, 8 bytes: the byte 0x66 and a count of 56 bits.
 *
 * Given     8 bytes.    Returned  the count.    Refused  1; 2 another first byte. */
vrk_count vrk_obet_read(const uint8_t *bytes, size_t count);

/* Given     a count.    Written  8 bytes.    Refused  3 a count of 2^56 or more; 13. */
vrk_written vrk_obet_write(uint64_t value, uint8_t *out, size_t count);

/* Proteus, SMOS, 8 bytes: week (12 bits) from 6 January 1980, three bits that are 0, the bit H3, second of week (32 bits, at
 * most 604,799), a fraction as in CUC, read as the nearest microsecond, halves upward. It is UTC in weeks of 604,800 s, and no
 * leap list is used.
 *
 * Given     8 bytes.    Returned  a UTC time, marked VRK_PROTEUS with its H3.    Refused  1; 2 one of the three bits is 1; 3 a
 *           second over its limit. */
vrk_time vrk_proteus_read(const uint8_t *bytes, size_t count);

/* Given     a time.    Written  8 bytes; H3 is the source of a record marked VRK_PROTEUS, and 0 for every other time.
 * Refused   3 unknown kind, scale or mark; 4; 7; 12 a scale other than UTC, second 60, a day outside -7300 to 21371; 13. */
vrk_written vrk_proteus_write(vrk_handed time, uint8_t *out, size_t count);

/* CryoSat general, 8 bytes: day (16 bits) from 1 January 2000, millisecond (32 bits, below 86,400,000), microsecond (16 bits,
 * below 1,000), in TAI.
 *
 * Given     8 bytes.    Returned  a TAI time.    Refused  1; 3 a millisecond or microsecond over its limit; 7. */
vrk_time vrk_cryosat_read(const uint8_t *bytes, size_t count);

/* Given     a time.    Written  8 bytes, which hold it exactly.
 * Refused   3 unknown kind, scale or mark; 4; 7; 12 a scale other than TAI, a day before 0; 13. */
vrk_written vrk_cryosat_write(vrk_handed time, uint8_t *out, size_t count);

/* SIRAL, 10 bytes: the 8 of CryoSat general, and an extra counter (16 bits) in units of 33/16 microsecond. All are added, and
 * the sum is rounded down to the microsecond; it may lie on the next day.
 *
 * Given     10 bytes.    Returned  a TAI time.    Refused  1; 3 a millisecond or microsecond over its limit; 7 the sum. */
vrk_time vrk_siral_read(const uint8_t *bytes, size_t count);

/* Given     a time.    Written  10 bytes, which hold it exactly, with the extra counter 0.
 * Refused   3 unknown kind, scale or mark; 4; 7; 12 a scale other than TAI, a day before 0; 13. */
vrk_written vrk_siral_write(vrk_handed time, uint8_t *out, size_t count);

/* SIRAL later in the second. Day, millisecond and microsecond stand still from one second's pulse to the next; only the extra
 * counter counts on, and it rolls over after 65536 units, which are 135168 microseconds. vrk_siral_read takes it as it stands,
 * and so dates a packet after the first roll too early. A run of packets of one second, dated together, tells how often it
 * rolled: the first packet's total is its extra counter, and each next total is the least number not below the one before that
 * is its packet's extra counter modulo 65536. The dates are right where the first packet lies before the first roll and
 * neighbours are less than one roll apart. They never fall within a run. */

/* How many dates were written, and the last packet's total. */
typedef struct {
    uint32_t refusal;
    uint64_t count;
    uint64_t last;
} vrk_run;

/* A run that comes in parts is told from part to part: with the `last` of the part before as `told`, the parts together have
 * the dates of the whole. An empty run is answered with no dates and `last` as told.
 *
 * Given     the bytes of packets, ten each, in the order in which they were made; `told`, 0, or the `last` of the part before;
 *           and `dates`, which is lent as `out` is.
 * Written   onto the front of `dates` a date for each packet: the microseconds since the beginning of day 0, in TAI.
 * Returned  the number of packets, and the last total.
 * Refused   1 a number of bytes that is no multiple of ten; 3 a millisecond or microsecond over its limit in any packet;
 *           16 packets that differ in day, millisecond or microsecond, a total above 484848, which is the last below a second;
 *           7 a date; 13 fewer dates than packets. */
vrk_run vrk_siral_run(const uint8_t *bytes, size_t count, uint64_t told, int64_t *dates, size_t date_count);

/* SBT, 4 bytes: the tick.
 *
 * Given     4 bytes.    Returned  the tick, below 2^32.    Refused  1. */
vrk_count vrk_sbt_read(const uint8_t *bytes, size_t count);

/* Given     a tick.    Written  4 bytes.    Refused  13. */
vrk_written vrk_sbt_write(uint32_t tick, uint8_t *out, size_t count);

/* ---- the fields of the layouts that have several
 *
 * Bytes to fields and back, exactly. Only the limits and widths of the fields are tested, not those of the time. */

typedef struct { uint32_t refusal; uint32_t seconds; uint32_t fraction; } vrk_cuc_fields;

/* Given     6 bytes.    Returned  the fields.    Refused  1. */
vrk_cuc_fields vrk_cuc_fields_read(const uint8_t *bytes, size_t count);

/* Given     the fields.    Written  6 bytes.    Refused  3 a fraction of 2^16 or more; 13. */
vrk_written vrk_cuc_fields_write(uint32_t seconds, uint32_t fraction, uint8_t *out, size_t count);

typedef struct { uint32_t refusal; uint32_t week; uint32_t h3; uint32_t second; uint32_t fraction; } vrk_proteus_fields;

/* Given     8 bytes.    Returned  the fields.    Refused  1; 2 one of the three bits is 1; 3 a second over its limit. */
vrk_proteus_fields vrk_proteus_fields_read(const uint8_t *bytes, size_t count);

/* Given     the fields.    Written  8 bytes.
 * Refused   3 a week of 2^12 or more, an H3 other than 0 and 1, a second over its limit, a fraction of 2^16 or more; 13. */
vrk_written vrk_proteus_fields_write(uint32_t week, uint32_t h3, uint32_t second, uint32_t fraction, uint8_t *out,
                                     size_t count);

typedef struct { uint32_t refusal; uint32_t day; uint32_t millisecond; uint32_t microsecond; } vrk_cryosat_fields;

/* Given     8 bytes.    Returned  the fields.    Refused  1; 3 a millisecond or microsecond over its limit. */
vrk_cryosat_fields vrk_cryosat_fields_read(const uint8_t *bytes, size_t count);

/* Given     the fields.    Written  8 bytes.
 * Refused   3 a millisecond or microsecond over its limit, a day of 2^16 or more; 13. */
vrk_written vrk_cryosat_fields_write(uint32_t day, uint32_t millisecond, uint32_t microsecond, uint8_t *out, size_t count);

typedef struct { uint32_t refusal; uint32_t day; uint32_t millisecond; uint32_t microsecond; uint32_t extra; } vrk_siral_fields;

/* Given     10 bytes.    Returned  the fields.    Refused  1; 3 a millisecond or microsecond over its limit. */
vrk_siral_fields vrk_siral_fields_read(const uint8_t *bytes, size_t count);

/* Given     the fields.    Written  10 bytes.
 * Refused   3 a millisecond or microsecond over its limit, a day or an extra counter of 2^16 or more; 13. */
vrk_written vrk_siral_fields_write(uint32_t day, uint32_t millisecond, uint32_t microsecond, uint32_t extra, uint8_t *out,
                                   size_t count);

/* ---- Envisat text
 *
 * Four forms; the code of a form is its length. No zero byte stands at the end. A text without a prefix is UTC:
 *
 *    20   30-JUN-1997 23:59:60                 27   30-JUN-1997 23:59:60.123456
 *    24   TAI=01-JUL-1997 00:00:30             31   GPS=01-JUL-1997 00:00:11.123456
 *
 * The leap list is used only for UTC. */

/* Given     a text and a leap list.
 * Returned  the time, in the text's scale.
 * Refused   1 a length other than 20, 24, 27 and 31; 3 a wrong character, field or date; 5; 7; 9; 10. With a refusal `scale`
 *           is TAI, whatever the text's scale. */
vrk_time vrk_text_read(const uint8_t *text, size_t count, const int64_t *days, size_t day_count, const uint64_t *offsets,
                       size_t offset_count, int64_t last);

/* Given     a time, a leap list, and `form`: 20, 24, 27 or 31.
 * Written   that many bytes. vrk_text_read gives the same time back, under the same list.
 * Refused   3 unknown form, unknown kind, scale or mark; 4; 5; 7; 9; 10; 12 a scale other than UTC in 20 and 27, a time that is
 *           not a whole second in 20 and 24; 13. */
vrk_written vrk_text_write(vrk_handed time, const int64_t *days, size_t day_count, const uint64_t *offsets, size_t offset_count,
                           int64_t last, uint32_t form, uint8_t *out, size_t count);

#ifdef __cplusplus
}
#endif

#endif
