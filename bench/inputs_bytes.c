/* The inputs of the byte layouts: bytes by chance within the fields' limits, and times that the layout holds. */
#include "inputs.h"

static void put(uint8_t *b, size_t n, uint64_t value) {
    while (n-- > 0) b[n] = (uint8_t)value, value >>= 8;
}

/* ---- readers: a wrong length, and whatever else the layout refuses */

static void wrong_length(struct input *x, size_t bad) { x->count = bad % 2 ? x->count - 1 : x->count + 1; }

static void make_cuc_read(struct input *x, size_t i, size_t steps) {
    (void)steps;
    size_t bad = refused(i);
    x->count = 6;
    put(x->bytes, 4, bad % 2 ? 3786480000 + below(508487296) : below(3786480000));
    put(x->bytes + 4, 2, below(65536));
    if (bad && bad % 2 == 0) wrong_length(x, bad / 2);
}

static void make_goce_read(struct input *x, size_t i, size_t steps) {
    (void)steps;
    x->count = 6;
    put(x->bytes, 6, below(UINT64_C(1) << 48));
    if (refused(i)) wrong_length(x, refused(i));
}

static void make_obet_read(struct input *x, size_t i, size_t steps) {
    (void)steps;
    size_t bad = refused(i);
    x->count = 8;
    put(x->bytes, 8, below(UINT64_C(1) << 56));
    x->bytes[0] = bad % 2 ? 0x67 : 0x66;
    if (bad && bad % 2 == 0) wrong_length(x, bad / 2);
}

static void make_proteus_read(struct input *x, size_t i, size_t steps) {
    (void)steps;
    size_t bad = refused(i);
    x->count = 8;
    put(x->bytes, 2, below(4096) << 4 | below(2) | (bad % 3 == 1 ? 2 : 0));
    put(x->bytes + 2, 4, bad % 3 == 2 ? 604800 : below(604800));
    put(x->bytes + 6, 2, below(65536));
    if (bad && bad % 3 == 0) wrong_length(x, bad / 3);
}

static void day_bytes(struct input *x, size_t bad) {
    put(x->bytes, 2, bad % 4 == 1 ? 36525 + below(29000) : below(36525));
    put(x->bytes + 2, 4, bad % 4 == 2 ? 86400000 : below(86400000));
    put(x->bytes + 6, 2, bad % 4 == 3 ? 1000 : below(1000));
    if (bad && bad % 4 == 0) wrong_length(x, bad / 4);
}

static void make_cryosat_read(struct input *x, size_t i, size_t steps) {
    (void)steps;
    x->count = 8;
    day_bytes(x, refused(i));
}

static void make_siral_read(struct input *x, size_t i, size_t steps) {
    (void)steps;
    x->count = 10;
    put(x->bytes + 8, 2, below(65536));
    day_bytes(x, refused(i));
}

static void make_sbt_read(struct input *x, size_t i, size_t steps) {
    (void)steps;
    x->count = 4;
    put(x->bytes, 4, below(UINT64_C(1) << 32));
    if (refused(i)) wrong_length(x, refused(i));
}

/* ---- writers: a time that is refused, one of another scale or that the layout cannot hold, no room; or more than is needed */

static uint32_t room(uint32_t length) { return length + (uint32_t)below(3); }

static vrk_handed without_image(uint32_t scale, size_t which) {
    if (scale == VRK_TAI) return any_time(scale, FIRST_DAY);
    if (which % 3 == 0) return second_60();
    return (vrk_handed){VRK_RECORD, scale, which % 3 == 1 ? FIRST_GPS_DAY - 1 : 21372, 0, 0, 0, 0};
}

static void write_time(struct input *x, size_t i, uint32_t scale, int64_t first, uint32_t length) {
    size_t bad = refused(i);
    x->count = room(length);
    x->time = any_time(scale, first);
    switch (bad ? bad % 4 : 4) {
    case 0: x->time = bad_time(bad / 4); break;
    case 1: x->time = any_time((scale + 1) % 3, 0); break;
    case 2: x->time = scale == VRK_GPS ? x->time : without_image(scale, bad / 4); break;
    case 3: x->count = length - 1; break;
    }
}

static void make_cuc_write(struct input *x, size_t i, size_t steps) { (void)steps, write_time(x, i, VRK_GPS, FIRST_GPS_DAY, 6); }
static void make_cryosat_write(struct input *x, size_t i, size_t steps) { (void)steps, write_time(x, i, VRK_TAI, 0, 8); }
static void make_siral_write(struct input *x, size_t i, size_t steps) { (void)steps, write_time(x, i, VRK_TAI, 0, 10); }

static void make_proteus_write(struct input *x, size_t i, size_t steps) {
    (void)steps;
    write_time(x, i, VRK_UTC, FIRST_GPS_DAY, 8);
}

/* ---- counts and fields: one over its limit, no room */

static void write_count(struct input *x, size_t i, unsigned bits, uint32_t length) {
    size_t bad = refused(i);
    x->value = below(UINT64_C(1) << bits) | (uint64_t)(bad % 2) << bits;
    x->count = bad && bad % 2 == 0 ? length - 1 : room(length);
}

static void make_goce_write(struct input *x, size_t i, size_t steps) { (void)steps, write_count(x, i, 48, 6); }
static void make_obet_write(struct input *x, size_t i, size_t steps) { (void)steps, write_count(x, i, 56, 8); }

static void make_sbt_write(struct input *x, size_t i, size_t steps) {
    (void)steps;
    x->code = (uint32_t)below(UINT64_C(1) << 32);
    x->count = refused(i) ? (uint32_t)below(4) : room(4);
}

static void make_cuc_parts(struct input *x, size_t i, size_t steps) {
    (void)steps;
    size_t bad = refused(i);
    x->part[0] = (uint32_t)below(UINT64_C(1) << 32), x->part[1] = (uint32_t)below(65536) + (bad % 2 ? 65536 : 0);
    x->count = bad && bad % 2 == 0 ? 5 : room(6);
}

static void make_proteus_parts(struct input *x, size_t i, size_t steps) {
    (void)steps;
    size_t bad = refused(i);
    x->part[0] = (uint32_t)below(4096) + (bad % 5 == 1 ? 4096 : 0);
    x->part[1] = (uint32_t)below(2) + (bad % 5 == 2 ? 2 : 0);
    x->part[2] = (uint32_t)below(604800) + (bad % 5 == 3 ? 604800 : 0);
    x->part[3] = (uint32_t)below(65536) + (bad % 5 == 4 ? 65536 : 0);
    x->count = bad && bad % 5 == 0 ? 7 : room(8);
}

static void day_parts(struct input *x, size_t bad, uint32_t length) {
    x->part[0] = (uint32_t)below(65536) + (bad % 5 == 1 ? 65536 : 0);
    x->part[1] = (uint32_t)below(86400000) + (bad % 5 == 2 ? 86400000 : 0);
    x->part[2] = (uint32_t)below(1000) + (bad % 5 == 3 ? 1000 : 0);
    x->part[3] = (uint32_t)below(65536) + (bad % 5 == 4 ? 65536 : 0);
    x->count = bad && bad % 5 == 0 ? length - 1 : room(length);
}

static void make_cryosat_parts(struct input *x, size_t i, size_t steps) { (void)steps, day_parts(x, refused(i), 8); }
static void make_siral_parts(struct input *x, size_t i, size_t steps) { (void)steps, day_parts(x, refused(i), 10); }

#define ROWS_OF_BYTES(FUNCTION, USE)                                                                                      \
    FUNCTION(cuc_read, make_cuc_read, vrk_time, GIVEN)                                                                    \
    FUNCTION(cuc_write, make_cuc_write, vrk_written, x->time, ROOM)                                                       \
    FUNCTION(goce_read, make_goce_read, vrk_count, GIVEN)                                                                 \
    FUNCTION(goce_write, make_goce_write, vrk_written, x->value, ROOM)                                                    \
    FUNCTION(obet_read, make_obet_read, vrk_count, GIVEN)                                                                 \
    FUNCTION(obet_write, make_obet_write, vrk_written, x->value, ROOM)                                                    \
    FUNCTION(proteus_read, make_proteus_read, vrk_time, GIVEN)                                                            \
    FUNCTION(proteus_write, make_proteus_write, vrk_written, x->time, ROOM)                                               \
    FUNCTION(cryosat_read, make_cryosat_read, vrk_time, GIVEN)                                                            \
    FUNCTION(cryosat_write, make_cryosat_write, vrk_written, x->time, ROOM)                                               \
    FUNCTION(siral_read, make_siral_read, vrk_time, GIVEN)                                                                \
    FUNCTION(siral_write, make_siral_write, vrk_written, x->time, ROOM)                                                   \
    FUNCTION(sbt_read, make_sbt_read, vrk_count, GIVEN)                                                                   \
    FUNCTION(sbt_write, make_sbt_write, vrk_written, x->code, ROOM)                                                       \
    FUNCTION(cuc_fields_read, make_cuc_read, vrk_cuc_fields, GIVEN)                                                       \
    FUNCTION(cuc_fields_write, make_cuc_parts, vrk_written, x->part[0], x->part[1], ROOM)                                 \
    FUNCTION(proteus_fields_read, make_proteus_read, vrk_proteus_fields, GIVEN)                                           \
    FUNCTION(proteus_fields_write, make_proteus_parts, vrk_written, x->part[0], x->part[1], x->part[2], x->part[3], ROOM) \
    FUNCTION(cryosat_fields_read, make_cryosat_read, vrk_cryosat_fields, GIVEN)                                           \
    FUNCTION(cryosat_fields_write, make_cryosat_parts, vrk_written, x->part[0], x->part[1], x->part[2], ROOM)             \
    FUNCTION(siral_fields_read, make_siral_read, vrk_siral_fields, GIVEN)                                                 \
    FUNCTION(siral_fields_write, make_siral_parts, vrk_written, x->part[0], x->part[1], x->part[2], x->part[3], ROOM)
