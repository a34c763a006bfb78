/* The inputs of Envisat texts: half UTC, a quarter TAI, a quarter GPS; without a prefix UTC. */
#include "inputs.h"


static const uint32_t forms[4] = {20, 24, 27, 31};

static void text_write(struct input *x, size_t i, uint32_t scale, uint32_t form) {
    size_t bad = refused(i);
    x->list = listed(0);
    x->code = form;
    x->count = form + (uint32_t)below(2) * (LENT - form);
    x->time = scale == VRK_UTC && below(16) == 0 ? second_60() : any_record(scale, FIRST_DAY);
    if (form < 27) x->time.micro -= x->time.micro % SECOND;
    else if (x->time.micro < (uint64_t)DAY && below(8) == 0) x->time = any_time(scale, FIRST_DAY);
    switch (bad ? bad % 8 : 8) {
    case 0: x->time = bad_time(bad / 8); break;
    case 1: x->code = 21; break;
    case 2: x->list = bad_list(bad / 8); break;
    case 3: x->time.day = LISTED + 1; break;
    case 4: x->time = (vrk_handed){VRK_RECORD, VRK_UTC, 1, DAY, 0, 0, 0}; break;
    case 5: x->code = 20, x->time.scale = VRK_GPS, x->time.day = 0; break;
    case 6: x->code = 24, x->time.kind = VRK_RECORD, x->time.micro = 1; break;
    case 7: x->count = form - 1; break;
    }
}

/* The text that the library writes, as a twin may be missing, and what is wrong with it then. */
static void text_read(struct input *x, size_t i, uint32_t scale, uint32_t form) {
    text_write(x, i - i % 16, scale, form);
    const struct leap_list *l = x->list;
    vrk_text_write(x->time, l->days, l->day_count, l->offsets, l->offset_count, l->last, form, x->bytes, LENT);
    x->count = form;
    uint8_t *body = x->bytes + (form == 24 || form == 31 ? 4 : 0);
    size_t bad = refused(i);
    switch (bad ? bad % 7 : 7) {
    case 0: x->count = 19; break;
    case 1: body[below(20)] = '*'; break;
    case 2: body[0] = '3', body[1] = '2'; break;
    case 3: x->list = bad_list(bad / 7); break;
    case 4: body[7] = '3'; break;
    case 5: __builtin_memcpy(body + 7, "2025", 4); break;
    case 6: __builtin_memcpy(body, "02-JAN-2000 23:59:60", 20); break;
    }
}

/* Moved on by one at each refused input, so that every scale and form has refused ones. */
static size_t turn(size_t i) { return i + i / 16; }
static uint32_t scale_of(size_t i) { return turn(i) % 4 < 2 ? VRK_UTC : turn(i) % 4 == 2 ? VRK_TAI : VRK_GPS; }
static uint32_t form_of(size_t i) { return scale_of(i) == VRK_UTC ? forms[turn(i) / 4 % 4] : forms[turn(i) / 4 % 2 * 2 + 1]; }

static void make_text_read(struct input *x, size_t i, size_t steps) { (void)steps, text_read(x, i, scale_of(i), form_of(i)); }
static void make_text_read_utc(struct input *x, size_t i, size_t steps) { (void)steps, text_read(x, i, VRK_UTC, 31); }
static void make_text_read_tai(struct input *x, size_t i, size_t steps) { (void)steps, text_read(x, i, VRK_TAI, 31); }
static void make_text_write(struct input *x, size_t i, size_t steps) { (void)steps, text_write(x, i, scale_of(i), form_of(i)); }
static void make_text_write_utc(struct input *x, size_t i, size_t steps) { (void)steps, text_write(x, i, VRK_UTC, 31); }
static void make_text_write_tai(struct input *x, size_t i, size_t steps) { (void)steps, text_write(x, i, VRK_TAI, 31); }

#define ROWS_OF_TEXTS(FUNCTION, USE)                                                 \
    FUNCTION(text_read, make_text_read, vrk_time, GIVEN, LIST)                       \
    USE("text_read UTC", make_text_read_utc, text_read, [DATE] = run_date_text_read) \
    USE("text_read TAI", make_text_read_tai, text_read, [DATE] = run_date_text_read) \
    FUNCTION(text_write, make_text_write, vrk_written, x->time, LIST, x->code, ROOM) \
    USE("text_write UTC", make_text_write_utc, text_write)                           \
    USE("text_write TAI", make_text_write_tai, text_write)
