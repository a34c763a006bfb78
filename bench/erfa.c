/* ERFA as a contender: UTC to TAI and back by its own list, in doubles. Its days of UTC with a second 60 are longer, so that a
 * time goes in and comes out as a date, an hour, a minute and a second. */
#include "others.h"

#include <erfa.h>
#include <math.h>

static const double day_0 = 2451544.5; /* the Julian date of 1 January 2000 */

static vrk_time utc_to_tai(vrk_handed h) {
    int year, month, day;
    double part, utc1, utc2, tai1, tai2;
    unsigned seconds = (unsigned)(h.micro / 1000000), late = seconds == 86400;
    seconds -= late;
    eraJd2cal(day_0, (double)h.day, &year, &month, &day, &part);
    eraDtf2d("UTC", year, month, day, (int)(seconds / 3600), (int)(seconds / 60 % 60),
             seconds % 60 + late + (double)(h.micro % 1000000) / 1e6, &utc1, &utc2);
    eraUtctai(utc1, utc2, &tai1, &tai2);
    double days = floor(tai1 - day_0 + tai2), micro = round((tai1 - day_0 - days + tai2) * 86400e6);
    if (micro >= 86400e6) micro -= 86400e6, days++;
    return (vrk_time){0, VRK_TAI, (int64_t)days, (uint64_t)micro, VRK_PLAIN, 0};
}

static vrk_time tai_to_utc(vrk_handed h) {
    int year, month, day, clock[4];
    double utc1, utc2, zero, mjd;
    eraTaiutc(day_0 + (double)h.day, (double)h.micro / 86400e6, &utc1, &utc2);
    eraD2dtf("UTC", 6, utc1, utc2, &year, &month, &day, clock);
    eraCal2jd(year, month, day, &zero, &mjd);
    int64_t seconds = (clock[0] * 60 + clock[1]) * 60 + clock[2];
    return (vrk_time){0, VRK_UTC, (int64_t)(zero - day_0 + mjd), (uint64_t)(seconds * 1000000 + clock[3]), VRK_PLAIN, 0};
}

/* A decimal day is first made a record, as its users do. The mark goes beside, since ERFA knows none. */
vrk_time erfa_change(vrk_handed h, uint32_t to_scale) {
    if (h.kind == VRK_DECIMAL) {
        double day = floor(h.decimal), micro = floor((h.decimal - day) * 86400e6 + 0.5);
        if (micro >= 86400e6) micro -= 86400e6, day++;
        h.day = (int64_t)day, h.micro = (uint64_t)micro;
    }
    vrk_time t = to_scale == VRK_TAI ? utc_to_tai(h) : tai_to_utc(h);
    if (h.kind == VRK_RECORD && h.mark != VRK_PLAIN) t.mark = h.mark, t.source = h.source;
    return t;
}
