/* All of plain C in one unit, as the library is one: what a compiler may inline, it may inline in both. */
#include "plain.h"
#include "plain_text.h"

#include "plain_time.c"

#include "plain_bytes.c"
#include "plain_change.c"
#include "plain_goce.c"
#include "plain_runs.c"
#include "plain_sbt.c"
#include "plain_season.c"
#include "plain_text.c"

vrk_time plain_nothing(const uint8_t *bytes, size_t count) {
    (void)bytes, (void)count;
    return no_time(0, VRK_TAI);
}
