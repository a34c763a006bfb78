/* Howard Hinnant's date library as a contender: a text with a prefix and microseconds as a time of day. Its own names of the months
 * are taken, whatever the letters' size. */
#define ONLY_C_LOCALE 1
#include <date/date.h>

#include <sstream>
#include <string>

#include "others.h"

vrk_time date_text_read(const uint8_t *text, size_t count) {
    std::istringstream in(std::string(reinterpret_cast<const char *>(text) + 4, count - 4));
    date::sys_time<std::chrono::microseconds> time;
    date::from_stream(in, "%d-%b-%Y %T", time);
    auto day = date::floor<date::days>(time) - date::sys_days(date::year{2000} / 1 / 1);
    auto micro = time - date::floor<date::days>(time);
    uint32_t scale = text[0] == 'T' ? VRK_TAI : text[0] == 'U' ? VRK_UTC : VRK_GPS;
    return vrk_time{0, scale, day.count(), static_cast<uint64_t>(micro.count()), VRK_PLAIN, 0};
}
