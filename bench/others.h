/* Contenders that are measured only where they are installed. Each does less, and is labelled so. */
#ifndef OTHERS_H
#define OTHERS_H

#include "vrikshonem.h"

#ifdef __cplusplus
extern "C" {
#endif

/* ERFA: its own list, doubles, no refusal. UTC to TAI, or TAI to UTC. */
vrk_time erfa_change(vrk_handed time, uint32_t to_scale);

/* Howard Hinnant's date: no list, no refusal, no second 60. */
vrk_time date_text_read(const uint8_t *text, size_t count);

#ifdef __cplusplus
}
#endif

#endif
