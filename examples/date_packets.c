/* Dates a file of packets, a line for each: date_packets FILE. packets.py says what the file has. Its exit status is 1 where
 * the last packet is cut off, and 2 where the file cannot be read.
 *
 *     cc -o date_packets date_packets.c $(pkg-config --cflags --libs vrikshonem) */
#include <stdio.h>

#include <vrikshonem.h>

enum { PACKET = 24, LONGEST = 10, TEXT = 31 };

/* The layouts of a packet's time. */
enum { CUC = 1, PROTEUS, CRYOSAT, SIRAL, SBT, GOCE };
static const char *const NAMES[] = {"?", "CUC", "Proteus", "CryoSat", "SIRAL", "SBT", "GOCE"};

/* The published leap list: 28 steps, the last day that it speaks of is 31 December 2024. */
static const int64_t DAYS[] = {-10227, -10045, -9861, -9496, -9131, -8766, -8400, -8035, -7670, -7305,
                               -6758,  -6393,  -6028, -5297, -4383, -3652, -3287, -2740, -2375, -2010,
                               -1461,  -914,   -365,  2192,  3288,  4565,  5660,  6210};
static const uint64_t OFFSETS[] = {10, 11, 12, 13, 14, 15, 16, 17, 18, 19, 20, 21, 22, 23,
                                   24, 25, 26, 27, 28, 29, 30, 31, 32, 33, 34, 35, 36, 37};
#define STEPS (sizeof DAYS / sizeof DAYS[0])
#define LIST DAYS, STEPS, OFFSETS, STEPS, 9131

/* What is received from 31 December 2016 on is dated by the newer correlation of its clock. */
enum { OLDER, NEWER, NEWER_FROM = 6209 };

/* 2 October 2001, 10:00:00 UTC; it may be relied on a day back and thirty days ahead. And 31 December 2016, 23:59:59 UTC; it may
 * be relied on for 7.8125 s either way. */
static const vrk_sbt_correlation SBT_CORRELATIONS[] = {
    [OLDER] = {.tick = 0xFFFFF000, .scale = VRK_UTC, .day = 640, .micro = 36000000000, .period = 3906250000,
               .back = 86400 * 256, .ahead = 30 * 86400 * 256},
    [NEWER] = {.tick = 7, .scale = VRK_UTC, .day = 6209, .micro = 86399000000, .period = 3906250000,
               .back = 2000, .ahead = 2000},
};

/* 17 March 2009, 16:00:00 UTC less a quarter of a second, with as wide a window; the clock loses 21 ns in a second. And 31
 * December 2016, 23:59:59 UTC and 1/65536 s; it may be relied on for 8 s either way. */
#define SECOND_OF_COUNTS UINT64_C(65536)
static const vrk_goce_correlation GOCE_CORRELATIONS[] = {
    [OLDER] = {.obt0 = 0xFFFFFFFF0000, .utc0 = (3363 * 86400 + 57600) * SECOND_OF_COUNTS, .offset = -16384,
               .gradient = 1000000021, .back = 86400 * SECOND_OF_COUNTS, .ahead = 30 * 86400 * SECOND_OF_COUNTS},
    [NEWER] = {.obt0 = 7, .utc0 = (6209 * 86400 + 86399) * SECOND_OF_COUNTS, .offset = 1,
               .gradient = 1000000000, .back = 8 * SECOND_OF_COUNTS, .ahead = 8 * SECOND_OF_COUNTS},
};

static uint64_t number(const uint8_t *bytes, size_t count) {
    uint64_t value = 0;
    for (size_t k = 0; k < count; k++) value = value << 8 | bytes[k];
    return value;
}

/* The time of an SBT or GOCE packet: its counter's, where the packet was received while the correlation is in force, and not before
 * that time. */
static vrk_time correlated(const uint8_t *packet) {
    vrk_count read = packet[0] == SBT ? vrk_sbt_read(packet + 2, packet[1]) : vrk_goce_read(packet + 2, packet[1]);
    int64_t day = (int32_t)number(packet + 12, 4);
    uint64_t micro = number(packet + 16, 8);
    if (read.refusal) {
        vrk_time refused = {.refusal = read.refusal, .scale = VRK_UTC};
        return refused;
    }
    int which = day < NEWER_FROM ? OLDER : NEWER;
    if (packet[0] == SBT) return vrk_sbt_date((uint32_t)read.count, SBT_CORRELATIONS[which], day, micro, LIST);
    return vrk_goce_date(read.count, GOCE_CORRELATIONS[which], day, micro, LIST);
}

/* The time of a packet in its own scale. */
static vrk_time dated(const uint8_t *packet) {
    const uint8_t *time = packet + 2;
    size_t count = packet[1];
    switch (packet[0]) {
    case CUC: return vrk_cuc_read(time, count);
    case PROTEUS: return vrk_proteus_read(time, count);
    case CRYOSAT: return vrk_cryosat_read(time, count);
    case SIRAL: return vrk_siral_read(time, count);
    default: return correlated(packet);
    }
}

static vrk_handed handed(vrk_time time) {
    vrk_handed record = {.kind = VRK_RECORD, .scale = time.scale, .day = time.day, .micro = time.micro,
                         .mark = time.mark, .source = time.source};
    return record;
}

/* The packet's date as UTC text; the refusal's number where there is none. */
static uint32_t text_of(const uint8_t *packet, uint8_t *text) {
    vrk_time time = dated(packet);
    if (time.refusal) return time.refusal;
    vrk_time utc = vrk_change(handed(time), VRK_UTC, LIST);
    if (utc.refusal) return utc.refusal;
    return vrk_text_write(handed(utc), LIST, TEXT, text, TEXT).refusal;
}

static void print_packet(unsigned line, const uint8_t *packet) {
    uint8_t text[TEXT];
    if (packet[0] < CUC || packet[0] > GOCE || packet[1] > LONGEST) {
        printf("%2u ?       not a packet\n", line);
        return;
    }
    uint32_t refusal = text_of(packet, text);
    printf("%2u %-7s ", line, NAMES[packet[0]]);
    if (refusal)
        printf("refused %u: %s\n", (unsigned)refusal, vrk_words(refusal));
    else
        printf("%.*s\n", TEXT, (const char *)text);
}

int main(int count, char **words) {
    uint8_t packet[PACKET];
    if (count != 2) {
        fprintf(stderr, "usage: date_packets FILE\n");
        return 2;
    }
    FILE *file = fopen(words[1], "rb");
    size_t got = 0;
    for (unsigned line = 1; file && (got = fread(packet, 1, PACKET, file)) == PACKET; line++) print_packet(line, packet);
    /* A folder can be opened, and not be read. */
    if (!file || ferror(file)) {
        perror(words[1]);
        return 2;
    }
    fclose(file);
    if (fflush(stdout) != 0 || ferror(stdout)) {
        perror("standard output");
        return 2;
    }
    if (got != 0) fprintf(stderr, "date_packets: the last packet is cut off\n");
    return got != 0;
}
