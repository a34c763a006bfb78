#!/usr/bin/env python3
"""Makes packets.bin, the file that the three examples date: packets.py OUT

A packet is 24 bytes, most significant byte first:
    0        its layout: 1 CUC, 2 Proteus, 3 CryoSat general, 4 SIRAL, 5 SBT, 6 GOCE
    1        how many bytes its time has, at most 10
    2 to 11  its time, and zero bytes after it
    12 to 15 the day on which it was received, signed, UTC, counted from 1 January 2000
    16 to 23 the microsecond of that day
"""

import struct
import sys

CUC, PROTEUS, CRYOSAT, SIRAL, SBT, GOCE = 1, 2, 3, 4, 5, 6
SECOND = 1_000_000
# GPS second of 31 December 2016 23:59:60 UTC: day 6210 of TAI 36 s is 17 s of GPS, counted from day -7300.
LEAP_SECOND = (6210 + 7300) * 86400 + 17
# The examples' correlations: this tick stood for 2 October 2001, 10:00:00 UTC, and this count, one second before the wrap, for
# 17 March 2009, 16:00:00 UTC less a quarter of a second.
REFERENCE, DAY, NOON = 0xFFFFF000, 640, 12 * 3600 * SECOND
OBT0, LAUNCH, EVENING = 0xFFFFFFFF0000, 3363, 18 * 3600 * SECOND
# What is received from 31 December 2016 on has correlations of its own: tick 7 and count 7 stood for 23:59:59 UTC of that day, the
# count 1/65536 s more. A second 60 follows.
NIGHT_REFERENCE, NIGHT, SECOND_60 = 7, 6209, 86400 * SECOND


def packet(layout, time, day=DAY, micro=NOON):
    return struct.pack(">BB10siQ", layout, len(time), time, day, micro)


def cuc(seconds, fraction):
    return packet(CUC, struct.pack(">IH", seconds, fraction))


def proteus(week, low_bits, second, fraction):
    return packet(PROTEUS, struct.pack(">HIH", week << 4 | low_bits, second, fraction))


def sbt(ticks, day=DAY, micro=NOON, reference=REFERENCE):
    return packet(SBT, struct.pack(">I", (reference + ticks) % 2**32), day, micro)


def goce(counts, day=LAUNCH, micro=EVENING, obt0=OBT0):
    return packet(GOCE, ((obt0 + counts) % 2**48).to_bytes(6, "big"), day, micro)


def night_sbt(ticks, day=NIGHT, micro=SECOND_60):
    return sbt(ticks, day, micro, NIGHT_REFERENCE)


def night_goce(counts, day, micro):
    return goce(counts, day, micro, NIGHT_REFERENCE)


PACKETS = [
    cuc(LEAP_SECOND - 1, 65535),  # the last fraction of second 59
    cuc(LEAP_SECOND, 1),  # 15 microseconds into second 60
    cuc(LEAP_SECOND + 1, 0),  # midnight
    packet(CUC, bytes(5)),  # a byte is missing
    cuc(3_786_480_000, 0),  # 1 January 2100
    cuc((9132 + 7300) * 86400 + 18, 0),  # 1 January 2025, where the list has ended
    proteus(1930, 1, 604_799, 32768),
    proteus(1930, 2, 0, 0),  # a bit that must be zero
    proteus(1930, 0, 604_800, 0),  # a second more than a week has
    packet(CRYOSAT, struct.pack(">HIH", 3753, 43_200_123, 456)),
    packet(CRYOSAT, struct.pack(">HIH", 3753, 86_400_000, 0)),  # a millisecond more than a day has
    packet(SIRAL, struct.pack(">HIHH", 4017, 86_399_999, 999, 16)),  # the extra counter passes midnight
    sbt(256 * 3600),  # an hour later, past the counter's wrap
    sbt(-1),  # a tick before the reference, rounded towards the past
    sbt(256 * 3600, 786, 2 * 3600 * SECOND + 2400 * SECOND),  # twenty to three, in March: the correlation is dead
    sbt(20 * 86400 * 256, DAY + 20),  # twenty days later
    sbt(31 * 86400 * 256, DAY + 20),  # a tick beyond the window
    sbt(-2 * 86400 * 256, DAY),  # and one before it
    sbt(0, DAY, SECOND_60),  # that day has no second 60
    packet(SBT, bytes(3)),
    goce(0),
    goce(65536 * 3600),  # an hour later, past the counter's wrap
    goce(-1),  # a count before the reference, rounded towards the past
    goce(29 * 86400 * 65536, LAUNCH + 29),  # four weeks and a day: the rate shows
    goce(65536 * 3600, LAUNCH + 31),  # the correlation is dead
    goce(31 * 86400 * 65536),  # a count beyond the window
    goce(-2 * 86400 * 65536),  # and one before it
    goce(0, 36525),  # received in 2100
    packet(GOCE, bytes(5)),
    packet(9, bytes(4)),  # a layout that nobody knows
    night_sbt(255),  # a tick before second 60, received in it
    night_sbt(256),  # second 60
    night_sbt(511, NIGHT + 1, 0),  # its last tick, received after it
    night_sbt(512, NIGHT + 1, 0),  # midnight
    night_sbt(0, NIGHT + 1, 5_812_500),  # received at the window's end, 7.8125 s after the reference
    night_sbt(0, NIGHT + 1, 5_812_501),  # and after it
    night_sbt(256, NIGHT + 1, SECOND_60),  # received in a second 60 that 1 January 2017 lacks
    night_sbt(256, 9132, 0),  # received in 2025, where the list has ended
    night_goce(65536, NIGHT, SECOND_60 + 15),  # second 60, received at that microsecond
    night_goce(2 * 65536 - 2, NIGHT + 1, 0),  # its last count, received after it
    night_goce(2 * 65536 - 1, NIGHT + 1, 0),  # midnight, exactly
    night_goce(2 * 65536, NIGHT + 1, 9_000_000),  # the correlation is dead
    night_sbt(256, NIGHT, SECOND_60 - 1),  # second 60, received a microsecond before it: that cannot be
    night_goce(65536, NIGHT, SECOND_60 + 14),  # nor this
]

if __name__ == "__main__":
    if len(sys.argv) != 2:
        sys.exit("usage: packets.py OUT")
    with open(sys.argv[1], "wb") as file:
        file.write(b"".join(PACKETS))
