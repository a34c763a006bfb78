#!/usr/bin/env python3
"""Dates a file of packets, a line for each: date_packets.py FILE. packets.py says what the file has. Its exit status is 1 where
the last packet is cut off, and 2 where the file cannot be read.

    PYTHONPATH=python python3 examples/date_packets.py examples/packets.bin
"""

import struct
import sys

import vrikshonem as vrk

PACKET = struct.Struct(">BB10siQ")
LIST = vrk.LeapList.PUBLISHED
NAMES = ["?", "CUC", "Proteus", "CryoSat", "SIRAL", "SBT", "GOCE"]
# What is received from 31 December 2016 on is dated by the newer correlation of its clock, the second of each pair.
NEWER_FROM = 6209
# 2 October 2001, 10:00:00 UTC; it may be relied on a day back and thirty days ahead. And 31 December 2016, 23:59:59 UTC; it may be
# relied on for 7.8125 s either way.
SBT_CORRELATIONS = (
    vrk.SbtCorrelation(
        tick=0xFFFFF000,
        reference=vrk.Utc(640, 36_000_000_000),
        period=3_906_250_000,
        back=86_400 * 256,
        ahead=30 * 86_400 * 256,
    ),
    vrk.SbtCorrelation(
        tick=7,
        reference=vrk.Utc(6209, 86_399_000_000),
        period=3_906_250_000,
        back=2_000,
        ahead=2_000,
    ),
)
# 17 March 2009, 16:00:00 UTC less a quarter of a second, with as wide a window; the clock loses 21 ns in a second. And 31 December
# 2016, 23:59:59 UTC and 1/65536 s; it may be relied on for 8 s either way.
GOCE_CORRELATIONS = (
    vrk.GoceCorrelation(
        obt0=0xFFFFFFFF0000,
        utc0=(3363 * 86_400 + 57_600) * 65_536,
        offset=-16_384,
        gradient=1_000_000_021,
        back=86_400 * 65_536,
        ahead=30 * 86_400 * 65_536,
    ),
    vrk.GoceCorrelation(
        obt0=7,
        utc0=(6209 * 86_400 + 86_399) * 65_536,
        offset=1,
        gradient=1_000_000_000,
        back=8 * 65_536,
        ahead=8 * 65_536,
    ),
)


def dated(layout: int, time: bytes, receipt: vrk.Utc) -> vrk.Utc:
    if layout == 1:
        return vrk.cuc_read(time).to_utc(LIST)
    if layout == 2:
        return vrk.proteus_read(time)
    if layout == 3:
        return vrk.cryosat_read(time).to_utc(LIST)
    if layout == 4:
        return vrk.siral_read(time).to_utc(LIST)
    which = int(receipt.day >= NEWER_FROM)
    if layout == 5:
        return SBT_CORRELATIONS[which].date(vrk.sbt_read(time), receipt, LIST)
    return GOCE_CORRELATIONS[which].date(vrk.goce_read(time), receipt, LIST)


def said(layout: int, time: bytes, receipt: vrk.Utc) -> str:
    try:
        return vrk.text_write(dated(layout, time, receipt), 31, LIST)
    except vrk.Refused as refused:
        return str(refused)


def date(name: str) -> int:
    """How many bytes are left after the last packet."""
    with open(name, "rb") as file:
        data = file.read()
    rest = len(data) % PACKET.size
    for line, (layout, count, time, day, micro) in enumerate(PACKET.iter_unpack(data[: len(data) - rest]), 1):
        if not 1 <= layout <= 6 or count > len(time):
            print(f"{line:2} ?       not a packet")
            continue
        print(f"{line:2} {NAMES[layout]:7} {said(layout, time[:count], vrk.Utc(day, micro))}")
    sys.stdout.flush()
    return rest


def main() -> int:
    if len(sys.argv) != 2:
        print("usage: date_packets.py FILE", file=sys.stderr)
        return 2
    try:
        rest = date(sys.argv[1])
    except OSError as why:
        print(f"date_packets: {why}", file=sys.stderr)
        return 2
    if rest:
        print("date_packets: the last packet is cut off", file=sys.stderr)
    return int(rest != 0)


sys.exit(main())
