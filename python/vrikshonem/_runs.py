"""SIRAL later in the second: packets that are dated together."""

from __future__ import annotations

import ctypes
from operator import index
from typing import List, NamedTuple

from ._layouts import Bytes, _slice
from ._library import library
from ._refusals import FieldOver, LengthIsNone
from ._sys import IMAGES
from ._times import answered, unsigned

__all__ = ["Run", "siral_run"]

# The bytes of a packet.
_PACKET = IMAGES["vrk_siral_write"]


class Run(NamedTuple):
    """The dates of a run, one for each packet, in TAI microseconds since the beginning of day 0; and the last packet's total,
    which is told to the next part of the run."""

    dates: List[int]
    last: int


def siral_run(data: Bytes, told: int = 0) -> Run:
    """The dates of a run: packets of one second, ten bytes each, in the order in which they were made.

    Day, millisecond and microsecond stand still from one second's pulse to the next; only the extra counter counts on, and it
    rolls over after 65,536 units, which are 135,168 microseconds. siral_read takes it as it stands, and so dates a packet after
    the first roll too early. In a run the first packet's total is its extra counter, and each next total is the least number
    not below the one before that is its packet's extra counter modulo 65,536. The dates are right where the first packet lies
    before the first roll and neighbours are less than one roll apart. They never fall.

    `told` is 0 where a run begins. A run that comes in parts is told on: with `last` of the part before as `told`, the parts
    together have the dates of the whole. An empty run has no dates, and `last` as told.

    Refused: 1 a number of bytes that is no multiple of ten; 3 a millisecond or microsecond over its limit in any packet, a told
    count that 64 bits cannot hold; 16 packets that differ in day, millisecond or microsecond, a total above 484,848, which is
    the last below a second; 7 a date; 13 never, since there is room.

    Packets 22,000 units apart, with a roll before the second; then in two parts, and with a packet of the next second:

    >>> packets = b"".join(siral_fields_write(0, 1000, 0, extra) for extra in (60_000, 16_464, 38_464))
    >>> siral_run(packets)
    Run(dates=[1123750, 1169125, 1214500], last=104000)
    >>> siral_run(packets[10:], told=siral_run(packets[:10]).last)
    Run(dates=[1169125, 1214500], last=104000)
    >>> siral_run(packets + siral_fields_write(0, 2000, 0, 0))
    Traceback (most recent call last):
    vrikshonem.NotOneSecond: refused 16: a run's three fields differ, or a total above 484,848 units
    """
    given, length = _slice(data)
    dates = (ctypes.c_int64 * (length // _PACKET))()
    ran = library().vrk_siral_run(given, length, unsigned(told), dates, len(dates))
    # Every count of 64 bits may be an answer. Another is a field over its limit, which is judged after the length.
    if unsigned(told) != index(told) and ran.refusal != LengthIsNone.number:
        raise FieldOver()
    return Run(dates[: answered(ran).count], ran.last)
