"""The correlations of SBT ticks and GOCE counts."""

from __future__ import annotations

from dataclasses import dataclass
from operator import index
from typing import Generic

from . import _sys
from ._library import library
from ._times import SCALES, Handed, LeapList, T, Utc, answered, due, handed, listed, narrow, signed, unsigned

__all__ = ["GoceCorrelation", "SbtCorrelation"]


@dataclass(frozen=True)
class SbtCorrelation(Generic[T]):
    """One tick, the time it stood for, and how long it may be relied on. One that is not accepted is refused with 6.

    tick       the reference tick
    reference  the time that it stood for, below microsecond 86,400,000,000; its scale is the correlation's
    period     picoseconds of a tick, from 3,906,000,000 to 3,906,500,000
    back       ticks back, to 2^31
    ahead      ticks ahead, to 2^31 - 1

    A correlation in Utc counts in TAI, by the leap list, so that the leap seconds between two ticks count. One in Tai or Gps
    looks at no list, and any will do. A second is 256 ticks, and this tick stood for 31 December 2016, 23:59:59:

    >>> night = SbtCorrelation(7, Utc(6209, 86_399_000_000), 3_906_250_000, back=2_000, ahead=2_000)
    >>> for tick in 263, 519:
    ...     night.date(tick, Utc(6210, 1_000_000), LeapList.PUBLISHED)
    Utc(day=6209, micro=86400000000, mark=Mark.correlated(7))
    Utc(day=6210, micro=0, mark=Mark.correlated(7))
    >>> night.tick_of(Utc(6209, 86_400_000_000), LeapList.PUBLISHED)
    263

    A packet is not received before it was sent:

    >>> night.date(263, night.reference, LeapList.PUBLISHED)
    Traceback (most recent call last):
    vrikshonem.ResultLater: refused 17: result later than receipt
    """

    tick: int
    reference: T
    period: int
    back: int
    ahead: int

    def _given(self) -> _sys.VrkSbtCorrelation:
        due(self.reference, SCALES, "a Tai, Utc or Gps as reference")
        # A reference tick that is none cannot be accepted, as a period of 0 cannot.
        known = 0 <= index(self.tick) < 2**32
        return _sys.VrkSbtCorrelation(
            self.tick if known else 0,
            self.reference.CODE,
            signed(self.reference.day),
            unsigned(self.reference.micro),
            unsigned(self.period) if known else 0,
            unsigned(self.back),
            unsigned(self.ahead),
        )

    def date(self, tick: int, receipt: T, leap_list: LeapList) -> T:
        """The time of a tick whose packet was received at `receipt`, rounded down, and marked Mark.correlated with the reference
        tick. The list is looked at only where the scale is Utc. Refused: 3 where the number is no tick; 5; 6; 7 for the receipt;
        8 where the tick lies outside the window or the receipt outside the window's times; 17 where the result is later than the
        receipt, which in Utc is judged in TAI and, as 8 is of the receipt, only where reference and receipt are both known; 9 for
        reference or receipt, or for the result where the receipt's second is lacking; 10 for the receipt; 11 for a result before
        the scale's first day."""
        scale, correlation = type(self.reference), self._given()
        due(receipt, scale, f"a receipt in {scale.__name__}")
        given = narrow(tick), correlation, signed(receipt.day), unsigned(receipt.micro)
        return scale._of(library().vrk_sbt_date(*given, *listed(leap_list)))

    def tick_of(self, time: Handed, leap_list: LeapList) -> int:
        """The last tick of the window whose time is not later. The list is looked at only where the scale is Utc. Refused: 4; 5;
        6; 7; 8 outside the window's times, judged only of the correlation's scale, and in Utc only where reference and time are
        both known; 9 for the reference, and for a Utc time; 10 for a Utc time; 12 another scale."""
        return answered(library().vrk_sbt_tick(handed(time), self._given(), *listed(leap_list))).count


@dataclass(frozen=True)
class GoceCorrelation:
    """A correlation of GOCE's clock, always in UTC: one count, the time it stood for, the clock's rate, and how long it may be
    relied on. A count is 1/65536 s. The reference is Offset + UTC0 from 1 January 2000, in days of 86,400 s; Gradient x (OBT -
    OBT0) is added to it in TAI, by the leap list. One that is not accepted is refused with 6.

    obt0      the reference count, below 2^48
    utc0      the time that it stood for, in counts, before the offset is added; below 2^48
    offset    counts that are added to it, at most one day (5,662,310,400) either way; the sum lies in the UTC span
    gradient  the clock's rate in billionths, from 999,000,000 to 1,001,000,000
    back      counts back, to 2^47
    ahead     counts ahead, to 2^47 - 1

    A second before the counter's wrap, where UTC0 and Offset together are 17 March 2009, 16:00:00:

    >>> utc0, month = (3363 * 86_400 + 57_601) * 65_536, 30 * 86_400 * 65_536
    >>> launch = GoceCorrelation(0xFFFFFFFF0000, utc0, -65_536, 1_000_000_021, back=0, ahead=month)
    >>> launch.date(1, Utc(3363, 57_660_000_000), LeapList.PUBLISHED)
    Utc(day=3363, micro=57601000015, mark=Mark.correlated(281474976645120))
    >>> launch.count_of(Utc(3363, 57_601_000_015), LeapList.PUBLISHED)
    1
    >>> try:
    ...     launch.date(1, Utc(3410, 0), LeapList.PUBLISHED)
    ... except NotInForce:
    ...     print("received in May: a new correlation is needed")
    received in May: a new correlation is needed
    """

    obt0: int
    utc0: int
    offset: int
    gradient: int
    back: int
    ahead: int

    def _given(self) -> _sys.VrkGoceCorrelation:
        return _sys.VrkGoceCorrelation(
            unsigned(self.obt0),
            unsigned(self.utc0),
            signed(self.offset),
            unsigned(self.gradient),
            unsigned(self.back),
            unsigned(self.ahead),
        )

    def date(self, obt: int, receipt: Utc, leap_list: LeapList) -> Utc:
        """The time of a count whose packet was received at `receipt`, rounded down once, and marked Mark.correlated with obt0.
        Refused: 3 where the number is no count of 48 bits; 5; 6; 7 for the receipt; 8 where the count lies outside the window or
        the receipt outside the window's times; 17 where the result is later than the receipt, which is judged in TAI and, as 8 is
        of the receipt, only where reference and receipt are both known; 9 for reference or receipt, or for the result where the
        receipt's second is lacking; 10 for the receipt; 11 for a result before 1972."""
        due(receipt, Utc, "a receipt in Utc")
        given = unsigned(obt), self._given(), signed(receipt.day), unsigned(receipt.micro)
        return Utc._of(library().vrk_goce_date(*given, *listed(leap_list)))

    def count_of(self, time: Handed, leap_list: LeapList) -> int:
        """The last count of the window whose time is not later. Refused: 4; 5; 6; 7; 8 outside the window's times, judged only
        of UTC, where reference and time are both known; 9 for the reference, and for a Utc time; 10 for a Utc time; 12 another
        scale than UTC."""
        return answered(library().vrk_goce_count(handed(time), self._given(), *listed(leap_list))).count
