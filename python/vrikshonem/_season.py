"""The season's file: up to 512 correlations of SBT in TAI, in one."""

from __future__ import annotations

import ctypes
from typing import Any, Iterable, List, NamedTuple, Sequence

from ._correlations import SbtCorrelation
from ._layouts import Bytes, Lent, _slice, _write
from ._library import library
from ._sys import IMAGES
from ._times import SCALES, Tai, answered, due, signed, unsigned

__all__ = ["Cover", "SeasonEntry", "season_covering", "season_read", "season_write"]

# The words of an entry as the library writes them, and the bytes that each entry adds to a file.
_ENTRY, _ADDED = 9, 48


class Cover(NamedTuple):
    """What an entry covers: its first and its last microsecond, counted from the beginning of day 0."""

    first: int
    last: int


class SeasonEntry(NamedTuple):
    """An entry of a file that was read: the first and the last microsecond that it covers, and its correlation."""

    first: int
    last: int
    correlation: SbtCorrelation[Tai]

    @property
    def cover(self) -> Cover:
        """Its first and last microsecond, as season_covering gives them."""
        return Cover(self.first, self.last)


def _entry(words: Sequence[int]) -> SeasonEntry:
    first, last, tick, _, day, micro, *rest = words
    return SeasonEntry(first, last, SbtCorrelation(tick, Tai(day, micro), *rest))


def season_read(data: Bytes) -> List[SeasonEntry]:
    """The entries of a file, in their order. Refused: 14 any rule of the file that is broken; 13 never, since there is room.

    >>> season_read(bytes(2))
    []
    """
    given, length = _slice(data)
    words = (ctypes.c_int64 * (min(length, IMAGES["vrk_season_write"]) // _ADDED * _ENTRY))()
    count = answered(library().vrk_season_read(given, length, words, len(words))).count
    return [_entry(words[at : at + _ENTRY]) for at in range(0, count * _ENTRY, _ENTRY)]


def _words(correlation: SbtCorrelation[Any]) -> List[int]:
    """The seven words of a correlation. A number that a word cannot hold becomes one that is refused the same way."""
    due(correlation, SbtCorrelation, "an SbtCorrelation")
    reference = due(correlation.reference, SCALES, "a Tai, Utc or Gps as reference")
    numbers = correlation.tick, reference.CODE, reference.day, reference.micro, correlation.period
    return [signed(number) for number in (*numbers, correlation.back, correlation.ahead)]


def season_write(correlations: Iterable[SbtCorrelation[Tai]], out: Lent = None) -> bytes:
    """The file of these correlations, 48 bytes for each and 2 more. Refused: 14 more than 512, one that is not accepted or not in
    Tai, one whose cover does not begin after that of the one before has ended; 13.

    Thirty days each, and 50,400 s between the two:

    >>> autumn = SbtCorrelation(7, Tai(640, 36_000_000_000), 3_906_250_000, back=0, ahead=663_552_000)
    >>> winter = SbtCorrelation(9, Tai(671, 0), 3_906_250_000, back=0, ahead=663_552_000)
    >>> file = season_write([autumn, winter])
    >>> [entry.correlation == held for entry, held in zip(season_read(file), [autumn, winter])]
    [True, True]
    >>> season_write([winter, autumn])
    Traceback (most recent call last):
    vrikshonem.SeasonBroken: refused 14: a rule of the season file broken
    """
    words = [word for correlation in correlations for word in _words(correlation)]
    return _write("vrk_season_write", out, (ctypes.c_int64 * len(words))(*words), len(words))


def season_covering(data: Bytes, receipt: Tai) -> Cover:
    """The cover of the one entry of a file that covers a receipt. Only the count and the contents are read, not the bodies.
    Refused: 14 a rule of the length, the count, the positions or the order of the covers that is broken; 7 for the receipt; 15 no
    entry covers the receipt.

    >>> autumn = SbtCorrelation(7, Tai(640, 36_000_000_000), 3_906_250_000, back=0, ahead=663_552_000)
    >>> file = season_write([autumn])
    >>> season_covering(file, Tai(650, 0))
    Cover(first=55332000000000, last=57924000000000)
    >>> [entry.correlation.tick for entry in season_read(file) if entry.cover == season_covering(file, Tai(650, 0))]
    [7]
    >>> season_covering(file, Tai(671, 0))
    Traceback (most recent call last):
    vrikshonem.NoEntry: refused 15: no entry covers the receipt
    """
    due(receipt, Tai, "a receipt in Tai")
    cover = library().vrk_season_covering(*_slice(data), signed(receipt.day), unsigned(receipt.micro))
    return Cover(answered(cover).first, cover.last)
