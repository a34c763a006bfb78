"""Times of each scale, the leap list, and how each is handed to the library."""

from __future__ import annotations

import ctypes
from dataclasses import dataclass, field
from operator import index
from typing import Any, ClassVar, Sequence, Tuple, Type, TypeVar, Union

from . import _sys
from ._library import library
from ._marks import Mark
from ._refusals import FieldOver, Refused

__all__ = ["Decimal", "Gps", "Handed", "LeapList", "Tai", "Time", "Utc", "change"]

_I64, _U64, _U32 = 2**63, 2**64, 2**32


def answered(answer: Any) -> Any:
    """The answer; a refusal is raised."""
    if answer.refusal:
        raise Refused(answer.refusal)
    return answer


# ctypes cuts a whole number that is too wide without a word, and a cut day would be another day. So a number that its field
# cannot hold is handed in as one that the library refuses the same way.


def signed(value: int) -> int:
    """A day, an offset of GOCE: beyond 64 bits it is as far outside every span as the farthest that 64 bits hold."""
    return max(-_I64, min(_I64 - 1, index(value)))


def unsigned(value: int) -> int:
    """A microsecond, a period, a rate, a count: negative or beyond 64 bits it is over every limit, as 2^64 - 1 is."""
    return index(value) if 0 <= index(value) < _U64 else _U64 - 1


def double(value: float) -> float:
    """A decimal day: a whole number beyond all doubles is outside every span, and not infinite."""
    try:
        # float() would take a text too.
        return ctypes.c_double(value).value
    except OverflowError:
        return 1e308 if value > 0 else -1e308


def due(value: Any, kinds: Any, what: str) -> Any:
    """The value, where it is of the kind that is due."""
    if not isinstance(value, kinds):
        raise TypeError(f"{what} is due, not {type(value).__name__}")
    return value


def narrow(value: int) -> int:
    """A tick or a field of 32 bits, whose every value may be an answer: another number is a field over its limit."""
    if not 0 <= index(value) < _U32:
        raise FieldOver()
    return index(value)


@dataclass(frozen=True, order=True, repr=False)
class _Time:
    """A time of one scale: days from 1 January 2000, the microsecond of that day, and its mark, which is plain where none is
    given. Any can be built; one outside its span is refused with 7 by the function that is given it. The order is that of time,
    and the mark is no part of it."""

    day: int
    micro: int
    mark: Mark = field(default=Mark.PLAIN, compare=False)
    CODE: ClassVar[int]
    FIRST_DAY: ClassVar[int]
    LAST_DAY: ClassVar[int] = 36524
    BOUND: ClassVar[int]

    def __post_init__(self) -> None:
        due(self.mark, Mark, "a Mark")

    def __repr__(self) -> str:
        marked = "" if self.mark == Mark.PLAIN else f", mark={self.mark}"
        return f"{type(self).__qualname__}(day={self.day!r}, micro={self.micro!r}{marked})"

    def with_mark(self: T, mark: Mark) -> T:
        """The same time with this mark."""
        return type(self)(self.day, self.micro, mark)

    @classmethod
    def from_decimal(cls: Type[T], day: float) -> T:
        """The microsecond nearest a decimal day, ties to the later. Refused: 4; 7."""
        return cls._of(library().vrk_decimal_read(double(day), cls.CODE))

    def to_decimal(self) -> float:
        """The double nearest this time in days; it reads back as the same time. Refused: 7; 12 second 60."""
        return answered(library().vrk_decimal_write(handed(self))).day

    @classmethod
    def _of(cls: Type[T], answer: Any) -> T:
        answered(answer)
        return cls(answer.day, answer.micro, Mark(answer.mark, answer.source))


T = TypeVar("T", bound=_Time)


class Tai(_Time):
    """A TAI time, from day -10227 (1 January 1972) to 36524 (31 December 2099)."""

    CODE = 0
    FIRST_DAY = -10227
    BOUND = 86_400_000_000

    def to_gps(self) -> Gps:
        """The same instant in GPS. Refused: 7; 11."""
        return change(self, Gps, _NO_LIST)

    def to_utc(self, leap_list: LeapList) -> Utc:
        """The same instant in UTC. Refused: 5; 7; 9; 11."""
        return change(self, Utc, leap_list)


class Utc(_Time):
    """A UTC time; microseconds from 86,400,000,000 on are second 60."""

    CODE = 1
    FIRST_DAY = -10227
    BOUND = 86_401_000_000

    def to_tai(self, leap_list: LeapList) -> Tai:
        """The same instant in TAI. Refused: 5; 7; 9; 10; 11."""
        return change(self, Tai, leap_list)

    def to_gps(self, leap_list: LeapList) -> Gps:
        """The same instant in GPS. Refused: 5; 7; 9; 10; 11."""
        return change(self, Gps, leap_list)


class Gps(_Time):
    """A GPS time, TAI less 19 s, from day -7300 (6 January 1980) to 36524."""

    CODE = 2
    FIRST_DAY = -7300
    BOUND = 86_400_000_000

    def to_tai(self) -> Tai:
        """The same instant in TAI. Refused: 7; 11."""
        return change(self, Tai, _NO_LIST)

    def to_utc(self, leap_list: LeapList) -> Utc:
        """The same instant in UTC. Refused: 5; 7; 9; 11."""
        return change(self, Utc, leap_list)


@dataclass(frozen=True)
class Decimal:
    """A decimal day from 1 January 2000, and its scale: Decimal(6209.5, Utc). It has no mark; the time that it stands for is
    plain."""

    day: float
    scale: Type[_Time]


Time = Union[Tai, Utc, Gps]
Handed = Union[Tai, Utc, Gps, Decimal]
SCALES: Tuple[Type[_Time], ...] = (Tai, Utc, Gps)


def code(scale: Type[_Time]) -> int:
    """The code of a scale."""
    if not (isinstance(scale, type) and issubclass(scale, SCALES)):
        raise TypeError(f"the scale Tai, Utc or Gps is due, not {scale!r}")
    return scale.CODE


def handed(time: Handed) -> _sys.VrkHanded:
    """What a caller hands in: either a record or a decimal day."""
    if isinstance(time, Decimal):
        return _sys.VrkHanded(1, code(time.scale), 0, 0, double(time.day))
    due(time, SCALES, "a Tai, Utc, Gps or Decimal")
    return _sys.VrkHanded(0, time.CODE, signed(time.day), unsigned(time.micro), 0.0, time.mark.code, time.mark.source)


@dataclass(frozen=True)
class LeapList:
    """A leap list: the steps' days, TAI minus UTC in seconds from each day on, and the last day that it speaks of.

    Any list can be built. One that is not accepted is refused with 5 where it is used, and only there; UTC days after the
    last day are refused with 9. It keeps a copy of what it is given."""

    PUBLISHED: ClassVar[LeapList]

    days: Sequence[int]
    offsets: Sequence[int]
    last: int
    _given: Any = field(init=False, repr=False, compare=False)

    def __post_init__(self) -> None:
        days, offsets = tuple(self.days), tuple(self.offsets)
        held_days = (ctypes.c_int64 * len(days))(*map(signed, days))
        held_offsets = (ctypes.c_uint64 * len(offsets))(*map(unsigned, offsets))
        given = held_days, len(days), held_offsets, len(offsets), signed(self.last)
        vars(self).update(days=days, offsets=offsets, _given=given)

    def __reduce__(self) -> Any:
        # What is held for C cannot be copied to another process.
        return LeapList, (self.days, self.offsets, self.last)

    def is_accepted(self) -> bool:
        """Whether it has 1 to 64 steps from (-10227, 10) on, days that rise strictly and are firsts of months, offsets that
        count up by one, a last day from -10227 to 36524, and no step later than the day after it.

        >>> LeapList.PUBLISHED.is_accepted()
        True
        >>> LeapList([-10227, -10044], [10, 11], 0).is_accepted()  # no first of a month
        False
        """
        return library().vrk_list_accepted(*self._given) == 1


def listed(leap_list: LeapList) -> Tuple[Any, ...]:
    """A leap list as it is handed in."""
    return due(leap_list, LeapList, "a LeapList")._given


_NO_LIST = LeapList((), (), 0)
# The published 28 steps, to 31 December 2024.
LeapList.PUBLISHED = LeapList(
    (-10227, -10045, -9861, -9496, -9131, -8766, -8400, -8035, -7670, -7305, -6758, -6393, -6028, -5297)
    + (-4383, -3652, -3287, -2740, -2375, -2010, -1461, -914, -365, 2192, 3288, 4565, 5660, 6210),
    range(10, 38),
    9131,
)


def change(time: Handed, scale: Type[T], leap_list: LeapList) -> T:
    """The same instant in another scale, with the same mark; in its own scale a time stays as it is. The list is looked at only
    where UTC is one of the two. Refused: 4; 5; 7; 9; 10; 11.

    >>> change(Decimal(6209.5, Utc), Tai, LeapList.PUBLISHED)
    Tai(day=6209, micro=43236000000)
    """
    answer = library().vrk_change(handed(time), code(scale), *listed(leap_list))
    return scale._of(answer)
