# Made by tools/interface.py --write; not by hand. The refusals, from refusals.txt.
"""A refusal is raised as the exception of its name. The first that applies in this order is given."""

from __future__ import annotations

from typing import Dict, Optional, Type


class Refused(Exception):
    """A refusal: the first that applies, in a fixed order. Memory that was lent keeps all its bytes.

    number  its number
    words   what is wrong, in words
    """

    __module__ = "vrikshonem"
    number: int = 0
    words: str = "a refusal that this version does not know"

    def __new__(cls, number: Optional[int] = None) -> Refused:
        # A number that is known is the exception of its name.
        known = REFUSALS.get(number or 0, cls) if cls is Refused else cls
        return super().__new__(known)

    def __init__(self, number: Optional[int] = None) -> None:
        if number is not None and not type(self).number:
            self.number = number
        super().__init__(self.number)

    def __str__(self) -> str:
        return f"refused {self.number}: {self.words}"


class LengthIsNone(Refused):
    """1: input length is none of the layout's."""

    __module__ = "vrikshonem"
    number = 1
    words = "input length is none of the layout's"


class MarkerWrong(Refused):
    """2: marker byte or zero bits wrong."""

    __module__ = "vrikshonem"
    number = 2
    words = "marker byte or zero bits wrong"


class FieldOver(Refused):
    """3: a field over its limit, bad character, date not in the calendar."""

    __module__ = "vrikshonem"
    number = 3
    words = "a field over its limit, bad character, date not in the calendar"


class SeasonBroken(Refused):
    """14: a rule of the season file broken."""

    __module__ = "vrikshonem"
    number = 14
    words = "a rule of the season file broken"


class NotOneSecond(Refused):
    """16: a run's three fields differ, or a total above 484,848 units."""

    __module__ = "vrikshonem"
    number = 16
    words = "a run's three fields differ, or a total above 484,848 units"


class DecimalNotFinite(Refused):
    """4: decimal day infinite or not a number."""

    __module__ = "vrikshonem"
    number = 4
    words = "decimal day infinite or not a number"


class ListNotAccepted(Refused):
    """5: leap list not accepted."""

    __module__ = "vrikshonem"
    number = 5
    words = "leap list not accepted"


class CorrelationNotAccepted(Refused):
    """6: correlation not accepted."""

    __module__ = "vrikshonem"
    number = 6
    words = "correlation not accepted"


class OutsideSpan(Refused):
    """7: input time or receipt outside its span."""

    __module__ = "vrikshonem"
    number = 7
    words = "input time or receipt outside its span"


class NoEntry(Refused):
    """15: no entry covers the receipt."""

    __module__ = "vrikshonem"
    number = 15
    words = "no entry covers the receipt"


class NotInForce(Refused):
    """8: correlation not in force."""

    __module__ = "vrikshonem"
    number = 8
    words = "correlation not in force"


class ResultLater(Refused):
    """17: result later than receipt."""

    __module__ = "vrikshonem"
    number = 17
    words = "result later than receipt"


class ListExpired(Refused):
    """9: leap list expired."""

    __module__ = "vrikshonem"
    number = 9
    words = "leap list expired"


class SecondLacking(Refused):
    """10: UTC second that its day lacks."""

    __module__ = "vrikshonem"
    number = 10
    words = "UTC second that its day lacks"


class ResultOutside(Refused):
    """11: result outside its scale's span."""

    __module__ = "vrikshonem"
    number = 11
    words = "result outside its scale's span"


class NoImage(Refused):
    """12: time has no image."""

    __module__ = "vrikshonem"
    number = 12
    words = "time has no image"


class OutputShorter(Refused):
    """13: output slice shorter than the image."""

    __module__ = "vrikshonem"
    number = 13
    words = "output slice shorter than the image"


REFUSALS: Dict[int, Type[Refused]] = {
    1: LengthIsNone,
    2: MarkerWrong,
    3: FieldOver,
    14: SeasonBroken,
    16: NotOneSecond,
    4: DecimalNotFinite,
    5: ListNotAccepted,
    6: CorrelationNotAccepted,
    7: OutsideSpan,
    15: NoEntry,
    8: NotInForce,
    17: ResultLater,
    9: ListExpired,
    10: SecondLacking,
    11: ResultOutside,
    12: NoImage,
    13: OutputShorter,
}

__all__ = [
    "Refused",
    "LengthIsNone",
    "MarkerWrong",
    "FieldOver",
    "SeasonBroken",
    "NotOneSecond",
    "DecimalNotFinite",
    "ListNotAccepted",
    "CorrelationNotAccepted",
    "OutsideSpan",
    "NoEntry",
    "NotInForce",
    "ResultLater",
    "ListExpired",
    "SecondLacking",
    "ResultOutside",
    "NoImage",
    "OutputShorter",
]
