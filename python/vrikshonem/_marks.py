"""Where a time came from."""

from __future__ import annotations

from dataclasses import dataclass
from operator import index
from typing import ClassVar, Optional

__all__ = ["Mark"]

# By a mark's code: what its source is, and the last that it can be.
_SOURCES = (
    ("the source of a plain mark is 0", 0),
    ("H3 is 0 or 1", 1),
    ("a reference is from 0 to 2^64 - 1", 2**64 - 1),
)


@dataclass(frozen=True, repr=False)
class Mark:
    """Where a time came from. A change of scale keeps it, and proteus_write takes H3 from it. Nothing else looks at it: two times
    that differ in their marks alone are equal. There are three:

    Mark.PLAIN                  nothing is told: a time that was built, or read from a text, a decimal day, CUC, CryoSat or SIRAL
    Mark.proteus(h3)            read from Proteus bytes, with their H3
    Mark.correlated(reference)  dated by a correlation, with its reference: tick of an SbtCorrelation, obt0 of a GoceCorrelation

    Each has

    h3         H3 of a time from Proteus, of any other None
    reference  the reference of a time that is correlated, of any other None
    code       0 plain, 1 from Proteus, 2 correlated
    source     0, H3 or the reference

    >>> image = bytes.fromhex("41b1000000078000")
    >>> tai = proteus_read(image).to_tai(LeapList.PUBLISHED)
    >>> tai
    Tai(day=57, micro=39500000, mark=Mark.proteus(True))
    >>> proteus_write(tai.to_utc(LeapList.PUBLISHED)) == image
    True

    Without its mark it is the same time, and H3 is 0:

    >>> plain = tai.with_mark(Mark.PLAIN)
    >>> plain == tai
    True
    >>> proteus_write(plain.to_utc(LeapList.PUBLISHED)).hex()
    '41b0000000078000'
    """

    code: int = 0
    source: int = 0
    PLAIN: ClassVar[Mark]

    def __post_init__(self) -> None:
        if index(self.code) not in range(len(_SOURCES)):
            raise ValueError(f"the code of a mark is 0, 1 or 2, not {self.code}")
        rule, last = _SOURCES[self.code]
        if not 0 <= index(self.source) <= last:
            raise ValueError(f"{rule}, not {self.source}")
        # True and 1 are the same bit, and are held as the same number.
        vars(self).update(code=int(self.code), source=int(self.source))

    @classmethod
    def proteus(cls, h3: bool) -> Mark:
        """The mark of a time from Proteus bytes with this H3."""
        return cls(1, h3)

    @classmethod
    def correlated(cls, reference: int) -> Mark:
        """The mark of a time that was dated by a correlation with this reference, a number of 64 bits."""
        return cls(2, reference)

    @property
    def h3(self) -> Optional[bool]:
        """H3 of a time from Proteus, of any other None."""
        return self.source == 1 if self.code == 1 else None

    @property
    def reference(self) -> Optional[int]:
        """The reference of a time that is correlated, of any other None."""
        return self.source if self.code == 2 else None

    def __repr__(self) -> str:
        if self.code == 1:
            return f"Mark.proteus({self.h3})"
        return f"Mark.correlated({self.source})" if self.code == 2 else "Mark.PLAIN"


Mark.PLAIN = Mark()
