"""Vrikshonem, the dating desk: counters and times of packets as dates, or one numbered refusal.

The library behind this module is proved: each reading is the exact time to the microsecond, each writing the bytes whose
reading is that time or the last not later, and each refusal the first that applies, in a fixed order.

    >>> import vrikshonem
    >>> gps = vrikshonem.cuc_read(bytes.fromhex("459309110001"))
    >>> utc = gps.to_utc(vrikshonem.LeapList.PUBLISHED)
    >>> vrikshonem.text_write(utc, 31, vrikshonem.LeapList.PUBLISHED)
    'UTC=31-DEC-2016 23:59:60.000015'
    >>> vrikshonem.cuc_read(bytes(5))
    Traceback (most recent call last):
    vrikshonem.LengthIsNone: refused 1: input length is none of the layout's

Times are Tai, Utc and Gps; none is accepted where another is due. The Mark of each says where it came from. A refusal is raised
as the exception of its name, such as NotInForce; each is a Refused, which has .number and .words.

    >>> utc = vrikshonem.Utc(640, 36_000_000_000)
    >>> autumn = vrikshonem.SbtCorrelation(tick=7, reference=utc, period=3_906_250_000, back=0, ahead=663_552_000)
    >>> received = vrikshonem.Utc(640, 36_060_000_000)
    >>> for tick in 8, 6, -1:
    ...     try:
    ...         print(autumn.date(tick, received, vrikshonem.LeapList.PUBLISHED))
    ...     except vrikshonem.NotInForce:
    ...         print("a new correlation is needed")
    ...     except vrikshonem.Refused as refused:
    ...         print("refused with", refused.number)
    Utc(day=640, micro=36000003906, mark=Mark.correlated(7))
    a new correlation is needed
    refused with 3

A reader takes bytes of any length. A writer hands its image back; where a bytearray is lent as `out` it also writes the image
onto its front, leaves every byte after it, and refuses with 13 where it is too short. A refusal leaves every byte.
"""

from . import _correlations, _layouts, _marks, _refusals, _runs, _season, _times
from ._correlations import *
from ._layouts import *
from ._marks import *
from ._refusals import *
from ._runs import *
from ._season import *
from ._times import *

__version__ = "0.5.2"
# Each module lists its own names, and in this form a checker of types can add them up.
__all__: list[str] = []
__all__ += _correlations.__all__
__all__ += _layouts.__all__
__all__ += _marks.__all__
__all__ += _refusals.__all__
__all__ += _runs.__all__
__all__ += _season.__all__
__all__ += _times.__all__
