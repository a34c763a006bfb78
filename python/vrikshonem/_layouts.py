"""The byte layouts and texts."""

from __future__ import annotations

import ctypes
from typing import Any, NamedTuple, Optional, Tuple, Union

from ._library import library
from ._sys import IMAGES
from ._times import Gps, Handed, LeapList, Tai, Time, Utc, answered, due, handed, listed, narrow, unsigned

__all__ = [
    "CryosatFields",
    "CucFields",
    "ProteusFields",
    "SiralFields",
    "cryosat_fields_read",
    "cryosat_fields_write",
    "cryosat_read",
    "cryosat_write",
    "cuc_fields_read",
    "cuc_fields_write",
    "cuc_read",
    "cuc_write",
    "goce_read",
    "goce_write",
    "obet_read",
    "obet_write",
    "proteus_fields_read",
    "proteus_fields_write",
    "proteus_read",
    "proteus_write",
    "sbt_read",
    "sbt_write",
    "siral_fields_read",
    "siral_fields_write",
    "siral_read",
    "siral_write",
    "text_read",
    "text_write",
]

Bytes = Union[bytes, bytearray, memoryview]
Lent = Optional[bytearray]


def _slice(data: Bytes) -> Tuple[Any, int]:
    # bytes() would take a number too, as that many zero bytes.
    held = memoryview(data).tobytes()
    return (ctypes.c_uint8 * len(held)).from_buffer_copy(held), len(held)


def _read(name: str, data: Bytes) -> Any:
    return answered(getattr(library(), name)(*_slice(data)))


def _write(name: str, out: Lent, *given: Any) -> bytes:
    room = bytearray(IMAGES[name]) if out is None else due(out, bytearray, "a bytearray")
    lent = (ctypes.c_uint8 * len(room)).from_buffer(room)
    try:
        written = getattr(library(), name)(*given, lent, len(room))
    finally:
        # A bytearray cannot change its length while it is lent, and a refusal's traceback would keep it so.
        del lent
    return bytes(room[: answered(written).length])


class CucFields(NamedTuple):
    seconds: int
    fraction: int


class ProteusFields(NamedTuple):
    week: int
    h3: bool
    second: int
    fraction: int


class CryosatFields(NamedTuple):
    day: int
    millisecond: int
    microsecond: int


class SiralFields(NamedTuple):
    day: int
    millisecond: int
    microsecond: int
    extra: int


def cuc_read(data: Bytes) -> Gps:
    """CUC, Aeolus, 6 bytes: seconds since 6 January 1980 and a fraction of 1/65536 s, read as the nearest microsecond, halves
    upward. Refused: 1; 7.

    >>> cuc_read(bytes.fromhex("000000010001"))
    Gps(day=-7300, micro=1000015)
    >>> cuc_read(bytes.fromhex("00000001ffff"))
    Gps(day=-7300, micro=1999985)
    """
    return Gps._of(_read("vrk_cuc_read", data))


def cuc_write(time: Handed, out: Lent = None) -> bytes:
    """The last image whose reading is not later. Refused: 4; 7; 12 a scale other than GPS; 13.

    >>> cuc_write(Gps(-7300, 1_000_015)).hex()
    '000000010001'
    """
    return _write("vrk_cuc_write", out, handed(time))


def cuc_fields_read(data: Bytes) -> CucFields:
    """The fields of the bytes, exactly. Refused: 1."""
    read = _read("vrk_cuc_fields_read", data)
    return CucFields(read.seconds, read.fraction)


def cuc_fields_write(seconds: int, fraction: int, out: Lent = None) -> bytes:
    """The fields' bytes, exactly. Refused: 3; 13."""
    return _write("vrk_cuc_fields_write", out, narrow(seconds), narrow(fraction))


def goce_read(data: Bytes) -> int:
    """GOCE OBT, 6 bytes: a count of 48 bits, without an epoch; a GoceCorrelation dates it. Refused: 1."""
    return _read("vrk_goce_read", data).count


def goce_write(count: int, out: Lent = None) -> bytes:
    """The count's bytes. Refused: 3 where it is no count of 48 bits; 13.

    >>> packet = bytearray(8)
    >>> goce_write(0x010203040506, out=packet).hex()
    '010203040506'
    >>> packet.hex()
    '0102030405060000'
    """
    return _write("vrk_goce_write", out, unsigned(count))


def obet_read(data: Bytes) -> int:
    """OBET, SMOS, 8 bytes: the byte 66 hexadecimal and a count of 56 bits. Refused: 1; 2."""
    return _read("vrk_obet_read", data).count


def obet_write(count: int, out: Lent = None) -> bytes:
    """The count's bytes, after the byte 66. Refused: 3 where it is no count of 56 bits; 13."""
    return _write("vrk_obet_write", out, unsigned(count))


def proteus_read(data: Bytes) -> Utc:
    """Proteus, SMOS, 8 bytes: a UTC time in weeks of 604,800 s, without a leap list, marked Mark.proteus with its H3. Its fraction
    of a second is read as the nearest microsecond, halves upward. Refused: 1; 2; 3.

    >>> proteus_read(bytes.fromhex("0001000000010000"))
    Utc(day=-7300, micro=1000000, mark=Mark.proteus(True))
    """
    return Utc._of(_read("vrk_proteus_read", data))


def proteus_write(time: Handed, out: Lent = None) -> bytes:
    """The last image whose reading is not later, with the H3 of a time that is marked Mark.proteus, and 0 for any other. Refused:
    4; 7; 12 a scale other than UTC, second 60, a day outside -7300 to 21371; 13.

    >>> time = Utc(-7300, 1_000_000)
    >>> proteus_write(time).hex(), proteus_write(time.with_mark(Mark.proteus(True))).hex()
    ('0000000000010000', '0001000000010000')
    """
    return _write("vrk_proteus_write", out, handed(time))


def proteus_fields_read(data: Bytes) -> ProteusFields:
    """The fields of the bytes, exactly. Refused: 1; 2; 3."""
    read = _read("vrk_proteus_fields_read", data)
    return ProteusFields(read.week, read.h3 == 1, read.second, read.fraction)


def proteus_fields_write(week: int, h3: bool, second: int, fraction: int, out: Lent = None) -> bytes:
    """The fields' bytes, exactly. Refused: 3; 13."""
    return _write("vrk_proteus_fields_write", out, narrow(week), narrow(h3), narrow(second), narrow(fraction))


def cryosat_read(data: Bytes) -> Tai:
    """CryoSat general, 8 bytes: day from 1 January 2000, millisecond and microsecond. Refused: 1; 3; 7."""
    return Tai._of(_read("vrk_cryosat_read", data))


def cryosat_write(time: Handed, out: Lent = None) -> bytes:
    """The time, exactly. Refused: 4; 7; 12 a scale other than TAI, a day before 0; 13."""
    return _write("vrk_cryosat_write", out, handed(time))


def cryosat_fields_read(data: Bytes) -> CryosatFields:
    """The fields of the bytes, exactly. Refused: 1; 3."""
    read = _read("vrk_cryosat_fields_read", data)
    return CryosatFields(read.day, read.millisecond, read.microsecond)


def cryosat_fields_write(day: int, millisecond: int, microsecond: int, out: Lent = None) -> bytes:
    """The fields' bytes, exactly. Refused: 3; 13."""
    return _write("vrk_cryosat_fields_write", out, narrow(day), narrow(millisecond), narrow(microsecond))


def siral_read(data: Bytes) -> Tai:
    """SIRAL, 10 bytes: CryoSat general's, and an extra counter of 33/16 microsecond, which is added. siral_run dates packets
    after the counter has rolled over. Refused: 1; 3; 7."""
    return Tai._of(_read("vrk_siral_read", data))


def siral_write(time: Handed, out: Lent = None) -> bytes:
    """The time, exactly, with the extra counter 0. Refused: 4; 7; 12 a scale other than TAI, a day before 0; 13."""
    return _write("vrk_siral_write", out, handed(time))


def siral_fields_read(data: Bytes) -> SiralFields:
    """The fields of the bytes, exactly. Refused: 1; 3."""
    read = _read("vrk_siral_fields_read", data)
    return SiralFields(read.day, read.millisecond, read.microsecond, read.extra)


def siral_fields_write(day: int, millisecond: int, microsecond: int, extra: int, out: Lent = None) -> bytes:
    """The fields' bytes, exactly. Refused: 3; 13."""
    given = narrow(day), narrow(millisecond), narrow(microsecond), narrow(extra)
    return _write("vrk_siral_fields_write", out, *given)


def sbt_read(data: Bytes) -> int:
    """SBT, 4 bytes: the tick. Refused: 1."""
    return _read("vrk_sbt_read", data).count


def sbt_write(tick: int, out: Lent = None) -> bytes:
    """The tick's bytes. Refused: 3 where the number is no tick; 13."""
    return _write("vrk_sbt_write", out, narrow(tick))


def text_read(text: Union[str, Bytes], leap_list: LeapList) -> Time:
    """The time that an Envisat text stands for, in its own scale; without a prefix it is UTC, and only then or with UTC= is
    the list looked at. Refused: 1; 3; 5; 7; 9; 10.

    >>> text_read("31-DEC-2016 23:59:60", LeapList.PUBLISHED)
    Utc(day=6209, micro=86400000000)
    >>> text_read("GPS=01-JAN-2017 00:00:17.000015", LeapList.PUBLISHED)
    Gps(day=6210, micro=17000015)
    """
    # A character that has no byte of its own becomes a question mark, which is as bad a character as it was.
    data = text.encode("ascii", "replace") if isinstance(text, str) else text
    read = answered(library().vrk_text_read(*_slice(data), *listed(leap_list)))
    if read.scale == Tai.CODE:
        return Tai._of(read)
    return Utc._of(read) if read.scale == Utc.CODE else Gps._of(read)


def text_write(time: Handed, form: int, leap_list: LeapList, out: Lent = None) -> str:
    """A time as text in the form of that length: 20, 24 with a prefix, 27 with microseconds, 31 with both. Nothing is
    written that reading would refuse. Refused: 3 another form; 4; 5; 7; 9; 10; 12 a scale other than UTC without a prefix, a
    microsecond that the form cannot show; 13.

    >>> text_write(Utc(6209, 86_400_000_000), 20, LeapList.PUBLISHED)
    '31-DEC-2016 23:59:60'
    """
    given = handed(time), *listed(leap_list), narrow(form)
    return _write("vrk_text_write", out, *given).decode("ascii")
