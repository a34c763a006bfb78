# Made by tools/interface.py --write; not by hand.
"""The interface for C."""

from __future__ import annotations

import ctypes
from typing import Any, Dict, Tuple

# The library's file carries the first two numbers of its version.
LIBRARY = "libvrikshonem.so.0.5"


class VrkWritten(ctypes.Structure):
    _fields_ = [
        ("refusal", ctypes.c_uint32),
        ("length", ctypes.c_uint64),
    ]


class VrkGoceCorrelation(ctypes.Structure):
    _fields_ = [
        ("obt0", ctypes.c_uint64),
        ("utc0", ctypes.c_uint64),
        ("offset", ctypes.c_int64),
        ("gradient", ctypes.c_uint64),
        ("back", ctypes.c_uint64),
        ("ahead", ctypes.c_uint64),
    ]


class VrkHanded(ctypes.Structure):
    _fields_ = [
        ("kind", ctypes.c_uint32),
        ("scale", ctypes.c_uint32),
        ("day", ctypes.c_int64),
        ("micro", ctypes.c_uint64),
        ("decimal", ctypes.c_double),
        ("mark", ctypes.c_uint32),
        ("source", ctypes.c_uint64),
    ]


class VrkTime(ctypes.Structure):
    _fields_ = [
        ("refusal", ctypes.c_uint32),
        ("scale", ctypes.c_uint32),
        ("day", ctypes.c_int64),
        ("micro", ctypes.c_uint64),
        ("mark", ctypes.c_uint32),
        ("source", ctypes.c_uint64),
    ]


class VrkDecimal(ctypes.Structure):
    _fields_ = [
        ("refusal", ctypes.c_uint32),
        ("day", ctypes.c_double),
    ]


class VrkSbtCorrelation(ctypes.Structure):
    _fields_ = [
        ("tick", ctypes.c_uint32),
        ("scale", ctypes.c_uint32),
        ("day", ctypes.c_int64),
        ("micro", ctypes.c_uint64),
        ("period", ctypes.c_uint64),
        ("back", ctypes.c_uint64),
        ("ahead", ctypes.c_uint64),
    ]


class VrkCount(ctypes.Structure):
    _fields_ = [
        ("refusal", ctypes.c_uint32),
        ("count", ctypes.c_uint64),
    ]


class VrkCucFields(ctypes.Structure):
    _fields_ = [
        ("refusal", ctypes.c_uint32),
        ("seconds", ctypes.c_uint32),
        ("fraction", ctypes.c_uint32),
    ]


class VrkProteusFields(ctypes.Structure):
    _fields_ = [
        ("refusal", ctypes.c_uint32),
        ("week", ctypes.c_uint32),
        ("h3", ctypes.c_uint32),
        ("second", ctypes.c_uint32),
        ("fraction", ctypes.c_uint32),
    ]


class VrkCryosatFields(ctypes.Structure):
    _fields_ = [
        ("refusal", ctypes.c_uint32),
        ("day", ctypes.c_uint32),
        ("millisecond", ctypes.c_uint32),
        ("microsecond", ctypes.c_uint32),
    ]


class VrkSiralFields(ctypes.Structure):
    _fields_ = [
        ("refusal", ctypes.c_uint32),
        ("day", ctypes.c_uint32),
        ("millisecond", ctypes.c_uint32),
        ("microsecond", ctypes.c_uint32),
        ("extra", ctypes.c_uint32),
    ]


class VrkRun(ctypes.Structure):
    _fields_ = [
        ("refusal", ctypes.c_uint32),
        ("count", ctypes.c_uint64),
        ("last", ctypes.c_uint64),
    ]


class VrkCover(ctypes.Structure):
    _fields_ = [
        ("refusal", ctypes.c_uint32),
        ("first", ctypes.c_int64),
        ("last", ctypes.c_int64),
    ]


# Each function's result and arguments; a slice is a pointer and a number of elements.
FUNCTIONS: Dict[str, Tuple[Any, Tuple[Any, ...]]] = {
    "vrk_cuc_read": (VrkTime, (ctypes.POINTER(ctypes.c_uint8), ctypes.c_size_t)),
    "vrk_cryosat_read": (VrkTime, (ctypes.POINTER(ctypes.c_uint8), ctypes.c_size_t)),
    "vrk_siral_read": (VrkTime, (ctypes.POINTER(ctypes.c_uint8), ctypes.c_size_t)),
    "vrk_goce_read": (VrkCount, (ctypes.POINTER(ctypes.c_uint8), ctypes.c_size_t)),
    "vrk_obet_read": (VrkCount, (ctypes.POINTER(ctypes.c_uint8), ctypes.c_size_t)),
    "vrk_sbt_read": (VrkCount, (ctypes.POINTER(ctypes.c_uint8), ctypes.c_size_t)),
    "vrk_cuc_write": (VrkWritten, (VrkHanded, ctypes.POINTER(ctypes.c_uint8), ctypes.c_size_t)),
    "vrk_cryosat_write": (VrkWritten, (VrkHanded, ctypes.POINTER(ctypes.c_uint8), ctypes.c_size_t)),
    "vrk_siral_write": (VrkWritten, (VrkHanded, ctypes.POINTER(ctypes.c_uint8), ctypes.c_size_t)),
    "vrk_goce_write": (VrkWritten, (ctypes.c_uint64, ctypes.POINTER(ctypes.c_uint8), ctypes.c_size_t)),
    "vrk_obet_write": (VrkWritten, (ctypes.c_uint64, ctypes.POINTER(ctypes.c_uint8), ctypes.c_size_t)),
    "vrk_sbt_write": (VrkWritten, (ctypes.c_uint32, ctypes.POINTER(ctypes.c_uint8), ctypes.c_size_t)),
    "vrk_proteus_read": (VrkTime, (ctypes.POINTER(ctypes.c_uint8), ctypes.c_size_t)),
    "vrk_proteus_write": (VrkWritten, (VrkHanded, ctypes.POINTER(ctypes.c_uint8), ctypes.c_size_t)),
    "vrk_goce_date": (VrkTime, (ctypes.c_uint64, VrkGoceCorrelation, ctypes.c_int64, ctypes.c_uint64, ctypes.POINTER(ctypes.c_int64), ctypes.c_size_t, ctypes.POINTER(ctypes.c_uint64), ctypes.c_size_t, ctypes.c_int64)),
    "vrk_goce_count": (VrkCount, (VrkHanded, VrkGoceCorrelation, ctypes.POINTER(ctypes.c_int64), ctypes.c_size_t, ctypes.POINTER(ctypes.c_uint64), ctypes.c_size_t, ctypes.c_int64)),
    "vrk_decimal_read": (VrkTime, (ctypes.c_double, ctypes.c_uint32)),
    "vrk_decimal_write": (VrkDecimal, (VrkHanded,)),
    "vrk_sbt_date": (VrkTime, (ctypes.c_uint32, VrkSbtCorrelation, ctypes.c_int64, ctypes.c_uint64, ctypes.POINTER(ctypes.c_int64), ctypes.c_size_t, ctypes.POINTER(ctypes.c_uint64), ctypes.c_size_t, ctypes.c_int64)),
    "vrk_sbt_tick": (VrkCount, (VrkHanded, VrkSbtCorrelation, ctypes.POINTER(ctypes.c_int64), ctypes.c_size_t, ctypes.POINTER(ctypes.c_uint64), ctypes.c_size_t, ctypes.c_int64)),
    "vrk_list_accepted": (ctypes.c_uint32, (ctypes.POINTER(ctypes.c_int64), ctypes.c_size_t, ctypes.POINTER(ctypes.c_uint64), ctypes.c_size_t, ctypes.c_int64)),
    "vrk_change": (VrkTime, (VrkHanded, ctypes.c_uint32, ctypes.POINTER(ctypes.c_int64), ctypes.c_size_t, ctypes.POINTER(ctypes.c_uint64), ctypes.c_size_t, ctypes.c_int64)),
    "vrk_cuc_fields_read": (VrkCucFields, (ctypes.POINTER(ctypes.c_uint8), ctypes.c_size_t)),
    "vrk_cuc_fields_write": (VrkWritten, (ctypes.c_uint32, ctypes.c_uint32, ctypes.POINTER(ctypes.c_uint8), ctypes.c_size_t)),
    "vrk_proteus_fields_read": (VrkProteusFields, (ctypes.POINTER(ctypes.c_uint8), ctypes.c_size_t)),
    "vrk_proteus_fields_write": (VrkWritten, (ctypes.c_uint32, ctypes.c_uint32, ctypes.c_uint32, ctypes.c_uint32, ctypes.POINTER(ctypes.c_uint8), ctypes.c_size_t)),
    "vrk_cryosat_fields_read": (VrkCryosatFields, (ctypes.POINTER(ctypes.c_uint8), ctypes.c_size_t)),
    "vrk_cryosat_fields_write": (VrkWritten, (ctypes.c_uint32, ctypes.c_uint32, ctypes.c_uint32, ctypes.POINTER(ctypes.c_uint8), ctypes.c_size_t)),
    "vrk_siral_fields_read": (VrkSiralFields, (ctypes.POINTER(ctypes.c_uint8), ctypes.c_size_t)),
    "vrk_siral_fields_write": (VrkWritten, (ctypes.c_uint32, ctypes.c_uint32, ctypes.c_uint32, ctypes.c_uint32, ctypes.POINTER(ctypes.c_uint8), ctypes.c_size_t)),
    "vrk_siral_run": (VrkRun, (ctypes.POINTER(ctypes.c_uint8), ctypes.c_size_t, ctypes.c_uint64, ctypes.POINTER(ctypes.c_int64), ctypes.c_size_t)),
    "vrk_season_read": (VrkCount, (ctypes.POINTER(ctypes.c_uint8), ctypes.c_size_t, ctypes.POINTER(ctypes.c_int64), ctypes.c_size_t)),
    "vrk_season_write": (VrkWritten, (ctypes.POINTER(ctypes.c_int64), ctypes.c_size_t, ctypes.POINTER(ctypes.c_uint8), ctypes.c_size_t)),
    "vrk_season_covering": (VrkCover, (ctypes.POINTER(ctypes.c_uint8), ctypes.c_size_t, ctypes.c_int64, ctypes.c_uint64)),
    "vrk_text_read": (VrkTime, (ctypes.POINTER(ctypes.c_uint8), ctypes.c_size_t, ctypes.POINTER(ctypes.c_int64), ctypes.c_size_t, ctypes.POINTER(ctypes.c_uint64), ctypes.c_size_t, ctypes.c_int64)),
    "vrk_text_write": (VrkWritten, (VrkHanded, ctypes.POINTER(ctypes.c_int64), ctypes.c_size_t, ctypes.POINTER(ctypes.c_uint64), ctypes.c_size_t, ctypes.c_int64, ctypes.c_uint32, ctypes.POINTER(ctypes.c_uint8), ctypes.c_size_t)),
}

# The bytes of each writer's image, or the most that it has.
IMAGES: Dict[str, int] = {
    "vrk_cuc_write": 6,
    "vrk_goce_write": 6,
    "vrk_obet_write": 8,
    "vrk_proteus_write": 8,
    "vrk_cryosat_write": 8,
    "vrk_siral_write": 10,
    "vrk_sbt_write": 4,
    "vrk_cuc_fields_write": 6,
    "vrk_proteus_fields_write": 8,
    "vrk_cryosat_fields_write": 8,
    "vrk_siral_fields_write": 10,
    "vrk_season_write": 24578,
    "vrk_text_write": 31,
}
