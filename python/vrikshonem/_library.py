"""Where the library is found."""

from __future__ import annotations

import ctypes
import os
from typing import Optional, Tuple

from ._sys import FUNCTIONS, LIBRARY

_loaded: Optional[ctypes.CDLL] = None


def _places() -> Tuple[str, ...]:
    """Where the library may be: the folder that VRIKSHONEM_LIB names; or what tools/build made in this repository, and
    then wherever the system looks."""
    named = os.environ.get("VRIKSHONEM_LIB")
    if named:
        return (os.path.join(named, LIBRARY),)
    root = os.path.dirname(os.path.dirname(os.path.dirname(os.path.abspath(__file__))))
    return (os.path.join(root, "target", "host", "lib", LIBRARY), LIBRARY)


def library() -> ctypes.CDLL:
    """The library, loaded at the first call."""
    global _loaded
    if _loaded is None:
        why = []
        for place in _places():
            try:
                found = ctypes.CDLL(place)
                break
            except OSError as error:
                why.append(str(error))
        else:
            raise OSError("vrikshonem: run tools/build, or set VRIKSHONEM_LIB to the library's folder: " + "; ".join(why))
        for name, (result, arguments) in FUNCTIONS.items():
            try:
                function = getattr(found, name)
            except AttributeError:
                raise OSError(f"vrikshonem: {place} has no {name}: it is of another version than this module") from None
            function.restype, function.argtypes = result, list(arguments)
        _loaded = found
    return _loaded
