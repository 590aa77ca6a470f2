"""The proved library through ctypes: its structs, its limits, and where it is found.

The structs are those of ``include/desk.h``, field for field; the tests hold the limits to the header.
"""

from __future__ import annotations

import ctypes
import os
from ctypes import POINTER, Structure, c_int64, c_size_t, c_uint8, c_uint64
from functools import lru_cache
from pathlib import Path

STATES_LIMIT = 800
HOUSE_LIMIT = 30_000
SUM_LIMIT = 4_294_967_295
REGISTER_LIMIT = 65_536
NAME_LIMIT = 32
SHOWN_SCALE = 100_000
LISTING_ROOM = 31 + STATES_LIMIT * 67 + 23
CLEAN_ROOM = 30 + STATES_LIMIT * 44 + 17
# The largest number that the library takes anywhere.
NUMBER_LIMIT = 2**64 - 1

_Populations = c_uint64 * STATES_LIMIT


class Reading(Structure):
    _fields_ = [(field, c_uint64) for field in ("refusal", "line", "method", "house", "states", "total")] + [("populations", _Populations)]


class Allotted(Structure):
    _fields_ = [("refusal", c_uint64), ("steps", c_uint64)]


class Placing(Structure):
    _fields_ = [(field, c_uint64) for field in ("states", "house", "total", "steps")] + [
        ("populations", _Populations),
        ("seats", _Populations),
    ]


class Placed(Structure):
    _fields_ = [("refusal", c_uint64), ("placing", Placing)]


class Moved(Structure):
    _fields_ = [("refusal", c_uint64), ("moved", c_uint64)]


class Shown(Structure):
    _fields_ = [("refusal", c_uint64), ("shown", c_int64), ("mark", c_uint64)]


class Written(Structure):
    _fields_ = [("refusal", c_uint64), ("line", c_uint64), ("length", c_uint64)]


class Part(Structure):
    _fields_ = [("refusal", c_uint64), ("line", c_uint64), ("start", c_uint64), ("length", c_uint64)]


# Each function's result and parameters. Bytes that are only read are handed over as they lie.
_FUNCTIONS = {
    "desk_read": (Reading, [ctypes.c_char_p, c_size_t]),
    "desk_allot": (Allotted, [c_uint64, c_uint64, POINTER(c_uint64), c_size_t, POINTER(c_uint64), c_size_t]),
    "desk_open": (Placed, [POINTER(c_uint64), c_size_t, c_uint64]),
    "desk_move": (Moved, [POINTER(Placing), c_uint64]),
    "desk_departure": (Shown, [c_uint64, c_uint64, c_uint64, c_uint64]),
    "desk_listing": (Written, [ctypes.c_char_p, c_size_t, POINTER(c_uint8), c_size_t]),
    "desk_clean": (Written, [ctypes.c_char_p, c_size_t, POINTER(c_uint8), c_size_t]),
    "desk_name": (Part, [ctypes.c_char_p, c_size_t, c_size_t]),
}


class LibraryMissing(Exception):
    """The shared library is not where it was looked for."""


def library_path() -> Path:
    """Where the shared library is looked for: the file that DESK_LIBRARY names, or the repository's own."""
    named = os.environ.get("DESK_LIBRARY")
    return Path(named) if named else Path(__file__).parents[2] / "target" / "lib" / "libdesk.so"


@lru_cache(maxsize=None)
def library() -> ctypes.CDLL:
    """The library, loaded once, with each function's types."""
    path = library_path()
    if not path.exists():
        raise LibraryMissing(f"there is no {path}: build it by `make shared`, or name it in DESK_LIBRARY")
    try:
        loaded = ctypes.CDLL(str(path))
    except OSError as error:
        raise LibraryMissing(f"{path} cannot be loaded: {error}; it needs Linux on x86-64") from None
    for name, (result, parameters) in _FUNCTIONS.items():
        function = getattr(loaded, name)
        function.restype = result
        function.argtypes = parameters
    return loaded
