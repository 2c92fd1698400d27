"""The library, and the forms of its calls."""
from __future__ import annotations

import ctypes
import os
from ctypes import POINTER, c_char, c_char_p, c_size_t, c_uint, c_void_p
from functools import cache
from pathlib import Path

NAME = "libsulderko.so.1"
TEXT = [c_char_p, c_size_t]


class Conflicts(ctypes.Structure):
    """struct sulderko_conflicts"""

    _fields_ = [("shift_reduce", c_size_t), ("reduce_reduce", c_size_t)]


class Verdict(ctypes.Structure):
    """struct sulderko_verdict"""

    _fields_ = [
        ("outcome", c_uint),
        ("exact", c_uint),
        ("steps", c_size_t),
        ("token", c_size_t),
    ]


class Sizes(ctypes.Structure):
    """struct sulderko_sizes"""

    _fields_ = [
        ("states", c_size_t),
        ("rules", c_size_t),
        ("tokens", c_size_t),
        ("span", c_size_t),
    ]


class Fault(ctypes.Structure):
    """struct sulderko_fault_info"""

    _fields_ = [
        ("code", c_uint),
        ("line", c_size_t),
        ("offset", c_size_t),
        ("place", c_size_t),
    ]


class Handle(ctypes.Structure):
    """struct sulderko_handle"""

    _fields_ = [("at", c_void_p)]


class Move(ctypes.Structure):
    """struct sulderko_move"""

    _fields_ = [("kind", c_uint), ("subject", c_size_t)]


class Place(ctypes.Structure):
    """struct sulderko_place"""

    _fields_ = [
        ("mode", c_uint),
        ("position", c_size_t),
        ("state", c_size_t),
        ("height", c_size_t),
        ("left", c_size_t),
        ("counter", c_size_t),
        ("errors", c_size_t),
    ]


BYTES = [POINTER(c_char), c_size_t, POINTER(c_size_t)]
NUMBERS = [POINTER(c_size_t), c_size_t, POINTER(c_size_t)]
HANDLE = [POINTER(Handle)]
FORMS = {
    "session": 3 * TEXT + BYTES,
    "table": TEXT + BYTES + [POINTER(Conflicts)],
    "report": TEXT + BYTES + [POINTER(Conflicts)],
    "code": TEXT + [c_uint] + NUMBERS + [POINTER(Sizes)],
    "tokens": 2 * TEXT + NUMBERS,
    "judge": 2 * TEXT + [POINTER(Verdict)],
    "fault": 2 * TEXT + [POINTER(Fault)],
    "open": 2 * TEXT + HANDLE,
    "step": HANDLE + [POINTER(Move)],
    "back": HANDLE + [POINTER(Move)],
    "insert": HANDLE + TEXT + [POINTER(Move)],
    "drop": HANDLE + [POINTER(Move)],
    "to": HANDLE + [c_size_t],
    "state": HANDLE + [POINTER(Place)],
    "expected": HANDLE + BYTES,
    "show": HANDLE + BYTES,
    "tree": HANDLE + BYTES,
    "unwind": HANDLE + BYTES,
}


def path() -> str:
    """Where the library is."""
    if named := os.environ.get("SULDERKO_LIBRARY"):
        return named
    here = Path(__file__).resolve().parent
    places = here / NAME, here.parents[2] / "bin" / NAME
    return next((str(it) for it in places if it.is_file()), NAME)


@cache
def library() -> ctypes.CDLL:
    """The library, with the forms of its calls."""
    found = ctypes.CDLL(path())
    for name, form in FORMS.items():
        call = getattr(found, f"sulderko_{name}")
        call.argtypes, call.restype = form, c_uint
    found.sulderko_close.argtypes, found.sulderko_close.restype = HANDLE, None
    return found
