"""The seven calls of include/vanplan.h, through ctypes.

The declarations below are held to the header by a test. Nothing else of the package declares or loads anything.
"""

from __future__ import annotations

import ctypes
import os
from ctypes import POINTER, c_char_p, c_size_t, c_uint8, c_uint16, c_uint32, c_uint64
from functools import cache
from pathlib import Path
from typing import Any, Callable

# A list that is only read is a c_char_p where it is bytes: bytes of Python are passed as they lie, whatever they hold.
CALLS: dict[str, tuple[tuple[str, Any], ...]] = {
    "vanplan_read": (
        ("sheet", c_char_p),
        ("len", c_size_t),
        ("tasks", POINTER(c_uint64)),
        ("points", POINTER(c_uint64)),
    ),
    "vanplan_plan": (
        ("sheet", c_char_p),
        ("len", c_size_t),
        ("cells", POINTER(c_uint64)),
        ("ncells", c_size_t),
        ("buf", POINTER(c_uint8)),
        ("buf_len", c_size_t),
        ("cost", POINTER(c_uint64)),
    ),
    "vanplan_price": (
        ("sheet", c_char_p),
        ("len", c_size_t),
        ("even", POINTER(c_uint64)),
        ("neven", c_size_t),
        ("odd", POINTER(c_uint64)),
        ("nodd", c_size_t),
        ("cost", POINTER(c_uint64)),
        ("start", POINTER(c_uint16)),
    ),
    "vanplan_price_row": (
        ("sheet", c_char_p),
        ("len", c_size_t),
        ("even", POINTER(c_uint64)),
        ("neven", c_size_t),
        ("odd", POINTER(c_uint64)),
        ("nodd", c_size_t),
        ("layer", POINTER(c_size_t)),
        ("cells", POINTER(c_size_t)),
    ),
    "vanplan_validate": (
        ("sheet", c_char_p),
        ("len", c_size_t),
        ("plan", c_char_p),
        ("plan_len", c_size_t),
        ("cost", POINTER(c_uint64)),
    ),
    "vanplan_write_plan": (
        ("n", c_size_t),
        ("start", c_uint16),
        ("doors", POINTER(c_uint16)),
        ("ndoors", c_size_t),
        ("cost", c_uint64),
        ("buf", POINTER(c_uint8)),
        ("buf_len", c_size_t),
        ("written", POINTER(c_size_t)),
    ),
    "vanplan_read_plan": (
        ("n", c_size_t),
        ("bytes", c_char_p),
        ("len", c_size_t),
        ("start", POINTER(c_uint16)),
        ("doors", POINTER(c_uint16)),
        ("ndoors", c_size_t),
        ("cost", POINTER(c_uint64)),
    ),
}

Call = Callable[..., int]


class Library:
    """The loaded library: each call returns 0 or the number of a refusal."""

    vanplan_read: Call
    vanplan_plan: Call
    vanplan_price: Call
    vanplan_price_row: Call
    vanplan_validate: Call
    vanplan_write_plan: Call
    vanplan_read_plan: Call

    def __init__(self, path: Path) -> None:
        loaded = ctypes.CDLL(str(path))
        for name, arguments in CALLS.items():
            call = getattr(loaded, name)
            call.argtypes = [kind for _, kind in arguments]
            call.restype = c_uint32
            setattr(self, name, call)


def path() -> Path:
    """Where the library is: VANPLAN_LIBRARY names it, or ./vanplan has built it under target/."""
    named = os.environ.get("VANPLAN_LIBRARY")
    if named:
        return Path(named)
    return Path(__file__).resolve().parents[2] / "target" / "lib" / "libvanplan.so"


@cache
def library() -> Library:
    """The library, loaded at the first call."""
    if not path().exists():
        raise FileNotFoundError(f"{path()}: the proved library is not built yet; ./vanplan builds it")
    try:
        return Library(path())
    except AttributeError as error:
        raise OSError(f"{path()} is another library: {error}") from None
