"""Expansions of parameter strings, by the library of <ticurses/term.h>."""

from __future__ import annotations

import ctypes
import functools
import operator
import os
from typing import Any

from .. import _raw
from ._errors import check, error
from ._terminfo import is_set_up

__all__ = ["putp", "tparm"]

# the number is the major version, as for the library below it
_NAME = _raw.NAME.replace("libticurses", "libticurses_tinfo")
# a parameter is a C int
_LEAST, _GREATEST = -(2**31), 2**31 - 1


@functools.cache
def _library() -> Any:
    """The library, which is loaded by the first call: beside that of ticurses, or where the system looks."""
    beside = os.path.join(os.path.dirname(_raw.path()), _NAME)
    path = beside if os.path.isabs(beside) and os.path.exists(beside) else _NAME
    try:
        # PyDLL keeps the interpreter's lock, so that no two threads are in the library
        library = ctypes.PyDLL(path)
        library.tiparm_s.restype = ctypes.c_char_p
        library.putp.argtypes = [ctypes.c_char_p]
    except (OSError, AttributeError) as fault:
        text = f"the library of <ticurses/term.h> can't be used ({fault}); ./install of its repository installs it"
        raise error(text) from fault
    return library


def _bytes(given: object) -> bytes:
    if not isinstance(given, bytes):
        raise TypeError(f"a bytes-like object is required, not '{type(given).__name__}'")
    if 0 in given:
        raise ValueError("embedded null byte")
    return given


def tparm(
    str: bytes,
    i1: int = 0,
    i2: int = 0,
    i3: int = 0,
    i4: int = 0,
    i5: int = 0,
    i6: int = 0,
    i7: int = 0,
    i8: int = 0,
    i9: int = 0,
    /,
) -> bytes:
    """The bytes that a string of the entry writes for these parameters; `setupterm` must come first. A string that has
    a fault, or takes a text, is an error."""
    string = _bytes(str)
    if not is_set_up():
        raise error("must call (at least) setupterm() first")
    numbers = [operator.index(it) for it in (i1, i2, i3, i4, i5, i6, i7, i8, i9)]
    if any(not _LEAST <= it <= _GREATEST for it in numbers):
        raise OverflowError("signed integer is out of range of a C int")
    size = ctypes.c_int
    found = _library().tiparm_s(size(9), size(0), ctypes.c_char_p(string), *map(size, numbers))
    if found is None:
        raise error("tparm() returned NULL")
    return bytes(found)


def putp(string: bytes, /) -> None:
    """Sends a string to standard output as C has it, without its padding."""
    check(_library().putp(_bytes(string)), "putp")
