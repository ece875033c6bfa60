"""The calls of libticurses with their types, by ctypes."""

from __future__ import annotations

import contextlib
import ctypes
import os
from typing import Any

from ._installed import LIBRARY

# the number is the major version, and a library of another has other calls
NAME = "libticurses.so.1"


class Handle(ctypes.Structure):
    _fields_ = [("at", ctypes.c_void_p), ("state", ctypes.c_size_t)]


class Cell(ctypes.Structure):
    _fields_ = [("byte", ctypes.c_uint8), ("attrs", ctypes.c_uint8), ("pair", ctypes.c_uint8)]


BYTES, SIZE, SHORT, CODE = ctypes.c_char_p, ctypes.c_size_t, ctypes.c_uint16, ctypes.c_int32
SESSION, SHORTS, SIZES = ctypes.POINTER(Handle), ctypes.POINTER(SHORT), ctypes.POINTER(SIZE)
_ENTRY = [BYTES, SIZE, BYTES, SIZE, SHORT, SHORT]
_CALLS: dict[str, tuple[Any, list[Any]]] = {
    "check": (CODE, [*_ENTRY, BYTES, SIZE, SIZES]),
    "reason": (CODE, [*_ENTRY, BYTES, SIZE, SIZES]),
    "verify": (CODE, [*_ENTRY, BYTES, SIZE]),
    "string": (CODE, [*[BYTES, SIZE] * 3, BYTES, SIZE, SIZES]),
    "open": (CODE, [SESSION, *_ENTRY, BYTES, SIZE]),
    "open_without": (CODE, [SESSION, *_ENTRY]),
    "left_out": (CODE, [SESSION, BYTES, SIZE, SIZES]),
    "call": (CODE, [SESSION, BYTES, SIZE]),
    "failed": (CODE, [SESSION, SIZES]),
    "addstr": (CODE, [SESSION, SIZE, BYTES, SIZE]),
    "cursor": (CODE, [SESSION, SIZE, SHORTS, SHORTS]),
    "size": (CODE, [SESSION, SIZE, SHORTS, SHORTS]),
    "cell": (CODE, [SESSION, SIZE, SHORT, SHORT, ctypes.POINTER(Cell)]),
    "cell_limit": (SIZE, [SESSION]),
    "most": (SIZE, [SESSION]),
    "waiting": (SIZE, [SESSION]),
    "output": (SIZE, [SESSION, BYTES, SIZE]),
    "lost": (CODE, [SESSION]),
    "close": (None, [SESSION]),
}


# the word of the system's auxiliary vector that tells rights which a file gave, capabilities among them
AT_SECURE = 23


def _has_more_rights() -> bool:
    """Whether the system says that this program's file gave it rights that its user lacks."""
    with contextlib.suppress(AttributeError):
        word = ctypes.CDLL(None).getauxval
        word.restype, word.argtypes = ctypes.c_ulong, [ctypes.c_ulong]
        return bool(word(AT_SECURE))
    return False


def is_trusting() -> bool:
    """Whether variables of the environment may name files: not if the program has rights that its user lacks."""
    return os.geteuid() == os.getuid() and os.getegid() == os.getgid() and not _has_more_rights()


def path() -> str:
    """The library's file: as $TICURSES_LIBRARY says, where ./install put it, or where the system looks."""
    own = os.environ.get("TICURSES_LIBRARY") if is_trusting() else None
    if own:
        return own
    return LIBRARY if os.path.exists(LIBRARY) else NAME


def _loaded() -> Any:
    at = path()
    try:
        # PyDLL keeps the interpreter's lock, so that no two threads are in one session
        library = ctypes.PyDLL(at)
        for call, (result, arguments) in _CALLS.items():
            function = getattr(library, f"ticurses_raw_{call}")
            function.restype, function.argtypes = result, arguments
    except (OSError, AttributeError) as error:
        text = f"the library of ticurses can't be used ({error}); "
        text += "./install of its repository installs it, and TICURSES_LIBRARY names another"
        raise ImportError(text, name="ticurses", path=at) from error
    return library


RAW = _loaded()
