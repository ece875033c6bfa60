"""Capabilities of the terminal's entry, read by the library of ticurses."""

from __future__ import annotations

import ctypes
import operator
import os
from typing import Any

import ticurses

from .. import _raw
from ._errors import error

__all__ = ["setupterm", "tigetflag", "tigetnum", "tigetstr"]

# more bytes than a string of an entry can have
_ROOM = 32768

_entry: list[bytes] = []


def setupterm(term: str | None = None, fd: int = -1) -> None:
    """Reads the entry of a terminal, by name or by $TERM, for tigetflag, tigetnum and tigetstr."""
    if term is not None and not isinstance(term, str):
        raise TypeError(f"setupterm() argument 1 must be str or None, not {type(term).__name__}")
    operator.index(fd)
    try:
        _entry[:] = [ticurses.find_entry(term or os.environ.get("TERM", ""))]
    except FileNotFoundError:
        raise error("setupterm: could not find terminal") from None


def is_set_up() -> bool:
    """Whether setupterm has read an entry."""
    return bool(_entry)


def _asked(kind: str, capname: str, *room: Any) -> int:
    """The library's answer about a capability."""
    if not isinstance(capname, str):
        raise TypeError(f"capname must be str, not {type(capname).__name__}")
    if not _entry:
        raise error("must call (at least) setupterm() first")
    name = capname.encode("ascii", "replace")
    call = getattr(_raw.RAW, f"ticurses_raw_{kind}")
    size = ctypes.c_size_t
    return int(call(_entry[0], size(len(_entry[0])), b"", size(0), name, size(len(name)), *room))


def tigetflag(capname: str, /) -> int:
    """Whether the terminal has a flag: 1 or 0; -1 if no flag has the name."""
    is_on = ctypes.c_bool(False)
    code = _asked("flag", capname, ctypes.byref(is_on))
    return -1 if code == ticurses.Code.BAD_NAME else int(is_on.value)


def tigetnum(capname: str, /) -> int:
    """A number of the terminal; -1 if it has none, -2 if no number has the name."""
    number = ctypes.c_uint32(0)
    code = _asked("number", capname, ctypes.byref(number))
    if code == ticurses.Code.BAD_NAME:
        return -2
    return number.value if code == ticurses.Code.OK else -1


def tigetstr(capname: str, /) -> bytes | None:
    """A string of the terminal; None if it has none, or if no string has the name."""
    room, needed = ctypes.create_string_buffer(_ROOM), ctypes.c_size_t(0)
    code = _asked("string", capname, room, ctypes.c_size_t(_ROOM), ctypes.byref(needed))
    return room.raw[: needed.value] if code == ticurses.Code.OK else None
