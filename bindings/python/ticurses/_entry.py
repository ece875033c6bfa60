"""The entries of compiled terminfo files, and the expansion of their strings, by ctypes over libticurses_terminfo."""

from __future__ import annotations

import ctypes
import enum
import functools
import os
from types import TracebackType
from typing import Any, Union

from ._installed import TERMINFO
from ._raw import BYTES, CODE, SIZE, SIZES, Handle, is_trusting

# the number is the major version, and a library of another has other calls
NAME = "libticurses_terminfo.so.1"
MOST_PARAMS = 9
LONGEST_TEXT = 4095

Text = Union[str, bytes, bytearray, memoryview]
Cap = Union[str, bytes, int]


class EntryCode(enum.IntEnum):
    """The code that a call on an entry returns."""

    OK = 0
    SHORT = 1
    BAD_MAGIC = 2
    BAD_COUNT = 3
    BAD_FLAG = 4
    BAD_NUMBER = 5
    BAD_OFFSET = 6
    NO_NUL = 7
    TOO_LARGE = 8
    BAD_NAMES = 9
    UNDERFLOW = 10
    BAD_NEST = 11
    NO_MEMORY = 12
    BAD_CODE = 13
    NO_CAP = 14
    OVERFLOW = 15
    BAD_CHAR = 16
    WRONG_KIND = 17
    CLOSED = 20
    NO_ROOM = 25
    NULL = 26
    BAD_PARAM = 27
    BAD_NAME = 28


ENTRY_TEXTS: dict[EntryCode, str] = {
    EntryCode.OK: "done",
    EntryCode.SHORT: "the file ends within its header or a section",
    EntryCode.BAD_MAGIC: "the file doesn't begin with a magic number",
    EntryCode.BAD_COUNT: "a size is negative, or there are too many values",
    EntryCode.BAD_FLAG: "a flag is neither 0, 1 nor -2",
    EntryCode.BAD_NUMBER: "a number is negative",
    EntryCode.BAD_OFFSET: "the place of a string is outside the table",
    EntryCode.NO_NUL: "the names or a string have no NUL after them",
    EntryCode.TOO_LARGE: "a string has more than 4095 bytes",
    EntryCode.BAD_NAMES: "the names can't be those of a source text",
    EntryCode.UNDERFLOW: "a code took a value from the empty stack",
    EntryCode.BAD_NEST: "a conditional isn't %? %t %e %;",
    EntryCode.NO_MEMORY: "out of memory",
    EntryCode.BAD_CODE: "no code begins with this %",
    EntryCode.NO_CAP: "the entry lacks the capability",
    EntryCode.OVERFLOW: "a result doesn't fit in 32 bits",
    EntryCode.BAD_CHAR: "a number to be written as one byte isn't from 0 to 255",
    EntryCode.WRONG_KIND: "a text stands where a number is needed, or the other way round",
    EntryCode.CLOSED: "the entry is not open",
    EntryCode.NO_ROOM: "the buffer is too short",
    EntryCode.NULL: "a pointer is null",
    EntryCode.BAD_PARAM: "there are more than nine parameters, or a text has more than 4095 bytes",
    EntryCode.BAD_NAME: "no capability of the kind has the name or the position",
}


class EntryError(Exception):
    """A call on an entry that wasn't done, with its `code`."""

    def __init__(self, code: int) -> None:
        # copies and pickles are made from this argument
        super().__init__(code)
        self.code = EntryCode(code)

    def __str__(self) -> str:
        return ENTRY_TEXTS[self.code]


class _Param(ctypes.Structure):
    _fields_ = [("text", BYTES), ("len", SIZE), ("number", ctypes.c_int32), ("is_text", ctypes.c_bool)]


_ENTRY, _NUMBER, _FLAG = ctypes.POINTER(Handle), ctypes.POINTER(ctypes.c_uint32), ctypes.POINTER(ctypes.c_bool)
_PARAMS = ctypes.POINTER(_Param)
_ROOM = [BYTES, SIZE, SIZES]
_CALLS: dict[str, tuple[Any, list[Any]]] = {
    "open": (CODE, [_ENTRY, BYTES, SIZE]),
    "bare": (CODE, [_ENTRY]),
    "close": (None, [_ENTRY]),
    "names": (CODE, [_ENTRY, *_ROOM]),
    "string": (CODE, [_ENTRY, BYTES, SIZE, *_ROOM]),
    "string_at": (CODE, [_ENTRY, SIZE, *_ROOM]),
    "number": (CODE, [_ENTRY, BYTES, SIZE, _NUMBER]),
    "number_at": (CODE, [_ENTRY, SIZE, _NUMBER]),
    "flag": (CODE, [_ENTRY, BYTES, SIZE, _FLAG]),
    "flag_at": (CODE, [_ENTRY, SIZE, _FLAG]),
    "expand_texts": (CODE, [_ENTRY, BYTES, SIZE, _PARAMS, SIZE, *_ROOM]),
    "expanded": (CODE, [_ENTRY, *_ROOM]),
}


@functools.lru_cache(maxsize=None)
def _library() -> Any:
    """The library: as $TICURSES_TERMINFO_LIBRARY says, where ./install put it, or where the system looks."""
    own = os.environ.get("TICURSES_TERMINFO_LIBRARY") if is_trusting() else None
    at = own or (TERMINFO if os.path.exists(TERMINFO) else NAME)
    try:
        # PyDLL keeps the interpreter's lock, so that no two threads are in one entry
        library = ctypes.PyDLL(at)
        for call, (result, arguments) in _CALLS.items():
            function = getattr(library, f"ticurses_raw_terminfo_{call}")
            function.restype, function.argtypes = result, arguments
    except (OSError, AttributeError) as error:
        text = f"the library of ticurses.Entry can't be used ({error}); "
        text += "./install of its repository installs it, and TICURSES_TERMINFO_LIBRARY names another"
        raise ImportError(text, name="ticurses", path=at) from error
    return library


def _encoded(text: Text) -> bytes:
    return text.encode("utf-8", "surrogateescape") if isinstance(text, str) else bytes(text)


def _param(given: int | Text) -> _Param:
    """A parameter; one that doesn't fit is refused, as the library refuses what it can see."""
    if isinstance(given, int):
        if not -(1 << 31) <= given < 1 << 31:
            raise EntryError(EntryCode.OVERFLOW)
        return _Param(b"", 0, given, False)
    text = _encoded(given)
    return _Param(text, len(text), 0, True)


class Entry:
    """The entry of a compiled terminfo file, which `find_entry` finds: its capabilities, by terminfo's names or by their
    positions in the file, and the expansion of parameter strings. Without a `file` it has no capabilities.

    The static variables of strings, A to Z, are those of the entry: they begin as 0, and last until it is closed. A
    call that isn't done raises an `EntryError`, whose `code` is an `EntryCode`, and changes nothing."""

    def __init__(self, file: Text | None = None) -> None:
        self._raw = _library()
        self._handle = Handle()
        if file is None:
            code = self._raw.ticurses_raw_terminfo_bare(self._handle)
        else:
            held = _encoded(file)
            code = self._raw.ticurses_raw_terminfo_open(self._handle, held, len(held))
        if code:
            raise EntryError(code)

    def __enter__(self) -> Entry:
        return self

    def __exit__(self, kind: type[BaseException] | None, error: BaseException | None, at: TracebackType | None) -> None:
        self.close()

    def __del__(self) -> None:
        # an entry that could not be made has no handle, and a library that could not be loaded no calls
        if "_handle" in self.__dict__:
            self.close()

    def close(self) -> None:
        """Frees the entry's memory; a closed entry stays closed."""
        self._raw.ticurses_raw_terminfo_close(self._handle)

    @property
    def names(self) -> list[bytes]:
        """The names, of which the last one describes the terminal."""
        return self._told("names", 256).split(b"|")

    def string(self, cap: Cap) -> bytes | None:
        """The string of the capability `cap` ("cup", or a position), with its parameters and delays; None if the entry
        has none. A string may be empty."""
        try:
            return self._told(*self._of("string", cap, 256))
        except EntryError as error:
            if error.code != EntryCode.NO_CAP:
                raise
            return None

    def number(self, cap: Cap) -> int | None:
        """The number of the capability `cap` ("colors", or a position); None if the entry has none."""
        found = ctypes.c_uint32(0)
        name, _, *words = self._of("number", cap, 0)
        code = self._call(name, *words, found)
        if code == EntryCode.NO_CAP:
            return None
        if code:
            raise EntryError(code)
        return found.value

    def flag(self, cap: Cap) -> bool:
        """Whether the entry has the flag `cap` ("am", or a position)."""
        found = ctypes.c_bool(False)
        name, _, *words = self._of("flag", cap, 0)
        code = self._call(name, *words, found)
        if code:
            raise EntryError(code)
        return found.value

    def expand(self, string: Text, *params: int | Text) -> bytes:
        """The bytes that `string` writes for up to nine `params`, numbers and texts; missing ones are 0. A text has at
        most 4095 bytes. The delays stay in. The string may be any, of this entry or not."""
        held, given = _encoded(string), [_param(it) for it in params]
        if len(given) > MOST_PARAMS:
            raise EntryError(EntryCode.BAD_PARAM)
        array = (_Param * MOST_PARAMS)(*given, *[_param(0)] * (MOST_PARAMS - len(given)))
        room, needed = ctypes.create_string_buffer(256), SIZE(0)
        code = self._call("expand_texts", held, len(held), array, len(given), room, 256, needed)
        if code == EntryCode.NO_ROOM:
            # it has been expanded, and only its bytes are left to fetch
            return self._told("expanded", needed.value)
        if code:
            raise EntryError(code)
        return room.raw[: needed.value]

    def _call(self, name: str, *words: Any) -> int:
        return int(getattr(self._raw, f"ticurses_raw_terminfo_{name}")(self._handle, *words))

    @staticmethod
    def _of(name: str, cap: Cap, room: int) -> tuple[Any, ...]:
        """The call for a capability by name or by position, the room that it begins with, and its words."""
        if isinstance(cap, int):
            # a position that ctypes passes unchanged; 999 is no capability's
            return f"{name}_at", room, cap if 0 <= cap < 999 else 999
        held = _encoded(cap)
        return name, room, held, len(held)

    def _told(self, name: str, room: int, *words: Any) -> bytes:
        """The bytes that a call writes to a buffer of `room` bytes, or of more if it needs more."""
        for _ in range(2):
            space, needed = ctypes.create_string_buffer(room), SIZE(0)
            code = self._call(name, *words, space, room, needed)
            if code == EntryCode.OK:
                return space.raw[: needed.value]
            if code != EntryCode.NO_ROOM:
                break
            room = needed.value
        raise EntryError(code)
