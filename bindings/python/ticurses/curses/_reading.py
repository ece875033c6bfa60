"""Methods that read keys, lines, and the content of a window."""

from __future__ import annotations

import ctypes
from typing import Any, BinaryIO

from . import _keys, _saved
from ._arguments import counted, place_of
from ._base import placed
from ._errors import ERR, error
from ._library import LIBRARY
from ._showing import Showing

# the most bytes that getstr and instr read
TEXT_MAX = 1023
_ASCII = 128
_BYTES = 256


class Reading(Showing):
    """A window that is read from."""

    __slots__ = ()

    @placed
    def getch(self, *given: Any) -> int:
        """getch([y, x])
        A key; -1 if none comes within the window's timeout."""
        return self._key("getch", given)

    @placed
    def getkey(self, *given: Any) -> str:
        """getkey([y, x])
        A key's character, or its name; an error if none comes within the window's timeout."""
        key = self._key("getkey", given)
        if key == ERR:
            raise error("no input")
        return chr(key) if key < _BYTES else _keys.keyname(key).decode("ascii")

    @placed
    def get_wch(self, *given: Any) -> int | str:
        """get_wch([y, x])
        A character of ASCII, or the number of a function key; an error if none comes, or another character does."""
        key = self._key("get_wch", given)
        if key == ERR:
            raise error("no input")
        if _ASCII <= key < _BYTES:
            raise error("get_wch() read a byte that is no ASCII")
        return chr(key) if key < _ASCII else key

    def _key(self, name: str, given: tuple[Any, ...]) -> int:
        place = place_of(name, given)
        if place is not None and LIBRARY.wmove(self.at, *place) == ERR:
            return ERR
        return _keys.read(self)

    @placed
    def getstr(self, *given: Any) -> bytes:
        """getstr([y, x], [n=1023])
        A typed line of at most n bytes."""
        place, count = counted("getstr", given)
        if place is not None and LIBRARY.wmove(self.at, *place) == ERR:
            return b""
        return _keys.read_text(self, TEXT_MAX if count is None else min(count, TEXT_MAX)) or b""

    @placed
    def inch(self, *given: Any) -> int:
        """inch([y, x])
        The character at the cursor, or at a place, with its attributes."""
        place = place_of("inch", given)
        return int(LIBRARY.winch(self.at) if place is None else LIBRARY.mvwinch(self.at, *place))

    @placed
    def instr(self, *given: Any) -> bytes:
        """instr([y, x], [n=1023])
        The characters of a line from the cursor, or from a place on, at most n bytes."""
        place, count = counted("instr", given)
        most = TEXT_MAX if count is None else min(count, TEXT_MAX)
        room = ctypes.create_string_buffer(TEXT_MAX + 1)
        if place is None:
            answer = LIBRARY.winnstr(self.at, room, most)
        else:
            answer = LIBRARY.mvwinnstr(self.at, *place, room, most)
        return b"" if answer == ERR else room.value

    def putwin(self, file: BinaryIO, /) -> None:
        """putwin(file)
        Writes the window to a file, from which getwin makes it again."""
        _saved.put(self, file)
