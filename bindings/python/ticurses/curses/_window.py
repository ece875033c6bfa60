"""Windows and pads, and the calls that make them. A window is deleted with its last reference."""

from __future__ import annotations

from typing import Any, BinaryIO

from . import _saved
from ._arguments import c_int
from ._base import placed
from ._library import LIBRARY
from ._looks import Looks
from ._reading import Reading
from ._screen import SCREEN
from ._writing import Writing

__all__ = ["getwin", "newpad", "newwin", "window"]


class window(Writing, Looks, Reading):
    """A window or a pad, with the methods of the standard library's; initscr, newwin and newpad make them."""

    __slots__ = ()
    __module__ = __package__


@placed
def newwin(*given: Any) -> window:
    """newwin(nlines, ncols, [begin_y=0, begin_x=0])
    A window of this size at a place of the screen; 0 lines or columns mean all up to the screen's end."""
    if len(given) not in (2, 4):
        raise TypeError("newwin requires 2 or 4 arguments")
    lines, columns, row, column = map(c_int, given if len(given) == 4 else (*given, 0, 0))
    SCREEN.begun()
    return window(LIBRARY.newwin(lines, columns, row, column))


def newpad(nlines: int, ncols: int, /) -> window:
    """newpad(nlines, ncols)
    A pad, which may be larger than the screen."""
    lines, columns = c_int(nlines), c_int(ncols)
    SCREEN.begun()
    return window(LIBRARY.newpad(lines, columns))


def getwin(file: BinaryIO, /) -> window:
    """getwin(file)
    The window that putwin wrote to a file."""
    SCREEN.begun()
    at, cells, rest = _saved.got(file)
    made = window(at)
    row, column, background, attrs = rest
    _saved.fill(at, cells, row, column, background, attrs)
    return made
