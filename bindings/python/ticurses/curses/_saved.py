"""Windows in files, in a format of this module: a line of numbers, and then a line of cells for each line."""

from __future__ import annotations

import ctypes
from typing import TYPE_CHECKING, BinaryIO

from ._errors import check, error
from ._library import CHTYPE, LIBRARY

if TYPE_CHECKING:
    from ._base import Base

_KIND = b"ticurses window 1"
# the most lines or columns of a window
_MOST = 1000


def put(window: Base, file: BinaryIO) -> None:
    """Writes a window: its size, place, cursor, background and attributes, and its cells."""
    at = window.at
    lines, columns = LIBRARY.getmaxy(at), LIBRARY.getmaxx(at)
    row, column = LIBRARY.getcury(at), LIBRARY.getcurx(at)
    numbers = [lines, columns, LIBRARY.getbegy(at), LIBRARY.getbegx(at), row, column]
    numbers += [LIBRARY.getbkgd(at), LIBRARY.getattrs(at)]
    room, written = (CHTYPE * (columns + 1))(), [_KIND + b" %d %d %d %d %d %d %d %d\n" % tuple(numbers)]
    for line in range(lines):
        check(LIBRARY.mvwinchnstr(at, line, 0, room, columns), "putwin")
        written.append(b" ".join(b"%x" % it for it in room[:columns]) + b"\n")
    check(LIBRARY.wmove(at, row, column), "putwin")
    file.write(b"".join(written))


def got(file: BinaryIO) -> tuple[int, list[list[int]], list[int]]:
    """Makes the window that a file holds. Returns its address, its cells, and its cursor, background and attributes."""
    try:
        kind, _, rest = file.readline(200).partition(_KIND)
        numbers = [int(it) for it in rest.split()]
        lines, columns, y, x = numbers[:4]
        if kind or len(numbers) != 8 or not (0 < lines <= _MOST and 0 < columns <= _MOST):
            raise ValueError("another form")
        cells = [[int(it, 16) for it in file.readline(16 * _MOST).split()] for _ in range(lines)]
    except ValueError as wrong:
        raise error("getwin() found no window in the file") from wrong
    if any(len(row) != columns for row in cells):
        raise error("getwin() found no window in the file")
    at = LIBRARY.newwin(lines, columns, y, x)
    if at is None:
        raise error("getwin() returned NULL")
    return at, cells, numbers[4:]


def fill(at: int, cells: list[list[int]], row: int, column: int, background: int, attrs: int) -> None:
    """Gives the window at `at` the cells, cursor, background and attributes of a file."""
    LIBRARY.wbkgdset(at, background)
    for line, held in enumerate(cells):
        room = (CHTYPE * (len(held) + 1))(*held)
        check(LIBRARY.mvwaddchnstr(at, line, 0, room, len(held)), "getwin")
    LIBRARY.wattrset(at, ctypes.c_int(attrs))
    check(LIBRARY.wmove(at, row, column), "getwin")


