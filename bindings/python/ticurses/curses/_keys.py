"""Keys: reading them one by one or as a line, pushing them back, and their names."""

from __future__ import annotations

import ctypes
import time
from typing import TYPE_CHECKING, Any

from . import _modes
from ._arguments import c_int, cell
from ._constants import KEY_BACKSPACE, KEY_DOWN, KEY_ENTER, KEY_LEFT, KEY_RESIZE, KEY_UP
from ._errors import ERR, check, error
from ._library import LIBRARY
from ._modes import MODES
from ._screen import SCREEN, size_published
from ._waiting import held_signals, ready

if TYPE_CHECKING:
    from ._showing import Showing

__all__ = [
    "erasechar", "flushinp", "getmouse", "has_key", "keyname", "killchar", "mouseinterval", "mousemask", "unctrl",
    "unget_wch", "ungetch", "ungetmouse",
]

# the descriptor of C's standard input, from which keys are read
INPUT = 0
LINE_MAX = 511
GIVEN_MAX = 1024
_ENDS = (10, 13, KEY_DOWN, KEY_UP, KEY_ENTER)

# keys that were pushed back, and the rest of a line while keys come line by line; the next one is first. They aren't
# pushed back to the library, which would echo them once more
_given: list[int] = []


def read(shown: Showing) -> int:
    """Refreshes the window and reads a key; ERR if none comes within the window's timeout."""
    if not MODES.is_cbreak and not _given:
        held = read_text(shown, LINE_MAX)
        if held is None:
            return ERR
        _given.extend([*held, 10])
    return _read_key(shown)


def _read_key(shown: Showing) -> int:
    if _given:
        shown.show()
        return _given.pop(0)
    delay = LIBRARY.wgetdelay(shown.at)
    if delay < 0 and MODES.half_delay:
        delay = MODES.half_delay * 100
    key = _awaited(shown, delay)
    if key == KEY_RESIZE:
        size_published()
    return key


def _asked(at: int, takes_rest: bool = False) -> tuple[int, int, int]:
    """A key that is there, or ERR; and if the first bytes of a function key are there, their number, with the
    milliseconds to wait for the rest, without end if negative. With `takes_rest` such bytes are keys if the rest isn't
    there."""
    count, milliseconds = ctypes.c_int(0), ctypes.c_int(0)
    key = LIBRARY.ticurses_wgetch(at, takes_rest, ctypes.byref(count), ctypes.byref(milliseconds))
    return int(key), count.value, milliseconds.value


def _end_of(milliseconds: int) -> float | None:
    """The moment in this many milliseconds; None if they are negative."""
    return None if milliseconds < 0 else time.monotonic() + milliseconds / 1000


def _left(end: float | None) -> float | None:
    """The seconds until `end`, not below 0; None is no end."""
    return None if end is None else max(end - time.monotonic(), 0)


def _awaited(shown: Showing, delay: int) -> int:
    """Reads a key within `delay` milliseconds. The library only returns keys that are there; the wait is outside it,
    also the one for the rest of a function key."""
    at, has_come = shown.at, False
    key, held, patience = _asked(at)
    late = _end_of(delay)
    end = _end_of(patience) if held else late
    while key == ERR and _left(end) != 0:
        with held_signals() as mask:
            before = held
            # this call also acts on signals that have come meanwhile
            key, held, patience = _asked(at)
            if held != before:
                end = _end_of(patience) if held else late
            elif key == ERR and has_come:
                # the descriptor was ready, but there was nothing to read: the terminal is gone
                break
            if key == ERR:
                has_come = ready(INPUT, _left(end), mask)
    # the rest of a function key didn't come
    return _asked(at, True)[0] if key == ERR and held else key


class _Line:
    """A line that is being read: where it begins in the window, and its characters so far."""

    def __init__(self, shown: Showing, most: int, echoes: bool) -> None:
        self.shown, self.most, self.echoes = shown, most, echoes
        self.start, self.held = shown.getyx(), bytearray()

    def add(self, key: int) -> None:
        if key > 255 or len(self.held) >= self.most:
            LIBRARY.beep()
            return
        self.held.append(key)
        if not self.echoes:
            return
        row, column = self.shown.getyx()
        if LIBRARY.waddch(self.shown.at, key) == ERR:
            self.wipe()
            return
        # the window may have scrolled below the line
        if column == self.shown.getmaxyx()[1] - 1 and self.shown.getyx() == (row, 0):
            self.start = self.start[0] - 1, self.start[1]
        self.shown.show()

    def wipe(self) -> None:
        """Removes the last character."""
        if not self.held:
            return
        del self.held[-1]
        if not self.echoes:
            return
        end, at = self.shown.getyx(), self.shown.at
        LIBRARY.wmove(at, *self.start)
        LIBRARY.waddnstr(at, bytes(self.held), len(self.held))
        rest = self.shown.getyx()
        while self.shown.getyx() < end and LIBRARY.waddch(at, 32) != ERR:
            pass
        LIBRARY.wmove(at, *rest)
        self.shown.show()

    def end(self) -> None:
        """Moves the cursor to the beginning of the next line, if there is one."""
        row, last = self.shown.getyx()[0], self.shown.getmaxyx()[0] - 1
        if row < last or LIBRARY.waddch(self.shown.at, 10) == ERR:
            LIBRARY.wmove(self.shown.at, min(row + 1, last), 0)
        self.shown.show()


def read_text(shown: Showing, most: int) -> bytes | None:
    """Reads a line of at most `most` bytes, with its editing keys; None if no key comes in time or the size changes."""
    line = _Line(shown, most, MODES.echoes)
    was = MODES.is_cbreak, MODES.is_raw, MODES.half_delay, MODES.reads_newlines
    erasing, killing = (it[0] for it in (erasechar(), killchar()))
    if not MODES.is_cbreak:
        _modes.cbreak()
    _modes.noecho()
    _modes.nl()
    try:
        key = _read_key(shown)
        while key not in (ERR, KEY_RESIZE, *_ENDS):
            if key in (KEY_LEFT, KEY_BACKSPACE) or key == erasing != 0:
                line.wipe()
            elif key == killing != 0:
                while line.held:
                    line.wipe()
            else:
                line.add(key)
            key = _read_key(shown)
        if key in (ERR, KEY_RESIZE):
            return None
        line.end()
        return bytes(line.held)
    finally:
        _restore(line.echoes, *was)


def _restore(echoes: bool, is_cbreak: bool, is_raw: bool, half_delay: int, reads_newlines: bool) -> None:
    """Restores the modes from before a line was read."""
    if SCREEN.is_inherited:
        return
    _modes.echo(echoes)
    _modes.nl(reads_newlines)
    if not is_cbreak:
        _modes.nocbreak()
    if is_raw:
        _modes.raw()
    if half_delay:
        _modes.halfdelay(half_delay)


def ungetch(ch: Any) -> None:
    """Pushes a key back, so that it is read next."""
    SCREEN.begun()
    key = cell(ch, "ascii")
    if len(_given) >= GIVEN_MAX:
        raise error("ungetch() returned ERR")
    _given.insert(0, key)


def unget_wch(ch: Any) -> None:
    """Pushes a character of ASCII back, so that it is read next."""
    SCREEN.begun()
    if isinstance(ch, str):
        if len(ch) != 1:
            raise TypeError(f"expect str of length 1 or int, got a str of length {len(ch)}")
        key = ch.encode("ascii")[0]
    elif isinstance(ch, int):
        key = c_int(ch)
    else:
        raise TypeError(f"expect str of length 1 or int, got {type(ch).__name__}")
    if not 0 <= key < 128:
        raise OverflowError("character doesn't fit in ASCII")
    ungetch(key)


def flushinp() -> None:
    """Discards all keys that were typed or pushed back."""
    SCREEN.begun()
    del _given[:]
    check(LIBRARY.flushinp(), "flushinp")


def keyname(k: int, /) -> bytes:
    """The name of a key."""
    SCREEN.begun()
    key = c_int(k)
    if key < 0:
        raise ValueError("invalid key number")
    return LIBRARY.keyname(key) or b""


def has_key(ch: int) -> bool:
    """Whether the terminal has a key of this number."""
    SCREEN.begun()
    return bool(LIBRARY.has_key(c_int(ch)))


def unctrl(ch: Any) -> bytes:
    """The form in which a character is drawn, such as ^X if it isn't printable."""
    SCREEN.begun()
    return bytes(LIBRARY.unctrl(cell(ch, "ascii")))


def erasechar() -> bytes:
    """The key that erases a character of a line."""
    SCREEN.begun()
    return bytes(LIBRARY.erasechar())


def killchar() -> bytes:
    """The key that erases a whole line."""
    SCREEN.begun()
    return bytes(LIBRARY.killchar())


# -- mice, of which there are none --


def mousemask(newmask: int) -> tuple[int, int]:
    """The events of the mouse that are reported now and were before: none."""
    SCREEN.begun()
    return LIBRARY.mousemask(c_int(newmask) & 0xFFFFFFFF, None), 0


def mouseinterval(interval: int) -> None:
    """Does nothing."""
    SCREEN.begun()
    check(LIBRARY.mouseinterval(c_int(interval)), "mouseinterval")


def getmouse() -> tuple[int, int, int, int, int]:
    """Raises an error, since there is no event of a mouse."""
    SCREEN.begun()
    raise error("getmouse() returned ERR")


def ungetmouse(id: int, x: int, y: int, z: int, bstate: int) -> None:
    """Raises an error, since there is no event of a mouse."""
    SCREEN.begun()
    raise error("ungetmouse() returned ERR")
