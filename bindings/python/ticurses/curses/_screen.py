"""The one screen: its beginning and end, its size, and the process that owns it."""

from __future__ import annotations

import ctypes
import os
import signal
import sys
import time
import weakref
from typing import TYPE_CHECKING, Any, Callable

import ticurses

from ._arguments import c_int
from ._constants import ACS
from ._errors import check, error
from ._library import BOOL, CHTYPE, LIBRARY, number, pointer
from ._waiting import held_signals, ready

if TYPE_CHECKING:
    from ._base import Base
    from ._window import window

__all__ = [
    "baudrate", "beep", "curs_set", "delay_output", "doupdate", "endwin", "filter", "flash", "getsyx", "has_ic",
    "has_il", "initscr", "is_term_resized", "isendwin", "longname", "napms", "resize_term", "resizeterm", "setsyx",
    "termattrs", "termname", "update_lines_cols", "use_env", "wrapper",
]

# signals that the library handles by itself, unless the program does
_HANDLED = (signal.SIGHUP, signal.SIGINT, signal.SIGQUIT, signal.SIGTERM, signal.SIGTSTP, signal.SIGWINCH)


class Screen:
    """The state of the screen that the library can't be asked for."""

    def __init__(self) -> None:
        self.stdscr: window | None = None
        self.is_inherited = False
        # set by start_color
        self.has_colors = False
        # whether setsyx(-1, -1) was the last call about the cursor
        self.is_cursor_left = False
        self.windows: weakref.WeakSet[Base] = weakref.WeakSet()

    def begun(self) -> None:
        """Raises an error before initscr, and in a process other than the one that called it."""
        if self.is_inherited:
            raise error("the screen belongs to the process that called initscr()")
        if self.stdscr is None:
            raise error("must call initscr() first")

    def leave(self) -> None:
        """Ends, in a forked process, all calls on the screen, and has no signal restore the terminal: only the process
        that called initscr knows what is shown."""
        if self.stdscr is None:
            return
        self.is_inherited = True
        for it in list(self.windows):
            it.leave()
        for number in _HANDLED:
            # the library may handle a signal that isn't handled in Python
            if signal.getsignal(number) in (None, signal.SIG_DFL):
                signal.signal(number, signal.SIG_DFL)


SCREEN = Screen()
os.register_at_fork(after_in_child=SCREEN.leave)


def published(**values: Any) -> None:
    """Sets variables of the module."""
    vars(sys.modules[__package__]).update(values)


def size_published() -> None:
    """Gives LINES and COLS the screen's size."""
    published(LINES=number("LINES"), COLS=number("COLS"))


def why_none() -> str:
    """Why there is no screen on this terminal."""
    name = os.environ.get("TERM", "")
    if not name:
        return "TERM is not set"
    try:
        entry = ticurses.find_entry(name)
        rows, cols = ticurses.terminal_size(1)
        reason = ticurses.reason(entry, rows, cols)
    except FileNotFoundError:
        return f"there is no terminfo entry for {name}"
    except ticurses.Error as refused:
        return str(refused)
    return reason or "no standard input or output"


def initscr() -> window:
    """Begins the screen and returns it as a window. If the terminal's entry has no certificate, the error says why."""
    from ._window import window

    if SCREEN.is_inherited:
        SCREEN.begun()
    if SCREEN.stdscr is not None:
        check(LIBRARY.wrefresh(SCREEN.stdscr.at), "wrefresh")
        return SCREEN.stdscr
    streams = [ctypes.c_void_p.in_dll(ctypes.CDLL(None), it) for it in ("stdout", "stdin")]
    if not LIBRARY.newterm(None, *streams):
        raise error(f"initscr(): {why_none()}")
    SCREEN.stdscr = window(pointer("stdscr"))
    letters = (CHTYPE * 128).in_dll(LIBRARY, "acs_map")
    published(**{name: letters[ord(letter)] for name, letter in ACS.items()})
    size_published()
    return SCREEN.stdscr


def wrapper(func: Callable[..., Any], /, *args: Any, **kwds: Any) -> Any:
    """Calls `func` with the screen and these arguments. Keys are read one by one without an echo, and a function key is
    one key. However `func` ends, the terminal is then as it was before."""
    from . import _colors, _modes

    screen = initscr()
    try:
        _modes.noecho()
        _modes.cbreak()
        screen.keypad(True)
        if LIBRARY.has_colors():
            _colors.start_color()
        return func(screen, *args, **kwds)
    finally:
        if not SCREEN.is_inherited:
            screen.keypad(False)
            _modes.echo()
            _modes.nocbreak()
            endwin()


def endwin() -> None:
    """Leaves the terminal as other programs need it; the next refresh resumes."""
    SCREEN.begun()
    check(LIBRARY.endwin(), "endwin")


def isendwin() -> bool:
    """Whether endwin was called and no refresh since."""
    SCREEN.begun()
    return bool(LIBRARY.isendwin())


def doupdate() -> None:
    """Makes the terminal show what noutrefresh has prepared."""
    SCREEN.begun()
    check(LIBRARY.doupdate(), "doupdate")


def update_lines_cols() -> None:
    """Gives LINES and COLS the screen's size; 0 before there is one."""
    size_published()


def is_term_resized(nlines: int, ncols: int) -> bool:
    """Whether resize_term would change the screen."""
    SCREEN.begun()
    return bool(LIBRARY.is_term_resized(c_int(nlines), c_int(ncols)))


def resize_term(nlines: int, ncols: int) -> None:
    """Gives the screen this size, which must be that of the terminal."""
    SCREEN.begun()
    check(LIBRARY.resize_term(c_int(nlines), c_int(ncols)), "resize_term")
    size_published()


def resizeterm(nlines: int, ncols: int) -> None:
    """Does what resize_term does, and makes KEY_RESIZE the next key."""
    SCREEN.begun()
    check(LIBRARY.resizeterm(c_int(nlines), c_int(ncols)), "resizeterm")
    size_published()


def getsyx() -> tuple[int, int]:
    """The place of the cursor after the next refresh; -1, -1 if it may stay anywhere."""
    SCREEN.begun()
    if SCREEN.is_cursor_left:
        return -1, -1
    at = pointer("newscr")
    return LIBRARY.getcury(at), LIBRARY.getcurx(at)


def setsyx(y: int, x: int) -> None:
    """Moves the cursor to a place, which the terminal shows at once. After -1, -1 getsyx returns these."""
    SCREEN.begun()
    row, column = c_int(y), c_int(x)
    SCREEN.is_cursor_left = row == column == -1
    if not SCREEN.is_cursor_left:
        # a place that isn't on the screen is ignored
        LIBRARY.mvcur(0, 0, row, column)


def filter() -> None:
    """Does nothing: the screen is as large as the terminal."""
    LIBRARY.filter()


def use_env(flag: bool) -> None:
    """Does nothing: the size is the terminal's."""
    LIBRARY.use_env(BOOL(bool(flag)))


def beep() -> None:
    """Rings the bell."""
    SCREEN.begun()
    check(LIBRARY.beep(), "beep")


def flash() -> None:
    """Flashes the screen, or rings the bell."""
    SCREEN.begun()
    check(LIBRARY.flash(), "flash")


def curs_set(visibility: int) -> int:
    """Hides the cursor (0) or shows it (1, 2). Returns the visibility before."""
    SCREEN.begun()
    before = LIBRARY.curs_set(c_int(visibility))
    check(before, "curs_set")
    return int(before)


def napms(ms: int) -> int:
    """Waits `ms` milliseconds, while other threads run."""
    SCREEN.begun()
    end = time.monotonic() + c_int(ms) / 1000
    while True:
        left = end - time.monotonic()
        if left <= 0:
            return 0
        with held_signals() as mask:
            ready(-1, left, mask)
        # if ^Z was pressed, the library stops the program here
        LIBRARY.napms(1)


def delay_output(ms: int) -> None:
    """Waits `ms` milliseconds, as napms; no padding is sent."""
    napms(ms)


def termname() -> bytes:
    """The terminal's name."""
    SCREEN.begun()
    return bytes(LIBRARY.termname())


def longname() -> bytes:
    """The terminal's description."""
    SCREEN.begun()
    return bytes(LIBRARY.longname())


def termattrs() -> int:
    """The attributes that the terminal can show."""
    SCREEN.begun()
    return int(LIBRARY.termattrs())


def baudrate() -> int:
    """The speed of the terminal's line."""
    SCREEN.begun()
    return int(LIBRARY.baudrate())


def has_ic() -> bool:
    """Whether the terminal can insert and delete characters."""
    SCREEN.begun()
    return bool(LIBRARY.has_ic())


def has_il() -> bool:
    """Whether the terminal can insert and delete lines."""
    SCREEN.begun()
    return bool(LIBRARY.has_il())
