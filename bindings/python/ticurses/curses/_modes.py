"""Modes of the terminal's line and of reading keys."""

from __future__ import annotations

from typing import Any

from ._arguments import c_byte, c_int
from ._errors import check
from ._library import LIBRARY, number, set_number
from ._screen import SCREEN

__all__ = [
    "cbreak", "def_prog_mode", "def_shell_mode", "echo", "get_escdelay", "get_tabsize", "halfdelay", "intrflush",
    "meta", "nl", "nocbreak", "noecho", "nonl", "noqiflush", "noraw", "qiflush", "raw", "reset_prog_mode",
    "reset_shell_mode", "resetty", "savetty", "set_escdelay", "set_tabsize", "typeahead",
]


class Modes:
    """Modes that the library can't be asked for: how keys come, whether they are echoed, and how long a read waits."""

    def __init__(self) -> None:
        self.is_cbreak = self.echoes = self.reads_newlines = True
        self.is_raw = False
        # in tenths of a second; 0 without
        self.half_delay = 0


MODES = Modes()


def cbreak(flag: Any = True) -> None:
    """Has keys come one by one; with False, line by line."""
    SCREEN.begun()
    is_on = bool(flag)
    check(LIBRARY.cbreak() if is_on else LIBRARY.nocbreak(), "cbreak" if is_on else "nocbreak")
    MODES.is_cbreak, MODES.half_delay = is_on, 0


def nocbreak() -> None:
    """Has keys come line by line."""
    cbreak(False)


def raw(flag: Any = True) -> None:
    """Has keys come one by one, and none of them send a signal; with False, as noraw."""
    SCREEN.begun()
    is_on = bool(flag)
    check(LIBRARY.raw() if is_on else LIBRARY.noraw(), "raw" if is_on else "noraw")
    MODES.is_raw = MODES.is_cbreak = is_on
    if not is_on:
        MODES.half_delay = 0


def noraw() -> None:
    """Has keys come line by line, and send signals."""
    raw(False)


def echo(flag: Any = True) -> None:
    """Echoes keys as they are read; with False, doesn't."""
    SCREEN.begun()
    is_on = bool(flag)
    check(LIBRARY.echo() if is_on else LIBRARY.noecho(), "echo" if is_on else "noecho")
    MODES.echoes = is_on


def noecho() -> None:
    """Doesn't echo keys."""
    echo(False)


def nl(flag: Any = True) -> None:
    """Has the return key read as a newline; with False, as it comes."""
    SCREEN.begun()
    is_on = bool(flag)
    check(LIBRARY.nl() if is_on else LIBRARY.nonl(), "nl" if is_on else "nonl")
    MODES.reads_newlines = is_on


def nonl() -> None:
    """Has the return key read as it comes."""
    nl(False)


def halfdelay(tenths: int) -> None:
    """Does what cbreak does, and has a read wait at most `tenths` tenths of a second, 1 to 255."""
    SCREEN.begun()
    wanted = c_byte(tenths)
    check(LIBRARY.halfdelay(wanted), "halfdelay")
    MODES.is_cbreak, MODES.half_delay = True, wanted


def intrflush(flag: Any) -> None:
    """Sets whether keys that interrupt discard waiting keys."""
    SCREEN.begun()
    check(LIBRARY.intrflush(None, bool(flag)), "intrflush")


def meta(yes: Any) -> None:
    """Sets whether keys have eight bits."""
    SCREEN.begun()
    assert SCREEN.stdscr is not None
    check(LIBRARY.meta(SCREEN.stdscr.at, bool(yes)), "meta")


def qiflush(flag: Any = True) -> None:
    """Sets whether interrupts discard waiting keys."""
    SCREEN.begun()
    (LIBRARY.qiflush if flag else LIBRARY.noqiflush)()


def noqiflush() -> None:
    """Has interrupts discard nothing."""
    qiflush(False)


def typeahead(fd: int) -> None:
    """Does nothing: typed keys never cut a refresh short."""
    SCREEN.begun()
    check(LIBRARY.typeahead(c_int(fd)), "typeahead")


def def_prog_mode() -> None:
    """Saves the terminal's modes as the program's."""
    SCREEN.begun()
    check(LIBRARY.def_prog_mode(), "def_prog_mode")


def def_shell_mode() -> None:
    """Saves the terminal's modes as the shell's."""
    SCREEN.begun()
    check(LIBRARY.def_shell_mode(), "def_shell_mode")


def reset_prog_mode() -> None:
    """Gives the terminal the program's modes."""
    SCREEN.begun()
    check(LIBRARY.reset_prog_mode(), "reset_prog_mode")


def reset_shell_mode() -> None:
    """Gives the terminal the shell's modes."""
    SCREEN.begun()
    check(LIBRARY.reset_shell_mode(), "reset_shell_mode")


def savetty() -> None:
    """Saves the terminal's modes."""
    SCREEN.begun()
    check(LIBRARY.savetty(), "savetty")


def resetty() -> None:
    """Gives the terminal the modes that savetty saved."""
    SCREEN.begun()
    check(LIBRARY.resetty(), "resetty")


def get_escdelay() -> int:
    """How many milliseconds a read waits for the rest of a function key."""
    return number("ESCDELAY")


def set_escdelay(ms: int) -> None:
    """Sets how many milliseconds a read waits for the rest of a function key."""
    wanted = c_int(ms)
    if wanted <= 0:
        raise ValueError("ms must be > 0")
    check(LIBRARY.set_escdelay(wanted), "set_escdelay")


def get_tabsize() -> int:
    """How many columns are between tab stops."""
    return number("TABSIZE")


def set_tabsize(size: int) -> None:
    """Sets how many columns are between tab stops."""
    wanted = c_int(size)
    if wanted <= 0:
        raise ValueError("size must be > 0")
    set_number("TABSIZE", wanted)
