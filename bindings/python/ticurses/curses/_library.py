"""The functions and variables of <ticurses/curses.h> with their types, by ctypes."""

from __future__ import annotations

import ctypes
import os
from typing import Any

from .. import _raw

# the number is the major version, as for the library below it
NAME = _raw.NAME.replace("libticurses", "libticurses_curses")
# how a library of this kind begins to say what it is
KIND = b"ticurses-curses "

INT, BOOL, TEXT, SHORT = ctypes.c_int, ctypes.c_bool, ctypes.c_char_p, ctypes.c_short
CHTYPE = ctypes.c_uint32
WINDOW = ctypes.c_void_p
INTS, SHORTS = ctypes.POINTER(INT), ctypes.POINTER(SHORT)
_CELLS = ctypes.POINTER(CHTYPE)
_PLACE = [INT, INT]
_POINTER = ctypes.c_void_p

_TERMINAL: dict[str, tuple[Any, list[Any]]] = {
    "newterm": (_POINTER, [TEXT, _POINTER, _POINTER]),
    "endwin": (INT, []),
    "isendwin": (BOOL, []),
    "filter": (None, []),
    "use_env": (None, [BOOL]),
    "longname": (TEXT, []),
    "termname": (TEXT, []),
    "termattrs": (CHTYPE, []),
    "baudrate": (INT, []),
    "erasechar": (ctypes.c_char, []),
    "killchar": (ctypes.c_char, []),
    "has_ic": (BOOL, []),
    "has_il": (BOOL, []),
    "beep": (INT, []),
    "flash": (INT, []),
    "curs_set": (INT, [INT]),
    "napms": (INT, [INT]),
    "curses_version": (TEXT, []),
    "doupdate": (INT, []),
    "mvcur": (INT, [INT, INT, INT, INT]),
    "resizeterm": (INT, _PLACE),
    "resize_term": (INT, _PLACE),
    "is_term_resized": (BOOL, _PLACE),
    "set_escdelay": (INT, [INT]),
    "get_escdelay": (INT, []),
    "set_tabsize": (INT, [INT]),
}

_MODES: dict[str, tuple[Any, list[Any]]] = {
    "def_prog_mode": (INT, []),
    "def_shell_mode": (INT, []),
    "reset_prog_mode": (INT, []),
    "reset_shell_mode": (INT, []),
    "savetty": (INT, []),
    "resetty": (INT, []),
    "cbreak": (INT, []),
    "nocbreak": (INT, []),
    "raw": (INT, []),
    "noraw": (INT, []),
    "echo": (INT, []),
    "noecho": (INT, []),
    "nl": (INT, []),
    "nonl": (INT, []),
    "halfdelay": (INT, [INT]),
    "intrflush": (INT, [WINDOW, BOOL]),
    "meta": (INT, [WINDOW, BOOL]),
    "typeahead": (INT, [INT]),
    "qiflush": (None, []),
    "noqiflush": (None, []),
}

_KEYS: dict[str, tuple[Any, list[Any]]] = {
    "ticurses_wgetch": (INT, [WINDOW, BOOL, ctypes.POINTER(INT), ctypes.POINTER(INT)]),
    "flushinp": (INT, []),
    "has_key": (INT, [INT]),
    "keyname": (TEXT, [INT]),
    "unctrl": (TEXT, [CHTYPE]),
    "mousemask": (CHTYPE, [CHTYPE, _POINTER]),
    "mouseinterval": (INT, [INT]),
}

_COLORS: dict[str, tuple[Any, list[Any]]] = {
    "start_color": (INT, []),
    "has_colors": (BOOL, []),
    "can_change_color": (BOOL, []),
    "init_pair": (INT, [SHORT, SHORT, SHORT]),
    "pair_content": (INT, [SHORT, SHORTS, SHORTS]),
    "init_color": (INT, [SHORT, SHORT, SHORT, SHORT]),
    "color_content": (INT, [SHORT, SHORTS, SHORTS, SHORTS]),
    "use_default_colors": (INT, []),
    "assume_default_colors": (INT, [INT, INT]),
}

_WINDOWS: dict[str, tuple[Any, list[Any]]] = {
    "newwin": (WINDOW, [INT, INT, INT, INT]),
    "newpad": (WINDOW, _PLACE),
    "subwin": (WINDOW, [WINDOW, INT, INT, INT, INT]),
    "derwin": (WINDOW, [WINDOW, INT, INT, INT, INT]),
    "subpad": (WINDOW, [WINDOW, INT, INT, INT, INT]),
    "delwin": (INT, [WINDOW]),
    "mvwin": (INT, [WINDOW, INT, INT]),
    "mvderwin": (INT, [WINDOW, INT, INT]),
    "wresize": (INT, [WINDOW, INT, INT]),
    "getcury": (INT, [WINDOW]),
    "getcurx": (INT, [WINDOW]),
    "getbegy": (INT, [WINDOW]),
    "getbegx": (INT, [WINDOW]),
    "getmaxy": (INT, [WINDOW]),
    "getmaxx": (INT, [WINDOW]),
    "getpary": (INT, [WINDOW]),
    "getparx": (INT, [WINDOW]),
    "is_pad": (BOOL, [WINDOW]),
    "wenclose": (BOOL, [WINDOW, INT, INT]),
    "wgetdelay": (INT, [WINDOW]),
}

_WRITING: dict[str, tuple[Any, list[Any]]] = {
    "wmove": (INT, [WINDOW, INT, INT]),
    "waddch": (INT, [WINDOW, CHTYPE]),
    "mvwaddch": (INT, [WINDOW, INT, INT, CHTYPE]),
    "wechochar": (INT, [WINDOW, CHTYPE]),
    "waddstr": (INT, [WINDOW, TEXT]),
    "mvwaddstr": (INT, [WINDOW, INT, INT, TEXT]),
    "waddnstr": (INT, [WINDOW, TEXT, INT]),
    "mvwaddnstr": (INT, [WINDOW, INT, INT, TEXT, INT]),
    "winsch": (INT, [WINDOW, CHTYPE]),
    "mvwinsch": (INT, [WINDOW, INT, INT, CHTYPE]),
    "winsstr": (INT, [WINDOW, TEXT]),
    "mvwinsstr": (INT, [WINDOW, INT, INT, TEXT]),
    "winsnstr": (INT, [WINDOW, TEXT, INT]),
    "mvwinsnstr": (INT, [WINDOW, INT, INT, TEXT, INT]),
    "wdelch": (INT, [WINDOW]),
    "mvwdelch": (INT, [WINDOW, INT, INT]),
    "winsertln": (INT, [WINDOW]),
    "wdeleteln": (INT, [WINDOW]),
    "winsdelln": (INT, [WINDOW, INT]),
    "werase": (INT, [WINDOW]),
    "wclear": (INT, [WINDOW]),
    "wclrtoeol": (INT, [WINDOW]),
    "wclrtobot": (INT, [WINDOW]),
    "whline": (INT, [WINDOW, CHTYPE, INT]),
    "wvline": (INT, [WINDOW, CHTYPE, INT]),
    "wborder": (INT, [WINDOW] + 8 * [CHTYPE]),
    "wscrl": (INT, [WINDOW, INT]),
    "wsetscrreg": (INT, [WINDOW, INT, INT]),
    "copywin": (INT, [WINDOW, WINDOW] + 7 * [INT]),
    "overlay": (INT, [WINDOW, WINDOW]),
    "overwrite": (INT, [WINDOW, WINDOW]),
}

_LOOKS: dict[str, tuple[Any, list[Any]]] = {
    "wattron": (INT, [WINDOW, INT]),
    "wattroff": (INT, [WINDOW, INT]),
    "wattrset": (INT, [WINDOW, INT]),
    "getattrs": (CHTYPE, [WINDOW]),
    "wstandout": (INT, [WINDOW]),
    "wstandend": (INT, [WINDOW]),
    "wchgat": (INT, [WINDOW, INT, CHTYPE, SHORT, _POINTER]),
    "mvwchgat": (INT, [WINDOW, INT, INT, INT, CHTYPE, SHORT, _POINTER]),
    "wbkgdset": (None, [WINDOW, CHTYPE]),
    "wbkgd": (INT, [WINDOW, CHTYPE]),
    "getbkgd": (CHTYPE, [WINDOW]),
}

_SHOWING: dict[str, tuple[Any, list[Any]]] = {
    "wrefresh": (INT, [WINDOW]),
    "wnoutrefresh": (INT, [WINDOW]),
    "prefresh": (INT, [WINDOW] + 6 * [INT]),
    "pnoutrefresh": (INT, [WINDOW] + 6 * [INT]),
    "redrawwin": (INT, [WINDOW]),
    "wredrawln": (INT, [WINDOW, INT, INT]),
    "touchwin": (INT, [WINDOW]),
    "untouchwin": (INT, [WINDOW]),
    "wtouchln": (INT, [WINDOW, INT, INT, INT]),
    "is_linetouched": (BOOL, [WINDOW, INT]),
    "is_wintouched": (BOOL, [WINDOW]),
    "wsyncup": (None, [WINDOW]),
    "wsyncdown": (None, [WINDOW]),
    "wcursyncup": (None, [WINDOW]),
    "clearok": (INT, [WINDOW, BOOL]),
    "idlok": (INT, [WINDOW, BOOL]),
    "idcok": (None, [WINDOW, BOOL]),
    "immedok": (None, [WINDOW, BOOL]),
    "leaveok": (INT, [WINDOW, BOOL]),
    "scrollok": (INT, [WINDOW, BOOL]),
    "syncok": (INT, [WINDOW, BOOL]),
    "keypad": (INT, [WINDOW, BOOL]),
    "nodelay": (INT, [WINDOW, BOOL]),
    "notimeout": (INT, [WINDOW, BOOL]),
    "wtimeout": (None, [WINDOW, INT]),
    "winch": (CHTYPE, [WINDOW]),
    "mvwinch": (CHTYPE, [WINDOW, INT, INT]),
    "winchnstr": (INT, [WINDOW, _CELLS, INT]),
    "mvwinchnstr": (INT, [WINDOW, INT, INT, _CELLS, INT]),
    "waddchnstr": (INT, [WINDOW, _CELLS, INT]),
    "mvwaddchnstr": (INT, [WINDOW, INT, INT, _CELLS, INT]),
    "winnstr": (INT, [WINDOW, TEXT, INT]),
    "mvwinnstr": (INT, [WINDOW, INT, INT, TEXT, INT]),
}

# each by its subject, with what it answers and takes
_CALLS = {**_TERMINAL, **_MODES, **_KEYS, **_COLORS, **_WINDOWS, **_WRITING, **_LOOKS, **_SHOWING}


def _path() -> str:
    """The library's file: as $TICURSES_CURSES_LIBRARY says, beside that of ticurses, or where the system looks."""
    own = os.environ.get("TICURSES_CURSES_LIBRARY") if _raw.is_trusting() else None
    if own:
        return own
    beside = os.path.join(os.path.dirname(_raw.path()), NAME)
    return beside if os.path.isabs(beside) and os.path.exists(beside) else NAME


def _loaded() -> Any:
    path = _path()
    try:
        # PyDLL keeps the interpreter's lock, so that no two threads are in the library
        library = ctypes.PyDLL(path)
        for call, (result, arguments) in _CALLS.items():
            function = getattr(library, call)
            function.restype, function.argtypes = result, arguments
        kind = library.curses_version()
        if not kind.startswith(KIND):
            raise OSError(f"{path} is {kind.decode('ascii', 'replace')}")
    except (OSError, AttributeError) as error:
        text = f"the library of <ticurses/curses.h> can't be used ({error}); "
        text += "./install of its repository installs it where there is a C compiler, "
        text += "and TICURSES_CURSES_LIBRARY names another"
        raise ImportError(text, name="ticurses.curses", path=path) from error
    return library


LIBRARY = _loaded()


def number(name: str) -> int:
    """The value of a variable of the library."""
    return int(INT.in_dll(LIBRARY, name).value)


def set_number(name: str, value: int) -> None:
    """Gives a variable of the library another value."""
    INT.in_dll(LIBRARY, name).value = value


def pointer(name: str) -> int | None:
    """The address in a variable of the library; None if it is null."""
    return WINDOW.in_dll(LIBRARY, name).value
