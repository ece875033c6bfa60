"""The names of the standard library's `curses` over the proved refresh: ctypes over the library of <ticurses/curses.h>.

    import ticurses.curses as curses

    def main(screen):
        screen.addstr(2, 4, "Hello", curses.A_BOLD)
        screen.getch()

    curses.wrapper(main)

All characters are ASCII; docs/CURSES.md says what else differs. `ticurses.curses.ascii` and `textpad` are the standard
library's. `stand_in()` has `import curses` find this package, and `python3 -m ticurses.curses PROGRAM` runs a program
with it.

The library is $TICURSES_CURSES_LIBRARY, or the one beside that of `ticurses`, or the one that the system finds."""

from __future__ import annotations

from . import _constants
from ._colors import *
from ._constants import *
from ._errors import *
from ._expanding import *
from ._keys import *
from ._modes import *
from ._screen import *
from ._standard import *
from ._terminfo import *
from ._window import *

# of the standard library's module that has these names
version = __version__ = b"2.2"

globals().update(_constants.FUNCTION_KEYS)
globals().update(_constants.MOUSE)
