"""Methods about places and sizes, refreshing, touched lines, and options."""

from __future__ import annotations

from typing import Any

from ._arguments import c_int
from ._base import Base, asked, numbered, option, placed, plain
from ._errors import ERR, check, error
from ._library import LIBRARY

# the place in a pad, and the part of the screen on which it is shown
_PART = 6


class Showing(Base):
    """A window that is shown."""

    __slots__ = ()

    @placed
    def refresh(self, *part: Any) -> None:
        """refresh([pminrow, pmincol, sminrow, smincol, smaxrow, smaxcol])
        Makes the terminal show the window; a pad needs the six arguments."""
        self._refresh("refresh", part)

    @placed
    def noutrefresh(self, *part: Any) -> None:
        """noutrefresh([pminrow, pmincol, sminrow, smincol, smaxrow, smaxcol])
        Has the next doupdate show the window; a pad needs the six arguments."""
        self._refresh("noutrefresh", part)

    def _refresh(self, name: str, part: tuple[Any, ...]) -> None:
        is_pad = LIBRARY.is_pad(self.at)
        if is_pad and not part:
            raise error(f"{name}() called for a pad requires {_PART} arguments")
        if is_pad and len(part) != _PART:
            raise TypeError(f"{name}() for a pad requires {_PART} arguments")
        if part and not is_pad:
            raise TypeError(f"{name}() takes no arguments ({len(part)} given)")
        call = f"{'p' if is_pad else 'w'}{name}"
        check(getattr(LIBRARY, call)(self.at, *map(c_int, part)), call)

    @placed
    def touchline(self, *given: Any) -> None:
        """touchline(start, count, [changed=True])
        Marks lines as changed, or as unchanged."""
        if not 2 <= len(given) <= 3:
            raise TypeError("touchline requires 2 to 3 arguments")
        changed = bool(given[2]) if len(given) == 3 else True
        check(LIBRARY.wtouchln(self.at, c_int(given[0]), c_int(given[1]), changed), "touchline")

    def is_linetouched(self, line: int, /) -> bool:
        """is_linetouched(line)
        Whether the line was changed since the last refresh."""
        number = c_int(line)
        if not 0 <= number < LIBRARY.getmaxy(self.at):
            raise TypeError("is_linetouched: line number outside of boundaries")
        return bool(LIBRARY.is_linetouched(self.at, number))

    def is_wintouched(self) -> bool:
        """is_wintouched()
        Whether the window was changed since the last refresh."""
        return bool(LIBRARY.is_wintouched(self.at))

    def enclose(self, y: int, x: int, /) -> bool:
        """enclose(y, x)
        Whether this place of the screen is in the window."""
        return bool(LIBRARY.wenclose(self.at, c_int(y), c_int(x)))

    @placed
    def subwin(self, *given: Any) -> Any:
        """subwin([nlines=0, ncols=0,] begin_y, begin_x)
        A part of the window at this place of the screen; of a pad, at this place of the pad."""
        return self._part("subpad" if LIBRARY.is_pad(self.at) else "subwin", given)

    @placed
    def derwin(self, *given: Any) -> Any:
        """derwin([nlines=0, ncols=0,] begin_y, begin_x)
        A part of the window at this place of the window."""
        return self._part("derwin", given)

    @placed
    def subpad(self, *given: Any) -> Any:
        """subpad([nlines=0, ncols=0,] begin_y, begin_x)
        Does what subwin does."""
        return self._part("subpad" if LIBRARY.is_pad(self.at) else "subwin", given)

    def _part(self, call: str, given: tuple[Any, ...]) -> Any:
        if len(given) not in (2, 4):
            raise TypeError(f"{call} requires 2 or 4 arguments")
        lines, columns, row, column = map(c_int, given if len(given) == 4 else (0, 0, *given))
        return type(self)(getattr(LIBRARY, call)(self.at, lines, columns, row, column), self)

    def redrawln(self, beg: int, num: int, /) -> None:
        """redrawln(beg, num)
        Has the next refresh draw these lines anew."""
        check(LIBRARY.wredrawln(self.at, c_int(beg), c_int(num)), "redrawln")

    def timeout(self, delay: int, /) -> None:
        """timeout(delay)
        Sets how many milliseconds a read waits for a key; without end if negative."""
        LIBRARY.wtimeout(self.at, max(c_int(delay), ERR))

    def syncup(self) -> None:
        """syncup()
        Touches in the windows above the places that are touched in this one."""
        LIBRARY.wsyncup(self.at)

    def syncdown(self) -> None:
        """syncdown()
        Touches in this window the places that are touched in the windows above."""
        LIBRARY.wsyncdown(self.at)

    def cursyncup(self) -> None:
        """cursyncup()
        Moves the cursors of the windows above to the place of this window's."""
        LIBRARY.wcursyncup(self.at)

    def idcok(self, flag: Any) -> None:
        """idcok(flag)
        Kept; a refresh chooses by itself what it sends."""
        LIBRARY.idcok(self.at, bool(flag))

    def immedok(self, flag: Any) -> None:
        """immedok(flag)
        Sets whether each change is shown at once."""
        LIBRARY.immedok(self.at, bool(flag))

    getyx = asked("getyx", "getcury", "getcurx", "Where the cursor is.")
    getbegyx = asked("getbegyx", "getbegy", "getbegx", "Where it is on the screen.")
    getmaxyx = asked("getmaxyx", "getmaxy", "getmaxx", "How many lines and columns it has.")
    getparyx = asked("getparyx", "getpary", "getparx", "Where it is in the window above; -1, -1 if there is none.")
    clearok = option("clearok", "clearok", "Has the next refresh clear the terminal.")
    idlok = option("idlok", "idlok", "Kept; a refresh chooses by itself what it sends.")
    keypad = option("keypad", "keypad", "Whether function keys are one key.")
    leaveok = option("leaveok", "leaveok", "Whether a refresh may leave the cursor anywhere.")
    nodelay = option("nodelay", "nodelay", "Whether no key is waited for.")
    notimeout = option("notimeout", "notimeout", "Whether the rest of a function key is waited for without end.")
    scrollok = option("scrollok", "scrollok", "Whether a text that goes past the last line scrolls it.")
    syncok = option("syncok", "syncok", "Whether each change is one of the windows above too.")
    redrawwin = plain("redrawwin", "redrawwin", "Has the next refresh draw it anew.")
    touchwin = plain("touchwin", "touchwin", "Marks all lines as changed.")
    untouchwin = plain("untouchwin", "untouchwin", "Marks all lines as unchanged.")
    mvwin = numbered("mvwin", "mvwin", "new_y, new_x", "Moves it to a place of the screen.")
    mvderwin = numbered("mvderwin", "mvderwin", "y, x", "Has it show another part of the window above.")
    resize = numbered("resize", "wresize", "nlines, ncols", "Gives it another size.")
