"""Methods that write: characters, texts, lines, insertion, deletion, clearing."""

from __future__ import annotations

from typing import Any

from ._arguments import c_int, cell, place_of, split, text
from ._base import Base, numbered, placed, plain
from ._errors import check
from ._library import LIBRARY

_SIDES = 8
# the calls that programs make most often
_ADDCH, _ADDCH_AT = LIBRARY.waddch, LIBRARY.mvwaddch


class Writing(Base):
    """A window that is written to."""

    __slots__ = ()

    @placed
    def addch(self, *given: Any) -> None:
        """addch([y, x,] ch, [attr=A_NORMAL])
        Writes a character at the cursor, or at a place."""
        place, own, attr = split("addch", given, 1)
        held = cell(own[0], self._encoding)
        if attr:
            held |= attr
        if place is None:
            check(_ADDCH(self.at, held), "addch")
        else:
            check(_ADDCH_AT(self.at, *place, held), "mvaddch")

    @placed
    def echochar(self, ch: Any, attr: Any = 0, /) -> None:
        """echochar(ch, [attr=A_NORMAL])
        Writes a character and refreshes the window."""
        _, _, marks = split("echochar", (ch, attr), 1)
        check(LIBRARY.wechochar(self.at, cell(ch, self._encoding) | (marks or 0)), "echochar")

    @placed
    def insch(self, *given: Any) -> None:
        """insch([y, x,] ch, [attr=A_NORMAL])
        Inserts a character; the rest of the line moves to the right."""
        place, (ch, *_), attr = split("insch", given, 1)
        held = cell(ch, self._encoding) | (attr or 0)
        if place is None:
            check(LIBRARY.winsch(self.at, held), "insch")
        else:
            check(LIBRARY.mvwinsch(self.at, *place, held), "mvwinsch")

    @placed
    def addstr(self, *given: Any) -> None:
        """addstr([y, x,] str, [attr])
        Writes a text."""
        place, (what, *_), attr = split("addstr", given, 1)
        self._write("addstr", place, attr, text(what, self._encoding))

    @placed
    def addnstr(self, *given: Any) -> None:
        """addnstr([y, x,] str, n, [attr])
        Writes at most n characters of a text."""
        place, (what, count, *_), attr = split("addnstr", given, 2)
        self._write("addnstr", place, attr, text(what, self._encoding), c_int(count))

    @placed
    def insstr(self, *given: Any) -> None:
        """insstr([y, x,] str, [attr])
        Inserts a text; the cursor stays."""
        place, (what, *_), attr = split("insstr", given, 1)
        self._write("insstr", place, attr, text(what, self._encoding))

    @placed
    def insnstr(self, *given: Any) -> None:
        """insnstr([y, x,] str, n, [attr])
        Inserts at most n characters of a text; the cursor stays."""
        place, (what, count, *_), attr = split("insnstr", given, 2)
        self._write("insnstr", place, attr, text(what, self._encoding), c_int(count))

    def _write(self, name: str, place: tuple[int, int] | None, attr: int | None, *what: Any) -> None:
        """Makes a call that writes a text, with attributes for that text alone."""
        before = None if attr is None else LIBRARY.getattrs(self.at)
        if attr is not None:
            LIBRARY.wattrset(self.at, attr)
        if place is None:
            answer = getattr(LIBRARY, f"w{name}")(self.at, *what)
        else:
            name = f"mvw{name}"
            answer = getattr(LIBRARY, name)(self.at, *place, *what)
        if before is not None:
            LIBRARY.wattrset(self.at, before)
        check(answer, name)

    @placed
    def delch(self, *given: Any) -> None:
        """delch([y, x])
        Deletes a character; the rest of the line moves to the left."""
        place = place_of("delch", given)
        if place is None:
            check(LIBRARY.wdelch(self.at), "wdelch")
        else:
            check(LIBRARY.mvwdelch(self.at, *place), "mvwdelch")

    @placed
    def hline(self, *given: Any) -> None:
        """hline([y, x,] ch, n, [attr=A_NORMAL])
        Draws a line to the right."""
        self._draw("hline", given)

    @placed
    def vline(self, *given: Any) -> None:
        """vline([y, x,] ch, n, [attr=A_NORMAL])
        Draws a line down."""
        self._draw("vline", given)

    def _draw(self, name: str, given: tuple[Any, ...]) -> None:
        place, (ch, count, *_), attr = split(name, given, 2)
        held, length = cell(ch, self._encoding) | (attr or 0), c_int(count)
        if place is not None:
            check(LIBRARY.wmove(self.at, *place), "wmove")
        check(getattr(LIBRARY, f"w{name}")(self.at, held, length), name)

    @placed
    def border(self, *given: Any) -> None:
        """border([ls[, rs[, ts[, bs[, tl[, tr[, bl[, br]]]]]]]])
        Draws lines along the edges; 0 is the usual character."""
        if len(given) > _SIDES:
            raise TypeError(f"border requires 0 to {_SIDES} arguments ({len(given)} given)")
        sides = [cell(it, self._encoding) for it in given]
        check(LIBRARY.wborder(self.at, *sides, *(_SIDES - len(sides)) * [0]), "wborder")

    @placed
    def box(self, *given: Any) -> None:
        """box([verch, horch])
        Draws lines along the edges, with these characters for the sides."""
        if len(given) not in (0, 2):
            raise TypeError("box requires 0 or 2 arguments")
        vertical, horizontal = (cell(it, self._encoding) for it in given or (0, 0))
        check(LIBRARY.wborder(self.at, vertical, vertical, horizontal, horizontal, 0, 0, 0, 0), "box")

    @placed
    def scroll(self, *given: Any) -> None:
        """scroll([lines=1])
        Scrolls up, or below 0 down."""
        if len(given) > 1:
            raise TypeError("scroll requires 0 to 1 arguments")
        check(LIBRARY.wscrl(self.at, c_int(given[0]) if given else 1), "scroll")

    def overlay(self, destwin: Base, *part: Any) -> None:
        """overlay(destwin, [sminrow, smincol, dminrow, dmincol, dmaxrow, dmaxcol])
        Copies what isn't blank over another window."""
        self._copy("overlay", destwin, part, True)

    def overwrite(self, destwin: Base, *part: Any) -> None:
        """overwrite(destwin, [sminrow, smincol, dminrow, dmincol, dmaxrow, dmaxcol])
        Copies all over another window."""
        self._copy("overwrite", destwin, part, False)

    def _copy(self, name: str, destwin: Base, part: tuple[Any, ...], is_overlay: bool) -> None:
        if not isinstance(destwin, Base):
            raise TypeError(f"argument 1 must be window, not {type(destwin).__name__}")
        if len(part) not in (0, 6):
            raise TypeError(f"{name} requires one or seven arguments")
        if part:
            check(LIBRARY.copywin(self.at, destwin.at, *map(c_int, part), is_overlay), "copywin")
        else:
            check(getattr(LIBRARY, name)(self.at, destwin.at), name)

    clear = plain("clear", "wclear", "Makes it blank, and has the next refresh clear the terminal.")
    erase = plain("erase", "werase", "Makes it blank.")
    clrtobot = plain("clrtobot", "wclrtobot", "Makes all from the cursor on blank.")
    clrtoeol = plain("clrtoeol", "wclrtoeol", "Makes the line from the cursor on blank.")
    deleteln = plain("deleteln", "wdeleteln", "Deletes the cursor's line.")
    insertln = plain("insertln", "winsertln", "Inserts a blank line above the cursor's.")
    insdelln = numbered("insdelln", "winsdelln", "nlines", "Inserts nlines lines, or below 0 deletes them.")
    move = numbered("move", "wmove", "new_y, new_x", "Puts the cursor there.")
    setscrreg = numbered("setscrreg", "wsetscrreg", "top, bottom", "Says which lines scroll.")
