"""Methods for attributes and backgrounds."""

from __future__ import annotations

from typing import Any

from ._arguments import attributes, c_int, cell
from ._base import Base, placed, plain
from ._constants import A_ATTRIBUTES, A_COLOR
from ._errors import check
from ._library import LIBRARY


class Looks(Base):
    """A window with attributes and a background."""

    __slots__ = ()

    def attron(self, attr: int, /) -> None:
        """attron(attr)
        Writes with these attributes too from now on."""
        check(LIBRARY.wattron(self.at, attributes(attr)), "attron")

    def attroff(self, attr: int, /) -> None:
        """attroff(attr)
        Writes without these attributes from now on."""
        check(LIBRARY.wattroff(self.at, attributes(attr)), "attroff")

    def attrset(self, attr: int, /) -> None:
        """attrset(attr)
        Writes with these attributes alone from now on."""
        check(LIBRARY.wattrset(self.at, attributes(attr)), "attrset")

    def bkgd(self, ch: Any, attr: int = 0, /) -> None:
        """bkgd(ch, [attr=A_NORMAL])
        Gives the window a background, and its old cells too."""
        check(LIBRARY.wbkgd(self.at, cell(ch, self._encoding) | attributes(attr)), "bkgd")

    def bkgdset(self, ch: Any, attr: int = 0, /) -> None:
        """bkgdset(ch, [attr=A_NORMAL])
        Gives the window a background for cells that are written or cleared from now on."""
        LIBRARY.wbkgdset(self.at, cell(ch, self._encoding) | attributes(attr))

    def getbkgd(self) -> int:
        """getbkgd()
        The background."""
        return int(LIBRARY.getbkgd(self.at))

    @placed
    def chgat(self, *given: Any) -> None:
        """chgat([y, x,] [num,] attr)
        Changes the attributes of num characters, or of all up to the line's end."""
        if not 1 <= len(given) <= 4:
            raise TypeError("chgat requires 1 to 4 arguments")
        numbers, attr = [c_int(it) for it in given[:-1]], attributes(given[-1])
        count = numbers.pop() if len(numbers) in (1, 3) else -1
        marks, pair = attr & A_ATTRIBUTES & ~A_COLOR, (attr & A_COLOR) >> 8
        if numbers:
            check(LIBRARY.mvwchgat(self.at, *numbers, count, marks, pair, None), "mvwchgat")
        else:
            check(LIBRARY.wchgat(self.at, count, marks, pair, None), "wchgat")

    standout = plain("standout", "wstandout", "Writes in standout from now on.")
    standend = plain("standend", "wstandend", "Writes without attributes from now on.")
