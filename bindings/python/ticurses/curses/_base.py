"""The base of a window: its address in the library, and functions that make its simpler methods."""

from __future__ import annotations

import inspect
import sys
from typing import Any, Callable, NoReturn, TypeVar

from ._arguments import c_int
from ._errors import check, error
from ._library import LIBRARY, pointer
from ._screen import SCREEN

Method = TypeVar("Method", bound=Callable[..., Any])


class Base:
    """The base class of windows and pads."""

    __slots__ = ("at", "_encoding", "_parent", "__weakref__")

    at: int

    def __init__(self, at: int | None, parent: Base | None = None) -> None:
        if at is None:
            raise error("curses function returned NULL")
        self.at, self._encoding = at, "ascii"
        # a window can't be deleted before its parts
        self._parent = parent
        SCREEN.windows.add(self)

    def __getattr__(self, name: str) -> NoReturn:
        if name == "at":
            raise error("the screen belongs to the process that called initscr()")
        raise AttributeError(f"'{type(self).__name__}' object has no attribute {name!r}")

    def __del__(self) -> None:
        if not sys.is_finalizing() and self.is_usable() and self.at != pointer("stdscr"):
            LIBRARY.delwin(self.at)

    def __reduce__(self) -> NoReturn:
        raise TypeError(f"cannot pickle '{type(self).__name__}' object: it is a part of this process's screen")

    def is_usable(self) -> bool:
        """Whether this process may make calls on the window."""
        try:
            return bool(self.at)
        except error:
            return False

    def leave(self) -> None:
        """Ends all calls on the window, in a process that was forked."""
        if self.is_usable():
            del self.at

    def show(self) -> None:
        """Refreshes the window, unless it is a pad."""
        if not LIBRARY.is_pad(self.at):
            LIBRARY.wrefresh(self.at)

    @property
    def encoding(self) -> str:
        """The encoding of texts. The library has only characters of ASCII."""
        return self._encoding

    @encoding.setter
    def encoding(self, name: str) -> None:
        if not isinstance(name, str):
            raise TypeError(f"setting encoding to a non-string, got {type(name).__name__}")
        self._encoding = name

    @encoding.deleter
    def encoding(self) -> None:
        raise TypeError("encoding may not be deleted")


def placed(method: Method) -> Method:
    """Marks a method whose first arguments may be left out. No signature can say so; the first line of the method's doc
    string does."""
    method.__signature__ = inspect.Signature()  # type: ignore[attr-defined]
    return method


def _named(method: Method, name: str, doc: str) -> Method:
    method.__name__ = name
    method.__qualname__ = f"window.{name}"
    method.__doc__ = f"{name}{doc}"
    return method


def plain(name: str, call: str, doc: str) -> Callable[[Any], None]:
    """A method without arguments that makes the call `call`."""
    function = getattr(LIBRARY, call)

    def method(self: Base) -> None:
        check(function(self.at), call)

    return _named(method, name, f"()\n{doc}")


def option(name: str, call: str, doc: str) -> Callable[[Any, Any], None]:
    """A method that sets an option of a window."""
    function = getattr(LIBRARY, call)

    def method(self: Base, flag: Any) -> None:
        check(function(self.at, bool(flag)), call)

    return _named(method, name, f"(flag)\n{doc}")


def numbered(name: str, call: str, words: str, doc: str) -> Callable[..., None]:
    """A method that takes the numbers that `words` names."""
    function, count = getattr(LIBRARY, call), len(words.split(", "))

    def method(self: Base, *given: Any) -> None:
        if len(given) != count:
            raise TypeError(f"{name} requires {count} arguments ({len(given)} given)")
        check(function(self.at, *map(c_int, given)), call)

    return _named(placed(method), name, f"({words})\n{doc}")


def asked(name: str, row: str, column: str, doc: str) -> Callable[[Any], "tuple[int, int]"]:
    """A method that returns a row and a column."""
    first, second = getattr(LIBRARY, row), getattr(LIBRARY, column)

    def method(self: Base) -> tuple[int, int]:
        at = self.at
        return first(at), second(at)

    return _named(method, name, f"()\n{doc}")
