"""The error of a call that the library refuses."""

from __future__ import annotations

__all__ = ["error"]

ERR = -1


class error(Exception):
    """A call of curses that wasn't done; its text says which one."""

    # the module's name that programs see and that pickles use
    __module__ = __package__


def check(answer: int, name: str) -> None:
    """Raises an error if the call `name` returned ERR."""
    if answer == ERR:
        raise error(f"{name}() returned ERR")
