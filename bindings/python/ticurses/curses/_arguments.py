"""Arguments as the standard library's module takes them: numbers that fit in C's types, characters, places."""

from __future__ import annotations

import operator
from typing import Any, Sequence

_INT = 2**31
_LONG = 2**63


def c_int(value: Any) -> int:
    """A number that fits in an int."""
    number = value if type(value) is int else operator.index(value)
    if -_INT <= number < _INT:
        return number
    if number >= _INT:
        raise OverflowError("signed integer is greater than maximum")
    raise OverflowError("signed integer is less than minimum")


def c_byte(value: Any) -> int:
    """A number that fits in a byte."""
    number = operator.index(value)
    if number > 255:
        raise OverflowError("unsigned byte integer is greater than maximum")
    if number < 0:
        raise OverflowError("unsigned byte integer is less than minimum")
    return number


def attributes(value: Any) -> int:
    """Attributes in the library's form. A number that doesn't fit in a long is an error; unknown bits are ignored."""
    number = operator.index(value)
    if not -_LONG <= number < _LONG:
        raise OverflowError("Python int too large to convert to C long")
    return number & 0xFFFFFFFF


def cell(value: Any, encoding: str) -> int:
    """A character with attributes: a number, or a text or bytes of one character."""
    if isinstance(value, str) and len(value) == 1 and value < "\x80":
        # the standard module doesn't encode these either
        return ord(value)
    if isinstance(value, int):
        if not -_LONG <= value < _LONG:
            raise OverflowError("int doesn't fit in long")
        if not 0 <= value < 2**32:
            raise OverflowError("byte doesn't fit in chtype")
        return value
    if isinstance(value, bytes) and len(value) == 1:
        return value[0]
    if isinstance(value, str) and len(value) == 1:
        held = value.encode(encoding)
        if len(held) != 1:
            raise OverflowError("byte doesn't fit in chtype")
        return held[0]
    size = f"of length {len(value)}" if isinstance(value, (str, bytes)) else ""
    raise TypeError(f"expect bytes or str of length 1, or int, got {type(value).__name__} {size}".rstrip())


def text(value: Any, encoding: str) -> bytes:
    """A text without a zero byte, as bytes."""
    if isinstance(value, str):
        held = value.encode(encoding)
    elif isinstance(value, bytes):
        held = value
    else:
        raise TypeError(f"expect bytes or str, got {type(value).__name__}")
    if b"\0" in held:
        raise ValueError("embedded null character" if isinstance(value, str) else "embedded null byte")
    return held


def place_of(name: str, given: Sequence[Any]) -> tuple[int, int] | None:
    """The row and the column, or None if both are left out."""
    if not given:
        return None
    if len(given) != 2:
        raise TypeError(f"{name} requires 0 to 2 arguments")
    return c_int(given[0]), c_int(given[1])


def split(name: str, given: Sequence[Any], own: int) -> tuple[tuple[int, int] | None, Sequence[Any], int | None]:
    """The place, the arguments and the attributes in `given`. The call has `own` arguments; a row and a column may come
    before them, and attributes after them."""
    count = len(given)
    if not own <= count <= own + 3:
        raise TypeError(f"{name} requires {own} to {own + 3} arguments")
    place = None
    if count >= own + 2:
        place, given, count = (c_int(given[0]), c_int(given[1])), given[2:], count - 2
    return place, given, None if count == own else attributes(given[own])


def counted(name: str, given: Sequence[Any]) -> tuple[tuple[int, int] | None, int | None]:
    """The place and the count in `given`: a row and a column, then a count; either may be left out."""
    if len(given) > 3:
        raise TypeError(f"{name} requires 0 to 3 arguments")
    place = (c_int(given[0]), c_int(given[1])) if len(given) >= 2 else None
    count = c_int(given[-1]) if len(given) in (1, 3) else None
    if count is not None and count < 0:
        raise ValueError("'n' must be nonnegative")
    return place, count
