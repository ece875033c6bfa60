"""Colors and color pairs."""

from __future__ import annotations

import operator
from typing import Any

from ._arguments import c_int
from ._constants import A_COLOR
from ._errors import check, error
from ._library import LIBRARY, SHORT, number
from ._screen import SCREEN, published

__all__ = [
    "assume_default_colors", "can_change_color", "color_content", "color_pair", "has_colors",
    "has_extended_color_support", "init_color", "init_pair", "pair_content", "pair_number", "start_color",
    "use_default_colors",
]


def _begun() -> None:
    SCREEN.begun()
    if not SCREEN.has_colors:
        raise error("must call start_color() first")


def _within(value: Any, least: int, most: int, what: str, most_is: str) -> int:
    wanted = operator.index(value)
    if wanted > most:
        raise ValueError(f"{what} is greater than {most_is} ({most}).")
    if wanted < least:
        raise ValueError(f"{what} is less than {least}.")
    return wanted


def _color(value: Any, least: int = 0) -> int:
    return _within(value, least, number("COLORS") - 1, "Color number", "COLORS-1")


def _pair(value: Any) -> int:
    return _within(value, 0, number("COLOR_PAIRS") - 1, "Color pair", "COLOR_PAIRS-1")


def start_color() -> None:
    """Enables colors, and sets COLORS and COLOR_PAIRS to how many there are."""
    SCREEN.begun()
    check(LIBRARY.start_color(), "start_color")
    SCREEN.has_colors = True
    published(COLORS=number("COLORS"), COLOR_PAIRS=number("COLOR_PAIRS"))


def has_colors() -> bool:
    """Whether the terminal has colors."""
    SCREEN.begun()
    return bool(LIBRARY.has_colors())


def has_extended_color_support() -> bool:
    """Whether there are more than 256 colors: there aren't."""
    return False


def can_change_color() -> bool:
    """Whether colors can be changed: they can't."""
    SCREEN.begun()
    return bool(LIBRARY.can_change_color())


def color_pair(pair_number: int) -> int:
    """The attribute of a pair."""
    _begun()
    return (c_int(pair_number) << 8) & A_COLOR


def pair_number(attr: int) -> int:
    """The color pair of attributes."""
    _begun()
    return (operator.index(attr) & A_COLOR) >> 8


def init_pair(pair_number: int, fg: int, bg: int) -> None:
    """Gives a pair its two colors."""
    _begun()
    # the library refuses -1, the terminal's own color, unless use_default_colors has allowed it
    check(LIBRARY.init_pair(_pair(pair_number), _color(fg, -1), _color(bg, -1)), "init_pair")


def pair_content(pair_number: int) -> tuple[int, int]:
    """The two colors of a pair."""
    _begun()
    pair, fore, back = _pair(pair_number), SHORT(0), SHORT(0)
    if LIBRARY.pair_content(pair, fore, back):
        raise error("Argument 1 was out of range. (0..COLOR_PAIRS-1)")
    return fore.value, back.value


def init_color(color_number: int, r: int, g: int, b: int) -> None:
    """Raises an error, since colors can't be changed."""
    _begun()
    color = _color(color_number)
    shares = [_within(it, 0, 1000, "Color component", "1000") for it in (r, g, b)]
    check(LIBRARY.init_color(color, *shares), "init_color")


def color_content(color_number: int) -> tuple[int, int, int]:
    """The red, green and blue of a color, each of 1000."""
    _begun()
    color, red, green, blue = _color(color_number), SHORT(0), SHORT(0), SHORT(0)
    check(LIBRARY.color_content(color, red, green, blue), "color_content")
    return red.value, green.value, blue.value


def use_default_colors() -> None:
    """Makes -1 the terminal's own color; an error if pairs can't have it."""
    _begun()
    check(LIBRARY.use_default_colors(), "use_default_colors")


def assume_default_colors(fg: int, bg: int, /) -> None:
    """Gives pair 0 these colors, which must both be -1; an error if they aren't, or if pairs can't have -1."""
    _begun()
    check(LIBRARY.assume_default_colors(_color(fg, -1), _color(bg, -1)), "assume_default_colors")
