"""A demonstration of `ticurses.curses`: a window in the middle, the keys that are pressed, and the terminal's size.

    python3 -m ticurses.demo

q ends it. However it ends, the terminal is as it was before."""

from __future__ import annotations

import os
import sys

try:
    from . import curses
except ImportError as missing:
    # without the library there is nothing to show
    sys.exit(f"ticurses.demo: {missing}")

LINES, COLUMNS = 9, 44
TITLE = " ticurses "
ADVICE = "press keys, change the size; q ends it"


def name_of(key: int) -> str:
    """The name of a key."""
    name = curses.keyname(key).decode("ascii", "replace")
    return name[4:].lower() if name.startswith("KEY_") else name


def size_text(screen: curses.window) -> str:
    lines, columns = screen.getmaxyx()
    return f"{lines} lines, {columns} columns"


def put(window: curses.window, line: int, text: str, attrs: int) -> None:
    """Writes a text in the middle of a line, as much of it as fits."""
    width = window.getmaxyx()[1] - 2
    window.addnstr(line, 1 + max(width - len(text), 0) // 2, text, width, attrs)


def draw(screen: curses.window, keys: list[str], look: int) -> None:
    """Draws the window in the middle of the screen, or what fits of it."""
    lines, columns = screen.getmaxyx()
    screen.erase()
    screen.noutrefresh()
    if lines < LINES or columns < COLUMNS:
        screen.addnstr(0, 0, size_text(screen), columns - 1)
        screen.refresh()
        return
    window = curses.newwin(LINES, COLUMNS, (lines - LINES) // 2, (columns - COLUMNS) // 2)
    window.bkgd(" ", look)
    window.box()
    put(window, 0, TITLE, curses.A_BOLD | look)
    put(window, 2, size_text(screen), look)
    put(window, 4, " ".join(keys[-5:]) or "no key yet", curses.A_REVERSE | look)
    put(window, 6, ADVICE, look)
    window.refresh()


def show(screen: curses.window) -> None:
    """Draws anew after each key, until q is pressed."""
    look = curses.A_NORMAL
    keys: list[str] = []
    if curses.has_colors():
        curses.init_pair(1, curses.COLOR_WHITE, curses.COLOR_BLUE)
        look = curses.color_pair(1)
    curses.curs_set(0)
    while keys[-1:] != ["q"]:
        draw(screen, keys, look)
        key = screen.getch()
        if key == curses.ERR:
            # the terminal is gone
            return
        keys.append(name_of(key))


def main() -> int:
    if not (os.isatty(0) and os.isatty(1)):
        print("ticurses.demo: it needs a terminal", file=sys.stderr)
        return 1
    try:
        curses.wrapper(show)
    except KeyboardInterrupt:
        return 130
    except curses.error as refused:
        print(f"ticurses.demo: {refused}", file=sys.stderr)
        return 1
    return 0


if __name__ == "__main__":
    sys.exit(main())
