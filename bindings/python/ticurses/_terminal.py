"""The terminal of a program: its entry, its size, and its modes, which must pass bytes on unaltered."""

from __future__ import annotations

import errno
import fcntl
import os
import stat
import struct
import termios
from typing import Any, Iterator

from ._codes import Code, Error
from ._raw import is_trusting

# the most bytes of a compiled entry
ENTRY_MAX = 32768


def _is_entry(held: bytes) -> bool:
    """Whether bytes are as long as the header of a compiled entry says."""
    if len(held) < 12 or len(held) > ENTRY_MAX:
        return False
    magic, names, flags, numbers, strings, table = struct.unpack("<6H", held[:12])
    width = {0x11A: 2, 0x21E: 4}.get(magic, 0)
    needed = 12 + names + flags + (names + flags) % 2 + width * numbers + 2 * strings + table
    return width > 0 and needed <= len(held)


def _read(path: str) -> bytes:
    """The bytes of a file, at most one more than an entry can have; none if it can't be read or is no regular file."""
    try:
        with open(os.open(path, os.O_RDONLY | os.O_NONBLOCK | os.O_NOCTTY), "rb") as file:
            return file.read(ENTRY_MAX + 1) if stat.S_ISREG(os.fstat(file.fileno()).st_mode) else b""
    except (OSError, ValueError):
        return b""


def _folders() -> Iterator[str]:
    if is_trusting():
        yield os.environ.get("TERMINFO", "")
        yield f"{os.environ['HOME']}/.terminfo" if "HOME" in os.environ else ""
        yield from os.environ.get("TERMINFO_DIRS", "").split(":")
    yield from ("/etc/terminfo", "/lib/terminfo", "/usr/share/terminfo", "/usr/lib/terminfo")


def find_entry(term: str | None = None) -> bytes:
    """The compiled entry of the terminal `term` or $TERM, sought where ncurses seeks. A file that can't be read or is
    no entry doesn't end the search. If the program has rights that its user lacks, $TERMINFO, $HOME and $TERMINFO_DIRS
    don't count."""
    term = os.environ.get("TERM", "") if term is None else term
    for folder in _folders() if term and "/" not in term else []:
        for sub in (term[0], f"{ord(term[0]):02x}"):
            held = _read(f"{folder}/{sub}/{term}") if folder else b""
            if _is_entry(held):
                return held
    raise FileNotFoundError(errno.ENOENT, "there is no terminfo entry", term)


def _set(fd: int, like: list[Any]) -> None:
    """Sets the terminal's modes once it has received all output; signals don't end the wait."""
    while True:
        try:
            termios.tcsetattr(fd, termios.TCSADRAIN, like)
            return
        except termios.error as error:
            if error.args[0] != errno.EINTR:
                raise


def set_raw(fd: int = 0) -> list[Any]:
    """Has the terminal pass on bytes unaltered, which a refresh needs (it may move down by a newline), and keys as they
    are pressed, without an echo. Keys that send signals still do. Returns the modes before, for `set_cooked`. Raises
    `termios.error` if `fd` is no terminal."""
    before, raw = termios.tcgetattr(fd), termios.tcgetattr(fd)
    raw[3] &= ~(termios.ICANON | termios.ECHO)
    raw[0] &= ~(termios.ICRNL | termios.IXON)
    raw[1] &= ~termios.OPOST
    raw[6][termios.VMIN], raw[6][termios.VTIME] = 1, 0
    _set(fd, raw)
    return before


def set_cooked(before: list[Any], fd: int = 0) -> None:
    """Restores the terminal's modes `before`."""
    _set(fd, before)


def terminal_size(fd: int = 1) -> tuple[int, int]:
    """The rows and columns of the terminal at `fd`; 24 and 80 if it doesn't say. A size that no session can have raises
    an `Error` with `Code.BAD_SIZE`, since a session of another size would draw wrongly on such a terminal."""
    try:
        rows, cols = struct.unpack("HHHH", fcntl.ioctl(fd, termios.TIOCGWINSZ, bytes(8)))[:2]
    except OSError:
        rows = cols = 0
    if not rows or not cols:
        rows, cols = 24, 80
    if not (2 <= rows <= 200 and 2 <= cols <= 500):
        raise Error(Code.BAD_SIZE, f"this one has {rows} and {cols}")
    return rows, cols
