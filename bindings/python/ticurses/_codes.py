"""The codes that calls return, and the error of a call that isn't done."""

from __future__ import annotations

import enum


class Code(enum.IntEnum):
    """The code that a call returns."""

    OK = 0
    NO_WINDOW = 1
    OUT_OF_WINDOW = 2
    OUT_OF_SCREEN = 3
    HAS_CHILDREN = 4
    IS_SUB = 5
    PAD_KIND = 6
    NO_SCROLL = 7
    BAD_REGION = 8
    NUMBER_USED = 9
    BAD_CELL = 10
    FULL = 11
    NO_MEMORY = 12
    IS_SCREEN = 13
    NO_CAP = 14
    IS_LOST = 15
    BAD_PAIR = 16
    OUTPUT_FAILED = 17
    BAD_LINE = 18
    TOO_LONG = 19
    CLOSED = 20
    BAD_SIZE = 21
    BAD_ENTRY = 22
    BAD_CERTIFICATE = 23
    NO_CERTIFICATE = 24
    NO_ROOM = 25
    NULL = 26
    BAD_CALL = 27
    BAD_NAME = 28


TEXTS: dict[Code, str] = {
    Code.OK: "done",
    Code.NO_WINDOW: "the number is not that of a window",
    Code.OUT_OF_WINDOW: "the place or the part is not in the window",
    Code.OUT_OF_SCREEN: "the place or the part is not on the screen",
    Code.HAS_CHILDREN: "the window has subwindows",
    Code.IS_SUB: "the window is a subwindow",
    Code.PAD_KIND: "the call takes no pad, or it takes only pads",
    Code.NO_SCROLL: "the text goes past the last line, and the window may not scroll",
    Code.BAD_REGION: "a size, a range or a mode that does not exist",
    Code.NUMBER_USED: "the number is that of a window already",
    Code.BAD_CELL: "the byte cannot stand in a cell",
    Code.FULL: "window numbers are 0 to 63",
    Code.NO_MEMORY: "out of memory",
    Code.IS_SCREEN: "window 0 stays",
    Code.NO_CAP: "the entry lacks the strings for it",
    Code.IS_LOST: "what the terminal shows is not known",
    Code.BAD_PAIR: "pairs are 0 to 63, pair 0 cannot be changed, and colors are 0 to 7",
    Code.OUTPUT_FAILED: "out of memory for what a refresh sends",
    Code.BAD_LINE: "a line is no call",
    Code.TOO_LONG: "the lines are too long",
    Code.CLOSED: "the session is not open",
    Code.BAD_SIZE: "a terminal has 2 to 200 rows and 2 to 500 columns",
    Code.BAD_ENTRY: "the entry cannot be read",
    Code.BAD_CERTIFICATE: "the certificate is not one of this entry and size",
    Code.NO_CERTIFICATE: "a string of the entry is wrong",
    Code.NO_ROOM: "the buffer is too short",
    Code.NULL: "a pointer is null",
    Code.BAD_CALL: "the numbers are no call",
    Code.BAD_NAME: "no capability of the kind has the name",
}


class Error(Exception):
    """A call that wasn't done: its `code`, and a `reason` if there is more to say. In a text of calls, `line` is the
    number, from 1, of the line that was refused or is no call, and `text` is that line."""

    def __init__(self, code: int, reason: str = "", line: int | None = None, text: str = "") -> None:
        # copies and pickles are made from these arguments
        super().__init__(code, reason, line, text)
        self.code, self.reason, self.line, self.text = Code(code), reason, line, text

    def __str__(self) -> str:
        where = "" if self.line is None else f"line {self.line}, {self.text!r}"
        return ": ".join(it for it in (TEXTS[self.code], self.reason, where) if it)
