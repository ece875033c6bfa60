"""Curses sessions with a proved refresh: ctypes over the library of ticurses.

    import ticurses

    with ticurses.Session.on_terminal() as session:
        session.call("newwin 1 5 24 2 4", "box 1 - -", "move 1 2 5", "addstr 1 Hello", "refresh 1")
        session.send()
        session.read()

Calls are lines in the language of scripts (man 5 ticurses-script). The session keeps its output until `output` takes it
or `send` writes it; `read` waits for keys. A call that isn't done raises an `Error`, whose `code` is a `Code`. However
the block ends, by an exception, an interrupt or SIGTERM too, the terminal is then as it was before.

An `Entry` has the capabilities of a compiled terminfo entry, and expands parameter strings.

The library is $TICURSES_LIBRARY, or the one that was installed with this package, or the one that the system finds; the
one of `Entry` is $TICURSES_TERMINFO_LIBRARY, and so on."""

from __future__ import annotations

import contextlib
import ctypes
import errno
import os
import re
import select
import signal
import sys
import termios
import threading
from types import TracebackType
from typing import Any, Callable, Iterator, NamedTuple, NoReturn, Union
import enum

from ._codes import TEXTS, Code, Error
from ._entry import ENTRY_TEXTS, Entry, EntryCode, EntryError
from ._raw import RAW, SHORT, SIZE, Handle
from ._raw import Cell as _Cell
from ._terminal import find_entry, set_cooked, set_raw, terminal_size

__version__ = "1.0.0"
__all__ = [
    "ENTRY_TEXTS", "TEXTS", "Attrs", "Cell", "Code", "Entry", "EntryCode", "EntryError", "Error", "LeftOut", "Session",
    "check", "find_entry", "reason", "set_cooked", "set_raw", "string", "terminal_size", "verify",
]

Text = Union[str, bytes, bytearray, memoryview]


class Cell(NamedTuple):
    """The content of a place of a window."""

    byte: str
    attrs: Attrs
    pair: int


class LeftOut(NamedTuple):
    """A string that a session goes without: its name, the name of the string at fault, which is the same but for the
    other one of `smcup` and `rmcup`, and the cause in the word of `ticurses check`."""

    name: str
    faulty: str
    cause: str


class Attrs(enum.IntFlag):
    """The attributes of a cell."""

    STANDOUT = 1
    UNDERLINE = 2
    REVERSE = 4
    BLINK = 8
    DIM = 16
    BOLD = 32
    INVISIBLE = 64
    ALTCHARSET = 128


def _bytes(text: Text) -> bytes:
    """A text as bytes; the session refuses those of characters that aren't ASCII."""
    if isinstance(text, str):
        try:
            return text.encode("utf-8", "surrogateescape")
        except UnicodeEncodeError:
            return text.encode("utf-8", "surrogatepass")
    if isinstance(text, (bytes, bytearray, memoryview)):
        return bytes(text)
    raise TypeError(f"a text or bytes were expected, not {type(text).__name__}")


def _window(number: int) -> int:
    """A window's number that ctypes passes unchanged; 64, which is no window's, if it doesn't fit."""
    return number if 0 <= number < 64 else 64


def _numbers(rows: int, cols: int) -> list[int]:
    """Sizes that ctypes passes unchanged; 0, which is no size, for each that doesn't fit."""
    return [it if 0 <= it < 65536 else 0 for it in (rows, cols)]


def _is_done(code: int, reason: str = "") -> None:
    if code:
        raise Error(code, reason)


def _asked(call: Callable[..., int], room: int, *words: bytes | int | Handle) -> tuple[int, bytes]:
    """The code of a call, and the bytes that it writes to a buffer of `room` bytes, or of more if it needs more. Each of
    the `words` that has bytes is passed with its length."""
    needed, code, space = SIZE(0), int(Code.NO_ROOM), ctypes.create_string_buffer(0)
    given = [it for word in words for it in ((word, len(word)) if isinstance(word, bytes) else (word,))]
    for _ in range(2):
        space = ctypes.create_string_buffer(room)
        code = call(*given, space, room, needed)
        if code != Code.NO_ROOM:
            break
        room = needed.value
    return code, space.raw[: needed.value]


def check(entry: Text, rows: int, cols: int, name: Text = b"") -> bytes:
    """The certificate of a compiled entry or, with a `name`, of that entry of a source text. If it has none, the error
    says which string is wrong."""
    code, text = _asked(RAW.ticurses_raw_check, 1 << 16, _bytes(entry), _bytes(name), *_numbers(rows, cols))
    _is_done(code, reason(entry, rows, cols, name) if code == Code.NO_CERTIFICATE else "")
    return text


def reason(entry: Text, rows: int, cols: int, name: Text = b"") -> str:
    """Why an entry has no certificate, as in `no op: WrongEffect`; "" if it has one."""
    code, text = _asked(RAW.ticurses_raw_reason, 256, _bytes(entry), _bytes(name), *_numbers(rows, cols))
    _is_done(code)
    return text.decode("ascii")


def verify(entry: Text, rows: int, cols: int, certificate: Text, name: Text = b"") -> None:
    """Raises an error unless the certificate shows that the entry's strings do what programs rely on."""
    entry, name, certificate = _bytes(entry), _bytes(name), _bytes(certificate)
    sizes = _numbers(rows, cols)
    _is_done(RAW.ticurses_raw_verify(entry, len(entry), name, len(name), *sizes, certificate, len(certificate)))


def string(entry: Text, cap: Text, name: Text = b"") -> bytes | None:
    """The string of the capability `cap` ("kcuu1") of a compiled entry or, with a `name`, of that entry of a source
    text, with its parameters and delays; None if the entry has none."""
    code, text = _asked(RAW.ticurses_raw_string, 256, _bytes(entry), _bytes(name), _bytes(cap))
    if code == Code.NO_CAP:
        return None
    _is_done(code)
    return text


def _leaving(entry: Text, name: Text) -> bytes:
    """The entry's `rmcup` without its delays, if it begins with an ESC, which ends whatever was cut off; or none."""
    text = string(entry, "rmcup", name) or b""
    return re.sub(rb"\$<\d+(\.\d)?[*/]*>", b"", text) if text.startswith(b"\033") else b""


def _write(fd: int, data: bytes) -> None:
    """Writes all of the data to a descriptor, which may be non-blocking."""
    while data:
        try:
            data = data[os.write(fd, data) :]
        except BlockingIOError:
            room = select.poll()
            room.register(fd, select.POLLOUT)
            room.poll()


def _leave(number: int, _: Any) -> NoReturn:
    """Handles a signal that would end the program: leaves its blocks by `SystemExit`. A second such signal is ignored,
    so that the blocks end undisturbed."""
    signal.signal(number, signal.SIG_IGN)
    sys.exit(128 + number)


@contextlib.contextmanager
def _woken_by_signals() -> Iterator[int | None]:
    """A descriptor that has bytes once a signal has come; None in threads other than the main one, since only that one
    gets signals. Python runs handlers between its own steps, so a signal just before a system call doesn't end it."""
    if threading.current_thread() is not threading.main_thread():
        yield None
        return
    woken, waking = os.pipe()
    before = -1
    try:
        os.set_blocking(waking, False)
        before = signal.set_wakeup_fd(waking, warn_on_full_buffer=False)
        yield woken
    finally:
        signal.set_wakeup_fd(before)
        os.close(woken)
        os.close(waking)


class Session:
    """A session on a terminal, which makes one call at a time.

    The end of a `with` statement closes it. Before that it sends `endwin` if it has sent anything, and restores the
    terminal's modes if it has set them."""

    def __init__(
        self, entry: Text, rows: int, cols: int, name: Text = b"", certificate: Text = b"", *, leaving_out: bool = False
    ) -> None:
        self._handle = Handle()
        self._input, self._output, self._is_owner = 0, 1, False
        # the descriptor that bytes went to, and whether `endwin` was the last call
        self._shown_on: int | None = None
        self._is_over = False
        # whether bytes were sent since the last `endwin` that was sent whole, and whether any of them were lost
        self._is_up = self._is_cut = False
        self._rmcup = b""
        self._before: list[Any] | None = None
        self._handlers: dict[int, Any] = {}
        self.open(entry, rows, cols, name, certificate, leaving_out=leaving_out)

    @classmethod
    def on_terminal(
        cls, term: str | None = None, input: int = 0, output: int = 1, *, leaving_out: bool = False
    ) -> Session:
        """A session on the terminal at these descriptors, whose name is `term` or $TERM, for a `with` statement. At its
        beginning the statement sets the terminal raw, and from then on SIGTERM and SIGHUP leave the block unless the
        program handles them. It raises `FileNotFoundError` without an entry, `termios.error` if the input is no
        terminal, and `Error`."""
        session = cls(find_entry(term), *terminal_size(output), leaving_out=leaving_out)
        session._input, session._output, session._is_owner = input, output, True
        return session

    def open(
        self, entry: Text, rows: int, cols: int, name: Text = b"", certificate: Text = b"", *, leaving_out: bool = False
    ) -> None:
        """Opens the session anew. After a change of size call `end` before, and `lost` after it. Without a
        `certificate` it checks the entry. With `leaving_out`, and no certificate, it opens the entry without its wrong
        strings, if a terminal can do without them; `left_out` has them. If it raises an error, the session that was open
        stays open."""
        entry, name, certificate = _bytes(entry), _bytes(name), _bytes(certificate)
        words = (entry, len(entry), name, len(name), *_numbers(rows, cols))
        opened = Handle()
        if leaving_out and certificate:
            raise ValueError("a session with a certificate leaves out nothing")
        if leaving_out:
            code = RAW.ticurses_raw_open_without(opened, *words)
        else:
            code = RAW.ticurses_raw_open(opened, *words, certificate, len(certificate))
        _is_done(code, reason(entry, rows, cols, name) if code == Code.NO_CERTIFICATE else "")
        before, self._handle = self._handle, opened
        RAW.ticurses_raw_close(before)
        self._rmcup = b"" if any(it.name == "rmcup" for it in self.left_out) else _leaving(entry, name)

    @property
    def left_out(self) -> list[LeftOut]:
        """The strings that the session goes without, in the order in which they were left out."""
        code, text = _asked(RAW.ticurses_raw_left_out, 256, self._handle)
        _is_done(code)
        return [LeftOut(*line.split(" ")) for line in text.decode("ascii").splitlines()]

    def call(self, *lines: Text) -> None:
        """Makes the calls of `lines`, one a line, up to the first that isn't done; the error says which it is. If a
        line is no call, it makes none."""
        text = b"\n".join(map(_bytes, lines))
        self._is_over = False
        code = RAW.ticurses_raw_call(self._handle, text, len(text))
        if code:
            raise self._refused(code, text)
        self._is_over = text.endswith(b"endwin")

    def _refused(self, code: int, text: bytes) -> Error:
        number = SIZE(0)
        if RAW.ticurses_raw_failed(self._handle, number) or not number.value:
            return Error(code)
        line = text.split(b"\n")[number.value - 1]
        return Error(code, "", number.value, line.decode("utf-8", "backslashreplace"))

    def addstr(self, window: int, text: Text) -> None:
        """Writes a text at the cursor of a window: bytes, or a string of ASCII. Other characters are refused."""
        held = _bytes(text)
        _is_done(RAW.ticurses_raw_addstr(self._handle, _window(window), held, len(held)))

    def cursor(self, window: int) -> tuple[int, int]:
        """The row and the column of a window's cursor."""
        return self._pair(RAW.ticurses_raw_cursor, window)

    def window_size(self, window: int) -> tuple[int, int]:
        """The rows and columns of a window or a pad."""
        return self._pair(RAW.ticurses_raw_size, window)

    def _pair(self, call: Callable[..., int], window: int) -> tuple[int, int]:
        one, other = SHORT(0), SHORT(0)
        _is_done(call(self._handle, _window(window), one, other))
        return one.value, other.value

    def cell(self, window: int, row: int, col: int) -> Cell:
        """The content of a place of a window or a pad."""
        cell = _Cell()
        if not (0 <= row < 65536 and 0 <= col < 65536):
            raise Error(Code.OUT_OF_WINDOW)
        _is_done(RAW.ticurses_raw_cell(self._handle, _window(window), row, col, cell))
        return Cell(chr(cell.byte), Attrs(cell.attrs), cell.pair)

    @property
    def cell_limit(self) -> int:
        """The most bytes that one cell takes on this terminal; 0 after `close`."""
        return int(RAW.ticurses_raw_cell_limit(self._handle))

    @property
    def most(self) -> int:
        """The most bytes that the call `doupdate` adds to those that wait, if it comes next; 0 after `close`."""
        return int(RAW.ticurses_raw_most(self._handle))

    @property
    def waiting(self) -> int:
        """The number of bytes that wait to be written."""
        return int(RAW.ticurses_raw_waiting(self._handle))

    def output(self, most: int = 65536) -> bytes:
        """Takes the first of the bytes that wait, at most `most`."""
        room = ctypes.create_string_buffer(max(most, 1))
        taken = RAW.ticurses_raw_output(self._handle, room, max(most, 0))
        return room.raw[:taken]

    def lost(self) -> None:
        """Records that taken bytes didn't all reach the terminal: the next refresh draws the whole screen. It begins
        with `smcup`; after bytes that `send` has sent, `send` puts `rmcup` before it."""
        _is_done(RAW.ticurses_raw_lost(self._handle))
        self._is_cut = self._is_up

    def send(self, fd: int | None = None) -> None:
        """Writes all waiting bytes to `fd`, which may be non-blocking, or to the terminal's descriptor without one. The
        next refresh repairs output that an error or an interrupt cut off."""
        fd = self._output if fd is None else fd
        try:
            self._leave_screen(fd)
            while piece := self.output():
                self._shown_on, self._is_up = fd, True
                _write(fd, piece)
            self._is_up = self._is_up and not self._is_over
        except BaseException:
            with contextlib.suppress(Error):
                self.lost()
            raise

    def _leave_screen(self, fd: int) -> None:
        """Has the terminal leave its second screen before a lost session begins anew with `smcup`: some keep the cursor
        of the last `smcup` alone, which is then the program's own."""
        if self._is_cut and self.waiting:
            _write(fd, self._rmcup)
            self._is_cut = False

    def read(self, most: int = 64) -> bytes:
        """Waits for keys and returns their bytes, at most `most`; none if the terminal is gone. A signal whose handler
        raises an exception ends the wait, even one that comes just before it, which `os.read` would miss."""
        # a closed input must be an error: the pipe below would get its number
        os.fstat(self._input)
        waiting = select.poll()
        waiting.register(self._input, select.POLLIN)
        with _woken_by_signals() as woken:
            if woken is not None:
                waiting.register(woken, select.POLLIN)
            while True:
                ready = [fd for fd, _ in waiting.poll()]
                if woken in ready:
                    os.read(woken, 64)
                if self._input not in ready:
                    continue
                try:
                    return os.read(self._input, most)
                except BlockingIOError:
                    # another program got the keys
                    continue
                except OSError as error:
                    if error.errno != errno.EIO:
                        raise
                    return b""

    def set_raw(self, fd: int | None = None) -> None:
        """Sets the terminal raw, as the function `set_raw` does, until the end of the `with` statement."""
        self._input = self._input if fd is None else fd
        self._before = set_raw(self._input)

    def set_cooked(self) -> None:
        """Restores the terminal's modes if `set_raw` has set them."""
        before, self._before = self._before, None
        if before is not None:
            set_cooked(before, self._input)

    def end(self) -> None:
        """Sends `endwin` to the descriptor of the last `send`, if there was one and `endwin` hasn't followed. The
        terminal is then as other programs need it."""
        fd = self._shown_on
        if fd is not None and not (self._is_over and not self.waiting):
            if not self._is_over:
                self.call("endwin")
            self.send(fd)
        self._shown_on = None

    def close(self) -> None:
        """Frees the session without sending `endwin`, which `end` does. A closed session may be closed again."""
        RAW.ticurses_raw_close(self._handle)

    def __enter__(self) -> Session:
        try:
            if self._is_owner:
                self._heed()
                self.set_raw()
        except BaseException:
            self._restore(True)
            raise
        return self

    def _heed(self) -> None:
        """Has signals leave the block, which only the main thread can ask for."""
        if threading.current_thread() is threading.main_thread():
            for number in (signal.SIGTERM, signal.SIGHUP):
                if signal.getsignal(number) == signal.SIG_DFL:
                    self._handlers[number] = signal.signal(number, _leave)

    def __exit__(self, kind: type[BaseException] | None, error: BaseException | None, at: TracebackType | None) -> None:
        try:
            self.end()
        except (OSError, Error):
            # the error that ended the block says more
            if kind is None:
                raise
        finally:
            self._restore(kind is not None)

    def _restore(self, is_leaving: bool) -> None:
        """Restores the terminal's modes and the signals' handlers and closes the session, whatever fails."""
        try:
            self.set_cooked()
        except termios.error:
            # the terminal is gone
            if not is_leaving:
                raise
        finally:
            for number in list(self._handlers):
                signal.signal(number, self._handlers.pop(number))
            self.close()

    def __del__(self) -> None:
        # a handle that was never made has nothing to free
        if hasattr(self, "_handle"):
            self.close()
