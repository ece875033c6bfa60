"""Waiting for keys and for time without the interpreter's lock, so that other threads run. A wait misses no signal, not
even one that the library handles by itself."""

from __future__ import annotations

import contextlib
import ctypes
import errno
import os
import signal
import threading
from typing import Any, Iterator

# seconds between looks at the signals that the library has noted, since other threads may get those of this one
LOOKING = 0.25
POLLIN = 1
# the bytes of a set of signals
MASK_LEN = 128


class _Poll(ctypes.Structure):
    _fields_ = [("fd", ctypes.c_int), ("events", ctypes.c_short), ("found", ctypes.c_short)]


class _Time(ctypes.Structure):
    _fields_ = [("seconds", ctypes.c_long), ("nanoseconds", ctypes.c_long)]


_ppoll = ctypes.CDLL(None, use_errno=True).ppoll
_ppoll.restype = ctypes.c_int
_ppoll.argtypes = [ctypes.POINTER(_Poll), ctypes.c_ulong, ctypes.POINTER(_Time), ctypes.c_char_p]


@contextlib.contextmanager
def held_signals() -> Iterator[bytes]:
    """Blocks all signals. Yields the mask from before, with which `ready` lets them come."""
    before = signal.pthread_sigmask(signal.SIG_BLOCK, signal.valid_signals())
    try:
        yield sum(1 << (number - 1) for number in before).to_bytes(MASK_LEN, "little")
    finally:
        # signals that came are handled here, and a handler may raise an exception
        signal.pthread_sigmask(signal.SIG_SETMASK, before)


def ready(fd: int, seconds: float | None, mask: bytes) -> bool:
    """Waits until `fd` has something to read, `seconds` have passed, or a signal has come that `mask` doesn't block.
    Returns whether there is something to read. A negative `fd` is no descriptor; None is no end of time."""
    if threading.active_count() > 1:
        seconds = LOOKING if seconds is None else min(seconds, LOOKING)
    asked, time = _Poll(fd, POLLIN, 0), None
    if seconds is not None:
        whole = int(max(seconds, 0))
        time = _Time(whole, int((max(seconds, 0) - whole) * 1e9))
    found: Any = _ppoll(asked, 1, time, mask)
    if found < 0 and ctypes.get_errno() != errno.EINTR:
        raise OSError(ctypes.get_errno(), os.strerror(ctypes.get_errno()))
    return bool(found > 0)
