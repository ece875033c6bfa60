"""Signals that end a script. Each becomes an exception, so that what the script started ends with it, and what it made
goes where it belongs. A signal that is ignored when the script starts, as under nohup, stays ignored."""

import contextlib
import os
import signal
import subprocess
import sys

NUMBERS = (signal.SIGHUP, signal.SIGINT, signal.SIGTERM)
# how long a program that is asked to end may take, in seconds
PATIENCE = 20


class Ended(BaseException):
    """A signal came."""

    def __init__(self, number):
        super().__init__(number)
        self.status = 128 + number


class _Signals:
    number, is_held = None, False

    def take(self, number, _):
        # the first one ends the script; while it is ending, none disturbs it
        if self.number is None:
            self.number = number
            if not self.is_held:
                raise Ended(number)


_SIGNALS = _Signals()


def heed():
    """From now on the signals raise `Ended`, once."""
    for number in NUMBERS:
        if signal.getsignal(number) != signal.SIG_IGN:
            signal.signal(number, _SIGNALS.take)


@contextlib.contextmanager
def held():
    """Code in this block runs to its end; a signal that comes meanwhile raises `Ended` after it."""
    _SIGNALS.is_held = True
    try:
        yield
    finally:
        _SIGNALS.is_held = False
    if _SIGNALS.number is not None:
        raise Ended(_SIGNALS.number)


def started(words, **how):
    """Starts a program in a process group of its own, which `stop` ends."""
    return subprocess.Popen(words, start_new_session=True, **how)


def stop(runs):
    """Ends programs, with all that they started, and waits for them."""
    for run in runs:
        _signal(run, signal.SIGTERM)
    for run in runs:
        try:
            run.wait(PATIENCE)
        except subprocess.TimeoutExpired:
            _signal(run, signal.SIGKILL)
            run.wait()


def _signal(run, number):
    with contextlib.suppress(ProcessLookupError):
        os.killpg(run.pid, number)


def say(text, ending="\n"):
    """Writes to standard error, which may be a terminal that is gone."""
    with contextlib.suppress(OSError):
        print(text, end=ending, file=sys.stderr, flush=True)


def why(error):
    """The text of an error of the system, in one line."""
    return f"{error.filename}: {error.strerror}" if error.filename else str(error)
