#!/usr/bin/env python3
"""Builds the program without proving it, as `rt try` makes it, and keeps the executable for all further runs.

`rt try` keeps none. So it runs the program on a FIFO as its file: once somebody reads from the FIFO, the program is
whole and started, and can be copied. The copy gets its name only when it is whole, so that a build which is
interrupted leaves nothing that a further run would take for the program. Then it runs the program with the words given.
The status is that of the program, 125 if there is none or the checkout can't be written, 127 without the toolchain, and
128 and the number of a signal that ended the build."""

import contextlib
import errno
import fcntl
import glob
import os
import shutil
import signal
import subprocess
import sys
import tempfile
import time

import ending
from crates import TOP, below, listed
from ending import Ended, heed, held, started, stop, why
from program import current
from sources import UNPROVED

FOLDER, SOURCES = f"{TOP}/crates/{UNPROVED.crate}", below([UNPROVED.crate], listed())
LOG = f"{FOLDER}/out/unproved.log"
# how often it is looked whether the program has started, and what runs, in seconds
LOOKS, REPORTS = 0.1, 1


def say(text):
    ending.say(f"ticurses: {text}")


def is_read(fifo):
    """A descriptor to write to the FIFO, once somebody reads from it; until then None."""
    try:
        return os.open(fifo, os.O_WRONLY | os.O_NONBLOCK)
    except OSError as error:
        if error.errno != errno.ENXIO:
            raise
        return None


def text_of(path):
    """A small file of the system's; "" where the process that it is about has ended."""
    with contextlib.suppress(OSError):
        with open(path, encoding="ascii", errors="replace") as file:
            return file.read()
    return ""


def below_run(pid):
    """The processes that this one has started, and those that they have, with their programs' names; none where the
    system doesn't list them."""
    found, waiting = {}, [pid]
    while waiting:
        for file in glob.glob(f"/proc/{waiting.pop()}/task/*/children"):
            for child in map(int, text_of(file).split()):
                found[child] = text_of(f"/proc/{child}/comm").strip()
                waiting.append(child)
    return found


def end_search(processes):
    """Ends the search for reserved names that `rt try` runs beside the build. It takes as long as the build, and only
    warns whoever writes the sources."""
    for number, name in processes.items():
        if name == "rattle":
            with contextlib.suppress(ProcessLookupError):
                os.kill(number, signal.SIGTERM)


def end(run):
    """Ends a run of the toolchain with all that it started, of which it leaves some if it is ended early."""
    processes = below_run(run.pid)
    stop([run])
    for number in processes:
        with contextlib.suppress(ProcessLookupError):
            os.kill(number, signal.SIGKILL)


class Progress:
    """Says how far the build is: on a terminal in one line, elsewhere by a line for each step. The toolchain compiles
    all crates in one run, which doesn't say what it is at, so that no single crate can be named."""

    STEPS = (
        f"step 1 of 2, reading and compiling {len(SOURCES)} crates together",
        f"step 2 of 2, making machine code of {len(SOURCES)} crates",
    )

    def __init__(self):
        self.began, self.step = time.monotonic(), -1
        self.is_terminal = sys.stderr.isatty()

    def show(self, processes):
        # a compiler that has ended doesn't lead back
        step = max(self.step, int("clang" in processes.values()))
        is_new, self.step = step != self.step, step
        if self.is_terminal:
            text = f"ticurses: {self.STEPS[step]}: {time.monotonic() - self.began:.0f} seconds"
            ending.say(f"\r\033[K{text[: shutil.get_terminal_size().columns - 1]}", "")
        elif is_new:
            say(self.STEPS[step])

    def end(self):
        """Takes the line away."""
        if self.is_terminal:
            ending.say("\r\033[K", "")


def wait_for_reader(run, fifo):
    """Waits until the program reads from the FIFO. Returns the descriptor, or None if the run has ended before."""
    progress, looked = Progress(), 0
    try:
        while run.poll() is None:
            descriptor = is_read(fifo)
            if descriptor is not None:
                return descriptor
            if time.monotonic() >= looked + REPORTS:
                looked, processes = time.monotonic(), below_run(run.pid)
                end_search(processes)
                progress.show(processes)
            time.sleep(LOOKS)
        return None
    finally:
        progress.end()


def keep(room, sources):
    """Copies the program that runs below the room. Its record is that of the sources at the beginning."""
    made = glob.glob(f"{glob.escape(room)}/**/program", recursive=True)
    if len(made) != 1:
        return False
    shutil.copyfile(made[0], f"{room}/kept")
    os.chmod(f"{room}/kept", 0o755)
    UNPROVED.forget()
    os.replace(f"{room}/kept", UNPROVED.files[0])
    UNPROVED.note(sources)
    return True


def build(room):
    """Builds the program in the room. Returns whether it is kept."""
    sources, fifo = UNPROVED.sources(), f"{room}/fifo"
    os.mkfifo(fifo)
    words = ["rt", "try", "--steps", "1", "--seconds", "600", "--", "feed", "2", "2", fifo]
    how = {"cwd": FOLDER, "env": {**os.environ, "TMPDIR": room}, "stdin": subprocess.DEVNULL}
    runs = []
    try:
        with open(LOG, "wb") as log, held():
            runs.append(started(words, stdout=log, stderr=log, **how))
        descriptor = wait_for_reader(runs[0], fifo)
        if descriptor is None:
            return False
        is_kept = keep(room, sources)
        os.close(descriptor)
        return is_kept
    finally:
        # nothing more is wanted of it
        for run in runs:
            end(run)


def bring():
    """Builds the program where no other first run has; returns the status."""
    os.makedirs(f"{FOLDER}/out", exist_ok=True)
    with open(f"{FOLDER}/out/unproved.lock", "w", encoding="utf-8") as lock:
        # a second first run waits, and then finds the program built
        fcntl.flock(lock, fcntl.LOCK_EX)
        if UNPROVED.is_current():
            return 0
        say("building the program without proof, once: two minutes on an idle machine, more beside other work")
        with tempfile.TemporaryDirectory(prefix="quick-", dir=f"{FOLDER}/out") as room:
            if build(room):
                return 0
    say("the toolchain made no program (rt try, in crates/ticurses)")
    say(f"what it said is expected in {LOG}")
    return 125


def main():
    if not shutil.which("rt"):
        say("the program is not built, and the Rattle toolchain, which builds it, is missing")
        say("its command rt is expected on the PATH")
        return 127
    heed()
    try:
        status = bring()
        path = None if status else current()
    except Ended as ended:
        say("stopped; nothing is built")
        return ended.status
    except OSError as error:
        say(f"the program can't be built here: {why(error)}")
        return 125
    if path is None:
        # a source has changed since
        return status or 125
    # what Python has set otherwise than it was
    signal.signal(signal.SIGPIPE, signal.SIG_DFL)
    os.execv(path, [path, *sys.argv[1:]])


if __name__ == "__main__":
    sys.exit(main())
