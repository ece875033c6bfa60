"""Refreshes of a full screen from Python: the standard module `curses` beside `ticurses.curses`, on a terminal that
takes all output at once.

    python3 -B bench/python_refreshes.py [ROWSxCOLS..]

Each run is a process of its own. It writes a random letter to each cell of the screen and refreshes it, 1,000 times
with a call for each line (`lines`), or 100 times with a call for each cell (`cells`). A line of figures has the
processor time of the fastest of five runs, in milliseconds, and the number of bytes sent. Python must find the package
(PYTHONPATH), and the package its library (TICURSES_LIBRARY)."""

import fcntl
import importlib
import os
import pty
import random
import struct
import subprocess
import sys
import tempfile
import termios
import threading
import time

RUNS, SCREENS = 5, 40
REFRESHES = {"lines": 1000, "cells": 100}
LETTERS = "abcdefghijklmnopqrstuvwxyz0123456789"


def write(screen, kind, lines):
    """Writes a screen, with a call for each line or for each cell."""
    for row, text in enumerate(lines):
        if kind == "lines":
            screen.addstr(row, 0, text)
            continue
        for column, letter in enumerate(text):
            screen.addch(row, column, letter)


def draw(name, kind, log):
    """Draws on the terminal, and writes the processor time to a file."""
    curses = importlib.import_module(name)
    screen = curses.initscr()
    rows, cols = screen.getmaxyx()
    # the last place of the screen stays blank, since the cursor can't go past it
    drawn = random.Random(7)
    screens = [["".join(drawn.choices(LETTERS, k=cols - 1)) for _ in range(rows)] for _ in range(SCREENS)]
    begun = time.process_time()
    for step in range(REFRESHES[kind]):
        write(screen, kind, screens[step % SCREENS])
        screen.refresh()
    spent = time.process_time() - begun
    curses.endwin()
    with open(log, "w", encoding="ascii") as file:
        file.write(f"{spent}")


def drained(fd, counted):
    """Reads all output, and counts its bytes."""
    try:
        while piece := os.read(fd, 1 << 16):
            counted[0] += len(piece)
    except OSError:
        # the program has ended
        pass


def run(name, kind, rows, cols):
    """The seconds and the bytes of one run."""
    outer, inner = pty.openpty()
    fcntl.ioctl(outer, termios.TIOCSWINSZ, struct.pack("HHHH", rows, cols, 0, 0))
    counted, given = [0], {**os.environ, "TERM": os.environ.get("BENCH_TERM", "xterm")}
    with tempfile.TemporaryDirectory() as room:
        words = [sys.executable, "-B", os.path.abspath(__file__), "--draw", name, kind, f"{room}/spent"]
        program = subprocess.Popen(words, stdin=inner, stdout=inner, env=given)
        os.close(inner)
        reader = threading.Thread(target=drained, args=[outer, counted])
        reader.start()
        status = program.wait()
        reader.join()
        os.close(outer)
        if status:
            sys.exit(f"{name} ended with status {status}")
        with open(f"{room}/spent", encoding="ascii") as file:
            return float(file.read()), counted[0]


def main():
    if sys.argv[1:2] == ["--draw"]:
        draw(*sys.argv[2:])
        return
    sizes = sys.argv[1:] or ["24x80", "50x132"]
    for size, kind in ((size, kind) for size in sizes for kind in REFRESHES):
        rows, cols = map(int, size.split("x"))
        # both by turns, so that what else the machine does is shared
        found = {"curses": [], "ticurses.curses": []}
        for _ in range(RUNS):
            for name, runs in found.items():
                runs.append(run(name, kind, rows, cols))
        (one, sent), (other, own) = (min(it) for it in found.values())
        print(f"{size} {kind}: curses {one * 1000:.0f} ms, {sent} bytes; ticurses.curses {other * 1000:.0f} ms, "
              f"{own} bytes; {other / one:.2f} times the time")


if __name__ == "__main__":
    main()
