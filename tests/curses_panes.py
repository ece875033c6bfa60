"""Programs that are compiled for ncurses and for <ticurses/curses.h> and run in tmux with the same keys and a stopped
clock, and what differs between their screens."""

import os
import re
import shutil
import subprocess
import sys
import time

from trying import TOP

HERE = f"{TOP}/tests/curses"
ROWS, COLS = 24, 80
# seconds after which an unchanged screen is compared, the longest time that a program draws by itself, and the longest
# that it may take to begin or to end
QUIET, LONGEST, STARTING = 0.3, 5, 60


def fail(text):
    sys.exit(f"curses: {text}")


class Compiled:
    """Programs that are compiled for ncurses, and for this library with the flags of its .pc file, or with the same
    ones without pkg-config."""

    def __init__(self, work, prefix):
        self.work = work
        words = [f"-I{prefix}/include/ticurses", f"-L{prefix}/lib", f"-Wl,-rpath,{prefix}/lib"]
        words += ["-lticurses_curses", "-lticurses", "-lticurses_tinfo", "-lticurses_terminfo"]
        if shutil.which("pkg-config"):
            given = {**os.environ, "PKG_CONFIG_PATH": f"{prefix}/lib/pkgconfig"}
            line = ["pkg-config", "--cflags", "--libs", "ticurses-curses"]
            words = subprocess.run(line, env=given, stdout=subprocess.PIPE, text=True).stdout.split()
        self.words = {"ncurses": ["-lncurses", "-ltinfo"], "ticurses": words}
        for name in self.words:
            os.makedirs(f"{work}/{name}", exist_ok=True)
        subprocess.run(["cc", "-shared", "-fPIC", "-o", f"{work}/still.so", f"{HERE}/still.c"], check=True)

    def make(self, name, sources, *words):
        """Compiles a program for both. Returns the compiler's message if one refuses it."""
        for library, own in self.words.items():
            line = ["cc", "-w", "-O1", *words, *sources, "-o", f"{self.work}/{library}/{name}", *own, "-lm"]
            ran = subprocess.run(line, stdin=subprocess.DEVNULL, capture_output=True, text=True)
            if ran.returncode:
                return f"{library}: {ran.stderr}"
        return None


def cells_of(text):
    """The cells of a text that tmux writes with sequences for looks: each a character, its attributes and two colors.
    White on black counts as the terminal's own colors: once colors are on, pair 0 is white on black in ncurses, and the
    terminal's own colors here (docs/CURSES.md)."""
    rows, marks, ink = [], frozenset(), ["39", "49"]
    for line in text.split("\n")[:ROWS]:
        row = []
        # shifts in and out as if they were attributes
        line = re.sub(r"[\x0e\x0f]", lambda it: f"\x1b[{ord(it[0])}00m", line)
        for sent, char in re.findall(r"\x1b\[([\d;]*)m|(.)", line):
            if char:
                own = tuple(ink)
                row.append((char, marks, ("39", "49") if own == ("37", "40") else own))
                continue
            for word in (sent or "0").split(";"):
                if word in ("0", ""):
                    marks, ink = marks & {"set"}, ["39", "49"]
                elif word in ("1400", "1500"):
                    marks = marks | {"set"} if word == "1400" else marks - {"set"}
                elif word[0] in "34" and len(word) == 2:
                    ink[word[0] == "4"] = word
                else:
                    marks = marks | {word}
        while row and row[-1] == (" ", frozenset(), ("39", "49")):
            row.pop()
        rows.append(row)
    return rows


class Pane:
    """A program in a pane of tmux."""

    def __init__(self, work, name, words, term="screen"):
        self.socket = f"{work}/{name}"
        line = ["env", f"LD_PRELOAD={work}/still.so", "LC_ALL=C", f"TERM={term}", *words]
        quoted = " ".join("'" + it.replace("'", "'\\''") + "'" for it in line)
        self.run("new-session", "-d", "-x", str(COLS), "-y", str(ROWS), f"trap : INT; {quoted}; echo ended $?; sleep 600")
        self.run("set", "-g", "status", "off")
        self.run("resize-window", "-x", str(COLS), "-y", str(ROWS))

    def run(self, *words):
        given = {**os.environ, "LC_ALL": "C.UTF-8", "TERM": "screen"}
        line = ["tmux", "-f", "/dev/null", "-u", "-S", self.socket, *words]
        return subprocess.run(line, env=given, capture_output=True).stdout.decode("utf-8", "replace")

    def seen(self):
        cursor = self.run("display", "-p", "#{cursor_y} #{cursor_x} #{cursor_flag}").strip()
        # the place of a hidden cursor doesn't count
        cursor = "hidden" if cursor.endswith(" 0") else cursor
        text = self.run("capture-pane", "-p", "-e", "-N")
        # the name and version of the library
        return re.sub(r"\b(ticurses-curses|ncurses)( \d[\d.]*\d)?", "curses", text), cursor

    def quiet(self):
        """The screen once it no longer changes."""
        end, last, since = time.monotonic() + LONGEST, self.seen(), time.monotonic()
        while time.monotonic() < min(end, since + QUIET):
            time.sleep(0.05)
            now = self.seen()
            if now != last:
                last, since = now, time.monotonic()
        return last

    def press(self, key):
        if key.startswith("@"):
            time.sleep(int(key[1:]) / 1000)
        elif key.startswith("="):
            self.run("send-keys", "-l", key[1:])
        elif key.startswith("%"):
            self.run("resize-window", *key[1:].split(","))
        else:
            self.run("send-keys", key)

    def until(self, holds, seconds=STARTING):
        """The text of the screen once it meets the condition, or after so long."""
        end, text = time.monotonic() + seconds, self.seen()[0]
        while not holds(text) and time.monotonic() < end:
            time.sleep(0.1)
            text = self.seen()[0]
        return text

    def last(self, keys):
        """The screen after all keys, where the shell says that the program has ended. It may be a slow one."""
        self.until(str.strip)
        for key in keys:
            self.press(key)
            self.quiet()
        text = self.until(lambda it: "ended " in it)
        self.run("kill-server")
        return text

    def shots(self, keys, seconds=LONGEST):
        """The screens at the beginning, for which it waits at most so long, and after each key."""
        time.sleep(0.5)
        # on a busy machine a program takes longer to begin; some begin with a blank screen
        self.until(str.strip, seconds)
        found = [("", "") if keys[0].startswith("~") else self.quiet()]
        for key in keys:
            self.press(key.removeprefix("~"))
            # an animation is compared when it has ended
            found.append(("", "") if key.startswith("~") else self.quiet())
        self.run("kill-server")
        return found


def differing(one, other):
    """The shots that differ: in a cell, or in the cursor."""
    pairs = enumerate(zip(one, other))
    return [(at, a, b) for at, (a, b) in pairs if a[1] != b[1] or cells_of(a[0]) != cells_of(b[0])]


def show(bad):
    at, one, other = bad
    for library, (text, cursor) in (("ncurses", one), ("ticurses", other)):
        print(f"--- screen {at}, {library}, cursor {cursor}")
        print(text.replace("\033", "^"))
