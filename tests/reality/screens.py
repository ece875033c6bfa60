#!/usr/bin/env python3
"""Screens of 24 by 80 that terminal emulators show for a file of bytes, in the form that `ticurses feed` prints.

screens.py NAME..   makes NAME.screen here, which both tmux (3.3a, `capture-pane -e`) and pyte (0.8, Debian's
                    python3-pyte) show, or NAME.tmux and NAME.pyte where they differ; run it with the Python that has
                    pyte (/usr/bin/python3 on Debian)

A rendition has the marks of both emulators (bold, faint, underline, blink, negative, concealed) and colors; pyte 0.8 knows
neither faint, blink nor concealed. Characters of the line drawing set are given as the letters that stand for them."""

import os
import re
import subprocess
import sys
import tempfile
import time

HERE = os.path.dirname(os.path.abspath(__file__))
ROWS, COLS = 24, 80
LETTERS = dict(zip("♦▒␉␌␍␊°±␤␋┘┐┌└┼⎺⎻─⎼⎽├┤┴┬│≤≥π≠£·", "`abcdefghijklmnopqrstuvwxyz{|}~"))
LETTERS["◆"] = "`"
SGR = {1: "B", 2: "D", 4: "U", 5: "K", 7: "R", 8: "I"}


def printed(cells, cursor):
    """The text of a screen: its cells (a character and its look, each), its cursor."""
    lines = ["".join(char for char, _ in row) for row in cells]
    lines.append("cursor {} {}{}".format(*cursor[:2], "" if cursor[2] else " hidden"))
    for number, row in enumerate(cells):
        col = 0
        while col < len(row):
            end = col
            while end + 1 < len(row) and row[end + 1][1] == row[col][1]:
                end += 1
            if row[col][1]:
                lines.append(f"look {number} {col}-{end} {row[col][1]}")
            col = end + 1
    return "".join(f"{line}\n" for line in lines)


def look_of(marks, graphic, colors):
    """A look as `feed` prints it."""
    letters = "".join(letter for letter in "BDUKRI" if letter in marks)
    return letters + ("G" if graphic else "") + "".join(f"{place}{colors[place]}" for place in "fb" if place in colors)


# ---- tmux


class Tmux:
    """A tmux server of its own, whose panes have the size and no status line."""

    def __init__(self, rows=ROWS, cols=COLS):
        self.room = tempfile.TemporaryDirectory()
        self.rows, self.cols = rows, cols
        with open(f"{self.room.name}/conf", "w", encoding="ascii") as file:
            file.write("set -g status off\nset -g allow-rename off\nset -g default-terminal screen\nset -g remain-on-exit on\n")
        self.base = ["tmux", "-u", "-S", f"{self.room.name}/socket", "-f", f"{self.room.name}/conf"]
        self.call("new-session", "-d", "-x", str(cols), "-y", str(rows), "sleep 1000")

    def call(self, *words):
        ran = subprocess.run(self.base + list(words), stdout=subprocess.PIPE, stderr=subprocess.PIPE, check=True, timeout=60)
        return ran.stdout.decode()

    def shown(self, path):
        """The screen after the bytes of the file: the pane's cells and its cursor. A title marks their end."""
        done = f"done{time.monotonic_ns()}"
        self.call("new-window", f"stty raw -echo; cat '{path}'; printf '\\033\\\\\\030\\033]2;{done}\\033\\\\'; sleep 1000")
        until = time.monotonic() + 20
        while self.call("display-message", "-p", "#{pane_title}").strip() != done:
            if time.monotonic() > until:
                sys.exit(f"screens: tmux didn't read {path}")
            time.sleep(0.02)
        text = self.call("capture-pane", "-p", "-e", "-N")
        row, col, on = map(int, self.call("display-message", "-p", "#{cursor_y} #{cursor_x} #{cursor_flag}").split())
        self.call("kill-window")
        return self.cells(text), (row, min(col, self.cols - 1), on)

    def printed(self, path):
        return printed(*self.shown(path))

    def cells(self, text):
        """The cells of a capture."""
        lines = text.split("\n")[: self.rows]
        lines += [""] * (self.rows - len(lines))
        marks, colors, graphic, found = set(), {}, False, []
        for line in lines:
            row, at = [], 0
            while at < len(line):
                code = re.compile(r"\033\[([\d;:]*)m").match(line, at)
                if code:
                    self.change(code.group(1), marks, colors)
                    at = code.end()
                    continue
                if line[at] in "\016\017":
                    graphic = line[at] == "\016"
                else:
                    char = line[at]
                    drawn = graphic or char in LETTERS
                    row.append((LETTERS.get(char, char), look_of(marks, drawn, colors)))
                at += 1
            found.append((row + [(" ", "")] * self.cols)[: self.cols])
        return found

    @staticmethod
    def change(code, marks, colors):
        for number in [int(part or 0) for part in code.split(";")]:
            if number == 0:
                marks.clear()
                colors.clear()
            elif number in SGR:
                marks.add(SGR[number])
            elif number in (22, 24, 25, 27, 28):
                marks -= {22: {"B", "D"}, 24: {"U"}, 25: {"K"}, 27: {"R"}, 28: {"I"}}[number]
            elif 30 <= number <= 37:
                colors["f"] = number - 30
            elif 40 <= number <= 47:
                colors["b"] = number - 40
            elif number in (39, 49):
                colors.pop("f" if number == 39 else "b", None)
            else:
                sys.exit(f"screens: tmux shows SGR {number}")

    def close(self):
        self.call("kill-server")
        self.room.cleanup()


# ---- pyte

COLORS = ["black", "red", "green", "brown", "blue", "magenta", "cyan", "white"]


def of_pyte(path):
    import pyte

    screen = pyte.Screen(COLS, ROWS)
    stream = pyte.ByteStream(screen)
    stream.select_other_charset("@")
    with open(path, "rb") as file:
        stream.feed(file.read())
    cells = []
    for row in range(ROWS):
        line = []
        for col in range(COLS):
            cell = screen.buffer[row][col]
            marks = {letter for letter, on in zip("BUKR", (cell.bold, cell.underscore, getattr(cell, "blink", False), cell.reverse)) if on}
            colors = {place: COLORS.index(name) for place, name in (("f", cell.fg), ("b", cell.bg)) if name != "default"}
            graphic = cell.data in LETTERS
            line.append((LETTERS.get(cell.data, cell.data), look_of(marks, graphic, colors)))
        cells.append(line)
    cursor = screen.cursor
    return cells, (cursor.y, min(cursor.x, COLS - 1), not cursor.hidden)


def main():
    tmux = Tmux()
    try:
        for name in sys.argv[1:]:
            path = f"{HERE}/{name}.bytes"
            of = {"tmux": tmux.printed(path), "pyte": printed(*of_pyte(path))}
            for kind, text in of.items() if of["tmux"] != of["pyte"] else [("screen", of["tmux"])]:
                with open(f"{HERE}/{name}.{kind}", "w", encoding="ascii") as file:
                    file.write(text)
    finally:
        tmux.close()


if __name__ == "__main__":
    main()
