#!/usr/bin/env python3
"""The pictures of README and docs/TOUR.md, as SVG, from what the program prints.

pictures.py          writes docs/pictures/*.svg; it runs ./ticurses
pictures.py --check  says which of them differ, with status 1 if there is one

The fault is that of `check --json` for docs/pictures/color.ti, ncurses' entry xterm-color. The certificate is that of
`mini`, and the screens are those of `feed`, from examples/terminals.ti and examples/clock.script."""

import json
import os
import re
import subprocess
import sys
import tempfile

import states
from crates import TOP
from svg import FAINT, FRAME, INK, MONO, Picture

FOLDER = f"{TOP}/docs/pictures"
COLORS = {
    "black": "#24292f",
    "red": "#cf222e",
    "green": "#1a7f37",
    "yellow": "#d4a72c",
    "blue": "#0969da",
    "magenta": "#8250df",
    "cyan": "#1b7c83",
    "white": "#eaeef2",
    None: None,
}
GRAPHIC = dict(zip("jklmnqtuvwx", "┘┐┌└┼─├┤┴┬│"))
DARK, GLASS, GOOD, BAD = "#d7dde4", "#0d1117", "#1a7f37", "#cf222e"


def run(*words, data=None, fails=False):
    """The output of a command of the program."""
    ran = subprocess.run(
        [f"{TOP}/ticurses", *words], cwd=TOP, input=data, stdout=subprocess.PIPE, stderr=subprocess.PIPE
    )
    if ran.returncode != (1 if fails else 0):
        sys.exit(f"pictures: ticurses {' '.join(words)}: status {ran.returncode}\n{ran.stderr.decode()}")
    return ran.stdout


# ---- one fault


def pen_of(given):
    """The parts of a rendition, each with whether it is on."""
    return [
        *((mark, mark in given["marks"]) for mark in states.MARKS),
        (f"in {given['fore'] or 'the default color'}", bool(given["fore"])),
        (f"on {given['back'] or 'the default color'}", bool(given["back"])),
    ]


def small_screen(picture, x, y, given, fill):
    """The corner of a screen whose cells all show one character."""
    step, high, columns, rows = 11, 17, 20, 4
    picture.box(x, y, columns * step + 12, rows * high + 10, GLASS, rx=5)
    for row in range(rows):
        picture.cells(x + 8, y + 18 + row * high, fill * columns, step, 13, "#57606a")
    row, col = given["cursor"]
    picture.box(
        x + 7 + col * step,
        y + 5 + row * high,
        step,
        high - 1,
        "none",
        stroke="#f0b429",
        stroke_width=1.4,
        stroke_dasharray="2 2" if given["hidden"] else None,
    )


def sample(picture, x, y, given):
    """The next word that a program prints, in the rendition."""
    fore, back = COLORS[given["fore"]] or DARK, COLORS[given["back"]] or GLASS
    if "reverse" in given["marks"]:
        fore, back = back, fore
    picture.box(x, y, 232, 30, GLASS, rx=5)
    picture.box(x + 8, y + 5, 94, 20, back)
    style = {"font_weight": "bold"} if "bold" in given["marks"] else {}
    if "underlined" in given["marks"]:
        style["text_decoration"] = "underline"
    picture.text(x + 12, y + 20, "next text", 14, fore, MONO, **style)


def chips(picture, x, y, given, wanted=None):
    """The parts of the rendition; those that are not as wanted are marked."""
    for at, (name, is_on) in enumerate(pen_of(given)):
        is_wrong = wanted is not None and is_on != pen_of(wanted)[at][1]
        left, top = x + 118 * (at % 2), y + 22 * (at // 2)
        color = BAD if is_wrong else INK if is_on else FAINT
        picture.box(
            left,
            top,
            112,
            18,
            "#ffebe9" if is_wrong else "#eaeef2" if is_on else "none",
            rx=9,
            stroke=BAD if is_wrong else FRAME,
        )
        picture.text(
            left + 56,
            top + 12.5,
            name if not is_wrong or is_on else f"{name}: lost",
            10,
            color,
            text_anchor="middle",
            font_weight="bold" if is_wrong else None,
        )


def fault():
    """One fault as T's screens: its start, what is wanted, and what is seen."""
    text = run("check", "--json", "docs/pictures/color.ti:xterm-color", "24", "80", fails=True)
    report = json.loads(text.splitlines()[0])
    size = report["size"]
    start = states.state(report["start"], size)
    wanted, seen = states.wanted(report["wanted"], start, size), states.seen(report["seen"], start, size)
    sent = bytes.fromhex(report["bytes"]).decode("ascii").replace("\x1b", "\\E")
    picture = Picture(800, f"{report['entry']}: no {report['capability']}: {report['cause']}")
    picture.text(20, 30, f"{report['capability']} of {report['entry']} sends {sent}", 17, font_weight="bold")
    picture.text(20, 50, f"no {report['capability']}: {report['cause']}. Wanted: {report['wanted']}.", 12, FAINT)
    fill = re.search("every cell shows '(.)'", report["start"])[1]
    for at, (name, given, color) in enumerate([("start", start, INK), ("wanted", wanted, GOOD), ("seen", seen, BAD)]):
        x = 20 + at * 262
        picture.text(x, 80, name, 14, color, font_weight="bold")
        small_screen(picture, x, 90, given, fill)
        sample(picture, x, 176, given)
        chips(picture, x, 216, given, wanted if name == "seen" else None)
    picture.text(
        20,
        326,
        "The dashed box is the cursor, which is hidden in this start; reverse swaps the two colors of the next text.",
        11,
        FAINT,
    )
    return picture.written()


# ---- a certificate's lines


def line_state(words):
    """The effect in a line: the cursor's place, whether all cells are blank, and what it sets."""
    told = dict(it.split("=", 1) for it in words if "=" in it)
    return (
        (int(told["row"]), int(told["col"])) if "row" in told else None,
        "all" in words,
        [it for it in words if ":" in it],
    )


def certificate():
    """The lines of the certificate of `mini` at 2 by 2, each with the screen that it leaves."""
    lines = run("check", "examples/terminals.ti:mini", "2", "2").decode().splitlines()
    picture = Picture(800, "The certificate of mini at 2 by 2")
    picture.text(
        20, 28, "The certificate of mini at 2 by 2: what each line leaves, from every state", 15, font_weight="bold"
    )
    shown = [it.split() for it in lines[1:-1]]
    for at, words in enumerate(shown):
        params = 0
        while re.fullmatch(r"\d+", words[1 + params]) and len(words[1 + params]) < 3:
            params += 1
        name, sent, effect = " ".join(words[: 1 + params]), words[1 + params], words[2 + params :]
        cursor, is_blank, others = line_state(effect)
        x, y = 20 + 130 * at, 48
        picture.box(x, y, 84, 84, GLASS, rx=5)
        for row in range(2):
            for col in range(2):
                left, top = x + 8 + 34 * col, y + 8 + 34 * row
                picture.box(left, top, 34, 34, GLASS if is_blank else "#21262d", stroke="#57606a", stroke_width=0.7)
                if not is_blank:
                    picture.text(left + 17, top + 22, "?", 13, "#8b949e", MONO, text_anchor="middle")
        if cursor:
            picture.box(
                x + 10 + 34 * cursor[1], y + 10 + 34 * cursor[0], 30, 30, "none", stroke="#f0b429", stroke_width=2.4
            )
        picture.text(x, y + 104, name, 13, font=MONO, font_weight="bold")
        picture.text(x, y + 120, bytes.fromhex(sent).decode("ascii").replace("\x1b", "\\E"), 11, FAINT, MONO)
        picture.text(x, y + 135, " ".join(others) or ("all blank" if is_blank else "cells stay"), 11, FAINT)
    picture.text(
        20,
        204,
        "The box is the cursor; ? is a cell that stays as it was. sgr0 leaves the cursor and the cells, and turns all attributes and colors off.",
        11,
        FAINT,
    )
    return picture.written()


# ---- screens


def screen_of(text, rows, cols):
    """The parts of a printed screen: its rows, the cursor, and the marks of each cell."""
    lines = text.decode("ascii").splitlines()
    looks = {}
    for line in lines[rows:]:
        found = re.match(r"look (\d+) (\d+)-(\d+) (\S+)", line)
        if found:
            for col in range(int(found[2]), int(found[3]) + 1):
                looks[int(found[1]), col] = found[4]
    cursor = next(re.match(r"cursor (\d+) (\d+)", line) for line in lines[rows:] if line.startswith("cursor"))
    return [line.ljust(cols) for line in lines[:rows]], (int(cursor[1]), int(cursor[2])), looks


def large_screen(picture, x, y, text, rows, cols):
    """A printed screen with its looks."""
    step, high = 9, 19
    cells, (row, col), looks = screen_of(text, rows, cols)
    picture.box(x, y, cols * step + 16, rows * high + 14, GLASS, rx=5)
    for at, line in enumerate(cells):
        base = y + 21 + at * high
        for is_reverse in (False, True):
            here = [("R" in looks.get((at, it), "")) == is_reverse for it in range(cols)]
            if is_reverse and any(here):
                first = here.index(True)
                picture.box(x + 8 + first * step, base - 14, step * sum(here), high, DARK)
            chars = [
                GRAPHIC.get(char, char) if "G" in looks.get((at, it), "") else char for it, char in enumerate(line)
            ]
            shown = "".join(char if own else " " for char, own in zip(chars, here))
            picture.cells(x + 8, base, shown, step, 15, GLASS if is_reverse else DARK)
    picture.box(x + 8 + col * step, y + 7 + row * high, step, high, "none", stroke="#f0b429", stroke_width=1.4)


def play():
    """A play, the same cut off within a sequence, and what the next play makes of that."""
    with tempfile.TemporaryDirectory() as room:
        path = f"{room}/vt.cert"
        run("check", "examples/terminals.ti:vt", "5", "24", "--out", path)
        sent = run("play", "examples/terminals.ti:vt", "5", "24", path, "examples/clock.script")
    cut = sent[: sent.index(b"\x1b[3;21H") + 4]
    feeds = [
        ("played", f"{len(sent)} bytes", sent),
        ("cut off", f"after byte {len(cut)}, within \\E[3;21H", cut),
        ("played again", f"{len(cut)} and {len(sent)} bytes", cut + sent),
    ]
    picture = Picture(800, "A play, cut off, and played again")
    for at, (name, words, data) in enumerate(feeds):
        x = 20 + 258 * at
        picture.text(x, 28, name, 14, [INK, BAD, GOOD][at], font_weight="bold")
        picture.text(x + 232, 28, words, 11, FAINT, text_anchor="end")
        large_screen(picture, x, 40, run("feed", "5", "24", "-", data=data), 5, 24)
    return picture.written()


def made():
    """Each picture's file and what is in it."""
    return {"fault": fault(), "certificate": certificate(), "play": play()}


def main():
    stale = 0
    for name, text in made().items():
        path = f"{FOLDER}/{name}.svg"
        if sys.argv[1:] == ["--check"]:
            if not os.path.exists(path) or open(path, encoding="utf-8").read() != text:
                print(
                    f"pictures: docs/pictures/{name}.svg isn't what the program and the tables say: run tools/pictures.py"
                )
                stale = 1
        else:
            os.makedirs(FOLDER, exist_ok=True)
            with open(path, "w", encoding="utf-8") as file:
                file.write(text)
    return stale


if __name__ == "__main__":
    sys.exit(main())
