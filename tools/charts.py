#!/usr/bin/env python3
"""The charts of docs/PERFORMANCE.md, one for each subject, and the diagram of docs/TRUST.md, from the pages' own tables.

charts.py          writes docs/pictures/performance-*.svg and trust.svg
charts.py --check  says which of them differ from the tables, with status 1 if there is one

A bar is a ratio: how often what is measured of the other program (time, instructions or bytes) has that of ticurses.
Bars to the right of the line at 1 are in favor of ticurses, and each step of the scale is ten times or twice the one
before."""

import math
import os
import re
import sys

import diagram
from crates import TOP
from svg import FAINT, FRAME, INK, Picture

PAGE, FOLDER = f"{TOP}/docs/PERFORMANCE.md", f"{TOP}/docs/pictures"
COLORS = ["#0969da", "#bf8700", "#1a7f37", "#8250df", "#cf222e"]
LEFT, RIGHT, WIDTH, BAR, GAP = 230, 70, 860, 11, 9


def sections():
    """The tables of each section of the page: rows of cells."""
    found, name, rows = {}, "", []
    with open(PAGE, encoding="utf-8") as file:
        for line in [*file.read().splitlines(), ""]:
            if line.startswith("## "):
                name = line[3:]
            if line.startswith("|"):
                rows.append([cell.strip() for cell in line.strip("|").split("|")])
            elif rows:
                found.setdefault(name, []).append(
                    [row for row in rows if not all(re.fullmatch("-*", it) for it in row)]
                )
                rows = []
    return found


def figures(cell):
    """The numbers of a cell."""
    return [float(it.replace(",", "")) for it in re.findall(r"\d+(?:,\d{3})*(?:\.\d+)?", cell)]


def figure(cell):
    return figures(cell)[0]


def pair(cell):
    """The two numbers of a cell that has ticurses' and then the other program's, with a comma between."""
    return tuple(figure(it) for it in cell.split(":")[0].split(", "))


# Each chart: its groups, each with a label and bars; a bar is a series, a ratio, and perhaps the greatest of a range.


def reading(tables):
    rows = {row[0]: row[1:] for row in tables[0][1:]}
    own = rows["`./ticurses infocmp FILE:NAME`"]
    return [
        (
            label.split(": ", 1)[-1].replace("`", ""),
            [(tables[0][0][at + 1], figure(cell) / figure(own[at])) for at, cell in enumerate(cells)],
        )
        for label, cells in rows.items()
        if label.startswith("ncurses")
    ]


def resolving(tables):
    rows = tables[0][1:]
    first = figure(rows[0][1]) / figure(rows[0][0])
    return [(f"{row[0]} uses", [("", first / (figure(row[1]) / figure(row[0])))]) for row in rows]


def beside(names, row, first):
    """The bars of a row which has, from a column on, a figure of each peer and the ratio after it."""
    return [(names[at], figure(row[at + 1])) for at in range(first, len(names), 2)]


def ratios(names, row, first, at):
    """The bars of a row whose cells have, from a column on, several ratios of a peer; `at` is the place of the one."""
    cells = [(name, cell.split(" / ")[at]) for name, cell in zip(names[first:], row[first:], strict=True)]
    return [(name, figure(cell)) for name, cell in cells if cell != "-"]


def feeding(tables):
    names, *rows = tables[0]
    return [(f"{row[0]}, {row[1]}", ratios(names, row, 3, 1)) for row in rows]


def expanding(tables):
    names, *rows = tables[0]
    return [(row[0].replace("`", ""), beside(names, row, 3)) for row in rows if row[1] == "instructions"]


def checking(tables):
    return [(f"{row[0].replace('`', '')}, {row[1]}", [("", figure(row[8]) / figure(row[4]))]) for row in tables[0][1:]]


def verifying(tables):
    return [(f"{row[0].replace('`', '')}, {row[1]}", [("", figure(row[6]) / figure(row[4]))]) for row in tables[0][1:]]


def sending(tables):
    groups = []
    for table in tables[:1]:
        for row in table[1:]:
            pairs = [pair(cell) for cell in row[1:]]
            if all(own for own, _ in pairs):
                groups.append((row[0], [(table[0][at + 1], other / own) for at, (own, other) in enumerate(pairs)]))
    return groups


def program(tables):
    """The scenes that draw; the last column is for programs of curses.h, whose cells have another form."""
    names, *rows = tables[0]
    return [
        (row[0], ratios(names[:-1], row[:-1], 3, 1)) for row in rows if row[1] == "24 by 80" and row[0] != "open"
    ]


def playing(tables):
    groups = []
    for row in tables[0][1:]:
        label = groups[-1][0] if row[0] == "the same" else re.sub(r", [\d,]+ refreshes$", "", row[0])
        bar = (row[1].strip("`"), figure(row[3]) / figure(row[2]))
        if row[0] == "the same":
            groups[-1][1].append(bar)
        else:
            groups.append((label, [bar]))
    for row in tables[1][1:]:
        for at in (1, 3, 5):
            size = tables[1][0][at].split(",")[0]
            groups.append(
                (
                    f"{row[0]}, {size}",
                    [
                        (tables[1][0][at + it].split("`")[1], pair(row[at + it])[1] / pair(row[at + it])[0])
                        for it in (1, 0)
                    ],
                )
            )
    return groups


CHARTS = [
    (
        "reading",
        "Reading a source and printing an entry",
        "the time of ncurses' tic to that of ticurses infocmp",
        reading,
    ),
    (
        "resolving",
        "Resolving",
        "the time for a use among 20,000 to that among more; at 1 the whole time grows linearly",
        resolving,
    ),
    ("feeding", "Feeding the terminal", "the time of another terminal to that of ticurses feed", feeding),
    (
        "expanding",
        "Expanding a parameter string",
        "the instructions of ncurses' tparm or of unibilium to those of ticurses",
        expanding,
    ),
    (
        "checking",
        "Checking an entry",
        "the time of tic -c, which looks for other faults, to that of ticurses check",
        checking,
    ),
    ("verifying", "Verifying a certificate", "the time of sha256sum to that of ticurses verify", verifying),
    ("sending", "What a refresh sends", "the bytes of ncurses to those of ticurses, at 24 by 80", sending),
    ("program", "A C program", "the instructions of another library to those of ticurses, at 24 by 80", program),
    ("playing", "Playing a script", "the time of ncurses to that of ticurses", playing),
]


class Scale:
    """A logarithmic scale from a power of ten (or of two, where that is enough) to another."""

    def __init__(self, values):
        low, high = min([*values, 1]), max([*values, 1])
        self.base = 2 if high / low <= 20 else 10
        # the figure beside the longest bar needs room
        self.first = min(math.floor(math.log(low, self.base) - 0.3), -1)
        self.last = max(math.ceil(math.log(high, self.base) + 0.1), 1)
        self.step = (WIDTH - LEFT - RIGHT) / (self.last - self.first)

    def at(self, value):
        return LEFT + (math.log(value, self.base) - self.first) * self.step

    def marks(self):
        for power in range(self.first, self.last + 1):
            yield self.at(self.base**power), f"{self.base**power:g}"


def shown(value):
    """A ratio with two or three digits that count."""
    return f"{value:.2g}" if value < 0.1 else f"{value:.2f}" if value < 10 else f"{value:.0f}"


def drawn(title, subject, groups):
    """The picture of a chart."""
    picture = Picture(WIDTH, f"{title}: {subject}")
    series = list(dict.fromkeys(bar[0] for _, bars in groups for bar in bars))
    scale = Scale([value for _, bars in groups for bar in bars for value in bar[1:]])
    picture.text(16, 24, title, 15, font_weight="bold")
    picture.text(16, 42, f"A bar is {subject}. To the right of 1 ticurses takes less.", 11, FAINT)
    y = 64
    if series != [""]:
        apart = min(150, (WIDTH - LEFT) // len(series))
        for at, name in enumerate(series):
            picture.box(LEFT + apart * at, y - 9, 10, 10, COLORS[at])
            picture.text(LEFT + apart * at + 15, y, name, 11)
        y += 16
    top = y
    y += 14
    for label, bars in groups:
        picture.text(
            LEFT - 8,
            y + BAR * len(bars) / 2 + 4,
            label if len(label) < 40 else label[:38] + "..",
            11,
            text_anchor="end",
        )
        for bar in bars:
            begin, end = sorted((scale.at(1), scale.at(bar[1])))
            color = COLORS[series.index(bar[0])]
            picture.box(begin, y, max(end - begin, 1), BAR - 2, color, fill_opacity=0.85)
            if len(bar) > 2:
                picture.box(scale.at(bar[1]), y, scale.at(bar[2]) - scale.at(bar[1]), BAR - 2, color, fill_opacity=0.4)
            words = " to ".join(shown(it) for it in bar[1:])
            right = bar[1] >= 1
            picture.text(
                scale.at(bar[-1]) + (4 if right else -4),
                y + BAR - 3,
                words,
                9,
                FAINT,
                text_anchor="start" if right else "end",
            )
            y += BAR
        y += GAP
    for x, label in scale.marks():
        picture.line(x, top + 4, x, y, INK if label == "1" else FRAME, stroke_width=1.2 if label == "1" else 0.6)
        picture.text(x, y + 12, label, 10, FAINT, text_anchor="middle")
    # the lines go behind the bars
    lines = [it for it in picture.elements if it.startswith("<line")]
    picture.elements = lines + [it for it in picture.elements if not it.startswith("<line")]
    return picture.written()


def made():
    """Each picture's file and what is in it."""
    tables = sections()
    charts = {
        f"{FOLDER}/performance-{name}.svg": drawn(title, subject, groups(tables[title]))
        for name, title, subject, groups in CHARTS
    }
    return {**charts, f"{FOLDER}/trust.svg": diagram.drawn()}


def main():
    stale = 0
    for path, text in made().items():
        if sys.argv[1:] == ["--check"]:
            if not os.path.exists(path) or open(path, encoding="utf-8").read() != text:
                print(f"charts: {os.path.relpath(path, TOP)} isn't what the tables say: run tools/charts.py")
                stale = 1
        else:
            os.makedirs(FOLDER, exist_ok=True)
            with open(path, "w", encoding="utf-8") as file:
                file.write(text)
    return stale


if __name__ == "__main__":
    sys.exit(main())
