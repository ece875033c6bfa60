"""States drawn as small screens: each different drawing is one symbol of the page, which the faults refer to."""

from states import KEYS

from svg import Picture

WIDTH, HEIGHT, LEFT, TOP = 200, 100, 6, 4
SAMPLE = "next text"
GRAPHIC = dict(zip("jklmnqtuvwx", "┘┐┌└┼─├┤┴┬│"))
STYLES = {"bold": "b", "dim": "d", "underlined": "u", "blinking": "k"}


class Symbols:
    """The drawings of a page, each kept once."""

    def __init__(self):
        self.numbers = {}

    def number(self, drawing):
        return self.numbers.setdefault(drawing, len(self.numbers))

    def written(self):
        return "".join(
            f'<symbol id="s{at}" viewBox="0 0 212 136">{drawing}</symbol>\n' for drawing, at in self.numbers.items()
        )


class Screen:
    """A screen of a size, and the state that it shows. Parts that aren't as wanted have a class of their own."""

    def __init__(self, given, size, wrong=()):
        self.given, self.rows, self.cols, self.wrong = given, size["rows"], size["cols"], set(wrong)
        self.wide, self.high, self.picture = WIDTH / self.cols, HEIGHT / self.rows, Picture(WIDTH, "")

    def mark(self, name, *keys):
        """The class of a part, by whether one of these keys is wrong."""
        return f"{name} w" if self.wrong & set(keys) else name

    def box(self, row, col, cols, rows, name):
        self.picture.add(
            "rect", x=LEFT + col * self.wide, y=TOP + row * self.high, width=cols * self.wide, height=rows * self.high, class_=name
        )

    def cells(self):
        """The cells that have changed, in reading order: the end of a row, whole rows, the beginning of a row."""
        now, (row, col), (last, end), _ = self.given["cells"]
        name = self.mark("e" if now == "blank" else "o", "cells")
        if row == last:
            self.box(row, col, end - col + 1, 1, name)
            return
        first, below = (row, last + 1) if col == 0 else (row + 1, last + 1)
        if col:
            self.box(row, col, self.cols - col, 1, name)
        if end < self.cols - 1:
            below = last
            self.box(last, 0, end + 1, 1, name)
        if below > first:
            self.box(first, 0, self.cols, below - first, name)

    def region(self):
        """Darkens the lines that don't scroll."""
        top, bottom = self.given["region"]
        if top:
            self.box(0, 0, self.cols, top, self.mark("r", "region"))
        if bottom + 1 < self.rows:
            self.box(bottom + 1, 0, self.cols, self.rows - 1 - bottom, self.mark("r", "region"))

    def cursor(self):
        """The cursor, large enough to be seen, with lines to where the eye can count."""
        row, col = self.given["cursor"]
        x, y = LEFT + (col + 0.5) * self.wide, TOP + (row + 0.5) * self.high
        name = self.mark("h" if self.given["hidden"] else "c", "cursor", "hidden", "pending")
        wide, high = max(self.wide, 5), max(self.high, 7)
        self.picture.add("rect", x=x - wide / 2, y=y - high / 2, width=wide, height=high, class_=name)
        if self.given["pending"]:
            self.picture.add("text", "↵", x=x - 3, y=y + high + 4, class_=self.mark("n", "pending"))

    def sample(self):
        """Characters as a program would print them next: in its rendition, in the active set."""
        fore, back = self.given["fore"] or "default", self.given["back"] or "glass"
        if "reverse" in self.given["marks"]:
            fore, back = back, fore
        shown = "".join(GRAPHIC.get(it, it) if self.given["graphic"] else it for it in SAMPLE)
        names = " ".join(STYLES[it] for it in self.given["marks"] if it in STYLES)
        self.picture.add("rect", x=LEFT, y=112, width=98, height=20, class_=f"f-{back}")
        if "invisible" not in self.given["marks"]:
            self.picture.add("text", shown, x=LEFT + 6, y=126, class_=f"t f-{fore} {names}".strip())
        if self.wrong & {"marks", "fore", "back", "graphic"}:
            self.picture.add("rect", x=LEFT - 2, y=110, width=102, height=24, class_="x")

    def drawn(self):
        """The elements of the drawing."""
        self.picture.elements.append('<use href="#g"/>')
        if self.given["cells"]:
            self.cells()
        if self.given["region"]:
            self.region()
        self.cursor()
        self.sample()
        return "".join(self.picture.elements)


def glass():
    """The start of each screen: the glass, full of characters."""
    picture = Picture(WIDTH, "")
    picture.box(0, 0, WIDTH + 12, HEIGHT + 8, None, rx=4, class_="g")
    picture.box(LEFT, TOP, WIDTH, HEIGHT, "url(#f)")
    return (
        '<pattern id="f" width="5" height="6" patternUnits="userSpaceOnUse"><path d="M1 1.5l3 3m0-3l-3 3" class="p"/></pattern>'
        '<pattern id="z" width="6" height="6" patternUnits="userSpaceOnUse"><path d="M0 6l6-6" class="q"/></pattern>'
        f'<g id="g">{"".join(picture.elements)}</g>\n'
    )


# ---- the facts below the screens

FREE = "free"


def fact(key, given, size):
    """One respect of a state, in a word or a few."""
    value = given[key]
    if key == "cells":
        return cells_fact(value, size)
    if key == "cursor":
        return f"row {value[0]}, column {value[1]}"
    if key == "pending":
        return "pending" if value else "not pending"
    if key == "region":
        return f"rows {value[0]} to {value[1]}" if value else "all rows"
    if key == "marks":
        return " ".join(value) or "plain"
    if key in ("fore", "back"):
        return value or "default"
    if key == "graphic":
        return "line drawing" if value else "plain set"
    if key == "sets":
        return ", ".join(f"G{at} {'line drawing' if value[at] else 'plain'}" for at in (0, 1)) + f", G{value[2]} active"
    return "hidden" if value else "visible"


def cells_fact(value, size):
    if value is None:
        return "as before"
    now, first, last, count = value
    shown = "blank" if now == "blank" else "changed"
    if count == size["rows"] * size["cols"]:
        return f"all {shown}"
    return f"{count} {shown}, from {first[0]},{first[1]} to {last[0]},{last[1]}"


LABELS = {
    "cells": "cells", "cursor": "cursor", "pending": "wrap", "region": "scrolling region", "marks": "rendition", "fore": "foreground",
    "back": "background", "graphic": "active set", "sets": "sets", "hidden": "cursor is",
}  # fmt: skip


def facts(start, wanted, seen, size):
    """The respects in which the three states differ: the label, and the words of each."""
    rows = []
    for key in KEYS:
        asked = FREE if wanted is not None and key in wanted["free"] else wanted and wanted[key]
        if asked == FREE and (key == "sets" or seen is None or seen[key] == start[key]):
            continue
        if all(it is None or it[key] == start[key] for it in (wanted, seen)) and asked != FREE:
            continue
        words = [fact(key, start, size), None, seen and fact(key, seen, size)]
        words[1] = "may change" if asked == FREE else wanted and fact(key, wanted, size)
        rows.append((key, LABELS[key], words))
    return rows
