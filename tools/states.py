"""States of the terminal, read from the words after `start: `, `wanted: ` and `seen: ` of a report.

A state is a dictionary: `cursor` (row and column), `pending` (the next character wraps), `region` (the first and the last
row that scroll; None is the whole screen), `marks` (the parts of the rendition that are on), `fore` and `back` (names of
colors; None is the default), `sets` (whether G0 and G1 are the line drawing set, and which of them is active), `hidden`
(the cursor), `graphic` (whether the active set is the line drawing set), and `cells`, the cells that are no longer those of the start: what they are now, from where to where in
reading order, and how many; None if there are none. A state that is wanted also has `free`, the keys of which nothing is
asked; there `most` among them says that of the marks each may be off, and `reset` that a color may become the default."""

import re

MARKS = ["bold", "dim", "underlined", "blinking", "reverse", "invisible"]
NAMES = ["black", "red", "green", "yellow", "blue", "magenta", "cyan", "white"]
KEYS = ["cells", "cursor", "pending", "region", "marks", "fore", "back", "graphic", "sets", "hidden"]
PLAIN_SETS = (False, False, 0)
# the marks of attributes that have another name among the parameters of sgr
OF_ATTRIBUTES = {"underline": "underlined", "blink": "blinking"}
GRAPHIC = "the line drawing set"


def at_rest():
    """The state after a reset."""
    return {
        "cells": None, "cursor": (0, 0), "pending": False, "region": None, "marks": [], "fore": None, "back": None,
        "graphic": False, "sets": PLAIN_SETS, "hidden": False,
    }  # fmt: skip


def color(name):
    return None if name == "default" else name


def pen(marks, fore, back):
    shown = marks.split()
    return {"marks": [] if shown == ["plain"] else shown, "fore": color(fore or "default"), "back": color(back or "default")}


def place(row, col):
    return int(row), int(col)


LOOK = r"((?:(?!in )\w+ ?)+?)(?: ?in (\w+) on (\w+))?(?=,|$)"
# what each part of the words says, in any order
PARTS = [
    (r"every cell shows '.'", lambda: {}),
    (r"no cell has changed", lambda: {}),
    (
        r"the cell at row (\d+), column (\d+) is (blank|other than before)",
        lambda row, col, now: {"cells": (now.split()[0], place(row, col), place(row, col), 1)},
    ),
    (
        r"(\d+) cells from row (\d+), column (\d+) to row (\d+), column (\d+) are (blank|other than before)",
        lambda count, row, col, last, end, now: {
            "cells": (now.split()[0], place(row, col), place(last, end), int(count))
        },
    ),
    (r"the cursor is at row (\d+), column (\d+)", lambda row, col: {"cursor": place(row, col)}),
    (r"(?:and )?the next character wraps to the next line", lambda: {"pending": True}),
    (r"(?:and )?the next character no longer wraps", lambda: {"pending": False}),
    (r"the scrolling region is rows (\d+) to (\d+)", lambda top, bottom: {"region": place(top, bottom)}),
    (rf"the rendition is {LOOK}", pen),
    (
        rf"G0 is ({GRAPHIC}|the plain set), G1 is ({GRAPHIC}|the plain set), G([01]) is active",
        lambda *sets: {
            "sets": (sets[0] == GRAPHIC, sets[1] == GRAPHIC, int(sets[2])),
            "graphic": sets[int(sets[2])] == GRAPHIC,
        },
    ),
    (r"the cursor is hidden", lambda: {"hidden": True}),
    (r"the cursor is visible", lambda: {"hidden": False}),
]


def state(words, size):
    """The state that the words after `start: ` or `seen: ` name: what they leave out is as after a reset. None if there are
    words among them that say something else."""
    found, rest = at_rest(), words
    for pattern, means in PARTS:
        part = re.search(pattern, rest)
        if part:
            found.update(means(*part.groups()))
            rest = rest[: part.start()] + rest[part.end() :]
    if found["region"] == (0, size["rows"] - 1):
        found["region"] = None
    return found if rest.strip(" ,") == "" else None


def seen(words, start, size):
    """The state that `seen: ` has after a start."""
    after_reset = re.fullmatch(rf"sent after a reset, it makes the rendition {LOOK}", words)
    if after_reset:
        return {**start, **pen(*after_reset.groups())}
    return dict(start) if words == "nothing changes" else state(words, size)


def blank(first, last, size):
    """The cells from the first to the last in reading order, blank."""
    cols = size["cols"]
    return {"cells": ("blank", first, last, (last[0] - first[0]) * cols + last[1] - first[1] + 1)}


def to(*cursor):
    """The cursor at this place, where it has just been put."""
    return {"cursor": (int(cursor[0]), int(cursor[1])), "pending": False}


def moved(start, way, count):
    down, right = {"left": (0, -1), "right": (0, 1), "up": (-1, 0), "down": (1, 0)}[way]
    row, col = start["cursor"]
    return to(row + down * int(count), col + right * int(count))


def scrolled(start, way, size):
    """A line more or less in the region: all of its cells may have changed, and one line of them is blank."""
    top, bottom = start["region"] or (0, size["rows"] - 1)
    row = bottom if way == "up" else top
    return blank((row, 0), (row, size["cols"] - 1), size)


def erased(start, count, size):
    row, col = start["cursor"]
    return blank((row, col), (row, min(col + int(count), size["cols"]) - 1), size)


def looks(names):
    """The marks that `sgr` asks for: standout may look like any attribute, and each other one by its own mark or not at all."""
    asked = [OF_ATTRIBUTES.get(it, it) for it in names.split() if it != "none"]
    free = {"reset", "marks" if "standout" in asked else "most"}
    return {"marks": [it for it in MARKS if it in asked], "free": free}


def with_mark(start, name):
    return {"marks": [it for it in MARKS if it in start["marks"] or it == name]}


# what the strings of attributes and those around a program may change as well
SETS = {"graphic", "sets"}
ELSE = ", and nothing else changes"
# what is wanted after a start on a screen of a size, for each form of the words
WANTED = [
    (rf"every cell is blank, the cursor is at row 0, column 0{ELSE}", lambda start, size: {
        **blank((0, 0), (size["rows"] - 1, size["cols"] - 1), size), **to(0, 0)}),
    (rf"the cursor is at row (\d+), column (\d+){ELSE}", lambda start, size, row, col: to(row, col)),
    (rf"the cursor is in column (\d+) of its row{ELSE}", lambda start, size, col: to(start["cursor"][0], col)),
    (rf"the cursor is in row (\d+) of its column{ELSE}", lambda start, size, row: to(row, start["cursor"][1])),
    (rf"the cursor moves (left|right|up|down) by (\d+){ELSE}", lambda start, size, way, count: moved(start, way, count)),
    (rf"the cells from the cursor to the end of its row are blank{ELSE}", lambda start, size: erased(
        start, size["cols"], size)),
    (rf"the cells from the start of the row to the cursor are blank{ELSE}", lambda start, size: blank(
        (start["cursor"][0], 0), start["cursor"], size)),
    (rf"the cells from the cursor to the end of the screen are blank{ELSE}", lambda start, size: blank(
        start["cursor"], (size["rows"] - 1, size["cols"] - 1), size)),
    (rf"the cells from the cursor on, as many as (\d+) and at most to the end of its row, are blank{ELSE}",
        lambda start, size, count: erased(start, count, size)),
    (rf"the scrolling region moves (up|down) by one line, the (?:last|first) one is blank{ELSE}",
        lambda start, size, way: scrolled(start, way, size)),
    (r"the scrolling region is rows (\d+) to (\d+), and nothing else but the cursor changes",
        lambda start, size, top, bottom: {
            "region": None if (int(top), int(bottom)) == (0, size["rows"] - 1) else place(top, bottom),
            "free": {"cursor", "pending"}}),
    (rf"the foreground is color (\d+){ELSE}", lambda start, size, at: {"fore": NAMES[int(at)]}),
    (rf"the background is color (\d+){ELSE}", lambda start, size, at: {"back": NAMES[int(at)]}),
    (rf"both colors are default{ELSE}", lambda start, size: {"fore": None, "back": None}),
    (r"no rendition is on, both colors are default, and cells and cursor stay", lambda start, size: {
        "marks": [], "fore": None, "back": None, "free": SETS}),
    (r"just the renditions of these attributes are on: ([\w ]+); both colors stay or become default, and cells and cursor stay",
        lambda start, size, names: {**looks(names), "free": looks(names)["free"] | SETS}),
    (r"(\w+) is on, and no other rendition changes", lambda start, size, name: {
        **with_mark(start, name), "free": SETS}),
    (r"renditions may go on and none goes off, and colors, cells and cursor stay", lambda start, size: {
        "free": {"marks", *SETS}}),
    (r"nothing but the character sets changes", lambda start, size: {"free": SETS}),
    (r"the (line drawing|plain) set is active, and nothing but the character sets changes", lambda start, size, name: {
        "graphic": name == "line drawing", "free": {"sets"}}),
    (rf"the cursor is hidden{ELSE}", lambda start, size: {"hidden": True}),
    (rf"the cursor is visible{ELSE}", lambda start, size: {"hidden": False}),
    (r"nothing changes, but that the cursor may become visible", lambda start, size: {"free": {"hidden"}}),
    (r"cells change by one erasure at most, and the scrolling region and the cursor's visibility stay", lambda start, size: {
        "free": {"cells", "cursor", "pending", "marks", "fore", "back", *SETS}}),
    (r"nothing changes", lambda start, size: {}),
]  # fmt: skip


def wanted(words, start, size):
    """The state that is wanted after a start; None if the words say something else."""
    for pattern, means in WANTED:
        found = re.fullmatch(pattern, words)
        if found:
            return {**start, "free": set(), **means(start, size, *found.groups())}
    return None


def differ(asked, shown):
    """The keys in which a state isn't as it is wanted."""
    free = asked["free"]
    wrong = [key for key in KEYS if key not in free and asked[key] != shown[key]]
    if "most" in free and set(shown["marks"]) <= set(asked["marks"]):
        wrong = [key for key in wrong if key != "marks"]
    if "reset" in free:
        wrong = [key for key in wrong if key not in ("fore", "back") or shown[key] is not None]
    return wrong
