"""Screens in one form, and their differences.

A screen has cells (rows of pairs: a character as it looks, and the marks of its look) and a cursor (row, column, and
whether it is visible, or None where that isn't known). Marks: B bold, D faint, U underline, K blink, R negative, I
concealed, f0 to f7 and b0 to b7 the colors. Line drawing is the character that it looks like."""

import re

DRAWN = dict(zip("`abcdefghijklmnopqrstuvwxyz{|}~", "◆▒␉␌␍␊°±␤␋┘┐┌└┼⎺⎻─⎼⎽├┤┴┬│≤≥π≠£·"))
# what emulators draw in place of those, and what they have in an empty cell
ALIKE = {"♦": "◆", "•": "·", "░": "␤", "⋅": "·", "⩾": "≥", "⩽": "≤", "\u00a0": " ", "\0": " ", "": " "}
ON = {1: "B", 2: "D", 4: "U", 5: "K", 7: "R", 8: "I"}
OFF = {22: "BD", 24: "U", 25: "K", 27: "R", 28: "I"}


class Screen:
    """`reads` are the marks that this screen tells, where that isn't known of its emulator."""

    def __init__(self, cells, cursor, reads=None):
        self.cells, self.cursor, self.reads = cells, cursor, reads


def drawn(char, graphic):
    """A character of T as it looks."""
    if not graphic:
        return char
    return " " if char == "_" else DRAWN.get(char, char)


def alike(char):
    return ALIKE.get(char, char)


def marks_in(look):
    return frozenset(re.findall(r"[BDUKRI]|[fb]\d+", look))


def of_state(state):
    """The screen of a state of T."""
    looks = {}
    for row, first, last, look in state["looks"]:
        for col in range(first, last + 1):
            looks[row, col] = look
    cells = [
        [(drawn(char, "G" in looks.get((row, col), "")), marks_in(looks.get((row, col), ""))) for col, char in enumerate(line)]
        for row, line in enumerate(state["rows"])
    ]
    return Screen(cells, (*state["cursor"], state["visible"]))


def seen_marks(char, marks):
    """The marks of a cell that one can see. A blank shows its background, and nothing else of its look unless it is
    underlined or negative; so does a concealed character."""
    if marks & {"R", "U"} or (char != " " and "I" not in marks):
        return marks
    return frozenset(mark for mark in marks if mark[0] == "b" or (mark == "I" and char != " "))


def looks_apart(wanted, seen, reads):
    """Whether two cells of one character look different, as far as the emulator tells. A mark that decides what one can
    see of a cell, and that the emulator doesn't tell, is taken to be as T has it."""
    (char, marks), (other, others) = wanted, seen
    others = others | {mark for mark in marks & {"R", "U", "I"} if mark not in reads}
    one, two = (seen_marks(*cell) for cell in ((char, marks), (other, others)))
    return {mark for mark in one if mark[0] in reads} != {mark for mark in two if mark[0] in reads}


def cell_difference(place, wanted, seen, reads):
    """The visible difference of a cell, in words, or nothing. Marks that are None aren't known."""
    (char, marks), (other, others) = wanted, seen
    hidden = "I" in marks and others is not None
    if alike(char) != alike(other) and not (hidden and alike(other) == " "):
        return f"{place} is {other!r} and not {char!r}"
    if others is not None and looks_apart((alike(char), marks), (alike(char), others), reads):
        return f"{place} {char!r} is {words(others, reads)} and not {words(marks, reads)}"
    return ""


def differences(wanted, seen, reads):
    """The visible differences, in words. `reads` are the marks that the emulator can be asked for."""
    found, reads = [], reads if seen.reads is None else seen.reads
    for row, (one, two) in enumerate(zip(wanted.cells, seen.cells)):
        told = [cell_difference(f"{row},{col}", *cells, reads) for col, cells in enumerate(zip(one, two))]
        found += [words for words in told if words]
    if seen.cursor[:2] != (None, None) and wanted.cursor[:2] != seen.cursor[:2]:
        found.append("the cursor is at {},{} and not at {},{}".format(*seen.cursor[:2], *wanted.cursor[:2]))
    if seen.cursor[2] is not None and wanted.cursor[2] != seen.cursor[2]:
        found.append(f"the cursor is {'visible' if seen.cursor[2] else 'hidden'}")
    return found


def words(marks, reads):
    return "".join(sorted((m for m in marks if m[0] in reads), key=lambda m: ("BDUKRIfb".index(m[0]), m))) or "plain"


def read_sgr(text, rows, cols, once=False):
    """Cells of a text with SGR and character sets in it, as terminals print their screens. With `once` each sequence is
    for the next cell alone. Blanks at the end of a line, which terminals leave out, have looks that aren't known."""
    marks, graphic, cells = set(), False, []
    lines = re.split(r"\r?\n", text)[:rows]
    for line in lines + [""] * (rows - len(lines)):
        row, at = [], 0
        while at < len(line):
            code = re.compile(r"\033\[([\d;:]*)m").match(line, at)
            other = re.compile(r"\033([()#].|\[[?\d;]*[a-ln-zA-Z]|\][^\033\007]*(\007|\033\\))").match(line, at)
            if code:
                change(marks, code.group(1))
                at = code.end()
                continue
            if other:
                graphic = other.group(1) in ("(0", ")0") if other.group(1)[0] in "()" else graphic
                at = other.end()
                continue
            if line[at] in "\016\017":
                graphic = line[at] == "\016"
            elif line[at] != "\r":
                row.append((alike(drawn(line[at], graphic)), frozenset(marks)))
                if once:
                    marks.clear()
            at += 1
        cells.append((row + [(" ", None)] * cols)[:cols])
    return cells


def change(marks, code):
    """The set of marks after an SGR of these numbers."""
    fields = code.split(";")
    numbers = [int(field.split(":")[0] or 0) for field in fields]
    at = 0
    while at < len(numbers):
        number = numbers[at]
        if number == 4 and fields[at].startswith("4:"):
            marks.discard("U")
            marks.update("" if fields[at] == "4:0" else "U")
        elif number == 0:
            marks.clear()
        elif number in ON:
            marks.add(ON[number])
        elif number in OFF:
            marks.difference_update(OFF[number])
        elif number in (38, 48):
            place, kind = ("f" if number == 38 else "b"), numbers[at + 1 : at + 2]
            discard_color(marks, place)
            marks.add(f"{place}{numbers[at + 2]}" if kind == [5] else f"{place}999")
            at += 2 if kind == [5] else 4
        elif 30 <= number <= 49:
            place = "f" if number < 40 else "b"
            discard_color(marks, place)
            marks.update([f"{place}{number % 10}"] if number % 10 < 8 else [])
        elif 90 <= number <= 97 or 100 <= number <= 107:
            place = "f" if number < 100 else "b"
            discard_color(marks, place)
            marks.add(f"{place}{number % 10 + 8}")
        at += 1


def discard_color(marks, place):
    marks.difference_update({mark for mark in marks if mark[0] == place})
