"""The terminal T of docs/TERMINAL.md, run from all starts of a kind at once, by cases.

A start is four numbers: the cursor's row and column, and the rows of the margins. Everything else is carried along
unseen: T never asks what a cell holds, how the next character looks or whether the cursor is visible, and the active set
changes only what is printed. Each number of a state is a constant, or one of the four plus a constant. To compare two
of them, T asks its case, which knows the greatest difference of each pair of the four. If that doesn't decide, the case
is split: one run goes on with the starts for which the answer is yes, another one with the others. So each start is in
exactly one case, and in a case each place is one formula. Changes of cells are kept as a list, in order."""

import functools
import re

NAMES = ("", "row", "col", "top", "bottom")
ZERO, FAR, MOST, LONGEST = ("", 0), 1 << 24, 65535, 256
# looks: bold, faint, underline, blink, negative, concealed; `.` is as at the start
TURNED_ON = {1: 0, 2: 1, 4: 2, 5: 3, 7: 4, 8: 5}
TURNED_OFF = {22: (0, 1), 24: (2, 2), 25: (3, 3), 27: (4, 4), 28: (5, 5)}
# a whole function: a character or control, a control sequence, an escape sequence that begins no string (DCS, SOS, OSC, PM, APC)
WHOLE = re.compile(rb"[\0-\x1a\x1c-\x7f]|\x1b\[[0-?]*[ -/]*[@-~]|\x1b[ -/]+[0-~]|\x1b[0-OQ-WYZ\\`-~]")
OPEN = re.compile(rb"\x1b\[[0-?]*[ -/]*|\x1b[ -/]*")
CONTROL = re.compile(rb"\x1b\[(\??)([0-9;]*)([@-~])")


class Case:
    """The starts of one case, by the greatest differences between their numbers; `asked` has the answers so far."""

    def __init__(self, most, answers=()):
        self.most, self.answers, self.asked = dict(most), answers, []

    def limit(self, left, right, most):
        """Keeps the starts in which `left` less `right` is at most this."""
        known = self.most
        for one, other in list(known):
            known[one, other] = min(known[one, other], known[one, left] + most + known[right, other])

    def at_most(self, one, other):
        """Whether a number is at most another one; splits the case where both happen."""
        left, right, most = one[0], other[0], other[1] - one[1]
        if self.most[left, right] <= most or self.most[right, left] < -most:
            return self.most[left, right] <= most
        answer = (self.answers[len(self.asked) :] or [True])[0]
        self.asked.append(answer)
        self.limit(*((left, right, most) if answer else (right, left, -most - 1)))
        return answer

    def equal(self, one, other):
        return self.at_most(one, other) and self.at_most(other, one)

    def same(self, one, other):
        """Whether two numbers are equal in each start of the case."""
        most = other[1] - one[1]
        return self.most[one[0], other[0]] <= most and self.most[other[0], one[0]] <= -most

    def plain(self, number):
        """The number as a constant, if it is one in each start."""
        low, high = -self.most["", number[0]], self.most[number[0], ""]
        return ("", low + number[1]) if low == high else number


@functools.lru_cache(maxsize=None)
def limits(rows, cols, *others):
    """The differences of all starts of a size, and of those for which all of the others `(left, right, most)` hold."""
    case = Case({(one, other): 0 if one == other else FAR for one in NAMES for other in NAMES})
    sides = [(name, "", cols - 1 if name == "col" else rows - 1) for name in NAMES[1:]]
    for it in [*sides, *(("", name, 0) for name in NAMES[1:]), ("top", "bottom", -1), *others]:
        case.limit(*it)
    return case.most


def every(most, run):
    """The results of a run for each case of these starts."""
    waiting = [[]]
    while waiting:
        case = Case(most, waiting.pop())
        yield run(case)
        waiting += [case.asked[:at] + [False] for at in range(len(case.answers), len(case.asked))]


def split(data):
    """The whole functions of a text, and the place after them; a sequence that CAN, SUB or ESC drops is none."""
    tokens, at = [], 0
    while at < len(data):
        whole, opened = WHOLE.match(data, at), OPEN.match(data, at)
        if whole and whole.end() - at <= LONGEST:
            tokens.append(whole[0])
            at = whole.end()
        elif opened and opened.end() - at < LONGEST and data[opened.end() :][:1] in (b"\x18", b"\x1a", b"\x1b"):
            at = opened.end()
        else:
            break
    return tokens, at


class Terminal:
    """A state of T. `changes` has what happened to its cells, each change with what it leaves in them."""

    def __init__(self, rows, cols, case):
        self.last_row, self.last_col, self.case = ("", rows - 1), ("", cols - 1), case
        self.row, self.col, self.top, self.bottom = ((name, 0) for name in NAMES[1:])
        self.pending, self.wraps, self.inserts = False, True, False
        self.look, self.ink, self.sets, self.cursor = "......", "..", "...", ""
        self.changes, self.has_changed_modes, self.has_moved_margins, self.has_no_word = [], False, False, False

    def run(self, tokens):
        """Runs functions, by their bytes; one that T doesn't have changes nothing."""
        for token in tokens:
            found = CONTROL.fullmatch(token)
            if token in SWITCHES:
                self.sets = put(self.sets, *SWITCHES[token])
            elif token in SINGLE:
                SINGLE[token](self)
            elif len(token) == 1 and 32 <= token[0] <= 126:
                self.write(token[0])
            elif found:
                numbers = [min(int(it), MOST) if it else 0 for it in found[2].split(b";")]
                self.control(found[3].decode(), found[1] == b"?", numbers)
        return self

    def control(self, final, is_private, numbers):
        if final in "hl":
            self.switch(is_private, numbers, final == "h")
        elif is_private:
            return
        elif final == "m":
            self.sgr(numbers)
        elif final in COUNTED and len(numbers) == 1:
            COUNTED[final](self, numbers[0] or 1)
        elif final in "JK" and len(numbers) == 1:
            self.erase(final == "J", numbers[0])
        elif final in "Hf" and len(numbers) <= 2:
            self.place(held(numbers[0] or 1, self.last_row), held((numbers + [0])[1] or 1, self.last_col))
        elif final == "r" and len(numbers) <= 2:
            self.decstbm(numbers[0] or 1, (numbers + [0])[1] or self.last_row[1] + 1)

    def lower(self, one, other):
        return one if self.case.at_most(one, other) else other

    def higher(self, one, other):
        return one if self.case.at_most(other, one) else other

    def place(self, row, col):
        self.row, self.col, self.pending = row, col, False

    def up(self, count):
        edge = self.top if self.case.at_most(self.top, self.row) else ZERO
        self.place(self.higher(plus(self.row, -count), edge), self.col)

    def down(self, count):
        edge = self.bottom if self.case.at_most(self.row, self.bottom) else self.last_row
        self.place(self.lower(plus(self.row, count), edge), self.col)

    def left(self, count):
        self.place(self.row, self.higher(plus(self.col, -count), ZERO))

    def tab(self):
        self.has_no_word |= self.col[0] != ""
        stops = (("", at) for at in range(8, self.last_col[1], 8))
        self.place(self.row, next((at for at in stops if not self.case.at_most(at, self.col)), self.last_col))

    def change(self, kind, *places):
        self.changes.append((kind, *places, (32, "B", "000000", "d", self.ink[1])))

    def scroll(self, count):
        """SU, or SD with a negative count."""
        self.change("scroll", self.top, self.bottom, count)

    def feed(self, count=1):
        """LF and IND, or RI with a count of -1."""
        margin, edge = (self.bottom, self.last_row) if count > 0 else (self.top, ZERO)
        if self.case.equal(self.row, margin):
            self.has_no_word |= self.row != ("row", 0)
            self.scroll(count)
        elif not self.case.equal(self.row, edge):
            self.row = plus(self.row, count)
        self.pending = False

    def next_line(self):
        self.place(self.row, ZERO)
        self.feed()

    def shift_lines(self, count):
        """DL, or IL with a negative count."""
        if self.case.at_most(self.top, self.row) and self.case.at_most(self.row, self.bottom):
            self.change("scroll", self.row, self.bottom, count)
            self.place(self.row, ZERO)

    def shift_cells(self, count):
        """DCH, or ICH with a negative count."""
        self.change("shift", self.row, self.col, count)

    def ech(self, count):
        self.change("erase", self.row, self.col, self.row, self.lower(plus(self.col, count - 1), self.last_col))

    def erase(self, is_screen, part):
        """ED and EL."""
        first = (ZERO if is_screen else self.row, ZERO) if part else (self.row, self.col)
        last = (self.row, self.col) if part == 1 else (self.last_row if is_screen else self.row, self.last_col)
        if part <= 2:
            self.change("erase", *first, *last)

    def decstbm(self, first, last):
        top, bottom = ("", first - 1), held(last, self.last_row)
        if top[1] < bottom[1]:
            self.has_moved_margins |= not (self.case.same(self.top, top) and self.case.same(self.bottom, bottom))
            self.top, self.bottom = top, bottom
            self.place(ZERO, ZERO)

    def switch(self, is_private, numbers, is_on):
        """SM and RM: autowrap, the cursor's visibility, insertion."""
        if is_private and 25 in numbers:
            self.cursor = "show" if is_on else "hide"
        if is_private and 7 in numbers:
            self.wraps, self.pending = is_on, self.pending and is_on
            self.has_changed_modes |= not is_on
        if not is_private and 4 in numbers:
            self.inserts = is_on
            self.has_changed_modes |= is_on

    def sgr(self, numbers):
        for it in numbers:
            if it == 0:
                self.look, self.ink = "000000", "dd"
            elif it in TURNED_ON:
                self.look = put(self.look, TURNED_ON[it], "1")
            elif it in TURNED_OFF:
                self.look = put(put(self.look, TURNED_OFF[it][0], "0"), TURNED_OFF[it][1], "0")
            elif 30 <= it <= 49 and it % 10 != 8:
                self.ink = put(self.ink, it // 10 - 3, "d" if it % 10 == 9 else str(it % 10))

    def write(self, byte):
        """A character, with the active set if it has other signs in the graphic one."""
        if self.pending:
            self.next_line()
        if self.inserts:
            self.shift_cells(-1)
        letter = {"I": self.sets[0], "O": self.sets[1], ".": "?"}[self.sets[2]] if byte >= 95 else "B"
        self.changes.append(("put", self.row, self.col, (byte, letter, self.look, *self.ink)))
        if self.case.equal(self.col, self.last_col):
            self.pending = self.wraps
        else:
            self.col = plus(self.col, 1)


SWITCHES = {b"\33(0": (0, "0"), b"\33(B": (0, "B"), b"\33)0": (1, "0"), b"\33)B": (1, "B"), b"\16": (2, "O"), b"\17": (2, "I")}
SINGLE = {
    **{b"\b": lambda it: it.left(1), b"\t": Terminal.tab, b"\r": lambda it: it.place(it.row, ZERO)},
    **{b"\n": Terminal.feed, b"\33D": Terminal.feed, b"\33E": Terminal.next_line, b"\33M": lambda it: it.feed(-1)},
}
COUNTED = {
    **{"A": Terminal.up, "B": Terminal.down, "D": Terminal.left, "X": Terminal.ech},
    "C": lambda it, count: it.place(it.row, it.lower(plus(it.col, count), it.last_col)),
    **{"G": lambda it, at: it.place(it.row, held(at, it.last_col)), "d": lambda it, at: it.place(held(at, it.last_row), it.col)},
    **{"P": Terminal.shift_cells, "@": lambda it, count: it.shift_cells(-count)},
    **{"M": Terminal.shift_lines, "L": lambda it, count: it.shift_lines(-count)},
    **{"S": Terminal.scroll, "T": lambda it, count: it.scroll(-count)},
}


def held(number, last):
    return "", min(number - 1, last[1])


def plus(number, count):
    return number[0], number[1] + count


def put(text, place, letter):
    return text[:place] + letter + text[place + 1 :]
