"""Random scripts of windows that scroll, and of pages that are drawn anew where they have moved, beside a model of the
windows that is made here: after all refreshes the terminal shows the model's screen, and its margins are the whole
screen."""

import random
import re

ROWS, COLS = 12, 24
LETTERS = "abcdefghijklmnopqrstuvwxyzABCDEFGHIJKLMNOPQRSTUVWXYZ0123456789"


class Window:
    def __init__(self, top, left, rows, cols):
        self.top, self.left, self.rows, self.cols = top, left, rows, cols
        self.lines = [" " * cols for _ in range(rows)]
        self.first, self.last = 0, rows - 1

    def scroll(self, by):
        """Scrolls the region's lines up by `by`, or down if it is negative; spaces come in."""
        inside = self.lines[self.first : self.last + 1]
        blanks = [" " * self.cols] * min(abs(by), len(inside))
        kept = inside[len(blanks) :] if by > 0 else inside[: len(inside) - len(blanks)]
        self.lines[self.first : self.last + 1] = kept + blanks if by > 0 else blanks + kept

    def write(self, row, col, text):
        line = self.lines[row]
        self.lines[row] = line[:col] + text + line[col + len(text) :]


class Script:
    """A script of calls without a refusal, and the screen that it leaves: the screen's window is full, and shown."""

    def __init__(self, seed, rows=ROWS, cols=COLS):
        self.pick, self.rows, self.cols = random.Random(seed), rows, cols
        self.windows = {0: Window(0, 0, rows, cols)}
        self.virtual = [" " * cols for _ in range(rows)]
        self.shown, self.lines = list(self.virtual), ["scrollok 0 1", "idlok 0 1"]
        self.fill(0)
        self.refresh(0)

    def add_all(self):
        """Further calls, and a refresh."""
        for _ in range(self.pick.randrange(10, 40)):
            self.add()
        self.refresh(self.pick.choice(list(self.windows)))

    def scroll_once(self, first, last, by):
        """A region scrolls, and is shown."""
        window = self.windows[0]
        window.first, window.last = first, last
        self.lines.append(f"setscrreg 0 {first} {last}")
        self.scroll(0, by)
        self.refresh(0)

    def word(self, length):
        return "".join(self.pick.choice(LETTERS) for _ in range(length))

    def fill(self, w):
        window = self.windows[w]
        for row in range(window.rows):
            self.write(w, row, 0, self.word(self.pick.randrange(1, window.cols)) if window.cols > 1 else "")

    def write(self, w, row, col, text):
        """Text that ends before the line does, so that nothing advances."""
        if text:
            self.lines += [f"move {w} {row} {col}", f"addstr {w} {text}"]
            self.windows[w].write(row, col, text)

    def newline(self, w):
        """A newline at the bottom of the region, which clears to the line's end and scrolls by one."""
        window = self.windows[w]
        col = self.pick.randrange(window.cols)
        self.lines += [f"move {w} {window.last} {col}", f"addch {w} 0a"]
        window.write(window.last, col, " " * (window.cols - col))
        window.scroll(1)

    def scroll(self, w, by):
        self.lines.append(f"scroll {w} {by}")
        self.windows[w].scroll(by)

    def region(self, w):
        window = self.windows[w]
        if window.rows > 1:
            window.first = self.pick.randrange(window.rows - 1)
            window.last = self.pick.randrange(window.first + 1, window.rows)
            self.lines.append(f"setscrreg {w} {window.first} {window.last}")

    def newwin(self):
        number, pick = len(self.windows), self.pick
        rows, cols = pick.randrange(2, self.rows + 1), pick.choice([self.cols, self.cols, pick.randrange(2, self.cols)])
        window = Window(pick.randrange(self.rows - rows + 1), pick.randrange(self.cols - cols + 1), rows, cols)
        self.windows[number] = window
        self.lines += [f"newwin {number} {rows} {cols} {window.top} {window.left}", f"scrollok {number} 1"]
        self.fill(number)

    def move_window(self, w):
        window = self.windows[w]
        window.top, window.left = self.pick.randrange(self.rows - window.rows + 1), self.pick.randrange(self.cols - window.cols + 1)
        self.lines.append(f"mvwin {w} {window.top} {window.left}")

    def copy(self, w, call):
        window = self.windows[w]
        self.lines.append(f"{call} {w}")
        for row, line in enumerate(window.lines, window.top):
            was = self.virtual[row]
            self.virtual[row] = was[: window.left] + line + was[window.left + window.cols :]

    def update(self):
        self.lines.append("doupdate")
        self.shown = list(self.virtual)

    def refresh(self, w):
        self.copy(w, "refresh")
        self.shown = list(self.virtual)

    def add(self):
        pick, w = self.pick, self.pick.choice(list(self.windows))
        window = self.windows[w]
        whole = window.last - window.first + 1
        kinds = [
            lambda: self.scroll(w, pick.choice([1, -1])),
            lambda: self.scroll(w, pick.choice([1, -1, 2, 5, -5, whole, -whole, whole + 3])),
            lambda: self.newline(w),
            lambda: self.region(w),
            lambda: self.write(w, pick.choice([window.first, window.last]), 0, self.word(window.cols - 1)),
            lambda: self.write(w, pick.randrange(window.rows), 0, self.word(pick.randrange(window.cols))),
            lambda: self.fill(w),
            lambda: self.copy(w, "noutrefresh"),
            self.update,
            lambda: self.refresh(w),
            lambda: self.refresh(w),
            lambda: self.refresh(w),
            lambda: self.move_window(w),
            self.newwin,
        ]
        pick.choice(kinds)()


class Pages(Script):
    """A script of pages: each is drawn anew, and most of its lines have moved."""

    def __init__(self, seed, rows=ROWS, cols=COLS):
        super().__init__(seed, rows, cols)
        self.lines += [f"init_pair {pair} {pair} {7 - pair}" for pair in range(1, 6)]
        for _ in range(self.pick.randrange(4, 9)):
            self.pick.choice([self.turn_page, self.turn_page, self.turn_panes, self.edit_line])()
            self.copy(0, "noutrefresh")
            self.update()

    def draw(self, row, text):
        """A line in a look that its text decides, so that it keeps its look where it moves."""
        look = ord((text.strip() or " ")[0]) % 8
        self.lines += [f"attrset 0 {'RB-'[min(look, 2)]}", f"color_set 0 {look if 2 < look < 6 else 0}"]
        self.write(0, row, 0, text[: self.cols - 1])

    def new_text(self):
        return self.word(self.pick.randrange(self.cols)).ljust(self.cols) if self.pick.random() < 0.9 else " " * self.cols

    def turn(self, first, last, by, changed):
        """Draws the lines from `first` to `last` as they were `by` lines below, and new ones where none were, and
        where a line may have `changed`."""
        before = list(self.windows[0].lines)
        for row in range(first, last + 1):
            is_kept = first <= row + by <= last and self.pick.random() >= changed
            self.draw(row, before[row + by] if is_kept else self.new_text())

    def by(self, lines):
        count = self.pick.choice([1, 1, 1, 2, 3, lines // 2, lines * 3 // 4, lines])
        return self.pick.choice([count, -count])

    def turn_page(self):
        """A page between titles and lines of status, some of which change, and perhaps a line within it."""
        first, below = self.pick.choice([0, 0, 1, 2]), self.pick.choice([0, 0, 1, 2])
        last = self.rows - 1 - below
        self.turn(first, last, self.by(last - first + 1), self.pick.choice([0, 0, 0.1, 0.4]))
        for row in [*range(first), *range(last + 1, self.rows)]:
            if self.pick.random() < 0.7:
                self.draw(row, self.new_text())

    def turn_panes(self):
        """Two panes, each drawn anew or scrolled by a call, and a line between them."""
        middle = self.pick.randrange(3, self.rows - 3)
        by = self.by(3)
        for first, last in ((0, middle - 1), (middle + 1, self.rows - 1)):
            if self.pick.random() < 0.5:
                window = self.windows[0]
                window.first, window.last = first, last
                self.lines.append(f"setscrreg 0 {first} {last}")
                self.scroll(0, by)
                self.draw(last if by > 0 else first, self.new_text())
            else:
                self.turn(first, last, by, 0)
            by = self.pick.choice([by, by, -by, self.by(4)])

    def edit_line(self):
        """A line comes or goes in the middle, and another one changes."""
        window, row = self.windows[0], self.pick.randrange(self.rows)
        call, by = self.pick.choice([("insertln", -1), ("deleteln", 1)])
        self.lines += [f"move 0 {row} 0", f"{call} 0"]
        was = window.first, window.last
        window.first, window.last = row, window.rows - 1
        window.scroll(by)
        window.first, window.last = was
        self.draw(self.pick.randrange(self.rows), self.new_text())


def turned(count):
    """So many random scripts of pages that move."""
    return [Pages(seed) for seed in range(count)]


def randomly(count):
    """So many random scripts."""
    scripts = [Script(seed) for seed in range(count)]
    for script in scripts:
        script.add_all()
    return scripts


def each_way():
    """Scrolls up and down by 1, 5, all lines and more, of the screen and of regions at its top, its bottom and within."""
    scripts = []
    for first, last in ((0, ROWS - 1), (0, 7), (4, ROWS - 1), (2, 9)):
        for by in (1, 5, last - first, last - first + 1, ROWS + 3):
            for way in (by, -by):
                scripts.append(Script(len(scripts)))
                scripts[-1].scroll_once(first, last, way)
    return scripts


def stored(lines):
    return "".join(f"{line}\n" for line in lines).encode()


# a scroll within margins, and then another: the margins become the whole screen between them, and the cursor may move
TWICE = re.compile(rb"\x1b\[1;%dr(\x1b\[\d+;\d+H)?\x1b\[\d+;\d+r" % ROWS)


def scrolls_twice(sent):
    """Whether a terminal scrolls in two regions, one after the other, by the bytes that it gets."""
    return bool(TWICE.search(sent))


# what scrolls the whole screen by a line, if its margins are the whole screen, and what shows then
def scrolled_once(sent):
    return sent + b"\x1b[%d;1H\n" % ROWS


def next_screen(lines):
    return [*lines[1:], " " * COLS]
