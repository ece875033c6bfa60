"""Random scripts of curses calls, few of which are refused: windows, text, attributes, colors, refreshes."""

import random


class Script:
    """A script for a screen of this size, with colors or without."""

    def __init__(self, seed, colored, rows, cols):
        self.random, self.colored, self.rows, self.cols = random.Random(seed), colored, rows, cols
        self.windows, self.lines = {0: (rows, cols)}, []
        if colored:
            self.lines += [f"init_pair {n} {self.random.randrange(8)} {self.random.randrange(8)}" for n in range(1, 6)]
        for _ in range(self.random.randrange(20, 60)):
            self.add()
        self.lines += ["noutrefresh 0", "noutrefresh %d" % self.window(), "doupdate"]

    def window(self):
        return self.random.choice(list(self.windows))

    def cell(self):
        pick = self.random
        attrs = "".join(letter for letter in "SURKDBIA" if pick.random() < 0.15)
        pair = f":{pick.randrange(6)}" if self.colored and pick.random() < 0.4 else ""
        return f"{pick.choice([32, 32, 43, 46, 64, 90, 97, 106, 113, 120, 126]):02x}" + (f"/{attrs}" if attrs else "") + pair

    def attrs(self):
        return "".join(letter for letter in "SURKDBIA" if self.random.random() < 0.2) or "-"

    def text(self):
        words = ["a", "line", "of words", "qqxx", "0123456789", "  spaced  out ", "~" * 7, "a longer text than its line has room for"]
        return self.random.choice(words)

    def add(self):
        """One more call; a refused one changes nothing that is compared."""
        pick, w = self.random, self.window()
        rows, cols = self.windows[w]
        kinds = [
            lambda: f"move {w} {pick.randrange(rows)} {pick.randrange(cols)}",
            lambda: f"addstr {w} {self.text()}",
            lambda: f"addstr {w} {self.text()}",
            lambda: f"addch {w} {self.cell()}",
            lambda: f"attrset {w} {self.attrs()}",
            lambda: f"attron {w} {self.attrs()}",
            lambda: f"color_set {w} {pick.randrange(6)}" if self.colored else f"attroff {w} {self.attrs()}",
            lambda: f"box {w} - -",
            lambda: f"hline {w} {self.cell()} {pick.randrange(1, cols + 2)}",
            lambda: f"vline {w} - {pick.randrange(1, rows + 2)}",
            lambda: f"{pick.choice(['insch', 'bkgdset', 'bkgd'])} {w} {self.cell()}",
            lambda: f"{pick.choice(['delch', 'insertln', 'deleteln', 'clrtoeol', 'clrtobot', 'erase', 'clear'])} {w}",
            lambda: f"scrollok {w} 1",
            lambda: f"scroll {w} {pick.randrange(-3, 4)}",
            lambda: f"setscrreg {w} {pick.randrange(rows)} {pick.randrange(rows)}",
            lambda: f"refresh {w}",
            lambda: f"refresh {w}",
            lambda: f"noutrefresh {w}",
            lambda: "doupdate",
            lambda: f"curs_set {pick.randrange(3)}",
            self.newwin,
        ]
        self.lines.append(pick.choice(kinds)())

    def newwin(self):
        pick, number = self.random, len(self.windows)
        rows, cols = pick.randrange(1, self.rows), pick.randrange(1, self.cols)
        self.windows[number] = (rows, cols)
        return f"newwin {number} {rows} {cols} {pick.randrange(self.rows - rows + 1)} {pick.randrange(self.cols - cols + 1)}"
