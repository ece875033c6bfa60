"""alacritty's --ref-test: its grid, which it writes when it ends.

A process serves many cases: when one is over, its screen is pushed into the history, and below it a line that tells its
number. The state that a case leaves beside the screen is then set back. A screen that isn't in the history in the end (the case has
erased it, or was in the alternate screen, which has none) is made again by the next process, which has fewer cases: the
screen of the last one is always there."""

import json
from pathlib import Path

from emulator import need
from screens import Screen, alike
from windows import Windowed

# of the history; the whole of it is written, about 100 bytes for each cell
MOST_LINES, MOST_CELLS = 3000, 160_000
# the background of a line between two screens
BETWEEN = {"r": 17, "g": 34, "b": 51}
# renditions, sets, margins, insert mode, LNM, origin mode, the negative screen, autowrap and the cursor
RESET = b"\030\033[m\033(B\033)B\033*B\033+B\017\033[r\033[4;20l\033[?5;6l\033[?7;25h"


class Alacritty(Windowed):
    name, package, reads, answers_mode = "alacritty", "alacritty", "BDURIfb", False
    COLORS = ["Black", "Red", "Green", "Yellow", "Blue", "Magenta", "Cyan", "White"]
    FLAGS = {"R": (1, "INVERSE"), "B": (2, "BOLD"), "U": (8, "UNDERLINE"), "D": (0x80, "DIM"), "I": (0x100, "HIDDEN")}

    @classmethod
    def played(cls, rows, cols, cases):
        # most cases scroll less than three screens
        size = max(1, cls.history(cols) // (5 * rows))
        for at in range(0, len(cases), size):
            left = dict(enumerate(cases[at : at + size]))
            while left:
                for number, seen in cls.by_one(rows, cols, left).items():
                    yield left.pop(number), seen

    @classmethod
    def by_one(cls, rows, cols, cases):
        """The screens of some of the cases by number, of at least one, by one process; where it fails, by others."""
        emulator = cls(rows, cols)
        try:
            return emulator.screens(cases)
        except Exception as error:  # whatever an emulator fails with is its answer
            if len(cases) == 1:
                return dict.fromkeys(cases, error)
        finally:
            emulator.close()
        return cls.by_one(rows, cols, dict(list(cases.items())[: len(cases) // 2]))

    @classmethod
    def history(cls, cols):
        return min(MOST_LINES, MOST_CELLS // cols)

    def command(self, words):
        need("alacritty")
        settings = {
            "window.dimensions.columns": self.cols, "window.dimensions.lines": self.rows, "window.padding.x": 0, "window.padding.y": 0,
            "scrolling.history": self.history(self.cols), "font.size": 6,
        }  # fmt: skip
        options = [f"{key}={value}" for key, value in settings.items()]
        return ["alacritty", "--config-file", "/dev/null", "--ref-test", "-o", *options, "-e", *words]

    def environment(self):
        return {**super().environment(), "WINIT_UNIX_BACKEND": "x11"}

    def screens(self, cases):
        """Plays all cases, and finds the screens in the grid."""
        cursors = {}
        for number, case in cases.items():
            self.put((self.parted(list(cursors)[-1]) if cursors else b"") + case.data)
            cursors[number] = (*self.cursor(), None)
        lines = self.lines()
        ends = {number: at for at, line in enumerate(lines) for number in self.told(line) if at >= self.rows and number in cases}
        ends[list(cases)[-1]] = len(lines)
        return {number: Screen([self.cells_of(line) for line in lines[at - self.rows : at]], cursors[number]) for number, at in ends.items()}

    def parted(self, number):
        """Pushes the screen and a line with the number into the history, and sets the terminal back."""
        push = b"\033[%dH" % self.rows + b"\n" * self.rows
        colors = b"\033[38;2;%d;%d;%dm" % (number >> 16, number >> 8 & 255, number & 255) + b"\033[48;2;%d;%d;%dm" % tuple(BETWEEN.values())
        line = b"\033[H" + colors + b"M\033[m\033[%dH\n" % self.rows
        tabs = b"\033[3g" + b"".join(b"\033[%dG\033H" % col for col in range(1, self.cols + 1, 8))
        return RESET + push + line + b"\033[?1049l\033[2J" + tabs + b"\033[H\0337"

    @staticmethod
    def told(line):
        """The number that a line between two screens tells."""
        cell = line["inner"][0]
        if cell["c"] != "M" or cell["bg"] != {"Spec": BETWEEN} or "Spec" not in cell["fg"]:
            return []
        return [int.from_bytes(bytes(cell["fg"]["Spec"][part] for part in "rgb"), "big")]

    def lines(self):
        """The lines of its grid, those of the history first."""
        self.peer.close()
        self.process.wait(60)
        raw = json.loads(Path(f"{self.room}/grid.json").read_text(encoding="utf-8"))["raw"]
        lines = raw["inner"][raw["zero"] :] + raw["inner"][: raw["zero"]]
        return lines[: raw["len"]][::-1]

    def cells_of(self, line):
        return [self.cell_of(cell) for cell in line["inner"]]

    def cell_of(self, cell):
        flags = cell["flags"]
        flags = flags["bits"] if isinstance(flags, dict) else flags
        named = {part.strip() for part in flags.split("|")} if isinstance(flags, str) else None
        marks = {mark for mark, (bit, name) in self.FLAGS.items() if (name in named if named is not None else flags & bit)}
        for place, key, default in (("f", "fg", "Foreground"), ("b", "bg", "Background")):
            color = cell[key]
            if "Named" not in color:
                marks.add(f"{place}{color.get('Indexed', 999)}")
            elif color["Named"] in self.COLORS:
                marks.add(f"{place}{self.COLORS.index(color['Named'])}")
            elif color["Named"] != default:
                marks.add(f"{place}999")
        return alike(cell["c"]), frozenset(marks)
