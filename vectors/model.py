"""A model of the terminal T, written from docs/TERMINAL.md: bytes in, a state out.

It shares nothing with the program. A state is printed as `ticurses feed --json` prints it, so that both can be compared
byte by byte."""

import json

MARKS = (1, "B"), (2, "D"), (4, "U"), (5, "K"), (7, "R"), (8, "I")
ENDS = {22: "BD", 24: "U", 25: "K", 27: "R", 28: "I"}
LONGEST = 256
MOST = 65535


class Stuck(Exception):
    """The byte at this place fits nothing."""

    def __init__(self, at):
        super().__init__(at)
        self.at = at


class Pen:
    """A rendition: a set of letters, and two colors, None for the default."""

    def __init__(self, letters=frozenset(), front=None, back=None):
        self.letters, self.front, self.back = letters, front, back

    def text(self):
        return (
            "".join(letter for _, letter in MARKS if letter in self.letters)
            + ("" if self.front is None else f"f{self.front}")
            + ("" if self.back is None else f"b{self.back}")
        )

    def after(self, number):
        """The rendition after one number of SGR."""
        on = dict(MARKS)
        if number == 0:
            return Pen()
        if number in on:
            return Pen(self.letters | {on[number]}, self.front, self.back)
        if number in ENDS:
            return Pen(self.letters - set(ENDS[number]), self.front, self.back)
        if 30 <= number <= 37:
            return Pen(self.letters, number - 30, self.back)
        if number == 39:
            return Pen(self.letters, None, self.back)
        if 40 <= number <= 47:
            return Pen(self.letters, self.front, number - 40)
        if number == 49:
            return Pen(self.letters, self.front, None)
        return self


class Cell:
    """A character, whether it is from the graphic set, and its rendition."""

    def __init__(self, char, graphic, pen):
        self.char, self.graphic, self.pen = char, graphic, pen

    def look(self):
        # the letter of the graphic set stands between those of the marks and the colors
        letters = "".join(letter for _, letter in MARKS if letter in self.pen.letters)
        return letters + ("G" if self.graphic else "") + Pen(frozenset(), self.pen.front, self.pen.back).text()


class Terminal:
    """T at a size, in its reset state until bytes are fed."""

    def __init__(self, rows, cols):
        self.rows, self.cols = rows, cols
        self.cells = [[Cell(" ", False, Pen()) for _ in range(cols)] for _ in range(rows)]
        self.row = self.col = 0
        self.pending = self.insert = False
        self.autowrap = self.visible = True
        self.pen = Pen()
        self.graphic = [False, False]
        self.active = 0
        self.top, self.bottom = 0, rows - 1
        self.open = b""
        self.at = 0

    # -- bytes, one at a time

    def feed(self, data):
        for at, byte in enumerate(data):
            try:
                self.take(byte)
            except ValueError:
                self.open = b""
                raise Stuck(at) from None

    def take(self, byte):
        if byte > 127:
            raise ValueError
        if self.open and byte in (24, 26, 27):
            self.open = b""
        if not self.open:
            if byte == 27:
                self.open = b"\033"
            elif 32 <= byte <= 126:
                self.print(chr(byte))
            else:
                self.control(byte)
            return
        whole = self.open + bytes([byte])
        if self.ends(byte):
            self.open = b""
            self.sequence(whole)
        elif len(whole) < LONGEST and self.goes_on(byte):
            self.open = whole
        else:
            raise ValueError

    def is_control_sequence(self):
        return self.open[1:2] == b"["

    def ends(self, byte):
        """Whether the byte is the last one of the open sequence."""
        if self.is_control_sequence():
            return 0x40 <= byte <= 0x7E
        if len(self.open) == 1 and byte in b"[PX]^_":
            return False
        return 0x30 <= byte <= 0x7E

    def goes_on(self, byte):
        """Whether the open sequence goes on with the byte."""
        if not self.is_control_sequence():
            return 0x20 <= byte <= 0x2F or (len(self.open) == 1 and byte == 0x5B)
        if 0x30 <= byte <= 0x3F:
            # no intermediate byte has come
            return all(0x30 <= other <= 0x3F for other in self.open[2:])
        return 0x20 <= byte <= 0x2F

    # -- printing and controls

    def blank(self):
        return Cell(" ", False, Pen(frozenset(), None, self.pen.back))

    def blanks(self, count):
        return [self.blank() for _ in range(count)]

    def print(self, char):
        if self.pending:
            self.col = 0
            self.line_feed()
        line = self.cells[self.row]
        if self.insert:
            line.insert(self.col, self.blank())
            line.pop()
        line[self.col] = Cell(char, self.graphic[self.active] and "_" <= char, self.pen)
        if self.col + 1 < self.cols:
            self.col += 1
        else:
            self.pending = self.autowrap

    def control(self, byte):
        if byte == 8:
            self.go(self.row, self.col - 1)
        elif byte == 9:
            self.go(self.row, self.col - self.col % 8 + 8)
        elif byte == 10:
            self.line_feed()
        elif byte == 13:
            self.go(self.row, 0)
        elif byte == 14:
            self.active = 1
        elif byte == 15:
            self.active = 0

    # -- places and lines

    def go(self, row, col):
        """The cursor goes to the place, or as near to it as the screen allows, and no wrap is pending."""
        self.row = min(max(row, 0), self.rows - 1)
        self.col = min(max(col, 0), self.cols - 1)
        self.pending = False

    def scroll(self, top, bottom, count):
        """The lines from top to bottom go up by count, or down by -count."""
        height = bottom - top + 1
        for _ in range(min(abs(count), height)):
            del self.cells[top if count > 0 else bottom]
            self.cells.insert(bottom if count > 0 else top, self.blanks(self.cols))

    def line_feed(self):
        self.pending = False
        if self.row == self.bottom:
            self.scroll(self.top, self.bottom, 1)
        elif self.row < self.rows - 1:
            self.row += 1

    def reverse_index(self):
        self.pending = False
        if self.row == self.top:
            self.scroll(self.top, self.bottom, -1)
        elif self.row > 0:
            self.row -= 1

    # -- sequences

    def sequence(self, whole):
        if not whole.startswith(b"\033["):
            self.escape(whole[1:].decode("ascii"))
            return
        final, front = chr(whole[-1]), whole[2:-1].decode("ascii")
        mark = front[:1] if front[:1] in tuple("<=>?") else ""
        digits = front[len(mark) :]
        if any(char not in "0123456789;" for char in digits):
            return
        numbers = [min(int(word), MOST) if word else None for word in digits.split(";")]
        if mark == "?" and final in "hl":
            for number in numbers:
                self.private_mode(number or 0, final == "h")
        elif not mark:
            self.function(final, numbers)

    def escape(self, body):
        if body == "D":
            self.line_feed()
        elif body == "E":
            self.go(self.row, 0)
            self.line_feed()
        elif body == "M":
            self.reverse_index()
        elif body in ("(0", "(B"):
            self.graphic[0] = body == "(0"
        elif body in (")0", ")B"):
            self.graphic[1] = body == ")0"

    def private_mode(self, number, on):
        if number == 7:
            self.autowrap = on
            self.pending = self.pending and on
        elif number == 25:
            self.visible = on

    def function(self, final, numbers):
        if final == "m":
            for number in numbers:
                self.pen = self.pen.after(number or 0)
        elif final in "hl":
            for number in numbers:
                if number == 4:
                    self.insert = final == "h"
        elif final in "Hf" and len(numbers) <= 2:
            row, col = (numbers + [None])[:2]
            self.go((row or 1) - 1, (col or 1) - 1)
        elif final == "r" and len(numbers) <= 2:
            top, bottom = (numbers + [None])[:2]
            self.margins((top or 1) - 1, min(bottom or self.rows, self.rows) - 1)
        elif len(numbers) == 1:
            self.of_one(final, numbers[0])

    def margins(self, top, bottom):
        if top < bottom:
            self.top, self.bottom = top, bottom
            self.go(0, 0)

    def of_one(self, final, number):
        if final in "JK":
            self.erase(final, number or 0)
            return
        count = number or 1
        line = self.cells[self.row]
        if final == "A":
            self.go(max(self.row - count, self.top if self.row >= self.top else 0), self.col)
        elif final == "B":
            self.go(min(self.row + count, self.bottom if self.row <= self.bottom else self.rows - 1), self.col)
        elif final == "C":
            self.go(self.row, self.col + count)
        elif final == "D":
            self.go(self.row, self.col - count)
        elif final == "G":
            self.go(self.row, count - 1)
        elif final == "d":
            self.go(count - 1, self.col)
        elif final == "X":
            count = min(count, self.cols - self.col)
            line[self.col : self.col + count] = self.blanks(count)
        elif final == "@":
            count = min(count, self.cols - self.col)
            line[self.col : self.col] = self.blanks(count)
            del line[self.cols :]
        elif final == "P":
            count = min(count, self.cols - self.col)
            del line[self.col : self.col + count]
            line.extend(self.blanks(count))
        elif final in "LM":
            if self.top <= self.row <= self.bottom:
                self.scroll(self.row, self.bottom, count if final == "M" else -count)
                self.go(self.row, 0)
        elif final in "ST":
            self.scroll(self.top, self.bottom, count if final == "S" else -count)

    def erase(self, final, number):
        if number > 2:
            return
        first, last = [(self.col, self.cols - 1), (0, self.col), (0, self.cols - 1)][number]
        self.cells[self.row][first : last + 1] = self.blanks(last - first + 1)
        if final == "J":
            for row in range(self.rows):
                if (row > self.row and number != 1) or (row < self.row and number != 0):
                    self.cells[row] = self.blanks(self.cols)

    # -- the state as JSON

    def runs(self):
        """Each run of cells in a row that have one look: row, first and last column, look."""
        for row, line in enumerate(self.cells):
            first = 0
            for col, cell in enumerate(line):
                if col + 1 == self.cols or line[col + 1].look() != cell.look():
                    if cell.look():
                        yield [row, first, col, cell.look()]
                    first = col + 1

    def state(self):
        return {
            "active": f"g{self.active}",
            "autowrap": self.autowrap,
            "cursor": [self.row, self.col],
            "g0": "graphic" if self.graphic[0] else "plain",
            "g1": "graphic" if self.graphic[1] else "plain",
            "insert": self.insert,
            "looks": list(self.runs()),
            "margins": [self.top, self.bottom],
            "open": self.open.hex(),
            "pending": self.pending,
            "rendition": self.pen.text(),
            "rows": ["".join(cell.char for cell in line) for line in self.cells],
            "size": {"cols": self.cols, "rows": self.rows},
            "visible": self.visible,
        }


def object_of(name, data, rows, cols):
    """The line that `ticurses feed --cases` prints for a case."""
    terminal = Terminal(rows, cols)
    told = {"name": name}
    try:
        terminal.feed(data)
    except Stuck as stuck:
        told["stuck"] = stuck.at
    return json.dumps({**told, **terminal.state()}, separators=(",", ":"))
