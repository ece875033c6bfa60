"""A small certificate cut at each length, and with each byte set to each other value, beside a plain judge.

The judge cuts the text into lines and words, runs the bytes of a line on a small terminal from each start, and compares the
ends with what the capability's row asks for."""

import functools
import itertools
import re
import struct
import tempfile

from trying import Case, probe, run_cases

ROWS = COLS = 2
TEXT = b"""ticert 2 2 2
clear 1b5b481b5b324a row=0 col=0 nopend all
cup 0 0 1b5b313b3148 row=0 col=0 nopend
cup 0 1 1b5b313b3248 row=0 col=1 nopend
cup 1 0 1b5b323b3148 row=1 col=0 nopend
cup 1 1 1b5b323b3248 row=1 col=1 nopend
sgr0 1b5b6d look:000000 ink:dd
end
"""
ENTRY = dict(re.findall(rb"^(clear|cup \d \d|sgr0) (\w+) ", TEXT, re.M))
PLACES = [b"clear", b"cup 0 0", b"cup 0 1", b"cup 1 0", b"cup 1 1", b"sgr0"]
ASKED = dict(re.findall(rb"^(clear|cup \d \d|sgr0) \w+ (.*)$", TEXT, re.M))
# the words of an effect in their order, each at most once
WORDS = [
    re.compile(it)
    for it in (
        rb"row(=\d+|[+-][1-9]\d*)",
        rb"col(=\d+|[+-][1-9]\d*)",
        rb"nopend",
        rb"all|tail|head|rest|next=[1-9]\d*",
        rb"up|down",
        rb"look:(?!\.{6})[01.]{6}",
        rb"ink:(?!\.\.)[0-7d.]{2}",
        rb"set:(?!\.\.\.)[B0.]{2}[IO.]",
        rb"rows:\d+,\d+",
        rb"show|hide",
    )
]
# inserting and deleting lines or characters, and scrolling by a number: no record is asked for where these occur
UNRECORDED = re.compile(rb"\x1b\[\d*[LM@PST]")


class Fault(Exception):
    """The first thing that is wrong."""


def number_in(word):
    """A decimal number of at most 65535 without leading zeros, or nothing."""
    return int(word) if re.fullmatch(rb"0|[1-9]\d{0,4}", word) and int(word) < 65536 else None


def is_effect(text):
    if text == b"-":
        return True
    places = [[at for at, word in enumerate(WORDS) if word.fullmatch(it)] for it in text.split(b" ")]
    numbers = re.findall(rb"\d+", re.sub(rb"(look|ink|set):\S*", b"", text))
    rising = all(places) and all(low < high for low, high in zip(places, places[1:]))
    return rising and all(number_in(it) is not None for it in numbers)


def key_of(words):
    """The line's capability with its parameters, and how many words that takes; or nothing where no line begins so."""
    name = words[0]
    if name in (b"clear", b"sgr0"):
        return name, 1
    if name == b"cup" and len(words) > 2:
        numbers = [number_in(it) for it in words[1:3]]
        if None not in numbers and max(numbers) < 2:
            return b" ".join(words[:3]), 3
    return None


def tokens_of(data):
    """Whole control functions: printed bytes, controls, escape and control sequences. Raises Fault where they are none."""
    whole = re.compile(rb"[\x00-\x1a\x1c-\x7f]|\x1b\[[0-?]*[ -/]*[@-~]|\x1b[ -/]+[0-~]|\x1b[0-OQ-WYZ`-~\\](?<!\x1b[\[\]^_PX])")
    dropped = re.compile(rb"(?:\x1b\[[0-?]*[ -/]*|\x1b[ -/]*)(?=[\x1b\x18\x1a])")
    found, at = [], 0
    while at < len(data):
        token = dropped.match(data, at) or whole.match(data, at)
        if not token:
            raise Fault("NotWhole")
        if token.re is whole:
            found.append(token[0])
        at = token.end()
    return found


class Terminal:
    """As much of a VT100 as strings of a few bytes ask for, on a screen of 2 by 2."""

    def __init__(self, start):
        self.row, self.col, self.pending, self.top, self.bottom, self.look, self.sets, self.visible, fill = start
        self.cells = [[fill] * COLS for _ in range(ROWS)]
        self.wraps, self.inserts = True, False

    def state(self):
        cells = tuple(map(tuple, self.cells))
        return self.row, self.col, self.pending, self.top, self.bottom, self.look, self.sets, self.visible, cells, self.wraps, self.inserts

    def blank(self):
        return (32, ("d",) * 8, self.look[7])

    def move(self, row, col):
        self.row, self.col, self.pending = max(0, min(ROWS - 1, row)), max(0, min(COLS - 1, col)), False

    def scroll(self, down):
        region = self.cells[self.top : self.bottom + 1]
        new = [self.blank()] * COLS
        self.cells[self.top : self.bottom + 1] = [new, *region[:-1]] if down else [*region[1:], new]

    def feed(self):
        if self.row == self.bottom:
            self.scroll(False)
        elif self.row < ROWS - 1:
            self.row += 1
        self.pending = False

    def show(self, byte):
        if self.pending:
            self.col = 0
            self.feed()
        graphic = self.sets[self.sets[2]] and 95 <= byte <= 126
        if self.inserts:
            self.cells[self.row].insert(self.col, None)
            self.cells[self.row].pop()
        self.cells[self.row] = list(self.cells[self.row])
        self.cells[self.row][self.col] = (byte, self.look, graphic)
        if self.col < COLS - 1:
            self.col += 1
        else:
            self.pending = self.wraps

    def erase(self, places):
        for row, col in places:
            self.cells[row] = list(self.cells[row])
            self.cells[row][col] = self.blank()

    def run(self, token):
        if token[0] == 27:
            if token[1:2] == b"[":
                self.sequence(token[2:])
            else:
                self.escape(token[1:])
        elif 32 <= token[0] < 127:
            self.show(token[0])
        elif token in b"\n":
            self.feed()
        elif token in b"\r":
            self.move(self.row, 0)
        elif token in b"\b":
            self.move(self.row, self.col - 1)
        elif token in b"\t":
            self.move(self.row, COLS - 1)
        elif token in b"\x0e\x0f":
            self.sets = (*self.sets[:2], int(token == b"\x0e"))

    def escape(self, name):
        if name == b"D":
            self.feed()
        elif name == b"E":
            self.move(self.row, 0)
            self.feed()
        elif name == b"M":
            if self.row == self.top:
                self.scroll(True)
            elif self.row > 0:
                self.row -= 1
            self.pending = False
        elif name in (b"(0", b"(B"):
            self.sets = (name == b"(0", *self.sets[1:])
        elif name in (b")0", b")B"):
            self.sets = (self.sets[0], name == b")0", self.sets[2])

    def sequence(self, text):
        final, private, text = text[-1:], text[:1] == b"?", text[:-1]
        numbers = text[private:].split(b";")
        if not re.fullmatch(rb"\??[0-9;]*", text):
            return
        if final in b"mhl":
            for number in numbers:
                self.one_of(final, private, int(number or 0))
            return
        most = 2 if final in b"Hfr" else 1
        if private or len(numbers) > most:
            return
        values = [min(int(it or 0), 65535) for it in numbers] + [0] * (most - len(numbers))
        first = values[0] or 1
        low, high = 0, ROWS - 1
        if final in b"A":
            low = self.top if self.row >= self.top else 0
            self.move(max(low, self.row - first), self.col)
        elif final in b"B":
            high = self.bottom if self.row <= self.bottom else ROWS - 1
            self.move(min(high, self.row + first), self.col)
        elif final in b"C":
            self.move(self.row, self.col + first)
        elif final in b"D":
            self.move(self.row, self.col - first)
        elif final in b"G":
            self.move(self.row, first - 1)
        elif final in b"d":
            self.move(first - 1, self.col)
        elif final in b"Hf":
            self.move(first - 1, (values[1] or 1) - 1)
        elif final in b"KJ":
            self.erase(self.range(final == b"J", values[0]))
        elif final in b"X":
            self.erase([(self.row, col) for col in range(self.col, min(COLS, self.col + first))])
        elif final in b"@P":
            line, kept = list(self.cells[self.row]), self.col
            count = min(first, COLS - kept)
            rest = line[kept:]
            rest = [self.blank()] * count + rest[: len(rest) - count] if final == b"@" else rest[count:] + [self.blank()] * count
            self.cells[self.row] = line[:kept] + rest
        elif final in b"LM":
            if self.top <= self.row <= self.bottom:
                held, self.top = self.top, self.row
                for _ in range(min(first, ROWS)):
                    self.scroll(final == b"L")
                self.top = held
                self.move(self.row, 0)
        elif final in b"ST":
            for _ in range(min(first, ROWS)):
                self.scroll(final == b"T")
        elif final in b"r":
            top, bottom = first - 1, min(values[1] or ROWS, ROWS) - 1
            if top < bottom:
                self.top, self.bottom = top, bottom
                self.move(0, 0)

    def range(self, is_screen, kind):
        here = self.row * COLS + self.col
        first, last = (0, ROWS * COLS) if is_screen else (self.row * COLS, self.row * COLS + COLS)
        if kind > 2:
            return []
        first, last = (here, last) if kind == 0 else (first, here + 1) if kind == 1 else (first, last)
        return [divmod(it, COLS) for it in range(first, last)]

    def one_of(self, final, private, number):
        """One number of SGR, or of a mode."""
        if final == b"m":
            if not private:
                self.turn(number)
        elif private and number == 25:
            self.visible = final == b"h"
        elif private and number == 7:
            self.wraps = final == b"h"
            self.pending = self.pending and self.wraps
        elif not private and number == 4:
            self.inserts = final == b"h"

    def turn(self, number):
        look, marks = list(self.look), {1: 0, 2: 1, 4: 2, 5: 3, 7: 4, 8: 5}
        if number == 0:
            look = [0] * 6 + ["d", "d"]
        elif number in marks:
            look[marks[number]] = 1
        elif number == 22:
            look[0] = look[1] = 0
        elif number - 20 in marks:
            look[marks[number - 20]] = 0
        elif 30 <= number <= 37 or number == 39:
            look[6] = "d" if number == 39 else number - 30
        elif 40 <= number <= 47 or number == 49:
            look[7] = "d" if number == 49 else number - 40
        self.look = tuple(look)


LOOKS = [(0,) * 6 + ("d", "d"), (1,) * 6 + (3, 5)]
SETS = [(False, True, 0), (True, False, 0), (True, False, 1), (False, True, 1)]
FILL = (120, (0,) * 6 + ("d", "d"), False)


def starts():
    """States from which a string is to work. On two lines the only legal margins are the whole screen."""
    for row, col, pending, look, sets, visible in itertools.product((0, 1), (0, 1), (False, True), LOOKS, SETS, (True, False)):
        yield row, col, pending, 0, ROWS - 1, look, sets, visible, FILL


@functools.lru_cache(maxsize=None)
def does(key, data):
    """Whether the bytes' tokens do from each start what the row asks for, and nothing else."""
    for start in starts():
        terminal, wanted = Terminal(start), Terminal(start)
        for token in tokens_of(data):
            terminal.run(token)
        if key == b"clear":
            wanted.move(0, 0)
            wanted.erase(itertools.product(range(ROWS), range(COLS)))
        elif key == b"sgr0":
            wanted.look = LOOKS[0]
            # `set:` is free
            wanted.sets = terminal.sets
        else:
            wanted.move(*map(int, key.split()[1:]))
        if terminal.state() != wanted.state():
            return False
    return True


def judge(text):
    """The answers that are right for a text: `yes`, or those of its first fault."""
    lines = text.split(b"\n")
    sent, place = {}, 0
    for number, line in enumerate(lines, 1):
        is_whole = number < len(lines)
        try:
            if not is_whole:
                raise Fault("BadLine")
            if number == 1:
                if line != b"ticert 2 2 2":
                    raise Fault("BadLine")
            elif line == b"end":
                if place < len(PLACES):
                    raise Fault(f"Missing {PLACES[place].decode()}")
                break
            else:
                place = judge_line(number, line, place, sent)
        except Fault as fault:
            return [f"{number} {it}" for it in str(fault).split("|")]
    # what ends the screen's unknown state begins with ESC: the text of `sgr0`, then that of `clear`
    if bytes.fromhex((sent[b"sgr0"] + sent[b"clear"]).decode())[:1] != b"\x1b":
        return [f"{number} NoResync"]
    if number + 1 < len(lines) and (number + 2 < len(lines) or lines[number]):
        return [f"{number + 1} BadLine"]
    wrong = [it for it in PLACES if sent[it] != ENTRY[it]]
    return [f"Disagree {it.decode()}" for it in wrong] or ["yes"]


def judge_line(number, line, place, sent):
    words = line.split(b" ")
    if re.fullmatch(rb"acsc (-|(?:[0-9a-f]{2})+)", line):
        if number > 2:
            raise Fault("OutOfOrder")
        return place
    found = key_of(words)
    if not found:
        raise Fault("BadLine")
    key, count = found
    effect = b" ".join(words[count + 1 :])
    if len(words) < count + 2 or not re.fullmatch(rb"-|(?:[0-9a-f]{2})+", words[count]) or not is_effect(effect):
        raise Fault("BadLine")
    rank = PLACES.index(key)
    if rank < place:
        raise Fault("OutOfOrder")
    if rank > place:
        raise Fault(f"Missing {PLACES[place].decode()}")
    data = bytes.fromhex(words[count].decode().replace("-", ""))
    tokens = tokens_of(data)
    if not does(key, data):
        # whether there is a record at all is not asked here
        raise Fault("NotTame|NotShown")
    if any(UNRECORDED.fullmatch(it) for it in tokens):
        raise Fault("NotTame")
    wanted = ASKED[key]
    if key == b"sgr0" and any(it in b"\x0e\x0f" or it[1:2] in b"()" for it in tokens):
        raise Fault("NotShown")
    if effect != wanted:
        raise Fault("NotTame|NotShown")
    sent[key] = words[count]
    return rank + 1


def variants(text):
    """The text, each front of it, and the text with each byte set to each other value."""
    yield text
    for size in range(len(text)):
        yield text[:size]
    for at, old in enumerate(text):
        for value in range(256):
            if value != old:
                yield text[:at] + bytes([value]) + text[at + 1 :]


def main():
    texts = list(variants(TEXT))
    allowed = [judge(it) for it in texts]
    given = b"".join(struct.pack("<H", len(it)) + it for it in texts)
    with tempfile.TemporaryDirectory() as work:
        told = run_cases(probe(work, "certificates_altered_probe.txt"), [Case(given=given)])[0].out.decode().splitlines()
    assert len(told) == len(texts), f"{len(told)} answers for {len(texts)} texts"
    wrong = [(text, answer, right) for text, answer, right in zip(texts, told, allowed) if answer not in right]
    for text, answer, right in wrong[:20]:
        print(f"{text!r}: it says {answer}, and {' or '.join(right)} was wanted")
    if wrong:
        raise SystemExit(f"certificates_altered: {len(wrong)} of {len(texts)} texts have another answer")
    right = sum(it == ["yes"] for it in allowed)
    other = sum(it[0].startswith("Disagree") for it in allowed)
    print(f"certificates_altered: {len(texts)} texts, one certificate cut at each length and altered at each byte, have the answers of a plain")
    print(f"certificates_altered: judge: {right} yes, {other} right strings of another entry, the others a fault in its line")


main()
