"""Writes the vectors: cases and, beside them, the states that the model gives.   vectors/make.py [FOLDER]

Each case is a name and a stream of bytes that is fed to a terminal in its reset state. The names of a file's cases begin
with what the file is about; the part after the slash tells the cases apart."""

import random
import sys
from pathlib import Path

from model import object_of

HERE = Path(__file__).resolve().parent
ROWS, COLS = 6, 20
# a letter, a digit and a sign of the graphic set in each line, so that each line and each column differs from the others
FILL = b"".join(
    b"\033[%dH" % (row + 1) + bytes(97 + (7 * row + col) % 26 if col % 5 else 48 + row for col in range(COLS)) for row in range(ROWS)
)


def at(row, col):
    """CUP to a place that is counted from 1."""
    return b"\033[%d;%dH" % (row, col)


def csi(final, *numbers):
    return b"\033[" + b";".join(b"" if number is None else b"%d" % number for number in numbers) + final.encode()


# each function with the numbers that are tried everywhere
FUNCTIONS = {
    "print": [b"X", b"XY"],
    "BS": [b"\b", b"\b\b"],
    "HT": [b"\t", b"\t\t"],
    "LF": [b"\n", b"\n\n"],
    "CR": [b"\r"],
    "IND": [b"\033D"],
    "NEL": [b"\033E"],
    "RI": [b"\033M", b"\033M\033M"],
    "CUU": [csi("A"), csi("A", 3), csi("A", 99)],
    "CUD": [csi("B"), csi("B", 3), csi("B", 99)],
    "CUF": [csi("C"), csi("C", 4), csi("C", 99)],
    "CUB": [csi("D"), csi("D", 4), csi("D", 99)],
    "CHA": [csi("G"), csi("G", 7), csi("G", 99)],
    "VPA": [csi("d"), csi("d", 4), csi("d", 99)],
    "CUP": [csi("H"), csi("H", 4, 7), csi("H", 99, 99)],
    "HVP": [csi("f", 3), csi("f", None, 9)],
    "EL": [csi("K"), csi("K", 1), csi("K", 2)],
    "ED": [csi("J"), csi("J", 1), csi("J", 2)],
    "ECH": [csi("X"), csi("X", 5), csi("X", 99)],
    "ICH": [csi("@"), csi("@", 5), csi("@", 99)],
    "DCH": [csi("P"), csi("P", 5), csi("P", 99)],
    "IL": [csi("L"), csi("L", 2), csi("L", 99)],
    "DL": [csi("M"), csi("M", 2), csi("M", 99)],
    "SU": [csi("S"), csi("S", 2), csi("S", 99)],
    "SD": [csi("T"), csi("T", 2), csi("T", 99)],
    "DECSTBM": [csi("r"), csi("r", 2, 4), csi("r", 3), csi("r", 4, 2)],
    "SGR": [csi("m"), csi("m", 1, 31), csi("m", 7, 44)],
    "SCS": [b"\033(0", b"\033)0", b"\033(B"],
    "SO": [b"\016"],
    "SI": [b"\017"],
    "DECAWM": [b"\033[?7l", b"\033[?7h", b"\033[?7l\033[?7h"],
    "IRM": [b"\033[4h", b"\033[4l"],
    "DECTCEM": [b"\033[?25l"],
}

# the control sequences of counts and places, by their final bytes
FINALS = {
    "A": "CUU", "B": "CUD", "C": "CUF", "D": "CUB", "G": "CHA", "d": "VPA", "H": "CUP", "f": "HVP", "J": "ED", "K": "EL", "X": "ECH",
    "@": "ICH", "P": "DCH", "L": "IL", "M": "DL", "S": "SU", "T": "SD", "r": "DECSTBM",
}  # fmt: skip

# what stands before a function, for the pairs; the screen is full
WRAP = [at(3, COLS) + b"Z", at(ROWS, COLS) + b"Z"]
MARGINS = [b"\033[2;5r" + at(row, 6) for row in (1, 2, 3, 5, 6)]
INSERT = [b"\033[4h" + at(3, 6), b"\033[4h" + at(3, COLS) + b"Z"]
SETS = [b"\033(0" + at(3, 6) + b"q", b"\033)0\016" + at(3, 6) + b"q"]
BACKGROUNDS = [b"\033[44m" + at(3, 6), b"\033[1;4;7;31;42m" + at(3, 6), b"\033[2;5;8;36m" + at(ROWS, 6)]
NO_WRAP = [b"\033[?7l" + at(3, COLS - 1) + b"Z"]
EDGES = [at(1, 1), at(1, COLS), at(ROWS, 1), at(ROWS, COLS), at(3, 9)]


def by_function():
    """Each function alone: on an empty screen, and on a full one from the corners and the middle."""
    for name, tries in FUNCTIONS.items():
        for data in tries:
            yield name, data + b"X"
            for edge in EDGES:
                yield name, FILL + edge + data


def with_situation(situations, fill=FILL):
    """Each function in each situation, and a character after it."""
    for name, tries in FUNCTIONS.items():
        for data in tries:
            for before in situations:
                yield name, fill + before + data + b"X"


def by_numbers():
    """The numbers that a function takes: none, 0, empty ones, too many, leading zeros, above 65535; marks and other bytes."""
    start = FILL + at(3, 6)
    for final, name in FINALS.items():
        for body in ("", "0", "00", "1", "002", ";", ";;", "2;", ";2", "2;3", "2;3;4", "65535", "65536", "99999999999", "3", "5"):
            yield name, start + b"\033[" + body.encode() + final.encode() + b"X"
        for body in ("?1", ">1", "=1", "<1", "1?", "1:2", "1 ", "1!", "1$"):
            yield name, start + b"\033[" + body.encode() + final.encode() + b"X"


def by_rendition():
    """SGR: each number, lists of numbers, and what ends what."""
    for number in [*range(0, 110), 255, 256, 65535, 65536, 70000]:
        yield "SGR", b"\033[1;2;4;5;7;8;31;42mA\033[%dmB" % number
        if number < 50:
            yield "SGR", b"\033[%dmA" % number
    for body in (";", ";1", "1;", "1;;4", "1;22", "2;22", "1;2;22", "38;5;1", "48;5;4", "38;2;4;7;1", "38:5:1", "4:3", "?1", ">4;2", "0" * 40 + "1"):
        yield "SGR", b"A\033[7m\033[" + body.encode() + b"mB"
    for count in (12, 16, 17, 32, 33, 60):
        yield "SGR", b"\033[" + b"0;" * (count - 1) + b"1mA"
    for one in (1, 2, 4, 5, 7, 8):
        for end in (22, 24, 25, 27, 28):
            yield "SGR", b"\033[%dmA\033[%dmB" % (one, end)


def by_modes():
    """SM and RM: one mode and several, unknown ones, with and without the question mark."""
    for body in ("4", "7", "25", "?4", "?7", "?25", "?7;25", "?25;7", "?12;25", "?1;7;9", "4;20", "20;4", "", "?", "?;7", "?1049", ">4", "?7;", "4;4"):
        for final in "hl":
            for before in (b"", b"\033[?7;25l\033[4h"):
                yield "modes", before + b"\033[1;%dHab" % COLS + b"\033[" + body.encode() + final.encode() + b"cd\rZ"
    for between in (b"", b"\033[?7h", b"\b", b"\033[C"):
        yield "DECAWM", at(2, COLS - 1) + b"ab" + b"\033[?7l" + between + b"c\033[?7hd"


def by_sets():
    """The graphic set: each byte in it, G0 and G1, and what designates and selects."""
    for first in range(32, 127, 19):
        yield "SCS", b"\033(0" + bytes(range(first, min(first + 19, 127)))
    for word in (b"\033(0", b"\033)0", b"\033(B", b"\033)B", b"\016", b"\017"):
        for then in (b"\033(0", b"\033)0", b"\033(B", b"\033)B", b"\016", b"\017"):
            yield "SCS", b"q" + word + b"q" + then + b"q_^\017q"
    for word in (b"\033*0", b"\033+0", b"\033(A", b"\033(1", b"\033n", b"\033o", b"\033~", b"\033(%5", b"\033N", b"\033O"):
        yield "SCS", b"\033)0" + word + b"q\016q"


def by_sequence():
    """How bytes fall into sequences: dropped, ignored, open and stuck ones."""
    for start in (b"\033", b"\033[", b"\033[3", b"\033[3;", b"\033[?", b"\033[3 ", b"\033(", b"\033#", b"\033 F"[:2], b"\033[1;2;3$"):
        yield "open", b"ab" + start
        for cut in (b"\030", b"\032", b"\033"):
            yield "dropped", b"ab" + start + cut + (b"[2CX" if cut == b"\033" else b"X")
        for byte in (0, 5, 7, 8, 9, 10, 13, 14, 31, 127, 128, 155, 255):
            yield "stuck-inside", b"ab" + start + bytes([byte]) + b"cd"
    for byte in (0, 1, 5, 7, 11, 12, 16, 17, 19, 24, 26, 28, 31, 127):
        yield "no-effect", b"\033[4m" + at(2, COLS) + b"Z" + bytes([byte]) + b"X"
    for byte in (128, 132, 133, 141, 155, 160, 195, 226, 255):
        yield "stuck-outside", b"ab" + bytes([byte]) + b"cd"
    for byte in b"PX]^_":
        yield "string", b"ab\033" + bytes([byte]) + b"0;title\007cd"
    for byte in b"78=>cHNOZ\\`abn|}~\x30":
        yield "ignored-escape", at(2, COLS) + b"Z\033" + bytes([byte]) + b"X"
    for body in ("a", "b", "e", "g", "i", "n", "p", "q", "s", "t", "u", "x", "E", "F", "I", "Z", "`", "{", "|", "}", "~"):
        yield "ignored-control", FILL + at(2, 4) + b"\033[2" + body.encode() + b"X"
    for body in ("!p", " q", "?6h", "?1049h", "?2004h", "22;0;0t", ">c", "?25$p", "1;2;3;4;5;6y", "4;5 A"):
        yield "ignored-control", FILL + at(2, 4) + b"\033[" + body.encode() + b"X"
    for intermediate in (b"#8", b"(C", b" F", b"%G", b"*0", b"(\"0", b"!!!0"):
        yield "ignored-escape", b"ab\033" + intermediate + b"cd"
    for count in (252, 253, 254, 255):
        yield "longest", b"a\033[" + b"0" * count + b"Xb"
        yield "longest", b"a\033" + b"(" * count + b"0b"
    for bad in (b"\033[?1;\0332h", b"\033[1\033[2\033[3CX", b"\033\033\033[2CX", b"\033[1 1C", b"\033[ ;C", b"\033[1?2C"):
        yield "mixed", b"ab" + bad + b"cd"


def at_random(seed=61, count=300):
    """Sessions of many functions, one after another."""
    chance = random.Random(seed)
    words = [data for tries in FUNCTIONS.values() for data in tries if data != b"\033[?25l"]
    for _ in range(count):
        data = FILL if chance.random() < 0.5 else b""
        for _ in range(chance.randrange(5, 40)):
            kind = chance.random()
            if kind < 0.45:
                data += bytes(chance.randrange(32, 127) for _ in range(chance.randrange(1, 12)))
            elif kind < 0.6:
                data += at(chance.randrange(1, ROWS + 2), chance.randrange(1, COLS + 2))
            elif kind < 0.7:
                data += csi("m", *(chance.choice([0, 1, 2, 4, 5, 7, 8, 22, 24, 27, 31, 36, 39, 42, 47, 49]) for _ in range(chance.randrange(1, 4))))
            elif kind < 0.74:
                data += csi("r", *sorted(chance.sample(range(1, ROWS + 1), 2)))
            else:
                data += chance.choice(words)
        yield "session", data


def at_size(rows, cols):
    """The smallest and larger screens: a filled screen, scrolling and margins."""
    fill = b"".join(b"\033[%dH" % (row + 1) + bytes(65 + (row + col) % 26 for col in range(cols)) for row in range(rows))
    yield "filled", fill + b"!"
    yield "last", fill + b"\033[%d;%dHZ" % (rows, cols)
    for name, tries in FUNCTIONS.items():
        for data in tries[-2:]:
            yield name, fill + b"\033[1;%dr" % max(rows - 1, 2) + b"\033[%d;%dH" % (rows // 2, cols) + data + b"X"


# each file: its size, and its cases
FILES = {
    "functions": (ROWS, COLS, by_function),
    "wrap-pending": (ROWS, COLS, lambda: with_situation(WRAP)),
    "margins": (ROWS, COLS, lambda: with_situation(MARGINS)),
    "insert-mode": (ROWS, COLS, lambda: with_situation(INSERT)),
    "sets": (ROWS, COLS, lambda: with_situation(SETS)),
    "backgrounds": (ROWS, COLS, lambda: with_situation(BACKGROUNDS)),
    "no-autowrap": (ROWS, COLS, lambda: with_situation(NO_WRAP)),
    "numbers": (ROWS, COLS, by_numbers),
    "renditions": (4, COLS, by_rendition),
    "modes": (4, COLS, by_modes),
    "graphic-set": (4, COLS, by_sets),
    "sequences": (ROWS, COLS, by_sequence),
    "sessions": (ROWS, COLS, at_random),
    "smallest": (2, 2, lambda: at_size(2, 2)),
    "odd-size": (5, 9, lambda: at_size(5, 9)),
    "full-size": (24, 80, lambda: at_size(24, 80)),
}


def named(cases):
    """The cases with names of their own, each stream once."""
    seen, counts = set(), {}
    for name, data in cases:
        if data not in seen:
            seen.add(data)
            counts[name] = counts.get(name, 0) + 1
            yield f"{name}/{counts[name]}", data


def main():
    folder = Path(sys.argv[1]) if len(sys.argv) > 1 else HERE
    folder.mkdir(parents=True, exist_ok=True)
    total = 0
    for name, (rows, cols, cases) in FILES.items():
        stem = folder / f"{name}-{rows}x{cols}"
        found = list(named(cases()))
        total += len(found)
        Path(f"{stem}.cases").write_text("".join(f"{case} {data.hex() or '-'}\n" for case, data in found), encoding="ascii")
        states = "".join(object_of(case, data, rows, cols) + "\n" for case, data in found)
        Path(f"{stem}.states").write_text(states, encoding="ascii")
    print(f"vectors: {total} cases in {len(FILES)} files")


if __name__ == "__main__":
    main()
