"""Records of strings beside a table worked out by hand, and those of real terminals' strings beside what they are for."""

import re
import shutil
import subprocess
import sys
import tempfile

from trying import TOP, Case, probe, run_cases

TERMINALS = ("xterm", "tmux", "kitty", "linux")
ROWS, COLS = 24, 80
ESCAPES = {b"E": 27, b"e": 27, b"n": 10, b"l": 10, b"r": 13, b"t": 9, b"b": 8, b"f": 12, b"s": 32}
MARGINS = {"free": 0, "calm": 0, "any": 1, "bottom": 2, "top": 3}
MOVES = ("row=", "row+", "row-", "col=", "col+", "col-", "nopend")
ERASURES = ("all", "tail", "head", "rest", "next=")


def decoded(text):
    """The bytes that escapes spell, terminfo(5), but that three octal digits are any byte."""

    def one(found):
        octal, letter, control = found.groups()
        if octal:
            return bytes([int(octal, 8)])
        if control:
            return bytes([127 if control == b"?" else control[0] & 31])
        return bytes([ESCAPES.get(letter, letter[0])])

    return re.sub(rb"\\(?:([0-7]{3})|(.))|\^(.)", one, text.encode("latin-1"), flags=re.S)


def asked(letter, held):
    """A case in the form that the program reads."""
    return letter + len(held).to_bytes(2, "little") + held


def of_string(size, start, string):
    """The case of a string from a start at a size."""
    rows, cols = size
    kind, *narrowed = start.split(",")
    places = {"r": [0, rows - 1], "c": [0, cols - 1]}
    if kind in ("bottom", "top"):
        places["r"] = [1, rows - 1] if kind == "bottom" else [0, rows - 2]
    for word in narrowed:
        low, _, high = word[1:].partition("-")
        places[word[0]] = [int(low), int(high or low)]
    pending = int(kind in ("free", "any"))
    return asked(b"e", bytes([rows, cols, *places["r"], *places["c"], pending, MARGINS[kind]]) + string)


def table():
    """The label, the case and the wanted line of each line of the table, at each of its sizes."""
    with open(f"{TOP}/tests/effects.txt", encoding="ascii") as file:
        lines = [(at, line.rstrip("\n")) for at, line in enumerate(file, 1) if line.strip() and line[0] != "#"]
    sizes = []
    for at, line in lines:
        first, _, left = line.partition(" ")
        label = f"effects.txt line {at}: {line}"
        if first == "at":
            sizes = [tuple(map(int, size.split())) for size in left.split(",")]
        elif first == "text":
            yield label, asked(b"r", left.encode()), left
        elif first == "other":
            yield label, asked(b"r", decoded(left[1:-1])), "none"
        elif first == "both":
            one, two, wanted = re.fullmatch(r"\[(.*)\] \[(.*)\] (.*)", left).groups()
            yield label, asked(b"c", bytes([len(one)]) + one.encode() + two.encode()), wanted
        else:
            string, _, wanted = left.partition(" ")
            for size in sizes:
                yield f"{label} (at {size[0]} {size[1]})", of_string(size, first, decoded(string)), wanted


def uses():
    """The purpose of the certificate's capabilities: name, parameters, start, the words that are wanted, as a regular
    expression, and the beginnings of words that may be there or not. Parameters are a few of those in range."""
    last_row, last_col = ROWS - 1, COLS - 1
    yield "clear", (), "free", "row=0 col=0 nopend all", ()
    for row, col in ((0, 0), (0, last_col), (11, 39), (last_row, last_col)):
        yield "cup", (row, col), "any", f"row={row} col={col} nopend", ()
    yield "home", (), "free", "row=0 col=0 nopend", ()
    yield "cr", (), "free", "col=0 nopend", ()
    for at in (0, 1, last_col):
        yield "hpa", (at,), "free", f"col={at} nopend", ()
    for at in (0, 1, last_row):
        yield "vpa", (at,), "free", f"row={at} nopend", ()
    for n in (1, 2, last_col):
        for name in ("cub", "cub1")[: 2 if n == 1 else 1]:
            yield name, (n,) * (name == "cub"), f"calm,c{n}-{last_col}", f"col-{n}", ("nopend",)
        for name in ("cuf", "cuf1")[: 2 if n == 1 else 1]:
            yield name, (n,) * (name == "cuf"), f"calm,c0-{last_col - n}", rf"col\+{n}", ("nopend",)
    for n in (1, 2, last_row):
        for name in ("cuu", "cuu1")[: 2 if n == 1 else 1]:
            yield name, (n,) * (name == "cuu"), f"calm,r{n}-{last_row}", f"row-{n}", ("nopend",)
        for name in ("cud", "cud1")[: 2 if n == 1 else 1]:
            yield name, (n,) * (name == "cud"), f"calm,r0-{last_row - n}", rf"row\+{n}", ("nopend",)
    for name, word in (("el", "tail"), ("el1", "head"), ("ed", "rest")):
        yield name, (), "calm", word, ("nopend",)
    for n in (1, 2, COLS):
        yield "ech", (n,), "calm", f"next={n}", ("nopend",)
    yield from uses_of_looks()
    yield "enacs", (), "free", "", ("set:",)
    yield "smacs", (), "free", "set:.+", ()
    yield "rmacs", (), "free", "set:.+", ()
    for top, bottom in ((0, 1), (0, last_row), (5, 9)):
        yield "csr", (top, bottom), "any", f"rows:{top},{bottom}", MOVES
    yield "ind", (), "bottom", "up", ("nopend",)
    yield "ri", (), "top", "down", ("nopend",)
    yield "civis", (), "free", "hide", ()
    yield "cnorm", (), "free", "show", ()
    yield "cvvis", (), "free", "", ("show",)
    for name in ("smcup", "rmcup"):
        yield name, (), "free", "", (*MOVES, *ERASURES, "look:", "ink:", "set:")


def uses_of_looks():
    """The purpose of those that turn renditions on and off, and of those that set colors."""
    # standout may be any, and the others are their own rendition or nothing
    alone = ["[01]{6}", "00[01]000", "0000[01]0", "000[01]00", "0[01]0000", "[01]00000", "00000[01]"]
    none = [0] * 9
    yield "sgr", tuple(none), "free", "look:000000", ("ink:dd", "set:")
    for at, look in enumerate(alone):
        yield "sgr", (*none[:at], 1, *none[at + 1 :]), "free", f"look:{look}", ("ink:dd", "set:")
    yield "sgr", (1,) * 7 + (0, 0), "free", "look:[01]{6}", ("ink:dd", "set:")
    yield "sgr", (0,) * 8 + (1,), "free", "look:000000", ("ink:dd", "set:")
    yield "sgr0", (), "free", "look:000000 ink:dd", ("set:",)
    for n in range(8):
        yield "setaf", (n,), "free", rf"ink:{n}\.", ()
        yield "setab", (n,), "free", rf"ink:\.{n}", ()
    yield "op", (), "free", "ink:dd", ()
    own = {"bold": 0, "dim": 1, "smul": 2, "blink": 3, "rev": 4, "invis": 5}
    for name, at in own.items():
        yield name, (), "free", "look:" + r"\." * at + "1" + r"\." * (5 - at), ("set:",)
    yield "smso", (), "free", r"look:[1.]{6}", ("set:",)


def strings_of(terminal):
    """The strings of the system's description of a terminal, by name, with their escapes; None without one."""
    names = [terminal, f"xterm-{terminal}"] if terminal == "kitty" else [terminal]
    for name in names:
        ran = subprocess.run(["infocmp", "-1", name], stdout=subprocess.PIPE, stderr=subprocess.DEVNULL)
        if ran.returncode == 0:
            return name, dict(re.findall(r"^\t(\w+)=(.*),$", ran.stdout.decode("latin-1"), re.M))
    return None


def expanded(terminal, strings, name, params):
    """A string of a terminal, with these parameters."""
    string = re.sub(r"\$<[^>]*>", "", strings[name])
    if not params:
        return decoded(string)
    words = ["tput", "-T", terminal, name, *map(str, params)]
    return subprocess.run(words, stdout=subprocess.PIPE, check=True).stdout


def system_lines():
    """The label, the case and a test of what is printed, for each string of the terminals that the system knows; and the
    names of these."""
    lines, known = [], []
    for terminal in TERMINALS:
        found = strings_of(terminal)
        if not found:
            print(f"effects: {terminal} is skipped, since the system has no description of it")
            continue
        name, strings = found
        known.append(name)
        for cap, params, start, wanted, free in uses():
            # delays with parameters would be sent as padding
            if cap in strings and not (params and "$<" in strings[cap]):
                string = expanded(name, strings, cap, params)
                label = " ".join([name, cap, *map(str, params)]) + f" ({string.hex()})"
                lines.append((label, of_string((ROWS, COLS), start, string), (wanted, free)))
    return lines, known


def is_wanted(printed, wanted, free):
    """Whether the words that must be there are, and beside them only those that may."""
    words = [word for word in printed.split() if word != "-" and not word.startswith(free)]
    return printed[:4] != "none" and bool(re.fullmatch(wanted, " ".join(words)))


def main():
    mine, (theirs, known) = list(table()), ([], [])
    if shutil.which("infocmp") and shutil.which("tput"):
        theirs, known = system_lines()
    else:
        print("effects: the strings of the system's terminals are skipped, since infocmp or tput is missing")
    with tempfile.TemporaryDirectory() as work:
        given = b"".join(case for _, case, _ in mine + theirs)
        printed = run_cases(probe(work, "effects_probe.txt"), [Case(given=given)])[0].out
    printed = printed.decode("latin-1").splitlines()
    if len(printed) != len(mine) + len(theirs):
        sys.exit(f"effects: {len(printed)} lines were printed for {len(mine) + len(theirs)} cases")
    bad = 0
    for (label, _, wanted), line in zip(mine, printed):
        if line != wanted and not (wanted == "none" and re.fullmatch("none [0-9a-f]+", line)):
            bad += 1
            print(f"effects: {label}\neffects:   printed {line}", file=sys.stderr)
    for (label, _, (wanted, free)), line in zip(theirs, printed[len(mine) :]):
        if not is_wanted(line, wanted, free):
            bad += 1
            print(f"effects: {label}\neffects:   printed {line}, expected {wanted or '-'}", file=sys.stderr)
    if bad:
        sys.exit(f"effects: {bad} lines differ")
    summary(mine, theirs, known)


def summary(mine, theirs, known):
    """Prints what was compared."""
    kinds = {letter: [wanted for _, case, wanted in mine if case[:1] == letter] for letter in (b"e", b"r", b"c")}
    texts = {wanted for _, _, wanted in mine} - {"none"}
    print(f"effects: {len(kinds[b'e'])} strings from their starts have the records worked out by hand, {kinds[b'e'].count('none')}")
    print(f"effects: of them none; {len(kinds[b'c'])} pairs of records have that of both. {len(texts)} texts of records read")
    print(f"effects: back, and {kinds[b'r'].count('none')} others are refused")
    if theirs:
        print(f"effects: {len(theirs)} strings of {', '.join(known)} have the records that they are for, each one of them")


main()
