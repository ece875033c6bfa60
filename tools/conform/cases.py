"""The cases for an emulator: the vectors, random sessions, and the lines of a certificate. The states that are wanted
are those of the vectors' files, and those of the model that made them."""

import json
import random
import re
import sys
from pathlib import Path

# the vectors are beside conform in a package, and beside tools/ in the sources
FOLDERS = [folder / "vectors" for folder in Path(__file__).resolve().parents[1:3]]
VECTORS = next((folder for folder in FOLDERS if folder.is_dir()), FOLDERS[-1])
sys.path.insert(0, str(VECTORS))

from make import at, at_random  # noqa: E402
from model import Stuck, Terminal  # noqa: E402


class Case:
    """A stream of bytes and the state that it leaves on T: a case of a file, about a function in some situation."""

    def __init__(self, place, about, data, state, alone=False):
        (self.file, self.name), (self.group, self.situation) = place, about
        self.data, self.state, self.alone = data, state, alone

    def key(self):
        return self.file, self.name

    def words(self):
        """By which `--only` chooses the case."""
        stem = self.file.removesuffix(".cases")
        return {self.group, self.situation, self.file, stem, self.name, f"{stem}/{self.name}", f"{self.file}/{self.name}"}


class Wrong(Exception):
    """A file that can't be used; the text says why."""


def state_after(data, rows, cols):
    terminal = Terminal(rows, cols)
    terminal.feed(data)
    return terminal.state()


def standing_alone():
    """The cases in which T stands alone, as vectors/alone.txt has them: file and name."""
    lines = (VECTORS / "alone.txt").read_text(encoding="ascii").splitlines()
    return {tuple(line.split(" ")[:2]) for line in lines if not line.startswith("#")}


def of_file(path, alone):
    """The cases of a file of vectors. A case that is stuck on T has no state, and one that leaves a sequence open can't
    be asked for its screen."""
    stem, about = path.stem, path.stem.rsplit("-", 1)[0]
    states = path.with_suffix(".states").read_text(encoding="ascii").splitlines()
    for line, told in zip(path.read_text(encoding="ascii").splitlines(), states):
        (name, digits), state = line.split(" "), json.loads(told)
        if "stuck" not in state and not state["open"]:
            data = b"" if digits == "-" else bytes.fromhex(digits)
            yield Case((path.name, name), (name.split("/")[0], about), data, state, (stem, name) in alone)


def vectors():
    """The cases of the vectors by size."""
    sizes, alone = {}, standing_alone()
    for path in sorted(VECTORS.glob("*.cases")):
        rows, cols = map(int, path.stem.rsplit("-", 1)[1].split("x"))
        sizes.setdefault((rows, cols), []).extend(of_file(path, alone))
    return sizes


def sessions(count, seed):
    """Random sessions, of the kind that the vectors have, at the size of most vectors."""
    cases = [
        Case(("random", f"session/{seed}-{number}"), ("session", "random"), data, state_after(data, 6, 20))
        for number, (_, data) in enumerate(at_random(seed, count), 1)
    ]
    return {(6, 20): [case for case in cases if not case.state["open"]]}


def joined(*parts):
    """Cases by size, of all of these."""
    sizes = {}
    for part in parts:
        for size, cases in part.items():
            sizes.setdefault(size, []).extend(cases)
    return sizes


def narrowed(sizes, only, most):
    """The cases that one of these words chooses, and at most so many of each file of vectors, taken at random; and the
    words that choose none."""
    chosen = {size: [case for case in cases if not only or case.words() & set(only)] for size, cases in sizes.items()}
    named = {word for cases in chosen.values() for case in cases for word in case.words()}
    if most:
        chosen = {size: at_most(cases, most) for size, cases in chosen.items()}
    return {size: cases for size, cases in chosen.items() if cases}, [word for word in only if word not in named]


def at_most(cases, most):
    files = {}
    for case in cases:
        files.setdefault((case.file, case.situation), []).append(case)
    kept = [random.Random(key[1]).sample(group, most) if len(group) > most and key[0] != "random" else group for key, group in files.items()]
    return [case for group in kept for case in group]


# ---- certificates

# with which states a capability's strings are promised to work (docs/CERTIFICATE.md): calm is without a pending wrap
CALM = {"cub1", "cuf1", "cuu1", "cud1", "cub", "cuf", "cuu", "cud", "el", "el1", "ed", "ech", "ind", "ri"}
ANY_MARGINS = {"cup", "csr"}


def starts(name, rows, cols):
    """Streams that lead to starts of a capability, with what they are called."""
    places = {"cuf1": (3, 4), "cub1": (3, 4), "cuf": (3, 1), "cub": (3, cols), "cuu": (rows, 4), "cud": (1, 4), "ind": (rows, 4), "ri": (1, 4)}
    row, col = places.get(name, (3, 4))
    fill = b"".join(b"\033[%dH" % (line + 1) + bytes(97 + (line + at) % 26 for at in range(cols)) for line in range(rows))
    yield "plain", fill + at(row, col)
    # erasing and scrolling fill with the start's background; sessions erase in the default rendition
    yield "background", fill + b"\033[44m" + at(row, col)
    yield "negative", fill + b"\033[1;7m" + at(row, col)
    yield "graphic G1", fill + b"\033)0" + at(row, col)
    if name not in CALM:
        yield "wrap pending", fill + at(2, cols) + b"Z"
    if name in ANY_MARGINS:
        yield "margins", fill + b"\033[2;3r" + at(row, col)


# how many numbers a capability has (docs/CERTIFICATE.md); the others have none
NUMBERS = {"cup": 2, "csr": 2, "hpa": 1, "vpa": 1, "cub": 1, "cuf": 1, "cuu": 1, "cud": 1, "ech": 1, "sgr": 9, "setaf": 1, "setab": 1}


def line_of(line):
    """The capability of a line, its numbers, and its bytes."""
    name, *words = line.split(" ")
    count = NUMBERS.get(name, 0)
    numbers, data = words[:count], words[count : count + 1]
    if not re.fullmatch(r"[a-z][a-z0-9]*", name) or not all(re.fullmatch(r"\d{1,5}", word) for word in numbers) or len(words) < count + 2:
        raise ValueError(line)
    return name, numbers, b"" if data == ["-"] else bytes.fromhex(data[0])


def lines_of(text, path, most=4):
    """The lines of a certificate, at most so many of each capability and then each 97th: name, numbers, bytes."""
    counts = {}
    for at, line in enumerate(text.split("\n"), 1):
        name = line.split(" ")[0]
        counts[name] = counts.get(name, 0) + 1
        if name in ("ticert", "acsc", "end", "") or (counts[name] > most and counts[name] % 97):
            continue
        try:
            yield line_of(line)
        except ValueError:
            raise Wrong(f"line {at} of {path} isn't one of a certificate") from None


def certificate(path, most=4):
    """For each line, its bytes from each kind of start."""
    try:
        text = Path(path).read_text(encoding="ascii")
    except (OSError, UnicodeDecodeError) as error:
        raise Wrong(f"{path} can't be read: {error}") from None
    head = re.match(r"ticert 2 (\d{1,3}) (\d{1,3})\n", text)
    if not head:
        raise Wrong(f"{path} is no certificate of version 2")
    rows, cols = map(int, head.groups())
    cases = [case for line in lines_of(text, path, most) for case in from_starts(line, path, rows, cols)]
    return {(rows, cols): cases}


def from_starts(line, path, rows, cols):
    """The cases of one line."""
    name, numbers, data = line
    for start, before in starts(name, rows, cols):
        whole = before + data + b"X"
        try:
            state = state_after(whole, rows, cols)
        except Stuck:
            raise Wrong(f"T is stuck at a line of {path}: is it a verified certificate?") from None
        yield Case((Path(path).name, f"{' '.join([name, *numbers])}, {start}"), (name, start), whole, state)
