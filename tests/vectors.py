"""The options of `feed` beside vectors/: the states there are those of a model that doesn't know the program."""

import json
import random
import re
import shutil
import subprocess
import sys
import tempfile
from pathlib import Path

import ignored
from trying import PROGRAM, TOP, Case, run_cases

VECTORS = Path(TOP) / "vectors"
sys.path.append(str(VECTORS))

import model

LONG = 100_000


def fail(text):
    sys.exit(f"vectors: {text}")


def files():
    """Each file of vectors: its rows and columns as words, its cases and its states."""
    for path in sorted(VECTORS.glob("*.cases")):
        rows, cols = path.stem.rsplit("-", 1)[1].split("x")
        yield path, rows, cols, path.read_bytes(), path.with_suffix(".states").read_bytes()


def made_anew():
    """The files are what the generator writes."""
    with tempfile.TemporaryDirectory() as room:
        subprocess.run([sys.executable, "-B", str(VECTORS / "make.py"), room], check=True, stdout=subprocess.DEVNULL)
        made = {path.name: path.read_bytes() for path in Path(room).iterdir()}
    there = {path.name: path.read_bytes() for path in VECTORS.iterdir() if path.suffix in (".cases", ".states")}
    for name in sorted(made.keys() | there.keys()):
        if made.get(name) != there.get(name):
            fail(f"{name} isn't what vectors/make.py writes")
    page = (VECTORS / "README.md").read_text(encoding="utf-8")
    count = sum(text.count(b"\n") for name, text in there.items() if name.endswith(".cases"))
    if f"{count:,} cases in {len(there) // 2} files" not in page:
        fail(f"vectors/README.md doesn't say that there are {count:,} cases")
    return count


# one number too many (`CSI 2 ; 3 A`, `CSI ; A`): T does nothing where every emulator that has the function takes the first
# number; of ECH, the character after it hides that one cell was erased
TOO_MANY = re.compile(rb"\033\[([0-9]*;[0-9;]*[ABCDGd@PLM]|2;[0-9;]*X)X$")


def alone():
    """Each line of alone.txt names a case that is there, once, with a count that its head allows; and it has each case of one number too many of the functions that every emulator has."""
    head, versions, *lines = (VECTORS / "alone.txt").read_text(encoding="ascii").splitlines()
    count = int(re.fullmatch(r"# .* how many of (\d+) emulators differ there\.", head)[1])
    if versions.count(",") != count - 1 or not versions.startswith("# "):
        fail(f"alone.txt names not as many emulators as {count}")
    names = {(path.stem, line.split(b" ")[0].decode()): bytes.fromhex(line.split(b" ")[1].decode().strip("-")) for path, _, _, cases, _ in files() for line in cases.splitlines()}
    listed = [tuple(line.split(" ")[:2]) for line in lines]
    if [pair for pair in listed if pair not in names] or len(set(listed)) != len(listed):
        fail("alone.txt has a case that isn't there, or one twice")
    if any(int(line.split(" ")[2]) not in (count - 1, count) for line in lines):
        fail("alone.txt has a case in which two emulators are as T")
    lacking = {pair for pair, data in names.items() if pair[0].startswith("numbers-") and TOO_MANY.search(data)} - set(listed)
    if lacking:
        fail(f"alone.txt lacks {sorted(lacking)}")
    return len(listed)


def named():
    """The page's names of vttest's tests are in the program, and the files beside them are there. How many there are."""
    page = (VECTORS / "README.md").read_text(encoding="utf-8").partition("## What of other test suites they cover\n")[2]
    rows = re.findall(r"^\| \d[\d.]* \| `([^`]*)` \|.*\| ([^|]*) \|$", page, re.M)
    kinds = {path.stem.rsplit("-", 1)[0] for path, *_ in files()}
    for name, cell in rows:
        lacking = set(re.findall("`([^`]*)`", cell) or [""]) - kinds
        if lacking:
            fail(f"vectors/README.md names files beside {name!r} that aren't there: {lacking}")
    program = shutil.which("vttest")
    if not program:
        print("vectors: vttest is not installed, and its names are not compared")
        return len(rows)
    held = Path(program).read_bytes()
    for name, _ in rows:
        if name.encode() + b"\0" not in held:
            fail(f"vttest has no test that is named {name!r}")
    return len(rows)


def beside_vectors():
    """`--cases` prints just the states."""
    told = run_cases(PROGRAM, [Case(["feed", "--cases", rows, cols, "{}"], cases) for _, rows, cols, cases, _ in files()])
    for (path, _, _, cases, states), one in zip(files(), told):
        if one.status or one.err:
            fail(f"{path.name}: {one.err!r}")
        for case, wanted, seen in zip(cases.split(b"\n"), states.split(b"\n"), one.out.split(b"\n")):
            if wanted != seen:
                fail(f"{path.name}: {case.decode()}\nthe model has {wanted.decode()}\nthe program {seen.decode()}")
        if one.out != states:
            fail(f"{path.name}: not as many lines")


def state_lines(state):
    """The output of `--state`."""
    yield from state["rows"]
    yield f"cursor {state['cursor'][0]} {state['cursor'][1]}{'' if state['visible'] else ' hidden'}"
    for row, first, last, look in state["looks"]:
        yield f"look {row} {first}-{last} {look}"
    yield f"pending {'yes' if state['pending'] else 'no'}"
    yield f"margins {state['margins'][0]} {state['margins'][1]}"
    yield f"autowrap {'on' if state['autowrap'] else 'off'}"
    yield f"insert {'on' if state['insert'] else 'off'}"
    yield f"rendition {state['rendition'] or '-'}"
    yield from (f"{name} {state[name]}" for name in ("g0", "g1", "active"))
    yield f"open {state['open'] or '-'}"
    for it in state["no_effect"]:
        yield f"no-effect {it['times']} {spelled(it['sequence'], it['name'])}"


# the functions of T, by how a sequence of theirs with other numbers is spelled
OWN = {
    "CSI A": "CUU", "CSI B": "CUD", "CSI C": "CUF", "CSI D": "CUB", "CSI G": "CHA", "CSI H": "CUP", "CSI f": "HVP", "CSI d": "VPA",
    "CSI @": "ICH", "CSI J": "ED", "CSI K": "EL", "CSI L": "IL", "CSI M": "DL", "CSI P": "DCH", "CSI S": "SU", "CSI T": "SD",
    "CSI X": "ECH", "CSI r": "DECSTBM",
}  # fmt: skip
# some of the functions that T lacks (ECMA-48 8.3; VT100 User Guide, chapter 3; xterm's control sequences)
LACKING = {
    "CSI b": "REP", "CSI `": "HPA", "CSI Z": "CBT", "CSI t": "XTWINOPS", "ESC 7": "DECSC", "ESC 8": "DECRC", "ESC =": "DECKPAM", "ESC >": "DECKPNM",
    "ESC c": "RIS", "ESC # 8": "DECALN", "CSI ? 1 h": "DECCKM", "CSI ? 6 h": "DECOM", "CSI SP q": "DECSCUSR", "CSI > c": "secondary DA",
    "CSI 38 m": "SGR 38, a foreground of 256 or direct color", "CSI ? 1049 h": "the alternate screen and the saved cursor",
}  # fmt: skip


def spelled(sequence, name):
    """A sequence and its name, if it has one."""
    text = f"{name} ({sequence})" if name else sequence
    return f"{text} with numbers that T does not take" if sequence in OWN else text


def named_kinds(data):
    """The kinds of sequences without effect, each with its name as the program has it, and how often it comes."""
    told = run_cases(PROGRAM, [Case(["feed", "--json", "24", "80", "{}"], data)])[0]
    items = json.loads(told.out)["no_effect"]
    kinds, others = ignored.told(data)
    if [(it.get("sequence"), it["times"]) for it in items] != kinds + ([(None, others)] if others else []):
        fail(f"{data!r}: {items}, and not {kinds}, {others}")
    for it in items:
        wanted = OWN.get(it.get("sequence"), LACKING.get(it.get("sequence")))
        if wanted is not None and it["name"] != wanted:
            fail(f"{it['sequence']} is called {it['name']}, and not {wanted}")
    return [(it["sequence"], it["name"], it["times"]) for it in items if "name" in it]


def times(count):
    return "once" if count == 1 else f"{count} times"


# streams, each beside what is said of it on standard error: at most 50 kinds, a token that is dropped and one that is open
# are none, and nothing of what has its effect
SILENT = [
    (b"a\033[5bX\033[b\033[2;3b", "no effect: REP (CSI b) 3 times\n"),
    (b"\0337\033[r\0338\0337\033[r\0338", "no effect: DECSC (ESC 7) 2 times\nno effect: DECRC (ESC 8) 2 times\n"),
    (b"\033[38;5;130mx\033[0;1;4m\033[?25;7h\033[4l\033(0q\033)B\016\017\033D\033E\033M", "no effect: SGR 38, a foreground of 256 or direct color (CSI 38 m) once\n"),
    (b"\033[;K\033[K\033[2J\033[3J", "no effect: EL (CSI K) with numbers that T does not take once\nno effect: ED (CSI J) with numbers that T does not take once\n"),
    (b"\033[5\030\033[b\033\033[b\033[5", "no effect: REP (CSI b) 2 times\n"),
    (b"".join(b"\033[?%dh" % number for number in range(300, 350)), None),
    (b"".join(b"\033[?%dh" % number for number in range(300, 351)) * 2 + b"\033[?300h", None),
]  # fmt: skip


def silent():
    """The lines of `feed` on sequences without effect, beside a screen."""
    for (stream, text), told in zip(SILENT, run_cases(PROGRAM, [Case(["feed", "4", "20", "{}"], stream) for stream, _ in SILENT])):
        kinds, others = ignored.told(stream)
        if text is None:
            text = "".join(f"no effect: a private mode ({kind}) {times(count)}\n" for kind, count in kinds)
            text += f"no effect: sequences of further kinds {times(others)}\n" if others else ""
        if (told.status, told.err.decode()) != (0, text) or told.out.count(b"\n") < 5:
            fail(f"{stream!r}: {told.status} {told.err!r}, and not {text!r}")
        named_kinds(stream)
    paths = sorted((Path(TOP) / "tests" / "recordings").glob("*.bytes"))
    for path, told in zip(paths, run_cases(PROGRAM, [Case(["feed", "24", "80", "{}"], path.read_bytes()) for path in paths])):
        rep = ignored.kinds(path.read_bytes())["CSI b"]
        if told.status or f"no effect: REP (CSI b) {times(rep)}\n" not in told.err.decode():
            fail(f"{path.name}: {told.err!r} doesn't tell REP {rep} times")
    return len(SILENT) + len(paths)


def one_by_one():
    """`--json` and `--state` of some cases of each file: the same states, and stuck ones are refused as without options."""
    chance, runs, wanted = random.Random(7), [], []
    for _, rows, cols, cases, states in files():
        lines = list(zip(cases.decode().splitlines(), states.decode().splitlines()))
        for case, told in chance.sample(lines, 8):
            data, state = bytes.fromhex(case.split()[1].strip("-")), json.loads(told)
            del state["name"]
            stuck = state.pop("stuck", None)
            names = named_kinds(data) if stuck is None else []
            state = {"no_effect": [{"name": name, "sequence": sequence, "times": times} for sequence, name, times in names], **state}
            texts = {"--json": json.dumps(state, separators=(",", ":")) + "\n", "--state": "".join(f"{line}\n" for line in state_lines(state))}
            for option, text in texts.items():
                runs.append(Case(["feed", option, rows, cols, "{}"], data))
                wanted.append((0, text.encode(), b"") if stuck is None else (1, b"", f"refused: Stuck {stuck}\n".encode()))
    for run, (status, out, err), told in zip(runs, wanted, run_cases(PROGRAM, runs)):
        if (told.status, told.out) != (status, out) or not told.err.startswith(err) or bool(err) != bool(told.err):
            fail(f"{' '.join(run.words)} of {run.given.hex()}: {told.status} {told.out!r} {told.err!r}, and not {out!r}")
    return len(runs)


# a file, the line that is none (counted from 1), or None; blank lines, other white space and CR are none
DAMAGED = [
    (b"", None), (b"a -\n", None), (b"a 41\n", None), (b"a 4A4b\n", None), (b"\"\\ 22\n", None), (b"a -\na -\n", None),
    (b"\n", 1), (b"a\n", 1), (b"a \n", 1), (b" 41\n", 1), (b"a 4\n", 1), (b"a 4g\n", 1), (b"a  41\n", 1), (b"a 41 \n", 1),
    (b"a 41\r\n", 1), (b"a\t41\n", 1), (b"a 41", 1), (b"a -\n\nb -\n", 2), (b"a -\nb -\nc", 3), (b"a -\nb --\n", 2), (b"a -\n\xff 41\n", 2),
    (b"a -\n\x7f 41\n", 2), (b"a -\nb 41\x00\n", 2), (b"# a comment\n", 1), (b"a 0x41\n", 1), (b"a -\n\n", 2),
]  # fmt: skip


def damaged():
    """Files with a line that is no case: refused, with the line's number, and nothing printed."""
    for (text, line), told in zip(DAMAGED, run_cases(PROGRAM, [Case(["feed", "--cases", "2", "9", "{}"], text) for text, _ in DAMAGED])):
        wanted = (0, b"") if line is None else (1, f"refused: line {line}: BadLine\n".encode())
        if told.status != wanted[0] or not told.err.startswith(wanted[1]) or (line is not None and told.out):
            fail(f"{text!r}: {told.status} {told.out!r} {told.err!r}")
        unended = line is not None and line > text.count(b"\n")
        if (b"its last line has no LF" in told.err) != unended:
            fail(f"{text!r}: {told.err!r}")
        if line is None:
            names = [json.loads(one)["name"].encode() for one in told.out.splitlines()]
            if names != [one.split(b" ")[0] for one in text.splitlines()]:
                fail(f"{text!r}: {told.out!r}")


# a recording, what T is shown of it, bytes of strings, characters
RECORDINGS = [
    (b"plain\r\n", b"plain\r\n", 0, 0),
    ("naïve €, 𝄞".encode(), b"na?ve ?, ?", 0, 3),
    (b"a\xffb\xc3(c\xe2\x82d", b"a?b?(c??d", 0, 4),
    (b"\xed\xa0\x80\xc0\x80\xf5\x80", b"???????", 0, 7),
    (b"\xf4\x90\x80\x80|\xf0\x90\x80\x80", b"????|?", 0, 5),
    (b"\033]0;title\007ab", b"ab", 10, 0),
    (b"\033]0;title\033\\ab", b"\033\\ab", 9, 0),
    (b"\033Pq#0\033\\ab\033_x\033\\\033^y\033\\\033Xz\033\\", b"\033\\ab\033\\\033\\\033\\", 14, 0),
    (b"\033Pa\007b\033\\c", b"\033\\c", 5, 0),
    (b"\033]0;x\030ab\033]1\032c", b"\030ab\032c", 8, 0),
    (b"\033]2;na\xc3\xafve\007x", b"x", 11, 0),
    (b"ab\033]0;never ends", b"ab", 14, 0),
    (b"\033]a\033]b\007c\033\033]d\007e", b"c\033e", 11, 0),
    (b"\033(]\033[31m]\033", b"\033(]\033[31m]\033", 0, 0),
    (b"Script started on 2026-12-01 06:00:00+00:00 [TERM=\"vt100\"]\nab\r\n\nScript done on 2026-12-01 06:00:01+00:00 [COMMAND_EXIT_CODE=\"0\"]\n", b"ab\r\n", 0, 0),
    (b"Script started on 2026\n\033]0;x\007ab", b"ab", 6, 0),
    (b"ab\nScript done on 2026", b"ab", 0, 0),
    (b"ab\nScript done on 1\ncd\nScript done on 2\n", b"ab\nScript done on 1\ncd", 0, 0),
    (b"a\nScript started on 1\n", b"a\nScript started on 1\n", 0, 0),
    (b"Script started on", b"Script started on", 0, 0),
]  # fmt: skip


def recordings():
    """`--plain-text`: what T is shown, and what is said of the rest."""
    runs = [Case(["feed", "--plain-text", "--json", "3", "20", "{}"], given) for given, _, _, _ in RECORDINGS]
    for (given, shown, dropped, replaced), told in zip(RECORDINGS, run_cases(PROGRAM, runs)):
        terminal = model.Terminal(3, 20)
        terminal.feed(shown)
        said = f"plain-text: {dropped} bytes of strings dropped, {replaced} characters shown as ?\n" if dropped or replaced else ""
        state = json.loads(told.out)
        del state["no_effect"]
        if (told.status, told.err.decode()) != (0, said) or state != terminal.state():
            fail(f"{given!r}: {told.status} {told.out!r} {told.err!r}")


# streams that get stuck, and whether `--plain-text` would lead past that byte
STUCK = [(b"ab\303\244", True), (b"\033]0;title\007ab", True), (b"\033[1\007m", False), (b"\033[" + b"1" * 300 + b"m", False), (b"\033[\303\244m", True)]


def stuck():
    """Where a recording gets stuck, `--plain-text` is named if it leads past the byte."""
    runs = [Case(["feed", *words, "3", "20", "{}"], stream) for stream, _ in STUCK for words in ([], ["--plain-text"])]
    for (stream, leads), told, plain in zip(STUCK, *[iter(run_cases(PROGRAM, runs))] * 2):
        if told.status != 1 or (b"--plain-text" in told.err) != leads or (plain.status == 0) != leads or (plain.status and b"--plain-text" in plain.err):
            fail(f"{stream!r}: {told.err!r}, {plain.err!r}")


def refused_together():
    """One form at a time."""
    for words in (["--state", "--json"], ["--cases", "--json"], ["--cases", "--state"], ["--cases", "--plain-text"], ["--state", "--state"]):
        told = run_cases(PROGRAM, [Case(["feed", *words, "2", "2", "{}"], b"")])[0]
        if told.status != 2 or told.out:
            fail(f"feed {' '.join(words)}: status {told.status}")


def many():
    """100,000 cases in one run."""
    _, rows, cols, cases, _ = next(one for one in files() if one[0].name.startswith("sequences"))
    lines = cases.splitlines(keepends=True)
    text = b"".join(lines[at % len(lines)] for at in range(LONG))
    told = run_cases(PROGRAM, [Case(["feed", "--cases", rows, cols, "{}"], text)])[0]
    if told.out.count(b"\n") != LONG:
        fail(f"{LONG} cases: {told.status} {told.err!r}")


def main():
    count = made_anew()
    beside_vectors()
    print(f"vectors: {count} cases leave the states that the model gives")
    print(f"vectors: {one_by_one()} runs with --json and --state print those states")
    print(f"vectors: {named()} tests of vttest are named as it names them")
    print(f"vectors: {alone()} cases in which T stands alone are there")
    print(f"vectors: of {silent()} streams what had no effect is said, and how often")
    stuck()
    damaged()
    recordings()
    refused_together()
    many()
    print(f"vectors: {len(DAMAGED)} files of cases and {len(RECORDINGS)} recordings; {LONG} cases in one run")


if __name__ == "__main__":
    main()
