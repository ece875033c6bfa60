"""The second verifier beside the first: the same answers for certificates of the system's entries, and for altered ones.

Where `ticurses verify` says `NotTame` or `NotShown` of a line that the second one finds right, both agree: the first has
no record of the bytes, or another one that has the same meaning. These are counted."""

import collections
import functools
import json
import os
import random
import re
import subprocess
import sys
import tempfile
from pathlib import Path

from trying import PROGRAM, TOP, Case, run_cases

sys.path.insert(0, f"{TOP}/tools/second")

import effects
import entry
import terminal
import verify

DATABASES = ("/usr/share/terminfo", "/lib/terminfo", "/etc/terminfo")
SIZES = [(2, 2), (2, 3), (3, 2), (3, 4), (2, 9), (5, 2), (4, 3), (2, 17)]
WANTED, SOME, ALL = 150, 1500, 5000
# what is put into the bytes of a line: functions with and without a record, switches of sets, parts of sequences
PIECES = (
    "1b5b4b 1b5b314b 1b5b324b 1b5b4a 1b5b314a 1b5b324a 1b5b324b 1b5b48 1b5b323b3248 1b5b41 1b5b42 1b5b3943 1b5b44 1b5b4c 1b5b4d 1b5b40 1b5b50 1b5b53 1b5b54 1b5b72 "
    "1b5b313b3272 1b5b323b3172 1b5b6d 1b5b316d 1b5b343b376d 1b5b33316d 1b5b34326d 1b5b34396d 1b5b32326d 1b5b3f376c 1b5b3f3768 1b5b3468 1b5b346c 1b5b3f3235 1b5b3f32356c "
    "1b5b3f323568 0a 0d 08 09 07 1b44 1b45 1b4d 0e 0f 1b2830 1b2842 1b2930 1b2942 1b 1b5b 1b50 18 41 20 7e 80 1b5b58 1b5b3258 1b5b47 1b5b3264 1b5b333b33663b"
).split()
WORDS = (
    "row=0 row=1 row+1 row-1 row+0 row=00 row=65536 col=0 col=1 col-1 col+1 nopend all tail head rest next=1 next=2 next=0 up down look:000000 look:1..... look:...... ink:dd "
    "ink:1. ink:.. set:0.. set:B.. set:..I set:..O set:0BO set:... rows:0,1 rows:1,0 show hide - x"
).split()


MINI = b"mini|sample,\n\tclear=\\E[H\\E[2J,\n\tcup=\\E[%i%p1%d;%p2%dH,\n\tsgr0=\\E[m,\n"
BAD_FILES = {
    "mini": MINI, "cert": b"ticert 2 2 2\nend\n", "two": MINI + MINI, "uses": MINI + b"\tuse=vt100,\n", "binary": bytes(range(256)),
    "cut": bytes.fromhex("1a01 0400 0200 0100 0000 0000 617c"), "open": MINI[:-2], "kind": MINI + b"\tel#3,\n",
}  # fmt: skip
BAD_WORDS = (
    "", "mini 2 2", "mini 2 2 cert cert", "mini 1 2 cert", "mini 2 501 cert", "mini 201 2 cert", "mini two 2 cert", "mini -2 2 cert", "none 2 2 cert",
    "mini 2 2 none", "/ 2 2 cert", "mini 2 2 /", "two 2 2 cert", "uses 2 2 cert", "binary 2 2 cert", "cut 2 2 cert", "open 2 2 cert", "kind 2 2 cert",
    "cert 2 2 cert", "/dev/null 2 2 cert",
)  # fmt: skip
BLANK = (32, "B", "000000", "d", "d")


def fail(text):
    sys.exit(f"second: {text}")


def moved(things, count, blank):
    """A list whose things go towards its front by a count, or towards its end by a negative one."""
    new = [blank() for _ in range(min(abs(count), len(things)))]
    return things[count:] + new if count > 0 else (new + things)[: len(things)]


def painted(rows, cols, changes):
    """The cells that changes of constant places leave on a blank screen."""
    grid = [[BLANK] * cols for _ in range(rows)]
    for kind, *places, cell in changes:
        at = [it if isinstance(it, int) else it[1] for it in places]
        if kind == "put":
            grid[at[0]][at[1]] = cell
        elif kind == "scroll":
            grid[at[0] : at[1] + 1] = moved(grid[at[0] : at[1] + 1], at[2], lambda cell=cell: [cell] * cols)
        elif kind == "shift":
            grid[at[0]][at[1] :] = moved(grid[at[0]][at[1] :], at[2], lambda cell=cell: cell)
        else:
            erase(grid, *at, cell)
    return grid


def erase(grid, first, begin, last, end, cell):
    for row in range(first, last + 1):
        span = slice(begin if row == first else 0, end + 1 if row == last else len(grid[row]))
        grid[row][span] = [cell] * len(grid[row][span])


def ending(data, at):
    """How a text goes on at the place after its whole functions: the place at which T is stuck, or the bytes of an open sequence."""
    begun = terminal.OPEN.match(data, at)
    known = min(begun.end(), at + terminal.LONGEST - 1) if begun else at
    return (None, data[at:]) if known == len(data) else (known, b"")


def state_of(name, rows, cols, data):
    """The state that the second verifier's terminal has after these bytes, as vectors/ write it."""
    state = terminal.Terminal(rows, cols, terminal.Case(terminal.limits(rows, cols)))
    state.row = state.col = state.top = terminal.ZERO
    state.bottom, state.look, state.ink, state.sets, state.cursor = state.last_row, "000000", "dd", "BBI", "show"
    tokens, at = terminal.split(data)
    stuck, rest = ending(data, at)
    state.run(tokens)
    grid = painted(rows, cols, state.changes)
    sets = {"B": "plain", "0": "graphic", "I": "g0", "O": "g1"}
    told = {"name": name, "autowrap": state.wraps, "insert": state.inserts, "visible": state.cursor == "show", "pending": state.pending}
    told.update({} if stuck is None else {"stuck": stuck})
    told.update(zip(("g0", "g1", "active"), (sets[it] for it in state.sets)))
    told.update({"cursor": [state.row[1], state.col[1]], "margins": [state.top[1], state.bottom[1]], "open": rest.hex()})
    told.update({"rendition": letters((32, "B", state.look, *state.ink)), "rows": ["".join(chr(it[0]) for it in row) for row in grid]})
    return {**told, "looks": looks(grid), "size": {"cols": cols, "rows": rows}}


def letters(cell):
    _, letter, look, front, back = cell
    marks = "".join(mark for mark, is_on in zip("BDUKRI", look) if is_on == "1") + ("G" if letter == "0" else "")
    return marks + (f"f{front}" if front != "d" else "") + (f"b{back}" if back != "d" else "")


def looks(grid):
    """The runs of cells of one look that isn't plain."""
    runs = []
    for row, col, look in ((row, col, letters(cell)) for row, cells in enumerate(grid) for col, cell in enumerate(cells)):
        if runs and runs[-1][0] == row and runs[-1][2] == col - 1 and runs[-1][3] == look:
            runs[-1][2] = col
        else:
            runs.append([row, col, col, look])
    return [it for it in runs if it[3]]


def vectors():
    """Each case of vectors/: the file, its rows and columns, the case and the state."""
    for path in sorted(Path(f"{TOP}/vectors").glob("*.cases")):
        cases, states = (path.with_suffix(it).read_text(encoding="ascii").splitlines() for it in (".cases", ".states"))
        rows, cols = map(int, path.stem.rsplit("-", 1)[1].split("x"))
        yield from ((path.name, rows, cols, case, told) for case, told in zip(cases, states))


def beside_vectors():
    """The terminal leaves the states of vectors/. How many cases."""
    known = list(vectors())
    for file, rows, cols, case, told in known:
        name, data = case.split(" ")
        seen = state_of(name, rows, cols, bytes.fromhex(data.strip("-")))
        if seen != json.loads(told):
            fail(f"{file} {case}\nvectors have {told}\nthe second terminal {json.dumps(seen)}")
    return len(known)


def certified(chance):
    """Entries of the system's database with a certificate, each at a small size: path, rows, columns, certificate."""
    names = sorted(f"{at}/{it}" for base in DATABASES for at, _, names in os.walk(base) for it in names)
    # an entry has a file for each of its names
    files = {Path(it).read_bytes(): it for it in reversed(names)}
    paths = sorted(path for data, path in files.items() if data[:2] in (b"\x1a\x01", b"\x1e\x02"))
    told = run_cases(PROGRAM, [Case(["survey", "2", "2", *paths])])[0].out.decode("latin-1").splitlines()
    good = [path for path, line in zip(paths, told) if line.endswith(" yes")]
    chosen = [(path, *chance.choice(SIZES)) for path in chance.sample(good, min(len(good), WANTED))]
    texts = run_cases(PROGRAM, [Case(["check", path, str(rows), str(cols)]) for path, rows, cols in chosen])
    return [(*it, one.out) for it, one in zip(chosen, texts) if one.status == 0]


@functools.lru_cache(maxsize=None)
def entry_of(path):
    return entry.read(Path(path).read_bytes())


def beside_texts(known):
    """Each entry is the same as a compiled file and as the text that the program prints of it."""
    told = run_cases(PROGRAM, [Case(["infocmp", it[0]]) for it in known])
    for (path, *_), one in zip(known, told):
        if entry.read(one.out) != entry_of(path):
            fail(f"{path}: the compiled entry is {entry_of(path)}\nand its text {entry.read(one.out)}")


def second(path, rows, cols, text):
    """The second verifier's answer."""
    try:
        verify.verify(entry_of(path), (rows, cols), text)
    except verify.Refused as fault:
        return str(fault)
    return "yes"


def first(cases):
    """The answers of the first one."""
    runs = [Case(["verify", path, str(rows), str(cols), "{}"], text) for path, rows, cols, text in cases]
    for told in run_cases(PROGRAM, runs):
        if told.status > 1:
            fail(f"the program fails: {told.err!r}")
        yield "yes" if told.status == 0 else told.err.decode().splitlines()[0].partition(": ")[2]


def with_line(lines, at, words):
    return b"\n".join([*lines[:at], " ".join(words).encode(), *lines[at + 1 :]])


def cut(words):
    """The words of a line by what they are: name and parameters, bytes, effect."""
    count = 1 + (len(effects.ranges(words[0], 2, 2)) if words[0] in effects.CHECKED else 0)
    return words[:count], words[count], words[count + 1 :]


def altered_bytes(chance, lines, at):
    """A function more, one less, another digit, or other sets, with the effect as it is."""
    head, data, effect = cut(lines[at].decode().split(" "))
    parts = re.findall("..", data.strip("-"))
    place = chance.randrange(len(parts) + 1)
    ways = [
        parts[:place] + [chance.choice(PIECES)] + parts[place:],
        parts[:place] + parts[place + 1 :],
        parts[:place] + [chance.choice("0123456789abcdef") + (parts + ["0"])[place][1:]] + parts[place + 1 :],
        [*parts, chance.choice(PIECES)],
        [chance.choice(PIECES)],
    ]
    return with_line(lines, at, [*head, "".join(chance.choice(ways)) or "-", *effect])


def altered_effect(chance, lines, at):
    """A word more, one less, or another one."""
    head, data, effect = cut(lines[at].decode().split(" "))
    place = chance.randrange(len(effect) + 1)
    ways = [effect[:place] + effect[place + 1 :], effect[:place] + [chance.choice(WORDS)] + effect[place:]]
    ways.append(effect[:place] + [chance.choice(WORDS)] + effect[place + 1 :])
    return with_line(lines, at, [*head, data, *(chance.choice(ways) or ["-"])])


def told_of(data, effect):
    """An effect with the words for sets, looks and colors that these bytes have."""
    state = terminal.Terminal(2, 2, terminal.Case(terminal.limits(2, 2)))
    state.run(terminal.split(bytes.fromhex(data))[0])
    new = [f"look:{state.look}", f"ink:{state.ink}", f"set:{state.sets}"]
    words = [it for it in effect if it[:4] not in ("look", "ink:", "set:", "-")]
    place = next((it for it, word in enumerate(words) if word[:5] in ("rows:", "show", "hide")), len(words))
    words[place:place] = [it for it in new if it.strip(".")[-1] != ":"]
    return words or ["-"]


def altered_sets(chance, lines, at):
    """A switch of sets at the end of the bytes, with the effect that this has."""
    names = [it for it, line in enumerate(lines) if re.match(rb"(sgr0|smacs|rmacs|enacs|smcup|rmcup|sgr) ", line)]
    at = chance.choice(names or [at])
    head, data, effect = cut(lines[at].decode().split(" "))
    data = chance.choice([data, "-", "-", "07"]).strip("-") + chance.choice(["0e", "0f", "1b2830", "1b2842", "1b2930", "1b2942", "0e1b2930", ""])
    return with_line(lines, at, [*head, data or "-", *told_of(data, effect)])


def altered_looks(chance, lines, at):
    """Other looks for a set of attributes, with the effect that this has."""
    names = [it for it, line in enumerate(lines) if re.match(rb"(sgr( 0){5} |sgr|smul|rev|blink|dim|bold|invis|smso) ", line)]
    at = chance.choice(names or [at])
    head, data, effect = cut(lines[at].decode().split(" "))
    data = "1b5b30" + "".join(f"3b3{it}" for it in chance.sample("1245789", chance.randrange(3))) + "6d"
    data = data if head[0] == "sgr" else data.replace("5b303b", "5b")
    return with_line(lines, at, [*head, data, *told_of(data, effect)])


def altered_beginning(chance, lines, _):
    """Strings for the beginning of a session of which the first doesn't begin with ESC, or with one less."""
    names = chance.choice([(b"smcup", b"enacs"), (b"smcup",), (b"enacs", b"rmacs", b"smacs"), ()])
    lines = [it for it in lines if it.split(b" ")[0] not in names]
    for at, line in enumerate(lines):
        head, data, effect = cut(line.decode().split(" ")) if b" " in line else ([""], "", [])
        if head[0] in ("smcup", "sgr0"):
            data = chance.choice(["07", "0f", "0d", "1b2930", "0e"]) + data.strip("-")
            lines[at] = " ".join([*head, data, *told_of(data, effect)]).encode()
    return b"\n".join(lines)


def altered_params(chance, lines, at):
    """Another number."""
    head, data, effect = cut(lines[at].decode().split(" "))
    numbers = [chance.choice([it, it, "0", "1", "2", "9", "65535", "65536", "00", "-1", ""]) for it in head[1:]]
    return with_line(lines, at, [head[0], *numbers, data, *effect])


def exchanged(chance, lines, at):
    """Two lines that have changed places, or their effects or bytes."""
    other = min(len(lines) - 3, max(1, at + chance.choice([1, 1, -1, 7, chance.randrange(len(lines))])))
    one, two = cut(lines[at].decode().split(" ")), cut(lines[other].decode().split(" "))
    if "acsc" in (one[0][0], two[0][0]) or chance.random() < 0.3:
        lines = list(lines)
        lines[at], lines[other] = lines[other], lines[at]
        return b"\n".join(lines)
    if chance.random() < 0.5:
        text = with_line(lines, at, [*one[0], two[1], *one[2]])
        return with_line(text.split(b"\n"), other, [*two[0], one[1], *two[2]])
    text = with_line(lines, at, [*one[0], one[1], *two[2]])
    return with_line(text.split(b"\n"), other, [*two[0], two[1], *one[2]])


def without(chance, lines, at):
    """A line less, one twice, a capability less, `sgr` or the line of acsc less, the end cut off."""
    name = chance.choice([lines[at].split(b" ")[0], b"acsc", b"sgr", b"rmacs", b"smcup", b"csr", b"cup", b"sgr0"])
    text = b"\n".join(lines)
    ways = [
        b"\n".join(lines[:at] + lines[at + 1 :]),
        b"\n".join(lines[:at] + lines[at : at + 1] + lines[at:]),
        b"\n".join(it for it in lines if it.split(b" ")[0] != name),
        b"\n".join(it for it in lines if it.split(b" ")[0] != name),
        text[: chance.randrange(len(text))],
        text + chance.choice([b"\n", b"x", b"end\n"]),
        b"\n".join([*lines[:1], b"acsc " + chance.choice([b"-", b"6a6a", b"6a", b"6A"]), *lines[1:]]),
    ]
    return chance.choice(ways)


def altered_byte(chance, lines, at):
    """Another byte anywhere, or within a line."""
    text = bytearray(b"\n".join(lines))
    near = sum(len(it) + 1 for it in lines[:at])
    place = chance.choice([chance.randrange(len(text)), near + chance.randrange(len(lines[at]) + 1)])
    text[place] = chance.choice([chance.randrange(256), *b"0123456789abcdef \n"])
    return bytes(text)


def altered_head(chance, lines, _):
    """Another first line, or the words of another size."""
    words = chance.choice([b"ticert 2 2 2", b"ticert 2 3 4", b"ticert 1 2 2", b"ticert 2 2", b"ticert  2 2 2", b"end", b"acsc -", b""])
    return b"\n".join([words, *lines[1:]])


WAYS = [altered_bytes] * 6 + [altered_effect] * 3 + [altered_sets] * 4 + [altered_looks] * 2 + [altered_beginning] * 2
WAYS += [altered_params, exchanged, exchanged, without, without, altered_byte]


def altered(chance, known, count):
    """So many altered certificates; some of them are those of another entry or size."""
    for at in range(count):
        path, rows, cols, text = chance.choice(known)
        lines = text.split(b"\n")
        if at % 50 == 0:
            yield path, rows, cols, altered_head(chance, lines, 0)
        elif at % 25 == 0:
            others = [it for it in known if it[1:3] == (rows, cols)]
            yield chance.choice(others)[0], rows, cols, text
        else:
            # the first of a capability's many lines are as likely as its last ones
            name = chance.choice(sorted({it.split(b" ")[0] for it in lines[1:-2]}))
            place = chance.choice([it for it, line in enumerate(lines) if line.split(b" ")[0] == name])
            yield path, rows, cols, chance.choice(WAYS if name != b"acsc" else [altered_byte, without])(chance, lines, place)


def line_of(answer):
    found = re.match(r"line (\d+): ", answer)
    return int(found[1]) if found else sys.maxsize


def agreement(one, other, case):
    """How the answers of the first and of the second agree; None where they don't."""
    kind = re.sub(r"^line \d+: ", "", one).split(" ")[0]
    if one == other:
        return kind
    if kind == "Disagree" and other.startswith(kind):
        # any of the differences may be named
        judge = verify.Judge(*case[1:3])
        judge.judge(case[3])
        names = [" ".join(map(str, it)) for it in verify.disagreements(entry_of(case[0]), judge)]
        return kind if one.partition(" ")[2] in names else None
    return f"{kind}, and found right" if kind in ("NotTame", "NotShown") and line_of(other) > line_of(one) else None


def beside_first(cases):
    """Both verifiers on these cases: how often they agree, by answer, and the cases in which they don't."""
    counts, differing = collections.Counter(), []
    for case, one in zip(cases, first(cases)):
        other = second(*case)
        how = agreement(one, other, case)
        counts[how] += 1
        if how is None:
            differing.append((case, one, other))
    return counts, differing


def bad_input():
    """Files and sizes that can't be judged: status 2, one line on standard error, and nothing printed. How many."""
    with tempfile.TemporaryDirectory() as room:
        files = {name: f"{room}/{name}" for name in BAD_FILES}
        for name, path in files.items():
            Path(path).write_bytes(BAD_FILES[name])
        for words in ([files.get(it, it) for it in line.split()] for line in BAD_WORDS):
            ran = subprocess.run([sys.executable, f"{TOP}/tools/second/verify.py", *words], stdin=subprocess.DEVNULL, capture_output=True, text=True)
            if (ran.returncode, ran.stdout, ran.stderr.count("\n")) != (2, "", 1) or not ran.stderr.startswith("verify.py: "):
                fail(f"verify.py {' '.join(words)}: {ran.returncode} {ran.stdout!r} {ran.stderr!r}")
    return len(BAD_WORDS)


def show(differing):
    """The first cases in which they don't agree."""
    for (path, rows, cols, text), one, other in differing[:20]:
        lines = text.split(b"\n")
        at = min(line_of(one), line_of(other), len(lines))
        print(f"{path} {rows} {cols}: the first says {one!r}, the second {other!r}: {lines[at - 1]!r}")


def main():
    given = sys.argv[1:]
    if given not in ([], ["--all"]):
        print("usage: second.sh [--all]", file=sys.stderr)
        return 2
    print(f"second: its terminal leaves the states of vectors/ in all {beside_vectors()} cases")
    print(f"second: {bad_input()} lines with files or sizes that can't be judged are refused with status 2")
    chance = random.Random(99)
    known = certified(chance)
    if not known:
        print("second: skipped the certificates, since there is no database of descriptions")
        return 0
    beside_texts(known)
    verify.fault_of = functools.lru_cache(maxsize=None)(verify.fault_of)
    for what, cases in (("certificates", known), ("altered ones", list(altered(chance, known, ALL if given else SOME)))):
        counts, differing = beside_first(cases)
        told = ", ".join(f"{how} {count}" for how, count in sorted(counts.items(), key=str))
        print(f"second: {len(cases)} {what}: {told}")
        show(differing)
        if differing:
            fail(f"{len(differing)} of {len(cases)} {what} have another answer")
    return 0


if __name__ == "__main__":
    sys.exit(main())
