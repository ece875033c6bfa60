"""Entries that use those of other files, with `--with`."""

import json
import subprocess
import sys
import tempfile
from pathlib import Path

from trying import PROGRAM, Case, run_cases

SIZE = ["24", "80"]
LEVELS = 3000
# so many entries can be used beside the one that is asked for
MOST = 64


def fail(text):
    sys.exit(f"with: {text}")


OWN = rb"""own|its own strings,
	el=\E[1K, home=\E[2H,
	bel=\E[, use=base,
"""
BASE = rb"""# an entry that others use, and one that it uses
base|strings for others,
	clear=\E[H\E[2J, cup=\E[%i%p1%d;%p2%dH, sgr0=\E[m,
	ed=\E[2J, el1=\E[K,
	use=more,
more|and more of them,
	ech=\E[K, ri=\E[H,
"""
# by hand: the file and the line of each planted fault, the entry there, and ECMA-48's or VT100's string
PLANTED = {
    "el": ("own.ti", 2, "own", r"\E[1K", r"\E[K"),
    "home": ("own.ti", 2, "own", r"\E[2H", r"\E[H"),
    "bel": ("own.ti", 3, "own", r"\E[", r"\007"),
    "ed": ("base.ti", 4, "base", r"\E[2J", r"\E[J"),
    "el1": ("base.ti", 4, "base", r"\E[K", r"\E[1K"),
    "ech": ("base.ti", 7, "more", r"\E[K", r"\E[%p1%dX"),
    "ri": ("base.ti", 7, "more", r"\E[H", r"\EM"),
}
FILES = {"own.ti": OWN, "base.ti": BASE}
WITH = ["--with", "base.ti"]
ENTRY = ["own.ti:own", *SIZE]


def run(words, data, given=b""):
    return run_cases(PROGRAM, [Case(words, given)], data)[0]


def mended(data):
    """The files with the string of each planted fault replaced on its line."""
    lines = {name: held.decode().split("\n") for name, held in data.items()}
    for cap, (name, line, _, wrong, right) in PLANTED.items():
        at = lines[name]
        if f"{cap}={wrong}," not in at[line - 1]:
            fail(f"{cap} isn't on line {line} of {name}")
        at[line - 1] = at[line - 1].replace(f"{cap}={wrong},", f"{cap}={right},")
    return {name: "\n".join(each).encode() for name, each in lines.items()}


def placed(cap):
    """The file, the line and the column of what was planted in a field."""
    name, line, _, wrong, _ = PLANTED[cap]
    return f"{name}:{line}:{FILES[name].decode().splitlines()[line - 1].index(f'{cap}={wrong},') + 1}"


def judge_planted():
    """Seven faults over two files are listed, each in its file, and mended in one round."""
    listed = run(["check", "--all", *WITH, *ENTRY], FILES)
    told = listed.out.decode().splitlines()
    for cap, (_, _, entry, _, _) in PLANTED.items():
        at = [i for i, words in enumerate(told) if words.startswith(f"no {cap}") and words.split()[1].rstrip(":") == cap]
        if len(at) != 1 or told[at[0] + 1] != f"{placed(cap)}: {cap} of {entry}":
            fail(f"{cap}: {listed.out.decode()}")
    if listed.status != 1 or not told[-1].startswith(f"total {len(PLANTED)},"):
        fail(f"check --all: {listed.status} {listed.out.decode()}")
    report = run(["check", "--json", "--all", *WITH, *ENTRY], FILES)
    found = {}
    for one in map(json.loads, report.out.splitlines()):
        if one["verdict"] == "no":
            place = one["source_file"], one["line"], one["source_entry"]
            found[one["capability"]] = *place, one["string"], one["suggestion"]
            if one["file"] != "own.ti":
                fail(f"the file of the entry: {one}")
    if found != PLANTED:
        fail(f"check --json --all: {found}")
    right = mended(FILES)
    certified = run(["check", *WITH, *ENTRY], right)
    if certified.status != 0 or not certified.out.startswith(b"ticert 2 "):
        fail(f"the mended files: {certified.status} {certified.err}")
    yes = run(["verify", *WITH, *ENTRY, "cert"], right | {"cert": certified.out})
    if (yes.status, yes.out) != (0, b"yes\n"):
        fail(f"verify --with: {yes.status} {yes.out} {yes.err}")
    print(f"with: {len(PLANTED)} faults over two files are listed at their places, and mended in one round")


def judge_like_one():
    """Resolved over two files, an entry is what it is in one file that has both."""
    both = {"both.ti": OWN + BASE}
    for words, one in ((["infocmp", *WITH, "own.ti:own"], ["infocmp", "both.ti:own"]), (["survey", *WITH, *SIZE, "own.ti"], None)):
        told = run(words, FILES)
        if one is not None:
            want = run(one, both)
            if (told.status, told.out) != (want.status, want.out):
                fail(f"{words}: {told.out} {told.err}, and {want.out}")
        elif told.out.split()[:3] != [b"own", b"no", b"bel:"] or not told.out.endswith(b"total 1, Unfinished 1\n"):
            fail(f"{words}: {told.out} {told.err}")


def judge_order():
    """A name leads to the entry's own file, and then to the first file that has it."""
    data = {
        "a.ti": b"a|one,\n\tuse=b, use=c, use=d,\nb|its own,\n\tcols#1,\n",
        "x.ti": b"b|passed over,\n\tcols#2, lines#2,\nc|first,\n\tit#3,\n",
        "y.ti": b"c|passed over,\n\tit#4, lm#4,\nd|uses one before,\n\tuse=b, use=c, lw#5,\n",
    }
    told = run(["infocmp", "--with", "x.ti", "--with", "y.ti", "a.ti:a"], data)
    if told.out != b"a|one,\n\tcols#1,\n\tit#3,\n\tlw#5,\n":
        fail(f"the order of files: {told.out} {told.err}")
    plain = run(["infocmp", "a.ti:b"], data)
    same = run(["infocmp", "--with", "x.ti", "a.ti:b"], data)
    if plain.out != b"b|its own,\n\tcols#1,\n" or same.out != plain.out:
        fail(f"an entry that uses none: {plain.out} {same.out}")


def judge_compiled():
    """A compiled file counts as an entry that gives each value itself; its places have no line."""
    with tempfile.TemporaryDirectory() as folder:
        for name, held in FILES.items():
            Path(folder, name).write_bytes(held)

        def told(*words):
            return subprocess.run([f"{PROGRAM}/out/ticurses", *words], cwd=folder, capture_output=True)

        if told("tic", "base.ti:base", "--out", "base").returncode:
            fail("tic of base")
        source, packed = (told("infocmp", "--with", name, "own.ti:own") for name in ("base.ti", "base"))
        if source.returncode or (packed.returncode, packed.stdout) != (0, source.stdout):
            fail(f"a compiled file: {packed}, and {source}")
        listed = told("check", "--all", "--with", "base", *ENTRY).stdout.decode().splitlines()
        for cap, (name, _, entry, _, _) in PLANTED.items():
            place = f"{placed(cap)}: {cap} of {entry}" if name == "own.ti" else f"base: {cap} of base"
            if place not in listed:
                fail(f"{place} isn't in {listed}")
        for kept in ("base.ti", "own.ti"):
            refused = told("tic", "--with", "base.ti", "own.ti:own", "--out", kept)
            if refused.returncode != 3 or Path(folder, kept).read_bytes() != FILES[kept]:
                fail(f"--out of {kept}, which was read: {refused}")
    print("with: compiled files, the order of files, and files that aren't replaced")


def judge_fixes():
    """Seven faults over two files are mended by --fix: each changed file is in the folder, or none is."""
    right = mended(FILES)
    spare = b"spare|used by nobody,\n\tcols#80,\n"
    fix = ["check", "--fix", *WITH, "--with", "spare.ti", *ENTRY, "--out"]
    with tempfile.TemporaryDirectory() as folder:
        for name, held in (FILES | {"spare.ti": spare}).items():
            Path(folder, name).write_bytes(held)

        def told(*words):
            return subprocess.run([f"{PROGRAM}/out/ticurses", *words], cwd=folder, capture_output=True)

        def holds(where):
            return {one.name: one.read_bytes() for one in Path(folder, where).iterdir() if one.is_file()}

        # a folder that isn't there is made
        Path(folder, "blocked").mkdir()
        Path(folder, "blocked", "base.ti").mkdir()
        done = told(*fix, "mended")
        if (done.returncode, done.stdout, done.stderr) != (0, b"", b"") or holds("mended") != right:
            fail(f"check --fix --with: {done}, and {holds('mended')}")
        blocked = told(*fix, "blocked")
        if blocked.returncode != 3 or b"file: blocked\n" not in blocked.stderr or holds("blocked"):
            fail(f"a folder in which a file can't be stored: {blocked}, and {holds('blocked')}")
        Path(folder, "deep").mkdir()
        Path(folder, "deep", "own.ti").write_bytes(BASE)
        twice = told("check", "--fix", "--with", "deep/own.ti", *ENTRY, "--out", "blocked")
        if twice.returncode != 2 or holds("blocked"):
            fail(f"two files of one name: {twice}, and {holds('blocked')}")
        survey = ["survey", "--fix", "--fail", *WITH, "--with", "spare.ti", *SIZE, "own.ti", "--out"]
        every = told(*survey, "surveyed")
        if (every.returncode, every.stdout, every.stderr) != (0, b"", b"") or holds("surveyed") != right:
            fail(f"survey --fix --with: {every}, and {holds('surveyed')}")
        none = told("check", "--fix", "--with", "base.ti", "spare.ti:spare", *SIZE, "--out", "nothing")
        if holds("nothing") or told(*fix, "no/folder").returncode != 3:
            fail(f"a folder for nothing, and one without a parent: {none}")
        over = told(*fix, ".")
        if over.returncode or {name: holds(".")[name] for name in FILES} != right or holds(".")["spare.ti"] != spare:
            fail(f"the sources themselves: {over}")
    print("with: --fix, which stores the changed files of a folder or none")


def levels():
    """Entries of which each uses the next one, in three files by turns."""
    texts = ["", "", ""]
    for at in range(LEVELS):
        use = f" use=l{at + 1}," if at + 1 < LEVELS else ""
        texts[at % 3] += f"l{at}|level {at},\n\tcols#{at + 1},{use}\n"
    return {f"{i}.ti": text.encode() for i, text in enumerate(texts)}


def judge_levels():
    data = levels()
    words = [["--with", f"{i}.ti"] for i in range(3)]

    def told(at):
        own = at % 3
        further = [word for i in range(3) if i != own for word in words[i]]
        return run(["infocmp", *further, f"{own}.ti:l{at}"], data)

    for at in (0, 1, LEVELS - MOST - 2):
        one = told(at)
        if one.status != 1 or f"refused: TooMany l{at + MOST + 1}\n" not in one.err.decode():
            fail(f"level {at}: {one.status} {one.err}")
    for at in (LEVELS - MOST - 1, LEVELS - 1):
        one = told(at)
        if (one.status, one.out) != (0, f"l{at}|level {at},\n\tcols#{at + 1},\n".encode()):
            fail(f"level {at}: {one.status} {one.out} {one.err}")
    print(f"with: {LEVELS} levels of use= over three files, of which {MOST} are allowed")


HINT = b"--with FILE"


def judge_refusals():
    """Each refusal, in its order, and whether it names the option or the file."""
    bad = {"bad.ti": b"base|one,\n\tcols#8x,\n", "front.ti": b"\tcols#80,\n"}
    rows = [
        (["check", *ENTRY], 1, b"refused: NoSuchEntry base\n", True, None),
        (["check", "own.ti:other", *SIZE], 1, b"refused: NoSuchEntry other\n", False, None),
        (["tic", "own.ti:own"], 1, b"refused: NoSuchEntry base\n", True, None),
        (["infocmp", "--with", "own.ti", "own.ti:own"], 1, b"refused: NoSuchEntry base\n", False, None),
        (["check", "--with", "bad.ti", *ENTRY], 1, b"refused: line 2: BadNumber\n", False, b"bad.ti"),
        (["check", "--json", "--with", "bad.ti", *ENTRY], 1, b"refused: line 2: BadNumber\n", False, b"bad.ti"),
        (["check", "--with", "nobody.ti", *ENTRY], 3, b"file: nobody.ti\n", False, None),
        (["check", "--with", "nobody.ti", "own.ti:own", "1", "1"], 1, b"refused: BadSize\n", False, None),
        (["check", "--with", "nobody.ti", "gone.ti:own", *SIZE], 3, b"file: gone.ti\n", False, None),
        (["check", "--fix", *WITH, *ENTRY], 1, b"refused: SeveralFiles\n", False, None),
        (["survey", "--fix", *WITH, *SIZE, "own.ti"], 1, b"refused: SeveralFiles\n", False, None),
        (["survey", "--fix", "--with", "bad.ti", *SIZE, "own.ti"], 1, b"refused: line 2: BadNumber\n", False, b"bad.ti"),
        (["survey", "--with", "front.ti", *SIZE, "own.ti"], 1, b"refused: line 1: NoName\n", False, b"front.ti"),
        (["survey", "--with", "nobody.ti", *SIZE, "own.ti"], 3, b"file: nobody.ti\n", False, None),
        (["check", "--with", "-", "--", "-:own", *SIZE], 2, b"error: '-' is standard input", False, None),
        (["infocmp", "-c", "--with", "-", "own.ti:own", "own.ti:own"], 2, b"error: '-' is standard input", False, None),
        (["feed", "--with", "base.ti", *SIZE, "own.ti"], 2, b"error: ", False, None),
    ]
    for words, status, line, hinted, named in rows:
        one = run(words, FILES | bad)
        if one.status != status or line not in one.err or (HINT in one.err) != hinted:
            fail(f"{words}: {one.status} {one.err}")
        if named is not None and named not in one.err.split(line)[1]:
            fail(f"{words} doesn't name {named}: {one.err}")
    # the line may be one of any of these files, so the object has none
    for words, line in ((["--with", "bad.ti"], None), ([], 2)):
        one = json.loads(run(["check", "--json", *words, "bad.ti:base" if line else "own.ti:own", *SIZE], FILES | bad).out)
        if (one["verdict"], one["cause"], one["line"]) != ("refused", "line 2: BadNumber", line) or one["source_file"] != (line and "bad.ti"):
            fail(f"check --json {words}: {one}")
    given = run(["infocmp", "--with", "-", "own.ti:own"], FILES, BASE)
    if (given.status, given.out) != (0, run(["infocmp", *WITH, "own.ti:own"], FILES).out):
        fail(f"a further file on standard input: {given.status} {given.err}")
    print(f"with: {len(rows)} refusals, in their order")


def judge_survey():
    """A survey lists the entries of its own files; one that can't be read in a further file refuses those that use it."""
    data = {
        "a.ti": b"good|one,\n\tuse=fine,\nbad|two,\n\tuse=broken,\nlast|three,\n\tuse=nobody,\n",
        "b.ti": b"fine|four,\n\tclear=\\E[H\\E[2J, cup=\\E[%i%p1%d;%p2%dH, sgr0=\\E[m,\nbroken|five,\n\tcols#8x,\n",
    }
    told = run(["survey", "--with", "b.ti", *SIZE, "a.ti"], data)
    want = b"good yes\nbad refused: line 4: BadNumber\nlast refused: NoSuchEntry nobody\ntotal 3, yes 1, refused 2\n"
    if (told.status, told.out) != (0, want):
        fail(f"survey --with: {told.status} {told.out} {told.err}")
    ones = [json.loads(line) for line in run(["survey", "--json", "--with", "b.ti", *SIZE, "a.ti"], data).out.splitlines()]
    found = {it["entry"]: (it["verdict"], it["file"], it["source_file"], it["line"]) for it in ones if it["verdict"] not in ("advice", "hint")}
    hidden = {"good": ("yes", "a.ti", None, None), "bad": ("refused", "a.ti", "b.ti", 4), "last": ("refused", "a.ti", "a.ti", 6)}
    if found != hidden:
        fail(f"survey --json --with: {found}")
    sarif = json.loads(run(["survey", "--sarif", "--with", "b.ti", *SIZE, "a.ti"], data).out)
    places = [it["locations"][0]["physicalLocation"] for it in sarif["runs"][0]["results"] if it["ruleId"] == "Refused"]
    if [(it["artifactLocation"]["uri"], it.get("region", {}).get("startLine")) for it in places] != [("b.ti", 4), ("a.ti", 6)]:
        fail(f"survey --sarif --with: {places}")
    every = run(["survey", "--all", *WITH, *SIZE, "own.ti"], FILES)
    places = every.err.decode().splitlines()
    for cap, (_, _, entry, _, _) in PLANTED.items():
        if not any(it.startswith(f"{placed(cap)}: {cap} of {entry}: own no {cap}") for it in places):
            fail(f"survey --all --with: {cap} of {entry} isn't in {places}")
    print("with: surveys, which list the entries of their own files")


def main():
    judge_planted()
    judge_like_one()
    judge_order()
    judge_compiled()
    judge_fixes()
    judge_levels()
    judge_refusals()
    judge_survey()


main()
