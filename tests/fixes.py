"""Suggestions taken in the source text by `check --fix` and `survey --fix`."""

import re
import shutil
import subprocess
import sys
import tempfile
from pathlib import Path

from faults import COLS, RIGHT, ROWS, WRONG, named
from trying import PROGRAM, Case, run_cases

SIZE = [str(ROWS), str(COLS)]
SUGGESTED = re.compile(r"  (\w+=.+) would be right on T")
FIELD = re.compile(r"\t(\w+)[=@]")
# a character of a string, as it is written in a source
WRITTEN = re.compile(r"\\[0-7]{3}|\\.|\^.|.")
ESCAPES = {r"\E": "\x1b", r"\b": "\b", r"\n": "\n", r"\r": "\r"}
# another string that the standards have for a capability
ALSO = {"cud1": r"\n"}
# a fault of a grade that isn't mended without `--standard`
LEFT = re.compile(r"left: w(\d+) no \w+(?: \d+)*: (?:Stuck|NotTame|StaticRead)")
ENTRIES = 200
# so many of them in one text for `survey --fix`
TOGETHER = 40


def fail(text):
    sys.exit(f"fixes: {text}")


# one field; several on a line, with white space and a comment between; a missing one; a field of a used entry; a last
# line without a newline; a name that begins another; an escaped comma
TEXT = rb"""# a comment, with el=\E[1K, in it

base|what others use,
	cup=\E[%i%p1%d;%p2%dH,  clear=\E[H\E[2J,
	el=\E[%dK, sgr0=\E[m,
#	el1=\E[K,

one|one field,
	el1=\E[K, use=base,
many|several fields on a line,	am, it#8,  bel=\E[,ed=\E[%p1%dK,	cr=\E[H,
  	.el1=\E[K, kf1=\E\,x\,, el1=\E[K,
	use=base,
lacking|a missing field,
	el=\E[K,
	clear=\E[H\E[2J, sgr0=\E[m,
shifts|its set is never made graphic,
	clear=\E[H\E[2J, sgr0=\E[m, cup=\E[%i%p1%d;%p2%dH, acsc=qqxx, smacs=\E(B, rmacs=^O,
last|the last line,
	clear=\E[H\E[2J, sgr0=\E[m, cup=\E[%i%p1%d;%p2%dH, cuf1=\E[H,"""

# what each entry's text is to be, by the standards' strings
WANTED = {
    "one": [(rb"el=\E[%dK, sgr0", rb"el=\E[K, sgr0"), (b"\tel1=\\E[K, use=base", b"\tel1=\\E[1K, use=base")],
    "many": [
        (rb"el=\E[%dK, sgr0", rb"el=\E[K, sgr0"), (rb"bel=\E[,", b"bel=\\007,"), (rb"ed=\E[%p1%dK", rb"ed=\E[J"),
        (rb"cr=\E[H", rb"cr=\r"), (rb"x\,, el1=\E[K", rb"x\,, el1=\E[1K"),
    ],
    "lacking": [(b"clear=\\E[H\\E[2J, sgr0=\\E[m,\nshifts", b"clear=\\E[H\\E[2J, sgr0=\\E[m, cup=\\E[%i%p1%d;%p2%dH,\nshifts")],
    # strings that are right only together: one of them isn't at fault by itself
    "shifts": [(rb"smacs=\E(B, rmacs=^O,", rb"smacs=\016, rmacs=^O, enacs=\E(B\E)0,")],
    "last": [(rb"cuf1=\E[H,", rb"cuf1=\E[C,")],
}  # fmt: skip


def mended(name):
    text = TEXT
    for old, new in WANTED[name]:
        if text.count(old) != 1:
            fail(f"{old} stands {text.count(old)} times in the text")
        text = text.replace(old, new)
    return text


def judge_planted():
    told = run_cases(PROGRAM, [Case(["check", "--fix", f"text:{name}", *SIZE]) for name in WANTED], {"text": TEXT})
    for name, one in zip(WANTED, told):
        if (one.out, one.status, one.err) != (mended(name), 0, b""):
            fail(f"--fix of {name}: {one.status} {one.err} {one.out.decode(errors='replace')}")
    print(f"fixes: {len(WANTED)} entries are mended in their text, and nothing else of it changes")


# `el` of `shared` serves `right`, which lacks what makes it wrong in `asked`: both want their own
SHARED = rb"""shared|what both use, clear=\E[H\E[2J, cup=\E[%i%p1%d;%p2%dH, sgr0=\E[m, cuf1=\r,
asked|with a fault, el=\E[1K, use=shared,
compiled|not at fault, el=\E[K, cuf1=\E[C, use=shared,
"""


# `smacs` of `both` is right in `right`, which makes G1 graphic and shifts back; `other`, which designates, wants another
BOTH = rb"""both|what both use, clear=\E[H\E[2J, cup=\E[%i%p1%d;%p2%dH, sgr0=\E[m, smacs=^N, acsc=qqxx,
right|with a yes, enacs=\E(B\E)0, rmacs=^O, use=both,
other|at fault, rmacs=\E(B, use=both,
"""
NO = "no smacs: WrongEffect"


def judge_kept():
    words = [["check", *more, f"both:{name}", *SIZE] for name in ("right", "other") for more in ([], ["--fix"])]
    yes, same, no, kept = run_cases(PROGRAM, [Case(it) for it in words], {"both": BOTH})
    if [it.status for it in (yes, same, no, kept)] != [0, 0, 1, 1] or same.err:
        fail(f"the entries before: {yes} {same} {no} {kept}")
    lines = ["kept smacs: right would lose its yes", f"left: {NO}", f"refused: {NO}"]
    if (same.out, kept.out) != (BOTH, BOTH) or kept.err.decode().splitlines() != lines:
        fail(f"a field by which an entry would lose its yes: {kept.out} {kept.err}")
    print("fixes: a field stays as it is where an entry would lose its yes, and is named")


# no string mends the flag, so that only what is at fault on any terminal is mended
FLAG = rb"""flagged|with a flag that rules a certificate out,
	xmc#1, bel=\E[, el=\E[1K,
	clear=\E[H\E[2J, sgr0=\E[m, cup=\E[%i%p1%d;%p2%dH,
"""


# `smacs` of `base` isn't right in `one`, which makes G1 graphic, nor in `two`, which designates: each wants its own
RIVALS = rb"""base|what both use, clear=\E[H\E[2J, cup=\E[%i%p1%d;%p2%dH, sgr0=\E[m, acsc=qqxx, smacs=\E(B,
one|graphic in G1, enacs=\E)0, rmacs=^O, use=base,
two|graphic in G0, rmacs=\E(B, el=\E[1K, use=base,
"""


def all_mended():
    """The text with what is wanted for each of its entries."""
    text = TEXT
    for old, new in {pair for pairs in WANTED.values() for pair in pairs}:
        text = text.replace(old, new)
    return text


def characters(string):
    """The characters of a string as it is written in a source, in whatever way each is written."""
    found = WRITTEN.findall(string)
    codes = {it: chr(int(it[1:], 8)) for it in found if it[1:].isdigit()}
    control = {it: chr(ord(it[1]) - 64) for it in found if it[0] == "^"}
    return [{**ESCAPES, **codes, **control}.get(it, it) for it in found]


def planted():
    """The faulty fields, and the lines of a text: an entry for each of them, with all other fields right, and two entries
    that use the first one. Each field is on a line of its own."""
    bad = [field for field, _, _ in WRONG if "=" in field and named(field) != "acsc"]
    lines = []
    for at, field in enumerate(bad):
        own = {name: f"{name}={string}" for name, string in RIGHT.items()} | {named(field): field}
        lines += [f"w{at}|with a fault in {named(field)},", *(f"\t{it}," for it in own.values())]
    lines += ["first|as another one,", "\tuse=w0,", "second|as another one,", "\tuse=w0,"]
    return bad, lines


def judge_together():
    """Faults of many entries of one text, mended at once, by the standards' strings."""
    bad, lines = planted()
    text = "".join(f"{line}\n" for line in lines).encode("latin-1")
    [told] = run_cases(PROGRAM, [Case(["survey", "--fix", "--fail", *SIZE, "planted"])], {"planted": text})
    after = told.out.decode("latin-1").split("\n")
    # what T can't judge stays
    left = [LEFT.fullmatch(it) for it in told.err.decode().splitlines()]
    if told.status != 1 or len(after) != len(lines) + 1 or not all(left[:-1]) or left[-1]:
        fail(f"survey --fix of {len(bad)} entries: {told.status} {told.err}")
    unknown = {int(it[1]) for it in left[:-1]}
    changed = [(old, new) for old, new in zip(lines, after) if old != new]
    if [old for old, _ in changed] != [f"\t{field}," for at, field in enumerate(bad) if at not in unknown]:
        fail(f"survey --fix changed {changed}")
    for old, new in changed:
        name = named(old[1:])
        right = [characters(it) for it in (RIGHT[name], ALSO.get(name, RIGHT[name]))]
        if not new.startswith(f"\t{name}=") or characters(new[len(name) + 2 : -1]) not in right:
            fail(f"survey --fix wrote {new} for {old}")
    print(f"fixes: survey --fix mends {len(changed)} entries of one text by the standards' strings")


def judge_survey():
    """All entries of a text at once."""
    data = {"text": TEXT, "flag": FLAG, "both": BOTH, "rivals": RIVALS}
    refused = (["--all", "text"], ["--json", "text"], ["--sarif", "text"], ["text", "both"])
    refused += (["text", "--out", "-"], ["--json", "--baseline", "both", "text"])
    ways = (["--fail", "text"], ["flag"], ["--fail", "flag"], ["both"], ["--fail", "rivals"], *refused)
    told = run_cases(PROGRAM, [Case(["survey", "--fix", *SIZE, *way]) for way in ways], data)
    whole, loose, strict, both, rivals = told[:5]
    if (whole.status, whole.out, whole.err) != (0, all_mended(), b""):
        fail(f"survey --fix: {whole}")
    lines = ["kept el of flagged: flagged would change and not be mended"]
    lines += ["left: flagged no xmc: FlagOut", "left: flagged no el: WrongEffect"]
    mended_flag = FLAG.replace(b"bel=\\E[,", b"bel=\\007,")
    if (loose.status, strict.status) != (0, 1) or {loose.out, strict.out} != {mended_flag}:
        fail(f"survey --fix of an entry that stays at fault: {loose} {strict}")
    if (loose.err.decode().splitlines(), strict.err.decode().splitlines()) != (lines, [*lines, "refused: Faulty"]):
        fail(f"survey --fix named {loose.err} {strict.err}")
    lines = ["kept smacs of other: right would lose its yes", f"left: other {NO}"]
    if (both.status, both.out, both.err.decode().splitlines()) != (0, BOTH, lines):
        fail(f"survey --fix by which an entry would lose its yes: {both}")
    lines = [f"kept {it} would change and not be mended" for it in ("smacs of one: base", "el of two: two", "smacs of two: base")]
    lines += [f"left: one {NO}", "left: two no el: WrongEffect", f"left: two {NO}", "refused: Faulty"]
    if (rivals.status, rivals.out, rivals.err.decode().splitlines()) != (1, RIVALS, lines):
        fail(f"survey --fix of a field that is to have two strings: {rivals}")
    if any(it.status != 2 or it.out for it in told[5:]):
        fail(f"survey --fix beside another form, or of two files: {told[5:]}")
    judge_refused(data)
    print("fixes: survey --fix mends all entries of a text at once, and names what it leaves")


def judge_refused(data):
    """A text that can't be read whole, no source, and `--out` without `--fix`."""
    data = {**data, "torn": TEXT.replace(b"cuf1=\\E[H,", b"cuf1=\\E[H"), "packed": b"\x1a\x01" + bytes(40)}
    ways = (["--fix", *SIZE, "torn"], ["--fix", *SIZE, "packed"], ["--fix", "1", "6", "text"], ["--fix", *SIZE, "none"])
    ways += ([*SIZE, "text", "--out", "other"], ["--all", *SIZE, "text", "--out", "other"])
    told = run_cases(PROGRAM, [Case(["survey", *way]) for way in ways], data)
    if [(it.status, it.out) for it in told] != [(status, b"") for status in (1, 1, 1, 3, 2, 2)]:
        fail(f"survey --fix that is refused: {told}")
    line = TEXT.count(b"\n") + 1
    if f"refused: line {line}: OpenField" not in told[0].err.decode().splitlines():
        fail(f"survey --fix of a text that can't be read whole: {told[0]}")


# texts in which nothing may change: two blocks, one of which lacks what every certificate needs; fields that terminals of
# another kind share; pictures of code page 437; a part with a field at fault in an entry that has another one for it
STAYING = {
    "blocks": rb"""base+x|block,
	clear=\E[H\E[J, cup=\E[%i%p1%d;%p2%dH,
acs+x|block,
	acsc=qq, smacs=\E(0, rmacs=\E(B, sgr0=\E[m\E(B,
pc|like pccon,
	use=base+x, use=acs+x,
""",
    "kinds": rb"""blk+adm|shared,
	rev=\EG4, rmso=\EG0, sgr0=\EG0,
own|a terminal of another kind,
	clear=^Z, cup=\E=%p1%{32}%+%c%p2%{32}%+%c, use=blk+adm,
ansiish|ANSI addressing and the own attributes,
	clear=\E[H\E[2J, cup=\E[%i%p1%d;%p2%dH, use=blk+adm,
""",
    "page": rb"""# keep
acs1|code page 437 console,
	clear=\E[H\E[2J, cup=\E[%i%p1%d;%p2%dH, sgr0=\E[0;10m,
	acsc=q\304x\263, rmacs=\E[10m, smacs=\E[11m,
""",
    "unknown": rb"""beyond|a function that T hasn't,
	clear=\E[H\E[2J, cup=\E[%i%p1%d;%p2%dH, sgr0=\E[m, ech=\E[%p1%d$X,
""",
}
# a field on two lines beside one at fault, and one at fault on two lines
WRAPPED = rb"""good|right,
	clear=\E[H\E[2J, cup=\E[%i
	    %p1%d;%p2%dH, sgr0=\E[m,
# two lines on purpose
bad|one fault,
	bel=^G, el=\E[1K$<5>, use=good,
"""


def judge_harms():
    """Strings that aren't at fault, or not for certain, stay; so do line breaks and padding."""
    ways = [["survey", "--fix", *SIZE, name] for name in STAYING]
    told = run_cases(PROGRAM, [Case(way) for way in ways], STAYING)
    for (name, text), one in zip(STAYING.items(), told):
        if (one.status, one.out) != (0, text):
            fail(f"survey --fix changes {name}: {one.out} {one.err}")
    [one] = run_cases(PROGRAM, [Case(["survey", "--fix", "--join", *SIZE, "wrapped"])], {"wrapped": WRAPPED})
    if (one.status, one.out) != (0, WRAPPED.replace(rb"el=\E[1K$<5>", rb"el=\E[K$<5>")):
        fail(f"survey --fix --join: {one.out} {one.err}")
    print(f"fixes: {len(STAYING)} texts with nothing to mend stay as they are; breaks and padding stay")


def judge_by_hand():
    data = {"shared": SHARED, "text": TEXT}
    told = run_cases(
        PROGRAM,
        [
            Case(["check", "--fix", "shared:asked", *SIZE]),
            Case(["check", "--fix", "--all", "shared:asked", *SIZE]),
            Case(["check", "--fix", "--json", "shared:asked", *SIZE]),
            Case(["check", "--fix", "shared:nobody", *SIZE]),
            Case(["check", "--fix", "shared", *SIZE]),
            Case(["check", "--fix", "--out", "-", "shared:asked", *SIZE]),
            Case(["check", "--fix", "shared:asked", "1", "6"]),
        ],
        data,
    )
    both, every, json, nobody, file, hyphen, size = told
    if (both.status, both.out) != (0, SHARED.replace(rb"cuf1=\r", rb"cuf1=\E[C", 1).replace(rb"el=\E[1K", rb"el=\E[K")):
        fail(f"a field of a used entry: {both}")
    if [it.status for it in (every, json, nobody, file, hyphen, size)] != [2, 2, 1, 1, 2, 1]:
        fail(f"refusals: {told[1:]}")
    if any(it.out for it in told[1:]):
        fail(f"output beside a refusal: {told[1:]}")
    print("fixes: a used entry's field is mended, and 6 refusals have no output")


def sources():
    """The entries of the system's database, as ncurses' infocmp prints them."""
    infocmp = shutil.which("infocmp")
    trees = [tree for tree in map(Path, ("/etc/terminfo", "/lib/terminfo", "/usr/share/terminfo")) if tree.is_dir()]
    if not infocmp or not trees:
        return {}
    names = sorted({path.name for tree in trees for path in tree.glob("?/*") if path.is_file()})
    found = {}
    for name in names:
        told = subprocess.run([infocmp, "-1", "-x", "--", name], capture_output=True)
        if told.returncode == 0:
            found[name] = told.stdout
    return found


def suggestions(told):
    """The fields that `check --all` says would be right."""
    return [it[1] for it in map(SUGGESTED.fullmatch, told.out.decode().splitlines()) if it]


def taken_of(after, suggested):
    """The suggested fields that the text has afterwards, with the padding that stays behind them."""
    text = after.decode("latin-1")
    found = [(it, re.search(rf"[\t ]{re.escape(it)}((?:\$<[0-9.]+[*/]*>)*),", text)) for it in suggested]
    return [it + own[1] for it, own in found if own]


def is_only(before, after, taken):
    """Whether just these fields have changed, each where it was; the missing ones stand after the entry's last. Each
    field of the text is on a line of its own."""
    wanted = {named(field): f"\t{field}," for field in taken}
    lines = []
    for line in before.decode("latin-1").split("\n"):
        own = FIELD.match(line)
        lines.append(wanted.pop(own[1], line) if own else line)
    last = max(at for at, line in enumerate(lines) if line)
    lines[last] += "".join(f" {field[1:]}" for field in wanted.values())
    return lines == after.decode("latin-1").split("\n")


def judge_database():
    texts = sources()
    if not texts:
        print("fixes: left out, since ncurses' infocmp or its database is not installed")
        return
    names = list(texts)
    data = {f"s{at}": text for at, text in enumerate(texts.values())}
    listed = run_cases(PROGRAM, [Case(["check", "--all", f"s{at}:{name}", *SIZE]) for at, name in enumerate(names)], data)
    faulty = [at for at, one in enumerate(listed) if suggestions(one)][:ENTRIES]
    fixed = run_cases(PROGRAM, [Case(["check", "--fix", f"s{at}:{names[at]}", *SIZE]) for at in faulty], data)
    after = {f"s{at}": one.out for at, one in zip(faulty, fixed)}
    again = run_cases(PROGRAM, [Case(["check", "--all", f"s{at}:{names[at]}", *SIZE]) for at in faulty], after)
    right = mended_fields = 0
    for at, one, then in zip(faulty, fixed, again):
        taken = taken_of(one.out, suggestions(listed[at]))
        mended_fields += len(taken)
        if not is_only(data[f"s{at}"], one.out, taken):
            fail(f"--fix of {names[at]} took {taken}: {one}")
        bad = {named(line[3:]) for line in then.out.decode().splitlines() if line.startswith("no ")}
        if bad & {named(field) for field in taken}:
            fail(f"--fix of {names[at]}: {bad} are at fault after {taken}")
        if one.status != then.status or (one.status == 0) != (then.out == b"yes\n"):
            fail(f"--fix of {names[at]} ended with {one.status}, and check --all with {then.status}")
        right += one.status == 0
    some = list(zip(faulty, fixed))[:TOGETHER]
    joined = {"all": b"".join(data[f"s{at}"] for at, _ in some)}
    [whole] = run_cases(PROGRAM, [Case(["survey", "--fix", *SIZE, "all"])], joined)
    if (whole.status, whole.out) != (0, b"".join(one.out for _, one in some)):
        fail(f"survey --fix of {len(some)} entries differs from check --fix of each: {whole.status} {whole.err}")
    if not mended_fields:
        fail("no field of the database is mended")
    print(f"fixes: of {len(faulty)} faulty entries of the database {right} have a certificate after --fix; no other byte changed")


def judge_out():
    """`--out` may name the source itself, which is replaced at once; without `--fix` it is refused."""
    with tempfile.TemporaryDirectory() as folder:
        path = Path(folder, "text")
        path.write_bytes(TEXT)

        def run(*words):
            return subprocess.run([f"{PROGRAM}/out/ticurses", "check", *words], cwd=folder, capture_output=True)

        told = run("text:last", *SIZE, "--out", "text")
        if path.read_bytes() != TEXT:
            fail(f"check without --fix wrote to its source: {told}")
        told = run("--fix", "text:last", *SIZE, "--out", "other")
        if (told.returncode, told.stdout, Path(folder, "other").read_bytes(), path.read_bytes()) != (0, b"", mended("last"), TEXT):
            fail(f"--fix --out: {told}")
        told = run("--fix", "text:last", *SIZE, "--out", "text")
        if (told.returncode, told.stdout, path.read_bytes()) != (0, b"", mended("last")):
            fail(f"--fix --out of the source: {told}")
        told = run("text:last", *SIZE, "--out", "text")
        if told.returncode != 3 or path.read_bytes() != mended("last"):
            fail(f"check --out of the source: {told}")
        path.write_bytes(TEXT)
        for out in ("other", "text"):
            told = subprocess.run(
                [f"{PROGRAM}/out/ticurses", "survey", "--fix", *SIZE, "text", "--out", out], cwd=folder, capture_output=True
            )
            if (told.returncode, told.stdout, Path(folder, out).read_bytes()) != (0, b"", all_mended()):
                fail(f"survey --fix --out {out}: {told}")
        if sorted(it.name for it in Path(folder).iterdir()) != ["other", "text"]:
            fail(f"files are left: {list(Path(folder).iterdir())}")
    print("fixes: the text is stored whole, and over its source only with --fix")


def main():
    judge_planted()
    judge_kept()
    judge_survey()
    judge_together()
    judge_harms()
    judge_by_hand()
    judge_out()
    judge_database()


if __name__ == "__main__":
    main()
