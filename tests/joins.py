"""Sources in which fields continue on further lines, read with `--join`."""

import json
import re
import subprocess
import sys
import tempfile
from pathlib import Path

from faults import COLS, ROWS
from trying import PROGRAM, Case, run_cases

SIZE = [str(ROWS), str(COLS)]


def fail(text):
    sys.exit(f"joins: {text}")


# a field over three lines, a field that goes on after another one, one whose comma has a line of its own, a comment
# between fields, an entry that uses another
WRAPPED = rb"""# a comment that ends in an open field, el=\E[1K
wrapped|strings over several lines,
	clear=\E[H
	\E[2J, cup=\E[%i
	  %p1%d;
 %p2%dH,
#	a comment, el1=
	sgr0=\E[m, el=\E[1K
	,
user|another entry,
	ed=\E[
	J, use=wrapped,
"""
# the same, with each field on the line on which it begins, and a blank line for each that went on in it
JOINED = rb"""# a comment that ends in an open field, el=\E[1K
wrapped|strings over several lines,
	clear=\E[H\E[2J, cup=\E[%i%p1%d;%p2%dH,



#	a comment, el1=
	sgr0=\E[m, el=\E[1K,

user|another entry,
	ed=\E[J, use=wrapped,

"""
# both with the fault of `el` mended
MENDED = JOINED.replace(rb"el=\E[1K,", rb"el=\E[K,")
WRAPPED_MENDED = WRAPPED.replace(b"el=\\E[1K\n\t,", b"el=\\E[K\n\t,")
# a wrapped entry with faults: a field that begins on the third line, goes on to the fifth and is wrong as a whole, one
# that is wrong by a parameter on its second line, one whose wrong control function goes over two lines, one after a
# wrapped field, and a hint about a wrapped field
FAULTY = rb"""faulty|wrong strings over several lines,
	sgr0=\E[m, clear=\E[H
	\E[2J, cup=\E[%i
	  %p1%d;
 %p2%dX,
	home=\E[
		2;1H, el=\E[
	K\E[1
	C, ed=\E[1J,
	nope=\E[1
	;2x, bel=^G,
"""
# each fault's capability, the place of its field, that of the part of its value that is at fault, and the lines of the
# field with their marks; worked out by hand
PLACES = [
    ("cup", (3, 9, 5, 8), None, ["cup=\\E[%i", "    ^~~~~"]),
    ("home", (6, 2, 7, 7), (7, 3, 7, 4), ["home=\\E[", "2;1H", "^"]),
    ("el", (7, 9, 9, 3), (8, 3, 9, 3), ["el=\\E[", "K\\E[1", " ^~~~"]),
    ("ed", (9, 5, 9, 13), None, ["ed=\\E[1J", "   ^~~~~"]),
]
NOPE = (10, 2, 11, 5)
# the further line of a refusal
HINT = "with --join a field may continue on further lines\n"
# where a field can't go on: before a comment, a blank line, a line in column one, the end
OPEN = {
    b"a|one,\n\tel=\\E[K\n#\n\t, bel=^G,\n": 2,
    b"a|one,\n\tel=\\E[K\n\n\t, bel=^G,\n": 2,
    b"a|one,\n\tel=\\E[K\nb|two,\n\tbel=^G,\n": 2,
    b"a|one,\n\tel=\\E[K\n": 2,
    b"a|one,\n\tel=\\E\n\t[K, ed=\\E[J\n \t\n": 2,
}


def commands(entry, cert="cert"):
    """A run of each command that takes `--join`, without it."""
    return [
        ["check", f"text:{entry}", *SIZE],
        ["check", "--all", f"text:{entry}", *SIZE],
        ["check", "--json", "--all", f"text:{entry}", *SIZE],
        ["verify", f"text:{entry}", *SIZE, cert],
        ["survey", *SIZE, "text"],
        ["survey", "--all", *SIZE, "text"],
        ["survey", "--json", *SIZE, "text"],
        ["tic", f"text:{entry}"],
        ["infocmp", f"text:{entry}"],
        ["infocmp", "-c", f"text:{entry}", f"text:{entry}"],
        ["infocmp", "-n", f"text:{entry}", f"text:{entry}"],
    ]


def joining(words):
    return [words[0], "--join", *words[1:]]


def in_wrapped(line, column):
    """The place in the wrapped text of the byte at this line and column of the joined one: that line, and those that it has
    taken up, which are blank there, without the white space before them."""
    lines, blank = WRAPPED.split(b"\n"), [not it for it in JOINED.split(b"\n")]
    white = 0
    while column > len(lines[line - 1]) - white and blank[line]:
        column -= len(lines[line - 1]) - white
        line += 1
        white = len(lines[line - 1]) - len(lines[line - 1].lstrip(b" \t"))
    return line, white + column


def as_wrapped(words, out):
    """The output of a run on the joined text, with the places that it has in the wrapped one."""
    if "--json" not in words:
        return re.sub(rb"(?m)^text:(\d+):(\d+): ", lambda found: b"text:%d:%d: " % in_wrapped(*map(int, found.groups())), out)
    ones = [json.loads(line) for line in out.splitlines()]
    for one in ones:
        if one["column"] is not None:
            end_line, last = in_wrapped(one["line"], one["end_column"] - 1)
            one["line"], one["column"] = in_wrapped(one["line"], one["column"])
            one["end_line"], one["end_column"] = end_line, last + 1
    return b"".join(json.dumps(one, ensure_ascii=False, separators=(",", ":")).encode() + b"\n" for one in ones)


def judge_same():
    """With `--join` each command says of the wrapped text what it says of the joined one; of that, nothing else than
    without."""
    cert = run_cases(PROGRAM, [Case(["check", "text:wrapped", *SIZE])], {"text": MENDED})[0].out
    if not cert.startswith(b"ticert 2 "):
        fail(f"no certificate of the mended text: {cert[:100]}")
    count = 0
    for entry in ("wrapped", "user"):
        words = commands(entry)
        right = run_cases(PROGRAM, [Case(it) for it in words], {"text": JOINED, "cert": cert})
        same = run_cases(PROGRAM, [Case(joining(it)) for it in words], {"text": JOINED, "cert": cert})
        read = run_cases(PROGRAM, [Case(joining(it)) for it in words], {"text": WRAPPED, "cert": cert})
        for it, want, other, told in zip(words, right, same, read):
            wrapped = want.status, as_wrapped(it, want.out), as_wrapped([], want.err)
            for one, wanted in ((other, (want.status, want.out, want.err)), (told, wrapped)):
                if (one.status, one.out, one.err) != wanted:
                    fail(f"{it} with --join: {one.status} {one.out} {one.err}, and {wanted}")
            count += 1
    words = joining(["verify", "text:wrapped", *SIZE, "cert"])
    for text in (MENDED, WRAPPED_MENDED):
        yes = run_cases(PROGRAM, [Case(words)], {"text": text, "cert": cert})[0]
        if (yes.status, yes.out) != (0, b"yes\n"):
            fail(f"verify --join: {yes}")
    print(f"joins: {count} runs say of a wrapped text what they say of the joined one")


def judge_places():
    """The lines of the file as it is, also where that is standard input; and the text that is written."""
    told = run_cases(
        PROGRAM,
        [
            Case(["check", "--join", "--all", "text:user", *SIZE]),
            Case(["check", "--join", "--fix", "text:user", *SIZE]),
            Case(["check", "--join", "--", "-:user", *SIZE], WRAPPED),
        ],
        {"text": WRAPPED},
    )
    every, fixed, given = told
    if "no el: WrongEffect\ntext:8:13: el of wrapped\n    el=\\E[1K\n       ^~~~~\n" not in every.out.decode():
        fail(f"the line of el: {every.out}")
    if (fixed.status, fixed.out, fixed.err) != (0, WRAPPED_MENDED, b""):
        fail(f"--fix --join: {fixed.status} {fixed.out} {fixed.err}")
    if (given.status, b"refused: no el: WrongEffect\n" in given.err) != (1, True):
        fail(f"standard input: {given.status} {given.err}")
    print("joins: places are told by the lines of the file")


def judge_regions():
    """Places of wrapped fields and of parts of them: their lines and columns, the lines that are shown, and the fixes."""
    words = (["check", "--all", "text:faulty", *SIZE], ["survey", "--all", *SIZE, "text"])
    words += (["check", "--all", "--json", "text:faulty", *SIZE], ["survey", "--sarif", *SIZE, "text"])
    plain, survey, objects, sarif = run_cases(PROGRAM, [Case(joining(it)) for it in words], {"text": FAULTY})
    ones = [json.loads(line) for line in objects.out.splitlines()]
    results = json.loads(sarif.out)["runs"][0]["results"]
    for cap, place, part, shown in PLACES:
        lines = "".join(f"    {line}\n" for line in shown)
        if f"text:{place[0]}:{place[1]}: {cap} of faulty\n{lines}" not in plain.out.decode():
            fail(f"check --all --join: {lines} of {cap} is not in {plain.out.decode()}")
        if f"text:{place[0]}:{place[1]}: {cap} of faulty: faulty no {cap}" not in survey.err.decode() or lines not in survey.err.decode():
            fail(f"survey --all --join: {lines} of {cap} is not in {survey.err.decode()}")
        [one] = [one for one in ones if (one["verdict"], one["capability"]) == ("no", cap)]
        if tuple(one[key] for key in ("line", "column", "end_line", "end_column")) != place:
            fail(f"--json --join: {one} is not at {place}")
        if tuple(one[f"fault_{key}"] for key in ("line", "column", "end_line", "end_column")) != (part or (None,) * 4):
            fail(f"--json --join: the part of {one} is not at {part}")
        judge_fix(results, one)
    [hint] = [one for one in ones if one["verdict"] == "hint"]
    if tuple(hint[key] for key in ("line", "column", "end_line", "end_column")) != NOPE:
        fail(f"--json --join: {hint} is not at {NOPE}")
    print(f"joins: {len(PLACES) + 1} places of wrapped fields are those of the file")


def judge_fix(results, one):
    """The fix of an object's fault puts the string that is suggested in place of the field, and of nothing else."""
    [result] = [it for it in results if it["message"]["text"].startswith(f"faulty: no {one['capability']}")]
    region = {"startLine": one["line"], "startColumn": one["column"], "endLine": one["end_line"], "endColumn": one["end_column"]}
    if result["locations"][0]["physicalLocation"]["region"] != region:
        fail(f"--sarif --join: the region of {result} is not {region}")
    if one["grade"] == "unknown":
        if "fixes" in result:
            fail(f"--sarif --join: a fix of {one}, of which nothing is known")
        return
    [change] = result["fixes"][0]["artifactChanges"]
    [replacement] = change["replacements"]
    lines = FAULTY.split(b"\n")
    front = b"\n".join([*lines[: one["line"] - 1], lines[one["line"] - 1][: one["column"] - 1]])
    behind = b"\n".join([lines[one["end_line"] - 1][one["end_column"] - 1 :], *lines[one["end_line"] :]])
    mended = front + replacement["insertedContent"]["text"].encode() + behind
    words = ["check", "--json", "--all", "text:faulty", *SIZE]
    found = run_cases(PROGRAM, [Case(joining(words))], {"text": mended})[0].out
    left = {it["capability"] for it in map(json.loads, found.splitlines()) if it["verdict"] == "no"}
    if replacement["deletedRegion"] != region or left != {cap for cap, *_ in PLACES} - {one["capability"]}:
        fail(f"--sarif --join: the fix of {one} leaves {left}")


def is_refused(words, out):
    """The output of a refusal: nothing, or with `--json` the object that says so."""
    if "--json" not in words:
        return not out
    one = json.loads(out)
    return (one["verdict"], one["entry"], one["cause"]) == ("refused", "wrapped", "line 3: OpenField")


def judge_refusals():
    """`OpenField` without `--join` names it; with it, a field that doesn't go on is refused at its line."""
    words = [it for it in commands("wrapped") if it[0] != "survey"]
    told = run_cases(PROGRAM, [Case(it) for it in words], {"text": WRAPPED, "cert": b""})
    for it, one in zip(words, told):
        lines = one.err.decode().splitlines(keepends=True)
        if one.status != 1 or not is_refused(it, one.out) or "refused: line 3: OpenField\n" not in lines or HINT not in lines:
            fail(f"{it}: {one.status} {one.out} {one.err}")
    survey = run_cases(PROGRAM, [Case(["survey", *SIZE, "text"])], {"text": WRAPPED})[0]
    if b"wrapped refused: line 3: OpenField\n" not in survey.out:
        fail(f"survey: {survey.out}")
    scripts = [Case([it, "text:wrapped", *SIZE, "cert", "script"]) for it in ("play", "show")]
    for one in run_cases(PROGRAM, scripts, {"text": WRAPPED, "cert": b"", "script": b""}):
        if one.status != 1 or b"refused: line 3: OpenField\n" not in one.err or HINT.encode() in one.err:
            fail(f"play or show: {one.status} {one.err}")
    for text, line in OPEN.items():
        one = run_cases(PROGRAM, [Case(["tic", "--join", "text:a"])], {"text": text})[0]
        if one.status != 1 or f"refused: line {line}: OpenField\n" not in one.err.decode() or HINT.encode() in one.err:
            fail(f"{text} with --join: {one.status} {one.err}")
    count = len(words) + len(scripts) + len(OPEN) + 1
    print(f"joins: {count} refusals of an open field, which name the option where there is one")


def judge_stored():
    """Compiled files and certificates are stored and read as they are; a source is replaced by `--fix` alone."""
    with tempfile.TemporaryDirectory() as folder:

        def run(*words):
            return subprocess.run([f"{PROGRAM}/out/ticurses", *words], cwd=folder, capture_output=True)

        def has(name, held):
            return Path(folder, name).read_bytes() == held

        Path(folder, "text").write_bytes(WRAPPED_MENDED)
        Path(folder, "plain").write_bytes(MENDED)
        for words in (["tic", "--out", "one", "plain:user"], ["check", "--out", "sure", "plain:user", *SIZE]):
            told = run(*words)
            if told.returncode:
                fail(f"{words}: {told}")
        for words in (["tic", "--out", "two", "text:user"], ["check", "--out", "also", "text:user", *SIZE]):
            told = run(*joining(words))
            if told.returncode:
                fail(f"{words}: {told}")
        if not has("two", Path(folder, "one").read_bytes()) or not has("also", Path(folder, "sure").read_bytes()):
            fail("what is stored with --join differs")
        for words in (["infocmp", "two"], ["survey", *SIZE, "two"], ["verify", "two", *SIZE, "also"], ["tic", "two"]):
            told, plain = run(*joining(words)), run(*words)
            if (told.returncode, told.stdout, told.stderr) != (plain.returncode, plain.stdout, plain.stderr):
                fail(f"{words} of a compiled file: {told} {plain}")
        told = run("check", "--join", "text:user", *SIZE, "--out", "text")
        if told.returncode != 3 or not has("text", WRAPPED_MENDED):
            fail(f"check --join --out of the source: {told}")
        Path(folder, "text").write_bytes(WRAPPED)
        told = run("check", "--join", "--fix", "text:user", *SIZE, "--out", "text")
        if (told.returncode, told.stdout) != (0, b"") or not has("text", WRAPPED_MENDED):
            fail(f"--fix --join over the source: {told}")
    print("joins: compiled files and certificates are stored and read as they are")


def main():
    judge_same()
    judge_places()
    judge_regions()
    judge_refusals()
    judge_stored()


if __name__ == "__main__":
    main()
