"""The reports of --json, compared field by field with the output of the plain form for the same entries, and object by
object with docs/report.schema.json where Python's jsonschema is installed."""

import itertools
import json
import re
import sys

try:
    from jsonschema import Draft202012Validator
except ImportError:
    Draft202012Validator = None

from faults import COLS, FIVE, MENDED, ROWS, TOGETHER, all_entries, together_source
from trying import PROGRAM, TOP, Case, run_cases

# the members of an object, and what each may be
TEXT, NUMBER, TRUTH = (str, type(None)), (int, type(None)), (bool, type(None))
MEMBERS = {
    "aliases": (list,), "aliases_hex": (list,), "another_kind": TRUTH, "bytes": TEXT, "capability": TEXT, "cause": TEXT, "cell_limit": NUMBER,
    "column": NUMBER, "end_column": NUMBER, "end_line": NUMBER, "entry": TEXT, "entry_hex": TEXT, "explanation": (list,), "fault_column": NUMBER, "fault_end_column": NUMBER, "fault_end_line": NUMBER, "fault_line": NUMBER, "file": (str,), "grade": TEXT, "judged": TRUTH, "left_out": (list,), "line": NUMBER, "parameters": (list,), "part": TRUTH, "rule": TEXT, "seen": TEXT, "size": (dict,),
    "source_entry": TEXT, "source_entry_hex": TEXT, "source_file": TEXT, "start": TEXT, "string": TEXT, "string_hex": TEXT, "suggested_with": (list,), "suggestion": TEXT, "suggestion_hex": TEXT, "verdict": (str,),
    "version": (int,), "wanted": TEXT, "way_out": NUMBER,
}  # fmt: skip
OF_FAULTS = [
    "another_kind", "bytes", "capability", "column", "end_column", "end_line", "fault_column", "fault_end_column", "fault_end_line", "fault_line", "grade", "judged", "line", "seen", "source_entry", "source_entry_hex", "source_file", "start", "string", "string_hex",
    "suggestion", "suggestion_hex", "wanted",
]  # fmt: skip
# an entry is refused for a use, which has a line where a survey finds it
USES = ("NoSuchEntry ", "Cycle ", "TooMany ")
# with these the string may be right
UNJUDGED = ("NotShown", "NotTame", "TooLong")
SIZE = [str(ROWS), str(COLS)]

# names with what JSON escapes, with characters beyond ASCII, and with bytes that are no text
NAMES = """quoted"name\\|a "right" one,
	cup=\\E[%i%p1%d;%p2%dH, clear=\\E[H\\E[2J, sgr0=\\E[m,
größe|written in UTF-8,
	clear=\\E[2J, sgr0=\\E[m,
lost|uses what isn't there,
	use=nobody,
""".encode() + b"lat\xeen\x7f|a|written in Latin-1,\n\tclear=\\E[H\\E[2J\\356, sgr0=\\E[m,\n"
NAMES += b"lat\\356n\\177|spelled as the one before is shown,\n\tclear=\\E[H\\E[2J\\\\356, sgr0=\\E[m,\n"
NAMES_SHOWN = ['quoted"name\\', "größe", "lost", "lat\\356n\\177", "lat\\356n\\177"]
ALIASES = [['a "right" one'], ["written in UTF-8"], [], ["a", "written in Latin-1"], ["spelled as the one before is shown"]]

# a no that the schema accepts, by what differs from a yes
ABSENT = {"verdict": "no", "capability": "cup", "cause": "Absent", "rule": "Absent", "judged": True, "another_kind": False}
ABSENT["grade"] = "wrong"
ABSENT["explanation"] = ["cup is missing"]
# what a yes alone has
BOUND = {"cell_limit": 10, "way_out": 10}
# and advice
ADVICE = {"verdict": "advice", "rule": "Advice", "capability": "sgr", "explanation": ["bold is never shown"]}
# and a hint
HINT = {"verdict": "hint", "rule": "Duplicate", "capability": "clear", "explanation": ["clear stands in the entry before"], "line": 5}
HINT |= {"source_file": "a.ti", "source_entry": "a", "source_entry_hex": "61", "column": 5, "end_line": 5, "end_column": 9}
NO_COLUMNS = {"column": None, "end_line": None, "end_column": None}

# and an entry that can't be read
UNREAD = {"verdict": "refused", "part": None, "rule": "Refused", "cause": "line 5: BadEscape", "line": 5, "source_file": "a.ti"}
# or in one of several files
BESIDE = {**UNREAD, "line": None, "source_file": None}
# or that uses what isn't there
LOST = {**UNREAD, "cause": "NoSuchEntry b", "source_entry": "a", "source_entry_hex": "61"}
NO_PLACE = {"line": None, "source_file": None, "source_entry": None, "source_entry_hex": None}

# strings with a byte above 127, and with the characters that spell it
SPELLING = rb"""one|the byte,
	clear=\E[2J\356, cup=\E[%i%p1%d;%p2%dH, sgr0=\E[m,
other|a backslash and digits,
	clear=\E[2J\\356, cup=\E[%i%p1%d;%p2%dH, sgr0=\E[m,
"""

# attributes whose strings turn on another one's rendition, and what these strings make
LOOKS = rb"""looks|bold where it isn't asked for,
	clear=\E[H\E[2J, cup=\E[%i%p1%d;%p2%dH, sgr0=\E[m, dim=\E[30;1m, rev=\E[1;7m,
"""
LOOKS_SEEN = {
    "dim": "sent after a reset, it makes the rendition bold in black on default",
    "rev": "sent after a reset, it makes the rendition bold reverse",
}


# objects that the schema has to refuse, each by what differs from a yes
REFUSED_BY_SCHEMA = [
    {"cause": "WrongEffect"},
    {"line": 0},
    {"column": 5, "end_line": 5, "end_column": 9},
    {"fault_line": 5, "fault_column": 7, "fault_end_line": 5, "fault_end_column": 8},
    {"other": None},
    {"cell_limit": None},
    {"way_out": None},
    {"left_out": ["op"]},
    {**ABSENT, "another_kind": None, "left_out": ["op"]},
    {**ABSENT, "left_out": ["op", "op"]},
    {**ABSENT, "left_out": ["a b"]},
    {"verdict": "no"},
    {**ABSENT, "cause": "Unheard", "rule": "Unheard"},
    {**ABSENT, "cause": "WrongEffect", "rule": "WrongEffect"},
    {**ABSENT, "seen": "nothing changes"},
    {**ABSENT, "suggestion": "\\E[m"},
    {**ABSENT, "suggestion": "\\E[m", "suggestion_hex": "1b5b6d", "another_kind": True},
    {**ABSENT, "judged": False},
    {**ABSENT, "grade": None},
    {**ABSENT, "grade": "unknown"},
    {**ADVICE, "grade": "wrong"},
    {**ABSENT, "line": 5},
    {**ABSENT, "line": 5, "source_entry": "a", "source_entry_hex": "61", "column": 5},
    {**ABSENT, "column": 5, "end_line": 5, "end_column": 9},
    {**ABSENT, "fault_line": 5, "fault_column": 7, "fault_end_line": 5, "fault_end_column": 8},
    {"verdict": "refused", "part": None, "cause": "NoSuchEntry a", "rule": "Refused", "explanation": ["never"]},
    {"verdict": "advice", "rule": "Advice", "capability": "sgr"},
    {"verdict": "advice", "rule": None, "capability": "sgr", "explanation": ["never"]},
    {"verdict": "advice", "rule": "Advice", "explanation": ["never"]},
    {**ABSENT, "explanation": []},
    {"verdict": "refused", "part": None, "cause": "NoSuchEntry a", "rule": None},
    {"verdict": "refused", "part": None, "cause": "NoSuchEntry a", "rule": "Refused", "line": 5},
    {**UNREAD, "source_file": None},
    {**UNREAD, "cause": "NoSuchEntry a"},
    {**LOST, "cause": "BadMagic"},
    {**LOST, "line": None},
    {**LOST, "source_file": None},
    {**LOST, "cause": "line 5: BadEscape"},
    {"source_file": "a.ti"},
    {**ADVICE, "line": 5},
    {**HINT, "rule": "UnknownName"},
    {**HINT, "rule": "Hint"},
    {**HINT, "capability": None},
    {**HINT, "line": None},
    {**HINT, "source_entry": None},
    {**HINT, "end_column": None},
    {**HINT, "cause": "Duplicate"},
    {**HINT, "explanation": []},
    {"version": 2},
    {"entry_hex": "6"},
    {"size": {"cols": 80, "rows": 1}},
]

LETTERS = {"E": 27, "n": 10, "r": 13, "t": 9, "b": 8, "f": 12, "s": 32}


def fail(text):
    sys.exit(f"reports: {text}")


def schema():
    """The validator of the schema; None where Python's jsonschema is missing."""
    if Draft202012Validator is None:
        return None
    with open(f"{TOP}/docs/report.schema.json", encoding="ascii") as file:
        wanted = json.load(file)
    Draft202012Validator.check_schema(wanted)
    if set(wanted["properties"]) != set(MEMBERS):
        fail(f"the schema has the members {sorted(wanted['properties'])}")
    return Draft202012Validator(wanted)


SCHEMA = schema()


def judge_schema():
    """The schema accepts a yes, and refuses objects that no report may be."""
    yes = {**{key: [] if list in kinds else None for key, kinds in MEMBERS.items()}, "entry": "a", "entry_hex": "61", "file": "a.ti"}
    no = {**yes, "size": {"cols": COLS, "rows": ROWS}, "part": False, "version": 1}
    yes = {**no, **BOUND, "verdict": "yes"}
    left_out = {"left_out": ["op", "smacs"]}
    for right in (ABSENT, {**ABSENT, **left_out}, ADVICE, HINT, {**HINT, **NO_COLUMNS}, UNREAD, BESIDE, LOST, {**LOST, **NO_PLACE}):
        if not SCHEMA.is_valid({**no, **right}):
            fail(f"the schema refuses {no} with {right}")
        if SCHEMA.is_valid({**no, **right, "cell_limit": 10}) or SCHEMA.is_valid({**no, **right, "way_out": 10}):
            fail(f"the schema accepts a bound in {right}")
        if right["verdict"] != "no" and SCHEMA.is_valid({**no, **right, **left_out}):
            fail(f"the schema accepts strings that are left out in {right}")
    if not SCHEMA.is_valid(yes):
        fail(f"the schema refuses {yes}")
    for other in REFUSED_BY_SCHEMA:
        if SCHEMA.is_valid({**(no if "verdict" in other else yes), **other}):
            fail(f"the schema accepts {yes} with {other}")


def objects(told, size=(ROWS, COLS)):
    """The objects of an output: each line is one, written without a space, with the members in order."""
    found = []
    for line in told.out.decode().splitlines():
        one = json.loads(line)
        # with an escape for each character outside 32 to 126
        if json.dumps(one, sort_keys=True, separators=(",", ":")) != line:
            fail(f"not as Python writes it: {line}")
        if list(one) != list(MEMBERS) or not all(isinstance(one[key], kinds) for key, kinds in MEMBERS.items()):
            fail(f"not the members of a report: {line}")
        for error in SCHEMA.iter_errors(one) if SCHEMA else []:
            fail(f"not as docs/report.schema.json says: {line}: {error.message}")
        if one["size"] != {"cols": size[1], "rows": size[0]}:
            fail(f"not the size that was given: {line}")
        placed = ("line", "source_file", "source_entry", "source_entry_hex")
        said_of = {"advice": ("capability",), "refused": placed, "hint": ("capability", *placed, *NO_COLUMNS)}.get(one["verdict"], ())
        if one["verdict"] != "no" and any(one[key] is not None for key in OF_FAULTS if key not in said_of):
            fail(f"a fault of an entry without one: {line}")
        if any((one[key] is not None) != (one["verdict"] == "yes") for key in BOUND) or one["left_out"] != sorted(one["left_out"]):
            fail(f"not the bound of a yes, or strings that are left out in no order: {line}")
        judge_forms(one)
        found.append(one)
    return found


def parted(ones):
    """The objects about verdicts, and the advice in the others as the plain form prints it."""
    advice = [f"advice {it['capability']}: {it['explanation'][0]}" for it in ones if it["verdict"] == "advice"]
    return [it for it in ones if it["verdict"] not in ("advice", "hint")], advice


def hinted(ones):
    """The hints of objects, as standard error has them."""
    return [f"hint line {it['line']}: {it['explanation'][0]}" for it in ones if it["verdict"] == "hint"]


def advised(told):
    """The advice of a plain form."""
    return [line for line in told.err.decode().splitlines() if line.startswith("advice ")]


def hints_of(told, end=""):
    """The hints of standard error."""
    return [line.removesuffix(end) for line in told.err.decode("latin-1").splitlines() if line.startswith("hint line ")]


def as_text(held):
    """Bytes as a report has them in a text."""
    try:
        return held.decode()
    except UnicodeDecodeError:
        return shown(held.decode("latin-1"))


def judge_forms(one):
    """An object says one thing in each member that repeats it, and what follows from its cause."""
    for key in ("entry", "source_entry"):
        digits = one[f"{key}_hex"]
        if one[key] != (None if digits is None else as_text(bytes.fromhex(digits))):
            fail(f"{key} isn't {key}_hex: {one}")
    if one["aliases"] != [as_text(bytes.fromhex(digits)) for digits in one["aliases_hex"]]:
        fail(f"aliases aren't aliases_hex: {one}")
    for key in ("string", "suggestion"):
        if one[f"{key}_hex"] != (None if one[key] is None else value_bytes(one[key]).hex()):
            fail(f"{key} isn't {key}_hex: {one}")
    rule = {"yes": None, "no": one["cause"], "refused": "Refused", "advice": "Advice", "hint": one["rule"]}[one["verdict"]]
    judged = one["cause"] not in UNJUDGED if one["verdict"] == "no" else None
    if (one["rule"], one["judged"], one["version"]) != (rule, judged, 1):
        fail(f"not the rule and the judgement of the cause: {one}")
    if one["verdict"] == "refused":
        unread = re.match(r"line (\d+): ", one["cause"])
        if one["line"] != (int(unread[1]) if unread else one["line"] if one["cause"].startswith(USES) else None):
            fail(f"not the line of the refusal: {one}")
    # none of these runs has further files
    if one["source_file"] != (one["file"] if one["line"] else None):
        fail(f"not the file of the line: {one}")


def said(one):
    """The words of the plain form for an object."""
    if one["verdict"] == "yes":
        return "yes"
    if one["verdict"] == "refused":
        return f"refused: {one['cause']}"
    return f"no {one['capability']}{''.join(f' {it}' for it in one['parameters'])}: {one['cause']}"


def value_bytes(value):
    """The bytes that a string of a source text means: of three octal digits, of a letter, or of a caret."""
    pieces = re.finditer(r"\\([0-7]{3})|\\(.)|\^(.)|(.)", value, flags=re.S)
    return bytes(
        int(octal, 8) if octal else LETTERS.get(letter, ord(letter)) if letter else ord(caret) % 32 if caret else ord(plain)
        for octal, letter, caret, plain in (it.groups() for it in pieces)
    )


def sent(line):
    """The bytes that a line says a string sends, in hexadecimal; None where it is cut, or no string is sent."""
    found = re.search(r" sends '(.*)'$", line)
    if not found or found[1].endswith(" .."):
        return None
    return value_bytes(found[1]).hex()


def blocks(text):
    """The lines of `check --all`: of each fault its own, and those below it."""
    found = []
    for line in text.splitlines():
        if line.startswith("no "):
            found.append((line, []))
        elif not line.startswith(("total ", "yes")):
            found[-1][1].append(line.removeprefix("  "))
    return found


def judge_part(one):
    """An entry that is at fault for want of clear, and of no other string, isn't one that is only there to be used."""
    if one["entry"] is not None and "+" in one["entry"] and one["verdict"] != "refused" and not one["part"]:
        fail(f"an entry with a plus sign in its name: {one}")
    if one["string"] is not None and one["capability"] in ("clear", "cup", "sgr0") and one["part"] is not ("+" in one["entry"]):
        fail(f"an entry with one of its strings: {one}")


def judge_columns(one, lines):
    """The columns of an object are those of the field in its file, which has these lines: the field, and the comma."""
    if one["column"] is None:
        if one["line"] is not None and one["verdict"] == "no" or one["fault_column"] is not None:
            fail(f"no columns of {one}")
        return
    line = lines[one["line"] - 1]
    field, before = line[one["column"] - 1 : one["end_column"] - 1], line[: one["column"] - 1]
    name = one["capability"].encode()
    if one["end_line"] != one["line"] or line[one["end_column"] - 1 : one["end_column"]] != b",":
        fail(f"a field without its comma: {one}")
    if not field.startswith(name) or field[len(name) : len(name) + 1] not in (b"=", b"#", b"") or before.strip(b" \t")[-1:] not in (b",", b""):
        fail(f"another field is at the columns of {one}: {field}")
    if field[len(name) : len(name) + 1] == b"=" and value_bytes(field[len(name) + 1 :].decode("latin-1")).hex() != one["string_hex"]:
        fail(f"another string is at the columns of {one}: {field}")
    value = one["column"] + len(name) + 1
    if one["fault_column"] is None:
        return
    if not value <= one["fault_column"] < one["fault_end_column"] <= one["end_column"]:
        fail(f"the part at fault is not within the value of {one}: {field}")
    if (one["fault_line"], one["fault_end_line"]) != (one["line"], one["line"]):
        fail(f"the part at fault is not on the line of {one}")


def judge_lines(one, lines, path):
    """An object says what the lines below its fault say."""
    for key in ("grade", "start", "wanted", "seen"):
        plain = [line.removeprefix(f"{key}: ") for line in lines if line.startswith(f"{key}: ")]
        if [one[key]] != (plain or [None]):
            fail(f"{key} of {one} is not that of {lines}")
    places = [line for line in lines if path and line.startswith(f"{path}:")]
    if places != ([f"{path}:{one['line']}:{one['column']}: {one['capability']} of {one['source_entry']}"] if one["line"] else []):
        fail(f"the place of {one} is not that of {lines}")
    # the marks under the part of the value that is at fault, where each byte before it is shown as it is
    marks = [line for line in lines if re.fullmatch(r"  +\^~*", line)]
    if path and one["fault_column"] is not None and one["string"].isprintable():
        behind = one["fault_column"] - one["column"]
        if marks != [" " * (2 + behind) + "^" + "~" * (one["fault_end_column"] - one["fault_column"] - 1)]:
            fail(f"the part of {one} is not that of {lines}")
    # the field there, and the marks under its value
    places += [line for line in lines if line.startswith("  ")]
    suggested = [line for line in lines if line.endswith(" would be right on T")]
    # what switches sets is mended as one: the plain form names the others too
    right = [line for line in suggested if line.startswith(f"{one['capability']}=")]
    others = [line.removesuffix(" would be right on T") for line in suggested if line not in right]
    if not set(others) <= set(one["suggested_with"]) or one["suggested_with"] and one["capability"] not in ("enacs", "smacs", "rmacs"):
        fail(f"what is suggested with {one} is not {others}")
    if len(suggested) > len(right) and one["capability"] not in ("smacs", "rmacs"):
        fail(f"{one} has the suggestions {suggested}")
    if right != ([f"{one['capability']}={one['suggestion']} would be right on T"] if one["suggestion"] is not None else []):
        fail(f"the suggestion of {one} is not that of {lines}")
    for line in lines:
        # what is sent first in an unknown state may be another string than `clear`, which the object is about
        if one["cause"] != "NoResync" and sent(line) not in (None, one["bytes"]):
            fail(f"the bytes of {one} are not those of {line}")
    if one["bytes"] is not None and not any(" sends '" in line for line in lines):
        fail(f"the bytes of {one} stand in none of {lines}")
    own = [line for line in lines if line not in places + suggested and not line.startswith("grade: ")]
    if path and one["explanation"] != (own or [NO_RESYNC]):
        fail(f"{one} doesn't explain all that {lines} do")


# what the plain form doesn't say of an entry that has no string to begin with
NO_RESYNC = (
    "smcup, enacs, sgr0, rmacs, csr of the whole screen and clear, sent one after another, are to lead a terminal out of any state, so they"
    " have to begin with ESC: a sequence that was cut off would take any other first byte as part of it"
)

OF_ANOTHER_KIND = b"clear and cup are both at fault: this entry seems to be for a terminal of another kind, and no string is suggested\n"


def judge_kind(ones, one, err):
    """With all faults, each object says whether the entry seems to be for a terminal of another kind, as the plain form does."""
    kind = {"clear", "cup"} <= {it["capability"] for it in ones}
    if any(it["verdict"] == "no" and it["another_kind"] is not kind for it in ones) or (OF_ANOTHER_KIND in err) != kind:
        fail(f"not whether {ones} are of another kind: {err}")
    if one["another_kind"] is not None or one["suggestion"] is not None:
        fail(f"the first fault alone shows no kind of terminal, and no suggestion: {one}")


def judge_planted(ones, faults):
    """The objects of an entry have the strings that were planted, and the entries in which these are."""
    for one, ((field, _, cause), owner) in zip(ones, faults):
        string = value_bytes(field.split("=", 1)[1]).hex() if "=" in field else None
        if (one["string_hex"], one["source_entry"]) != (string, None if cause == "Absent" else owner) or one["aliases"] != ["an entry"]:
            fail(f"{one} is not about {field} of {owner}")


def judge_entries(path, held, names, planted=None):
    """`check --json` and `check --all --json` of entries beside the plain forms, and beside what was `planted` in them."""
    forms = [["--all"], ["--all", "--json"], [], ["--json"]]
    cases = [Case(["check", *form, "--", f"{path}:{name}", *SIZE]) for name in names for form in forms]
    told = run_cases(PROGRAM, cases, {path: held})
    count = 0
    for at, name in enumerate(names):
        every, every_json, first, first_json = told[4 * at : 4 * at + 4]
        found = blocks(every.out.decode())
        (ones, all_advice), (one, advice) = (parted(objects(it)) for it in (every_json, first_json))
        for it in (every_json, first_json):
            if one[0]["verdict"] != "refused" and hinted(objects(it)) != hints_of(it):
                fail(f"check --json of {name} reported {it.out}, and printed {it.err}")
        if [said(it) for it in ones] != ([line for line, _ in found] or ["yes"]):
            fail(f"check --all --json of {name} reported {ones}, and --all printed {found}")
        if len(one) != 1 or first.status != int(said(one[0]) != "yes"):
            fail(f"check --json of {name} reported {one}, and check ended with {first.status}")
        if one[0]["verdict"] == "no" and f"refused: {said(one[0])}\n" not in first.err.decode():
            fail(f"check --json of {name} reported {one}, and check printed {first.err}")
        for it, (_, lines) in zip(ones, found):
            judge_lines(it, lines, path)
            judge_columns(it, held.split(b"\n"))
        judge_kind(ones, one[0], every.err)
        judge_planted(ones, planted[name] if planted else [])
        if one[0]["verdict"] == "no":
            judge_lines({**one[0], "line": None, "grade": None}, first.err.decode().splitlines(), "")
        for it in ones:
            if said(it) == said(one[0]) and any(it[key] != one[0][key] for key in ("line", "source_entry", "string", "entry_hex")):
                fail(f"check --json of {name} reported {one}, and with --all {it}")
        if {(it["entry"], it["file"]) for it in [*ones, *one]} != {(name, path)}:
            fail(f"not entry and file of {name}: {ones} {one}")
        if (advice, all_advice) != (advised(first), advised(every)):
            fail(f"check --json of {name} advised {advice}, and with --all {all_advice}")
        plain_err = b"".join(line for line in first.err.splitlines(keepends=True) if not line.startswith(b"advice "))
        if (first.status, plain_err) != (first_json.status, first_json.err) or every.status != every_json.status:
            fail(f"check --json of {name} ended with {first_json.status} {first_json.err} and check with {first.status} {first.err}")
        count += len(ones)
    return count


def judge_places(path, ones, places):
    """The objects of `survey --all --json` have the places that the plain form prints on standard error, each fault of a
    field once, with its grade and the names of the entries that have it; then the number of each grade, and that of the
    entries on which a session opens."""
    listed = [it for it in ones if it["verdict"] == "no" and not it["part"] and not it["another_kind"]]
    placed = [it for it in listed if it["line"] is not None]
    users = {}
    for one in placed:
        name, holder = (shown(one[key].encode().decode("latin-1")) for key in ("entry", "source_entry"))
        place = f"{path}:{one['line']}:{one['column']}: {one['capability']} of {holder}"
        users.setdefault((place, said(one), one["grade"]), []).append(name)
    wanted = []
    for (place, fault, grade), names in users.items():
        wanted += [f"{place}: {names[0]} {fault}", f"    grade: {grade}"]
        wanted += [f"    in {', '.join(names)}"] if len(names) > 1 else []
    grades = [it["grade"] for it in listed]
    counted = [f"{grade} {grades.count(grade)}" for grade in ("broken", "contradicts", "wrong", "unknown") if grade in grades]
    wanted += [f"grades: {', '.join(counted)}"] if counted else []
    own = [list(it) for _, it in itertools.groupby(ones, lambda it: (it["entry_hex"], it["verdict"] == "refused", it["part"]))]
    usual = [it for it in own if not it[0]["part"] and not it[0]["another_kind"]]
    wanted.append(f"opens {sum(it[0]['verdict'] == 'yes' or it[0]['left_out'] != [] for it in usual)}")
    told = [line for line in places if not line.startswith("    ") or line.startswith(("    in ", "    grade: "))]
    if told != wanted:
        fail(f"the objects of {path} are about {wanted}, and survey --all printed {told}")
    return len(placed)


def survey_lines(ones, lists_all):
    """The lines that `survey` prints for objects, and how many answers it counts."""
    if not lists_all:
        return [f"{it['entry']} {said(it)}" for it in ones], len(ones)
    lines, parts = [], 0
    for _, own in itertools.groupby(ones, lambda it: (it["entry_hex"], it["verdict"] == "refused", it["part"])):
        own = list(own)
        if own[0]["part"]:
            parts += 1
        elif own[0]["another_kind"]:
            lines.append(f"{own[0]['entry']} no: OtherKind")
        else:
            lines += [f"{it['entry']} {said(it)}" for it in own]
    return lines, len(lines) + parts


def judge_survey(path, held):
    """`survey --json` and `survey --all --json` beside the plain forms."""
    forms = [["--all"], ["--all", "--json"], [], ["--json"]]
    told = run_cases(PROGRAM, [Case(["survey", *form, *SIZE, path]) for form in forms], {path: held})
    lines_of, count = {}, 0
    for form, plain, reported in zip(forms[::2], told[::2], told[1::2]):
        ones, _ = parted(objects(reported))
        for it in ones:
            judge_part(it)
            if lines_of.setdefault((it["entry_hex"], it["capability"]), it["line"]) != it["line"]:
                fail(f"survey --json reported the line of {it}, and with --all {lines_of[it['entry_hex'], it['capability']]}")
        if form:
            hints, places = [], []
            for line in plain.err.splitlines(keepends=True):
                (hints if line.startswith(b"hint line ") else places).append(line)
            count += judge_places(path, ones, b"".join(places).decode().splitlines())
            if hinted(objects(reported)) != hints_of(reported, f", in {path}"):
                fail(f"survey --all --json reported {reported.out}, and printed {reported.err}")
        *lines, counts = plain.out.decode("latin-1").splitlines()
        wanted, count_of_answers = survey_lines(ones, bool(form))
        if [shown(line) for line in lines] != [shown(it.encode().decode("latin-1")) for it in wanted]:
            fail(f"survey --json reported {wanted}, and survey printed {lines}")
        if counts.split(",")[0] != f"total {count_of_answers}":
            fail(f"survey --json reported {count_of_answers} answers, and survey counted {counts}")
        # only with --all the plain form says on standard error where each fault stands, and both have hints
        wanted_err = b"".join(places) + b"".join(hints) if len(form) else reported.err
        if (plain.status, plain.err) != (reported.status, wanted_err) or form and reported.err != b"".join(hints):
            fail(f"survey --json ended with {reported.status} {reported.err} and survey with {plain.status} {plain.err}")
        if any(it["file"] != path for it in ones):
            fail(f"not the file {path}: {ones}")
        for it in ones:
            judge_columns(it, held.split(b"\n"))
    return count


def shown(line):
    """A line with the bytes that are shown by their octal digits."""
    return re.sub(r"[^ -~]", lambda it: f"\\{ord(it[0]):03o}", line)


def judge_looks():
    """The rendition that is seen in place of an attribute's own."""
    (told,) = run_cases(PROGRAM, [Case(["check", "--all", "--json", "--", "looks:looks", *SIZE])], {"looks": LOOKS})
    found = {it["capability"]: (it["cause"], it["seen"]) for it in parted(objects(told))[0]}
    if found != {cap: ("BadLook", seen) for cap, seen in LOOKS_SEEN.items()}:
        fail(f"what is seen of {LOOKS}: {found}")


def judge_names():
    """Names with quotes and backslashes, in UTF-8, and of bytes that are no text."""
    files = {"names": NAMES, "faulty": b" x\n", "spelling": SPELLING}
    told, faulty, spelling = run_cases(PROGRAM, [Case(["survey", "--json", *SIZE, name]) for name in files], files)
    ones, _ = parted(objects(told))
    if [it["entry"] for it in ones] != NAMES_SHOWN:
        fail(f"names: {ones}")
    if [it["verdict"] for it in ones] != ["yes", "no", "refused", "no", "no"] or ones[2]["cause"] != "NoSuchEntry nobody":
        fail(f"verdicts: {ones}")
    if (ones[2]["line"], ones[2]["source_entry"]) != (6, "lost"):
        fail(f"the line of a use of what isn't there: {ones[2]}")
    if [it["aliases"] for it in ones] != ALIASES:
        fail(f"aliases: {ones}")
    # a byte above 127, and the characters with which it is shown
    if [it["entry_hex"] for it in ones[3:]] != [b"lat\xeen\x7f".hex(), b"lat\\356n\\177".hex()]:
        fail(f"two names with one text: {ones}")
    spelled = [(it["string"], it["string_hex"]) for it in parted(objects(spelling))[0]]
    if spelled != [(r"\E[2J\356", "1b5b324aee"), (r"\E[2J\\356", "1b5b324a5c333536")]:
        fail(f"a byte above 127, and its spelling: {spelled}")
    (one,) = objects(faulty)
    if (one["entry"], one["file"], one["verdict"], one["line"]) != (None, "faulty", "refused", 1) or faulty.status:
        fail(f"a file without entries: {one} {faulty.status}")


# uses that can't be followed, in the entry itself and in one that it uses; the last entry uses a chain of 70
USED = rb"""own|of nobody,
	clear=\E[2J,
	am, use=right, use=nobody,
right|used,
	am,
through|of one that uses nobody,
	use=right, use=own,
first|of two that use each other,
	use=second,
second|the other,
	am,
	use=first,
apart|of two that use each other,
	use=right,
	use=first,
self|of itself,
	use=self,
"""
USED_PLACES = [
    ("own", "NoSuchEntry nobody", 3, "own"), ("through", "NoSuchEntry nobody", 3, "own"),
    ("first", "Cycle first", 12, "second"), ("second", "Cycle second", 9, "first"),
    ("apart", "Cycle first", 12, "second"), ("self", "Cycle self", 17, "self"),
]  # fmt: skip
LONG = "".join(f"e{at}|one of many,\n\tuse=e{at + 1},\n" for at in range(70)) + "e70|the last one,\n\tam,\n"


def judge_uses():
    """An entry whose uses can't be followed has the line of the use at which that fails, and the entry that has it."""
    files = {"used": USED, "long": LONG.encode()}
    told, long = run_cases(PROGRAM, [Case(["survey", "--json", *SIZE, name]) for name in files], files)
    found = [(it["entry"], it["cause"], it["line"], it["source_entry"]) for it in objects(told) if it["verdict"] == "refused"]
    if found != USED_PLACES:
        fail(f"the places of uses: {found}")
    found = {(it["cause"], it["line"]) for it in objects(long) if it["verdict"] == "refused"}
    if found != {(f"TooMany e{at}", 2 * at) for at in range(65, 71)}:
        fail(f"uses of too many: {found}")


# two entries of one name, each with its own line of the fault
TWINS = rb"""twin|one of two,
	clear=\E[2J, cup=\E[%i%p1%d;%p2%dH, sgr0=\E[m,
twin|the other,
	cup=\E[%i%p1%d;%p2%dH, sgr0=\E[m,
	clear=\E[2J,
"""


def judge_twins():
    """An entry of a survey has the lines of its own place, whatever other entries have its name."""
    forms = [["--json"], ["--all", "--json"]]
    for told in run_cases(PROGRAM, [Case(["survey", *form, *SIZE, "twins"]) for form in forms], {"twins": TWINS}):
        ones = [(it["entry"], it["capability"], it["line"]) for it in parted(objects(told))[0]]
        if ones != [("twin", "clear", 2), ("twin", "clear", 5)]:
            fail(f"the lines of two entries of one name: {ones}")


# fields that do nothing, or not what they seem to
HINTED = rb"""base|the three,
	clear=\E[H\E[2J, cup=\E[%i%p1%d;%p2%dH, sgr0=\E[m,
a|of three kinds, rmasc=^O,
	  ell@, use=b, use=base, clear=\E[H\E[2J,
# nothing,
	,clear=\E[2J, .foo,
b|used,	el=\E[\K,
	setf=\E[\,%^%d, setb=%^%d,initc=%^%d,
"""
# the entry that has the field, the kind, the capability, the line, the columns, and the words
HINTS = [
    ("a", "UnknownName", None, 3, 19, 27, "rmasc is no capability"),
    ("a", "UnknownName", None, 4, 4, 8, "ell is no capability"),
    ("a", "Duplicate", "clear", 6, 3, 14, "clear stands in the entry before, where the first one counts"),
    ("b", "OddEscape", "el", 7, 9, 17, "el has `\\K`, which is no escape and stands for the byte behind the backslash"),
    *(
        ("b", "PercentCaret", cap, 8, *columns, f"in {cap} `%^` is read as `%` and a control character, by ncurses as exclusive or, which is written `%\\^`")
        for cap, columns in (("setf", (2, 16)), ("setb", (18, 27)), ("initc", (28, 38)))
    ),
]  # fmt: skip


def judge_hints():
    """Each hint has an object, with the entry that is checked and the one that has the field; they don't count for --fail."""
    words = [["check", "--json", "hinted:a", *SIZE], ["check", "--all", "--json", "hinted:a", *SIZE]]
    words += [["survey", "--all", "--json", "--fail", *SIZE, "hinted"], ["survey", "--json", *SIZE, "hinted"]]
    words += [["check", "--join", "--json", "hinted:a", *SIZE]]
    told = run_cases(PROGRAM, [Case(it) for it in words], {"hinted": HINTED})
    placed = [("a", *it) for it in HINTS]
    for it, one, wanted in zip(words, told, (placed, placed, [(hint[0], *hint) for hint in HINTS], [], placed)):
        keys = ("entry", "source_entry", "rule", "capability", "line", "column", "end_column")
        found = [(*(o[key] for key in keys), *o["explanation"]) for o in objects(one) if o["verdict"] == "hint"]
        if found != wanted:
            fail(f"{it}: the hints {found}, not {wanted}")
    if told[0].status or told[1].status or told[4].status:
        fail(f"a hint that changes the status of check: {told}")


RIGHT = b"a|the standard's strings,\n\tclear=\\E[H\\E[2J, cup=\\E[%i%p1%d;%p2%dH, sgr0=\\E[m,\n"


def judge_failing():
    """With `--fail` the objects are the same, and the status is 1 if a verdict isn't yes."""
    for held, status in ((RIGHT, 0), (TWINS, 1), (NAMES, 1)):
        for form in (["--json"], ["--all", "--json"]):
            cases = [Case(["survey", *form, *more, *SIZE, "entries"]) for more in ([], ["--fail"])]
            plain, failing = run_cases(PROGRAM, cases, {"entries": held})
            if plain.status or failing.out != plain.out or failing.status != status:
                fail(f"survey --fail: {failing.status} {failing.err} {failing.out}")


NO_OUT = b"error: check writes a certificate, or reports on the entry: --out is not for --json and --sarif\n"


def judge_refused():
    """An entry that can't be obtained is refused as in the plain form, with an object; a wrong size has none."""
    lacking = ["five.ti:six", "six.ti:six", "names:lost", "faulty:a", "five.ti", "six"]
    refused = [*([word, *SIZE] for word in lacking), ["five.ti:five", "1", "6"], ["five.ti:five", "x", "6"]]
    cases = [Case(["check", *form, *words]) for words in refused for form in ([], ["--json"])]
    cases += [Case(["check", "--json", "--out", "cert", "five.ti:five", *SIZE])]
    cases += [Case(["survey", *form, *SIZE, "six.ti", "five.ti"]) for form in ([], ["--json"])]
    *told, both, plain, survey = run_cases(PROGRAM, cases, {"five.ti": FIVE, "names": NAMES, "faulty": b" x\n"})
    for words, one, other in zip(refused, told[::2], told[1::2]):
        path, _, name = words[0].partition(":")
        why = one.err.decode().splitlines()[0].removeprefix("refused: ")
        ones = [(it["verdict"], it["file"], it["entry"], it["cause"]) for it in objects(other)]
        if ones != ([("refused", path, name or None, why)] if words[0] in lacking else []):
            fail(f"check --json of {words}: {other.out}, and check said {one.err}")
        if (one.status, one.out, one.err) != (other.status, b"", other.err) or not one.status:
            fail(f"a refusal of check --json: {other.status} {other.out} {other.err}, and of check {one.err}")
    if both.status != 2 or not both.err.startswith(NO_OUT) or both.out:
        fail(f"--json beside --out: {both.status} {both.err}")
    unread, *ones = parted(objects(survey))[0]
    if (plain.status, plain.err) != (survey.status, survey.err) or plain.status != 3 or len(ones) != 2:
        fail(f"a survey without one of its files: {survey.status} {survey.out} {survey.err}")
    if [unread[key] for key in ("verdict", "file", "entry", "cause", "line")] != ["refused", "six.ti", None, "file: six.ti", None]:
        fail(f"a file that can't be read: {unread}")


# strings as rxvt-unicode has them: T hasn't their colors, and the cursor is elsewhere after `rmcup`; an entry in which
# `op` could go, and `cup` can't; a right one
OPENINGS = rb"""urxvt|as rxvt-unicode,
	clear=\E[H\E[2J, cup=\E[%i%p1%d;%p2%dH, sgr0=\E[m\E(B, op=\E[39;49m, smcup=\E[?1049h,
	rmcup=\E[r\E[?1049l, setaf=\E[38;5;%p1%dm, setab=\E[48;5;%p1%dm,
lost|without a cursor,
	clear=\E[H\E[2J, cup=\E[%p1%d;%p2%dH, sgr0=\E[m, op=\E[m, setaf=\E[3%p1%dm, setab=\E[4%p1%dm,
mini|a right one,
	clear=\E[H\E[2J, cup=\E[%i%p1%d;%p2%dH, sgr0=\E[m,
"""
# these names in the order of the alphabet, with smcup since rmcup is at fault
URXVT = ["rmcup", "setab", "setaf", "smcup"]
LEAVES_OUT = "a session leaves out rmcup setab setaf smcup"
# 1, 8 bytes of the longest cup and 3 of sgr0; sgr0 and clear lead out of an unknown state
MINI_BOUND = {"cell_limit": 12, "way_out": 10}


def judge_openings():
    """`check` and `survey --all` say what a session leaves out, and a yes has the bound of a session."""
    forms = [[], ["--all"], ["--json"], ["--json", "--all"]]
    size = ["24", "80"]
    cases = [Case(["check", *form, f"openings:{name}", *size]) for name in ("urxvt", "lost", "mini") for form in forms]
    cases += [Case(["survey", *form, *size, "openings"]) for form in (["--all"], ["--json", "--all"])]
    *checks, plain, reported = run_cases(PROGRAM, cases, {"openings": OPENINGS})
    lines = [sum(line.startswith("a session leaves out") for line in it.err.decode().splitlines()) for it in checks]
    if lines != [1, 1, 1, 0] + 8 * [0] or checks[0].err.decode().splitlines()[-1] != LEAVES_OUT:
        fail(f"{lines} lines say what a session leaves out: {checks[0].err}")
    if any(LEAVES_OUT not in it.err.decode().splitlines() for it in checks[:3]):
        fail(f"a session leaves out {checks[1].err}, with --json {checks[2].err}")
    ones = [objects(it, (24, 80)) for it in (*checks[2::4], *checks[3::4], reported)]
    for at, found in enumerate(ones):
        for one in found:
            wanted = URXVT if one["entry"] == "urxvt" and one["verdict"] == "no" and at > 2 else []
            bound = MINI_BOUND if one["verdict"] == "yes" else dict.fromkeys(MINI_BOUND)
            if one["left_out"] != wanted or {key: one[key] for key in bound} != bound:
                fail(f"a session was to leave out {wanted}, with the bound {bound}: {one}")
    if [len([it for it in found if it["left_out"]]) for found in ones] != [0, 0, 0, 3, 0, 0, 3]:
        fail(f"not as many objects have what is left out: {ones}")
    if plain.err.decode().splitlines()[-1] != "opens 2":
        fail(f"survey --all ended with {plain.err}")
    print("reports: what a session leaves out, and the bound of a yes, are what was worked out by hand")


def main():
    if SCHEMA:
        judge_schema()
    else:
        print("reports: Python's jsonschema is missing, so docs/report.schema.json is not compared", file=sys.stderr)
    source, wanted = all_entries()
    count = judge_entries("planted", source.text(), list(wanted), wanted)
    with open(f"{TOP}/examples/terminals.ti", "rb") as file:
        samples = file.read()
    names = [line.split("|")[0].rstrip(",") for line in samples.decode().splitlines() if line and line[0] not in "# \t"]
    count += judge_entries("samples", samples, names)
    count += judge_entries("five.ti", FIVE, ["five", "base"]) + judge_entries("mended.ti", MENDED, ["five", "base"])
    count += judge_entries("looks", LOOKS, ["looks"])
    together = together_source()
    count += judge_entries("together", together, ["base", *(f"e{i}" for i in range(len(TOGETHER)))])
    surveyed = {"planted": source.text(), "samples": samples, "five.ti": FIVE, "together": together, "names": NAMES}
    lines = sum(judge_survey(path, held) for path, held in surveyed.items())
    judge_looks()
    judge_openings()
    judge_names()
    judge_twins()
    judge_uses()
    judge_hints()
    judge_failing()
    judge_refused()
    print(f"reports: {count} objects of check --json say what the plain form says, and those of survey --json, {lines} with a line")


if __name__ == "__main__":
    main()
