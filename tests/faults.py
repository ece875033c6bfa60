"""All faults of an entry: 60 entries with faults that are planted in a right one, and entries written by hand."""

import random
import re
import sys

from trying import PROGRAM, Case, run_cases

ROWS, COLS = 4, 6
ENTRIES = 60

# an entry whose strings are those of ECMA-48 and of the VT100
RIGHT = {
    "bel": "^G", "blink": r"\E[5m", "bold": r"\E[1m", "civis": r"\E[?25l", "clear": r"\E[H\E[2J", "cnorm": r"\E[?25h",
    "cr": r"\r", "csr": r"\E[%i%p1%d;%p2%dr", "cub": r"\E[%p1%dD", "cub1": r"\b", "cud": r"\E[%p1%dB", "cud1": r"\E[B",
    "cuf": r"\E[%p1%dC", "cuf1": r"\E[C", "cup": r"\E[%i%p1%d;%p2%dH", "cuu": r"\E[%p1%dA", "cuu1": r"\E[A",
    "dim": r"\E[2m", "ech": r"\E[%p1%dX", "ed": r"\E[J", "el": r"\E[K", "el1": r"\E[1K", "home": r"\E[H",
    "hpa": r"\E[%i%p1%dG", "ind": r"\n", "invis": r"\E[8m", "op": r"\E[39;49m", "rev": r"\E[7m", "ri": r"\EM",
    "setab": r"\E[4%p1%dm", "setaf": r"\E[3%p1%dm", "sgr0": r"\E[m", "smso": r"\E[7m", "smul": r"\E[4m",
    "vpa": r"\E[%i%p1%dd",
}  # fmt: skip

# fields with a fault, its parameters, and its cause: by what the standards say of the string, and the rules of the checks
WRONG = [
    ("xmc#1", "", "FlagOut"), ("hc", "", "FlagOut"), ("gn", "", "FlagOut"), ("os", "", "FlagOut"),
    ("clear@", "", "Absent"), ("cup@", "", "Absent"), ("sgr0@", "", "Absent"), (r"acsc=q\001", "", "AcsByte"),
    # it does something else, from every state: erases before the cursor, goes to another place, shows what is to be hidden
    (r"el=\E[1K", "", "WrongEffect"), (r"el1=\E[K", "", "WrongEffect"), (r"ed=\E[K", "", "WrongEffect"),
    (r"home=\E[2;2H", "", "WrongEffect"), (r"cr=\E[H", "", "WrongEffect"), (r"cuf1=\r", "", "WrongEffect"),
    (r"cud1=\E[H", "", "WrongEffect"), (r"clear=\E[2J", "", "WrongEffect"), (r"bel=\E[H", "", "WrongEffect"),
    (r"ind=\E[H", "", "WrongEffect"), (r"ri=\E[H", "", "WrongEffect"), (r"civis=\E[?25h", "", "WrongEffect"),
    (r"cnorm=\E[?25l", "", "WrongEffect"), (r"op=\E[m", "", "WrongEffect"), (r"sgr0=\E[1m", "", "WrongEffect"),
    # right for the first parameters alone: a number that isn't there is 1, as 0 is; the two are exchanged; the margins are
    # upside down
    (r"hpa=\E[%p1%dG", " 1", "WrongEffect"), (r"vpa=\E[%p1%dd", " 1", "WrongEffect"),
    (r"cup=\E[%i%p2%d;%p1%dH", " 0 1", "WrongEffect"), (r"setaf=\E[3%p2%dm", " 1", "WrongEffect"),
    (r"csr=\E[%i%p2%d;%p1%dr", " 0 1", "WrongEffect"),
    # a sequence is left open; a byte of eight bits
    (r"bel=^G\E[", "", "Unfinished"), (r"civis=\E[?25", "", "Unfinished"), (r"cr=\r\377", "", "Stuck"), (r"home=\200\E[H", "", "Stuck"),
    # it prints, deletes, erases a whole line or what is before the cursor: no record of an effect has that
    (r"home=x\E[H", "", "NotTame"), (r"ech=\E[%p1%dP", " 1", "NotTame"), (r"el=\E[2K", "", "NotTame"), (r"ed=\E[1J", "", "NotTame"),
    # the string itself
    (r"el=\E[%dK", "", "Underflow"), (r"el1=\E[1%;K", "", "BadNest"), (r"ech=\E[%p1%qX", " 1", "BadCode"),
    (r"cub=\E[%p1%{2147483647}%+%dD", " 1", "Overflow"), (r"cuf=\E[%p1%{255}%+%cC", " 1", "BadChar"),
    (r"cuu=\E[%p1%sA", " 1", "WrongKind"), (r"cud=\E[%p1%PA%gB%dB", " 1", "StaticRead"),
]  # fmt: skip

# the grades of these faults: a string that is wrong for any terminal, and one that another string of the entry speaks
# against, as `cup` against `hpa` and `vpa`
BROKEN = ("Underflow", "BadNest", "BadCode", "Overflow", "BadChar", "WrongKind")
BROKEN_FIELDS = (r"bel=^G\E[", r"civis=\E[?25", r"setaf=\E[3%p2%dm")
AGAINST_CUP = (r"hpa=\E[%p1%dG", r"vpa=\E[%p1%dd")
CONTRADICTING = (r"op=\E[m",)
UNKNOWN = ("FlagOut", "AcsByte", "NotTame", "NotShown", "Stuck", "Unfinished", "StaticRead", "TooLong")
GRADES = ("broken", "contradicts", "wrong", "unknown")

# of those fields whose value is at fault in one part alone, this part, between `~`: the parameter of a control function
# that makes the first difference, the function that does, or the code
MARKED = [
    r"home=\E[~2~;2H", r"sgr0=\E[~1~m", r"hpa=\E[~%p1%d~G", r"vpa=\E[~%p1%d~d", r"cup=\E[%i~%p2%d~;%p1%dH",
    r"setaf=\E[~3%p2%d~m", r"bel=^G~\E[~", r"cr=\r~\377~", r"home=~\200~\E[H", r"home=~x~\E[H", r"el=\E[~%d~K",
    r"el1=\E[1~%;~K", r"ech=\E[%p1~%q~X", r"cub=\E[%p1%{2147483647}~%+~%dD", r"cuf=\E[%p1%{255}%+~%c~C",
    r"cuu=\E[%p1~%s~A", r"cud=\E[%p1%PA~%gB~%dB",
]  # fmt: skip

WHOLE = ["xmc", "hc", "gn", "os", "clear", "cup", "sgr0", "acsc"]
CAUSES = [
    "FlagOut", "Absent", "AcsByte", "Underflow", "BadNest", "BadCode", "Overflow", "BadChar", "WrongKind", "StaticRead",
    "Unfinished", "Stuck", "NotTame", "BadLook", "WrongEffect", "NotShown", "TooLong", "NoResync",
]  # fmt: skip


def fail(text):
    sys.exit(f"faults: {text}")


def named(field):
    """The capability of a field."""
    return re.match(r"\w+", field)[0]


def order(fault):
    """The faults of an entry as a whole come first, then those of capabilities in the order of their names."""
    field, _, cause = fault
    whole = cause in ("FlagOut", "Absent", "AcsByte")
    return (0, WHOLE.index(named(field)), "") if whole else (1, 0, named(field))


def words(fault):
    field, params, cause = fault
    return f"no {named(field)}{params}: {cause}"


def counts(causes):
    """The line of counts."""
    parts = [f", {it} {causes.count(it)}" for it in ["yes", *CAUSES, "OtherKind", "part"] if it in causes]
    return f"total {len(causes)}{''.join(parts)}"


class Source:
    """A source text, and the line on which each field of its entries stands, in column 2."""

    def __init__(self):
        self.lines, self.places = [], {}

    def add(self, name, fields):
        self.lines.append(f"{name}|an entry,")
        for field in fields:
            self.lines.append(f"\t{field},")
            self.places[name, named(field)] = len(self.lines)

    def text(self):
        return "".join(f"{line}\n" for line in self.lines).encode()


def planted(rng):
    """From two to six faults, each of another capability."""
    faults, wanted = {}, rng.randint(2, 6)
    while len(faults) < wanted:
        fault = rng.choice(WRONG)
        faults.setdefault(named(fault[0]), fault)
    return sorted(faults.values(), key=order)


def all_entries():
    """The source of the entries, and for each the lines of its faults, and where each stands. Every third has some of them in an
    entry that it uses."""
    rng, source, wanted = random.Random(39), Source(), {}
    source.add("right", [f"{cap}={value}" for cap, value in RIGHT.items()])
    wanted["right"] = []
    for at in range(ENTRIES):
        name, faults = f"wrong{at}", planted(rng)
        used = [it for it in faults if at % 3 == 0 and rng.random() < 0.5]
        own = [it for it in faults if it not in used]
        if used:
            source.add(f"used{at}", [*(it[0] for it in rng.sample(used, len(used))), "use=right"])
            wanted[f"used{at}"] = [(it, f"used{at}") for it in used]
        source.add(name, [*(it[0] for it in rng.sample(own, len(own))), f"use=used{at}" if used else "use=right"])
        wanted[name] = [(it, f"used{at}" if it in used else name) for it in faults]
    return source, wanted


def listing(source, faults):
    """The output of `check --all` for an entry, without the lines that begin with two spaces."""
    if not faults:
        return ["yes"]
    lines = []
    for fault, owner in faults:
        cap = named(fault[0])
        lines.append(words(fault))
        if fault[2] != "Absent":
            lines.append(f"planted:{source.places[owner, cap]}:2: {cap} of {owner}")
    return [*lines, counts([fault[2] for fault, _ in faults])]


def surveyed(name, faults):
    """The lines of `survey --all` for an entry, and the words that count it."""
    causes = {named(fault[0]): fault[2] for fault, _ in faults}
    if all(causes.get(cap) == "Absent" for cap in ("clear", "cup", "sgr0")):
        return [], ["part"]
    if "clear" in causes and "cup" in causes:
        return [f"{name} no: OtherKind"], ["OtherKind"]
    return [f"{name} {it}" for it in [words(fault) for fault, _ in faults] or ["yes"]], [fault[2] for fault, _ in faults] or ["yes"]


def excerpt(field):
    """The lines that show a field which begins in column 2, with marks under the part of its value that is at fault."""
    return underlined({it.replace("~", ""): it for it in MARKED}.get(field, field))


def underlined(marked):
    """The lines that show a field, with marks under the part between `~`, or else under its value."""
    if "~" in marked:
        before, part, _ = marked.split("~")
    else:
        before, mark, part = re.fullmatch(r"(?:(\w+)([=#]))?(.*)", marked).groups(default="")
        before += mark
    shown = re.sub(r"[^ -~]", lambda it: f"\\{ord(it[0]):03o}", marked.replace("~", ""))
    return [f"    {shown}", f"    {' ' * len(before)}^{'~' * (len(part) - 1)}"]


def graded(fault, faults):
    """The grade of a fault of an entry that has these."""
    field, _, cause = fault
    if cause in BROKEN or field in BROKEN_FIELDS:
        return "broken"
    has_cup = not any(other[0] == "cup@" for other, _ in faults)
    if field in CONTRADICTING or field in AGAINST_CUP and has_cup:
        return "contradicts"
    return "unknown" if cause in UNKNOWN else "wrong"


def places(source, wanted):
    """The output of `survey --all` on standard error for a source whose entries have the `wanted` faults: each fault once
    at its place, the field there, its grade, and the names of the entries that have it, if it is more than one; how many
    faults have which grade, and on how many entries a session opens."""
    found, grades, opened = {}, [], 0
    for name, faults in wanted.items():
        if set(surveyed(name, faults)[1]) & {"OtherKind", "part"}:
            continue
        # a session can do without every string but three, and not with the flags and numbers that are no string
        opened += all(named(field) not in WHOLE or named(field) == "acsc" for (field, _, _), _ in faults)
        for fault, owner in faults:
            grade = graded(fault, faults)
            grades.append(grade)
            if fault[2] != "Absent":
                found.setdefault((owner, fault, grade), []).append(name)
    lines = []
    for (owner, fault, grade), names in found.items():
        cap = named(fault[0])
        lines.append(f"planted:{source.places[owner, cap]}:2: {cap} of {owner}: {names[0]} {words(fault)}")
        lines += [*excerpt(fault[0]), f"    grade: {grade}"]
        if len(names) > 1:
            lines.append(f"    in {', '.join(names)}")
    return [*lines, f"grades: {', '.join(f'{it} {grades.count(it)}' for it in GRADES if it in grades)}", f"opens {opened}"]


def is_explained(lines):
    """Below each fault, and the line that says where it stands, there is a line that explains it."""
    below = [line for line in lines if not line.startswith("planted:")]
    return all(after.startswith("  ") for at, after in zip(below, below[1:]) if at.startswith("no "))


def judge_planted():
    source, wanted = all_entries()
    size = [str(ROWS), str(COLS)]
    cases = [Case(["check", "--all", f"planted:{name}", *size]) for name in wanted]
    cases += [Case(["check", f"planted:{name}", *size]) for name in wanted]
    cases += [Case(["survey", "--all", *size, "planted"])]
    told = run_cases(PROGRAM, cases, {"planted": source.text()})
    for (name, faults), every, first in zip(wanted.items(), told, told[len(wanted) :]):
        shown = every.out.decode().splitlines()
        plain = [line for line in shown if not line.startswith("  ")]
        if plain != listing(source, faults) or not is_explained(shown):
            fail(f"check --all of {name} printed {shown} and was to print {listing(source, faults)}")
        refusal = [f"refused: {words(faults[0][0])}"] if faults else []
        for it in (every, first):
            refused = [line for line in it.err.decode().splitlines() if line.startswith("refused: ")]
            if refused != refusal or it.status != bool(faults):
                fail(f"check of {name} was to refuse with {refusal}: {it.status} {it.err}")
    entries = [surveyed(name, faults) for name, faults in wanted.items()]
    lines = [line for own, _ in entries for line in own]
    lines.append(counts([it for _, own in entries for it in own]))
    if told[-1].out.decode().splitlines() != lines or told[-1].status:
        fail(f"survey --all printed {told[-1].out.decode()} and was to print {lines}")
    if told[-1].err.decode().splitlines() != places(source, wanted):
        fail(f"survey --all printed {told[-1].err.decode()} on standard error and was to print {places(source, wanted)}")
    number = sum(map(len, wanted.values()))
    print(f"faults: each of {number} planted faults of {len(wanted)} entries is listed once, where it stands, and no other")


FIVE = rb"""base|what others use,
	cup=\E[%i%p1%d;%p2%dH, clear=\E[H\E[2J,
	el=\E[1K, sgr0=\E[m,
five|five faults,
	xmc#1, el1=\E[K, bel=\E[,
	ed=\E[%p1%dK, cr=\377, use=base,
"""
# the second and third line of the entry, the third line of the one that it uses
FIVE_FAULTS = """no xmc: FlagOut
five.ti:5:2: xmc of five
no bel: Unfinished
five.ti:5:19: bel of five
no cr: Stuck
five.ti:6:16: cr of five
no ed: WrongEffect
five.ti:6:2: ed of five
no el: WrongEffect
five.ti:3:2: el of base
no el1: WrongEffect
five.ti:5:9: el1 of five
total 6, FlagOut 1, Unfinished 1, Stuck 1, WrongEffect 3
"""
# the fields that they are, with marks under their values
FIVE_EXCERPTS = r"""    xmc#1
        ^
    bel=\E[
        ^~~
    cr=\377
       ^~~~
    ed=\E[%p1%dK
       ^~~~~~~~~
    el=\E[1K
       ^~~~~
    el1=\E[K
        ^~~~
"""
# mended line by line
MENDED = FIVE.replace(rb"xmc#1, el1=\E[K, bel=\E[", rb"el1=\E[1K, bel=^G")
MENDED = MENDED.replace(rb"ed=\E[%p1%dK, cr=\377", rb"ed=\E[J, cr=\r").replace(rb"el=\E[1K, sgr0", rb"el=\E[K, sgr0")
NO_ENTRY = b"error: check writes a certificate, or with --all lists the faults: --out is not for --all\n"


def judge_by_hand():
    data = {"five.ti": FIVE, "mended.ti": MENDED}
    listed, mended, both, nobody, missing = run_cases(
        PROGRAM,
        [
            Case(["check", "--all", "five.ti:five", "24", "80"]),
            Case(["check", "--all", "mended.ti:five", "24", "80"]),
            Case(["check", "--all", "--out", "cert", "five.ti:five", "24", "80"]),
            Case(["check", "--all", "five.ti:six", "24", "80"]),
            Case(["check", "--all", "six.ti:six", "24", "80"]),
        ],
        data,
    )
    shown = [line for line in listed.out.decode().splitlines() if not line.startswith("  ")]
    if shown != FIVE_FAULTS.splitlines() or listed.status != 1:
        fail(f"the entry with the faults printed {listed.out.decode()}")
    below = [line for line in listed.out.decode().splitlines() if line.startswith("    ")]
    if below != FIVE_EXCERPTS.splitlines():
        fail(f"the fields of the faults are printed as {below}")
    others = [line for line in mended.err.splitlines() if not line.startswith((b"advice ", b"strings: "))]
    if (mended.status, mended.out, others) != (0, b"yes\n", []):
        fail(f"the mended entry: {mended.status} {mended.out} {mended.err}")
    if both.status != 2 or not both.err.startswith(NO_ENTRY) or both.out:
        fail(f"--all beside --out: {both.status} {both.err}")
    if nobody.status != 1 or b"refused: NoSuchEntry six\n" not in nobody.err:
        fail(f"an entry that isn't there: {nobody.status} {nobody.err}")
    if missing.status != 3 or b"file: six.ti\n" not in missing.err:
        fail(f"a file that isn't there: {missing.status} {missing.err}")
    print("faults: an entry with six faults is mended in one round")


SUGGESTED = re.compile(r"  (\w+=.+) would be right on T")


def judge_suggestions():
    """The entry with the faults is right with the strings that are suggested for it, as they are printed."""
    [listed] = run_cases(PROGRAM, [Case(["check", "--all", "five.ti:five", "24", "80"])], {"five.ti": FIVE})
    fields = [found[1] for found in map(SUGGESTED.fullmatch, listed.out.decode().splitlines()) if found]
    if [named(field) for field in fields] != ["bel", "cr", "ed", "el", "el1"]:
        fail(f"suggested were {fields}")
    mended = FIVE.replace(b"xmc#1, ", b"").replace(b"five|five faults,", f"five|mended, {', '.join(fields)},".encode())
    [told] = run_cases(PROGRAM, [Case(["check", "--all", "five.ti:five", "24", "80"])], {"five.ti": mended})
    if (told.status, told.out) != (0, b"yes\n"):
        fail(f"with {fields} the entry is {told.status} {told.out}")
    print("faults: the strings that are suggested, as they are printed, mend an entry")


# Entries whose strings are right only together, each with its faults, with what is suggested, and with the faults that
# are left once that is taken. `smacs` by SO needs an `enacs`, which is suggested though none is there, and what `\E(0`
# begins `\E(B` ends and SI doesn't. SGR 10 and 11 switch no set, and `\E(0` needs `\E(B` in place of SGR 10, which
# isn't at fault. An `enacs` that leaves G1 active fits neither that nor its `sgr0`. SGR 7 alone turns nothing off.
# `\E(B` in `smacs` and `\E(0` in `rmacs` are exchanged: each activates the other's set. SI in front of `sgr0` is the
# first byte that is sent in an unknown state, where an open sequence takes it. Without `acsc` no program ends the set
# that `\E(0` in `sgr0` begins.
# Strings at fault are left out when the others are judged together. So without an `enacs` that prints, SO in `smacs`
# activates no graphic set, and SI in `sgr0` is sent first; without an `rmacs` that prints, nothing ends the set that
# `smacs` begins; and where none of the strings that lead out of an unknown state is left, nothing begins with ESC.
BASE = r"""base|base, acsc=qqxx, clear=\E[H\E[2J, cup=\E[%i%p1%d;%p2%dH, sgr0=\E[m, setaf=\E[3%p1%dm, setab=\E[4%p1%dm,"""
KEEPING = (
    r"sgr=%?%p1%p2%|%p3%|%p4%|%p5%|%p6%|%p7%|%!%t\E[0m%e%?%p1%t\E[7m%e"
    r"\E[0%?%p2%t;4%;%?%p3%t;7%;%?%p4%t;5%;%?%p5%t;2%;%?%p6%t;1%;%?%p7%t;8%;m%;%;"
)
ATTRIBUTES = r"sgr=\E[0%?%p1%p3%|%t;7%;%?%p2%t;4%;%?%p4%t;5%;%?%p5%t;2%;%?%p6%t;1%;%?%p7%t;8%;m"
TOGETHER = [
    ([r"op=\E[39;49m", r"smacs=x\E(0", r"rmacs=\017"], ["no smacs: NotTame"], [r"smacs=\016", r"enacs=\E(B\E)0"], []),
    (
        [r"op=\E[m", r"smacs=x\E(0", r"rmacs=\017"],
        ["no op: WrongEffect", "no smacs: NotTame"],
        [r"op=\E[39;49m", r"smacs=\016", r"enacs=\E(B\E)0"],
        [],
    ),
    ([r"op=\E[39;49m", r"smacs=\016", r"rmacs=\017"], ["no smacs: WrongEffect"], [r"enacs=\E(B\E)0"], []),
    (
        [r"op=\E[39;49m", r"smacs=\E[11m", r"rmacs=\E[10m"],
        ["no smacs: WrongEffect"],
        [r"smacs=\E(0", r"rmacs=\E(B"],
        [],
    ),
    (
        [r"op=\E[39;49m", r"smacs=\E[11m", r"rmacs=\E[10m", r"enacs=\E)0\016"],
        ["no rmacs: WrongEffect"],
        [r"rmacs=\017", r"enacs=\E(B\E)0", r"smacs=\016"],
        [],
    ),
    (
        [r"op=\E[39;49m", r"smacs=\E(U", r"rmacs=\E(B", r"enacs=x"],
        ["no enacs: NotTame", "no smacs: WrongEffect"],
        [r"enacs=\E(B\E)0", r"smacs=\E(0"],
        [],
    ),
    (
        [r"op=\E[39;49m", r"smacs=x\E(0", r"rmacs=x\017"],
        ["no rmacs: NotTame", "no smacs: NotTame"],
        [r"rmacs=\E(B", r"smacs=\E(0"],
        [],
    ),
    (
        [r"op=\E[m", r"smacs=\E(0", r"rmacs=x\017"],
        ["no op: WrongEffect", "no rmacs: NotTame", "no acsc: BadLook"],
        [r"op=\E[39;49m", r"rmacs=\E(B"],
        [],
    ),
    (
        [r"op=\E[m", r"smacs=\E[11m", r"rmacs=\E[10m"],
        ["no op: WrongEffect", "no smacs: WrongEffect"],
        [r"op=\E[39;49m", r"smacs=\E(0", r"rmacs=\E(B"],
        [],
    ),
    (
        [r"op=\E[39;49m", r"smacs=\E(B", r"rmacs=\E(0"],
        ["no smacs: WrongEffect", "no rmacs: WrongEffect"],
        [r"smacs=\E(0", r"rmacs=\E(B"],
        [],
    ),
    (
        [r"op=\E[39;49m", r"smacs=\E(B", r"rmacs=\E(0", r"sgr0=\017\E[m"],
        ["no smacs: WrongEffect", "no rmacs: WrongEffect", "no clear: NoResync"],
        [r"smacs=\E(0", r"rmacs=\E(B"],
        ["no clear: NoResync"],
    ),
    (
        [r"op=\E[m", r"smacs=\E[11m", r"rmacs=\E[10m", r"sgr0=\017\E[m"],
        ["no op: WrongEffect", "no smacs: WrongEffect", "no clear: NoResync"],
        [r"op=\E[39;49m", r"smacs=\E(0", r"rmacs=\E(B"],
        ["no clear: NoResync"],
    ),
    (
        [r"op=\E[39;49m", "acsc@", r"sgr0=\017\E(0\E[m"],
        ["no acsc: BadLook", "no clear: NoResync"],
        [],
        ["no acsc: BadLook", "no clear: NoResync"],
    ),
    ([r"op=\E[39;49m", "acsc@", KEEPING], ["no sgr 1 0 0 0 0 0 0 0 0: WrongEffect"], [ATTRIBUTES], []),
    (
        [r"op=\E[39;49m", r"enacs=x\E(B\E)0", r"smacs=\016", r"rmacs=\017", r"sgr0=\017\E[m"],
        ["no enacs: NotTame", "no smacs: WrongEffect", "no clear: NoResync"],
        [r"enacs=\E(B\E)0"],
        [],
    ),
    (
        [r"op=\E[39;49m", "cup@", r"smacs=\E(B", r"rmacs=\E(0"],
        ["no cup: Absent", "no smacs: WrongEffect", "no rmacs: WrongEffect"],
        [r"cup=\E[%i%p1%d;%p2%dH", r"smacs=\E(0", r"rmacs=\E(B"],
        [],
    ),
    # an `sgr0` that shifts in would leave the graphic set active
    (
        [r"op=\E[39;49m", "acsc@", "sgr0@", r"enacs=\E(0\016", r"rmacs=\E(0", r"smacs=\E(0\016"],
        ["no sgr0: Absent"],
        [r"sgr0=\E[m"],
        [],
    ),
    (
        [r"op=\E[39;49m", "clear@", "sgr0@"],
        ["no clear: Absent", "no sgr0: Absent"],
        [r"clear=\E[H\E[2J", r"sgr0=\E[m"],
        [],
    ),
]  # fmt: skip


def list_together(entries):
    """The lines that `check --all` prints of each of these entries, which are lists of fields."""
    data = {f"{i}.ti": f"e|e, {', '.join(fields)}, use=base,\n{BASE}\n".encode() for i, fields in enumerate(entries)}
    told = run_cases(PROGRAM, [Case(["check", "--all", f"{name}:e", "3", "5"]) for name in data], data)
    return [one.out.decode().splitlines() for one in told]


def together_source():
    """One source with all of these entries, `e0` and so on."""
    entries = [f"e{i}|e, {', '.join(fields)}, use=base," for i, (fields, _, _, _) in enumerate(TOGETHER)]
    return "\n".join([*entries, BASE, ""]).encode()


def told_faults(lines):
    return [line for line in lines if line.startswith("no ")]


def judge_together():
    """With all strings that are suggested, what is still at fault is none of them."""
    listed = list_together([fields for fields, _, _, _ in TOGETHER])
    mended = []
    for (fields, faults, wanted, _), lines in zip(TOGETHER, listed):
        # one for each fault of a capability, and the same one
        suggested = list(dict.fromkeys(found[1] for found in map(SUGGESTED.fullmatch, lines) if found))
        if told_faults(lines) != faults or suggested != wanted:
            fail(f"{fields} printed {lines}")
        mended.append(wanted + [field for field in fields if named(field) not in map(named, wanted)])
    for (_, _, _, left), fields, lines in zip(TOGETHER, mended, list_together(mended)):
        if told_faults(lines) != left:
            fail(f"the mended {fields} printed {lines}")
    [survey] = run_cases(PROGRAM, [Case(["survey", "--all", "3", "5", "together"])], {"together": together_source()})
    surveyed = [f"e{i} {fault}" for i, (_, faults, _, _) in enumerate(TOGETHER) for fault in faults] + ["base yes"]
    if survey.out.decode().splitlines()[:-1] != surveyed:
        fail(f"survey --all printed {survey.out.decode()} and was to print {surveyed}")
    print("faults: strings that are suggested hold together, and no fault hides what is wrong with the others together")


# entries, each with whether its faults may depend on others: `acsc` is at fault only since `rmacs` is; the next two have
# only faults of strings together, or only one fault
DEPENDING = [
    ([r"op=\E[m", r"smacs=\E(0", r"rmacs=x\017"], True),
    ([r"op=\E[39;49m", r"smacs=\E(B", r"rmacs=\E(0"], False),
    ([r"op=\E[39;49m", r"smacs=x\E(0", r"rmacs=\017"], False),
]


def judge_depending():
    """A further line says where a fault may go once others are mended."""
    data = {f"{i}.ti": f"e|e, {', '.join(fields)}, use=base,\n{BASE}\n".encode() for i, (fields, _) in enumerate(DEPENDING)}
    told = run_cases(PROGRAM, [Case(["check", "--all", f"{name}:e", "3", "5"]) for name in data], data)
    for (fields, depends), one in zip(DEPENDING, told):
        if (b"may go once they are mended" in one.err) != depends:
            fail(f"{fields} printed {one.err} on standard error")
    print("faults: a further line says that a fault may go once others are mended, where that may be")


# fields that are at fault in one part alone, this part between `~`, and the others of their entries. First come parameters
# of a control function, then of `sgr` the conditional of an attribute that is missing, or the parameter for one that is too
# much; control functions; and codes
PARTS = [
    (r"cup=\E[%i%p1%d;~%p1%d~H", []),
    (r"cup=\E[%p1%{1}%+%d;~%p2%d~H", []),
    (r"home=\E[~5~H", []),
    (r"op=\E[39;49;~4~m", []),
    (r"setab=\E[4%p1%d;~1~m", [r"setaf=\E[3%p1%dm", r"op=\E[39;49m", "colors#8"]),
    (r"setaf=\E[3%p1%dm\E[~4~m", [r"setab=\E[4%p1%dm", r"op=\E[39;49m", "colors#8"]),
    (r"clear=\E[H\E[2J$<5>\E[~1~m", []),
    (r"sgr=\E[0%?%p2%t;4%;%?%p4%t;5;~1~%;%?%p6%t;1%;m", []),
    (r"sgr=\E[0%?%p1%t;7%;~%?%p6%p1%!%&%t;1%;~m", []),
    (r"sgr=\E[0%?%p6%t;1%e~%?%p5%t;2%;~%;m", []),
    (r"sgr=\E[0;~1~%?%p2%t;4%;m", []),
    (r"sgr=\E[0%?%p2%t;4%;%?%p3%t;7;~0~%;m", []),
    (r"ed=~\E[H~\E[J", []),
    (r"rmacs=\E(B~\E[H~", [r"smacs=\E(0"]),
    (r"smcup=\E[?1049h~\E[2;4r~", []),
    (r"civis=\E[?25l~\E[?7l~", []),
    (r"ri=\EM~\EM~", []),
    (r"cub1=^H~^H~", []),
    (r"cr=\r~\012~", []),
    (r"hpa=\E[%i~%p1%c~G", []),
    (r"bel=^G~%?~%{1}%t", []),
    (r"el=%?%{1}%t\E[K~%t~%;", []),
    (r"acsc=``aab\001~q\001~", [r"smacs=\E(0", r"rmacs=\E(B"]),
    # the whole function is wrong, or nothing is there that could be
    (r"hpa=\E[%i%p1%d;1H", []),
    (r"vpa=\E[%i%p1%dG", []),
    (r"clear=\E[2J", []),
]


def judge_parts():
    """Below the place of a fault, marks stand under the part of the value that is at fault."""
    data = {
        f"{i}.ti": f"e|e,\n\t{field.replace('~', '')},\n\t{''.join(f'{it}, ' for it in others)}use=base,\n{BASE}\n".encode()
        for i, (field, others) in enumerate(PARTS)
    }
    told = run_cases(PROGRAM, [Case(["check", "--all", f"{name}:e", "24", "80"]) for name in data], data)
    for i, ((field, _), one) in enumerate(zip(PARTS, told)):
        lines = one.out.decode().splitlines()
        at = lines.index(f"{i}.ti:2:2: {named(field)} of e") if f"{i}.ti:2:2: {named(field)} of e" in lines else None
        if at is None or lines[at + 1 : at + 3] != underlined(field):
            fail(f"{field} printed {lines} and was to have {underlined(field)}")
    print(f"faults: marks stand under the part of the value that is at fault, in {len(PARTS)} fields")


# two entries of one name, which has a byte that isn't shown
TWINS = rb"""tw@n|one of two,
	clear=\E[H\E[2J, cup=\E[%i%p1%d;%p2%dH, sgr0=\E[m, el=\E[1K,
tw@n|the other one,
	clear=\E[H\E[2J, cup=\E[%i%p1%d;%p2%dH, sgr0=\E[m,
	ed=\E[K,
""".replace(b"@", b"\xed")
TWIN_PLACES = rb"""twins.ti:2:53: el of tw\355n: tw\355n no el: WrongEffect
    el=\E[1K
       ^~~~~
    grade: wrong
twins.ti:5:2: ed of tw\355n: tw\355n no ed: WrongEffect
    ed=\E[K
       ^~~~
    grade: wrong
grades: wrong 2
opens 2
"""
TWIN_LINES = rb"""tw\355n no el: WrongEffect
tw\355n no ed: WrongEffect
"""


def judge_places():
    """Of two entries with one name each has its own places; a survey of first faults has none."""
    words = ["24", "80", "twins.ti"]
    every, first = run_cases(PROGRAM, [Case(["survey", "--all", *words]), Case(["survey", *words])], {"twins.ti": TWINS})
    for told, err in ((every, TWIN_PLACES), (first, b"")):
        if (told.status, told.out, told.err) != (0, TWIN_LINES + b"total 2, WrongEffect 2\n", err):
            fail(f"a survey of two entries of one name: {told.status} {told.out} {told.err}")
    print("faults: a survey says where each fault stands, by the entry's place")


# a right entry, two that are only there to be used, one for a terminal of another kind, and one with a fault
KINDS = rb"""good|a right one,
	clear=\E[H\E[2J, cup=\E[%i%p1%d;%p2%dH, sgr0=\E[m,
some+bell|a part by its name,
	clear=\E[H\E[2J, cup=\E[%i%p1%d;%p2%dH, sgr0=\E[m, bel=\E[H,
bell|a part by what it lacks,
	bel=\E[H,
other|for a terminal of another kind,
	clear=\014, cup=\E=%p1%' '%+%c%p2%' '%+%c, sgr0=\E[m, bel=\E[H,
wrong|with one fault,
	el=\E[1K, use=good,
"""
KIND_PLACE = rb"""kinds.ti:10:2: el of wrong: wrong no el: WrongEffect
    el=\E[1K
       ^~~~~
    grade: wrong
grades: wrong 1
opens 2
"""
KIND_LINES = [
    (["--all"], "good yes\nother no: OtherKind\nwrong no el: WrongEffect\n"),
    (["--all", "--parts"], "good yes\nsome+bell part\nbell part\nother no: OtherKind\nwrong no el: WrongEffect\n"),
]


def judge_kinds():
    """A survey of all faults counts entries apart that are only there to be used, or for a terminal of another kind."""
    size, data = ["24", "80"], {"kinds.ti": KINDS, "parts.ti": KINDS[: KINDS.index(b"other|")]}
    for words, lines in KIND_LINES:
        [told] = run_cases(PROGRAM, [Case(["survey", *words, *size, "kinds.ti"])], data)
        wanted = lines + "total 5, yes 1, WrongEffect 1, OtherKind 1, part 2\n"
        if (told.status, told.out.decode()) != (0, wanted) or told.err != KIND_PLACE:
            fail(f"survey {words} printed {told.out} {told.err} and was to print {wanted}")
    lines, objects, plain = run_cases(
        PROGRAM,
        [Case(["survey", *words, "--fail", *size, "parts.ti"]) for words in (["--all"], ["--json", "--all"], [])],
        data,
    )
    if (lines.status, objects.status, plain.status) != (0, 0, 1):
        fail(f"survey --fail of parts ended with {lines.status}, {objects.status} and, without --all, {plain.status}")
    for words in (["--parts"], ["--parts", "--json", "--all"], ["--parts", "--fix"]):
        [told] = run_cases(PROGRAM, [Case(["survey", *words, *size, "parts.ti"])], data)
        if told.status != 2 or b"--parts is for --all" not in told.err:
            fail(f"survey {words} ended with {told.status} {told.err}")
    print("faults: a survey of all faults counts parts and other kinds apart, and --parts names the parts")


if __name__ == "__main__":
    judge_kinds()
    judge_planted()
    judge_by_hand()
    judge_suggestions()
    judge_together()
    judge_depending()
    judge_parts()
    judge_places()
