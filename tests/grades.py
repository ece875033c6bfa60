"""The grades of faults, and the functions that T lacks: each was worked out by hand, from terminfo(5), ECMA-48 and the
entry's other strings."""

import json
import sys

from faults import COLS, RIGHT, ROWS
from trying import PROGRAM, Case, run_cases

# a field in place of the right one, with others that it needs, and the grade of its capability's fault
GRADES = [
    # no string of terminfo's language, or no control sequence, or a parameter that is never read
    (r"el=\E[%dK", "broken"), (r"el1=\E[1%;K", "broken"), (r"ech=\E[%p1%qX", "broken"),
    (r"cub=\E[%p1%{2147483647}%+%dD", "broken"), (r"cuf=\E[%p1%{255}%+%cC", "broken"), (r"cuu=\E[%p1%sA", "broken"),
    (r"cup=\E[%i%p1%2d;%p2%2dH", "broken"), (r"vpa=\E[%i%p1%:+dd", "broken"), (r"bel=^G\E[", "broken"),
    (r"civis=\E[?25", "broken"), (r"cub=\E[D", "broken"), (r"cup=\E[%i%p1%d;1H", "broken"), (r"setaf=\E[3%p2%dm", "broken"),
    (r"cud=\E[%%p1B", "broken"),
    # another string of the entry says otherwise
    (r"hpa=\E[%p1%dG", "contradicts"), (r"vpa=\E[%p1%dd", "contradicts"), (r"csr=\E[%p1%d;%p2%dr", "contradicts"),
    (r"op=\E[m", "contradicts"), (r"clear=\E[2J, rmcup=\E[H\E[2J", "contradicts"),
    (r"smacs=^N, rmacs=^O, acsc=qq", "contradicts"), (r"rmacs=^O, smacs=\E(0, acsc=qq", "contradicts"),
    (r"cup=\E[%p1%d;%p2%dH, csr=\E[%i%p1%d;%p2%dr", "contradicts"),
    (r"smacs=^N, rmacs=^O, acsc=qq, is2=\E)0", "contradicts"),
    # it isn't judged, or sends what the terminal hasn't
    ("xmc#1", "unknown"), (r"acsc=q\001", "unknown"), (r"cr=\r\377", "unknown"), (r"home=x\E[H", "unknown"),
    (r"ech=\E[%p1%dP", "unknown"), (r"cud=\E[%p1%PA%gB%dB", "unknown"), (r"el=%^D\E[K", "unknown"), (r"ri=\E", "unknown"),
    (r"setaf=\E[38;5;%p1%dm", "unknown"), (r"vpa=\E[%i%p1%de", "unknown"), (r"civis=\E[?12l", "unknown"), (r"home=^L", "unknown"),
    (r"smacs=\E[11m, rmacs=\E[10m, acsc=qq", "unknown"),
    (r"cnorm=\E%!0\ETD10\E%!1", "unknown"), (r"rmcup=\E%", "unknown"),
    (r"smacs=^N, rmacs=^O, acsc=qq, enacs=\E(B\E)1", "unknown"), (r"smacs=^N, rmacs=^O, acsc=qq, is1=\E)6", "unknown"),
    (r"clear=\E[H\E[2J, sgr0=^O\E[m, el=\E[1K", "unknown"),
    # T shows it
    ("cup@", "wrong"), (r"el=\E[1K", "wrong"), (r"cup=\E[%i%p2%d;%p1%dH", "wrong"), (r"op=\E[37;40m", "wrong"),
    (r"clear=\E[2J, home@, rmcup=\E[H\E[2J", "wrong"), (r"clear=\E[2J", "wrong"), (r"hpa=\r\E[%p1%dC", "wrong"),
    (r"cup=\E[%p1%d;%p2%dH, csr@, hpa@, vpa@", "wrong"), (r"bold=\E[2m", "wrong"),
    (r"smacs=\E(B, rmacs=\E(B, acsc=qq", "wrong"),
    (r"clear=\E[H\E[2J, sgr0=^O\E[m", "wrong"), (r"cr=^G\E[H", "wrong"),
]  # fmt: skip

# a field in place of the right one, with others, and the function that its string needs and T hasn't, by the sections of
# ECMA-48 and by xterm's, ISO's and Linux' documents; `None`: its string is judged
OUTSIDE = [
    (r"hpa=\E[%i%p1%d`", "HPA (CSI `, ECMA-48 8.3.57)"), (r"vpa=\E[%i%p1%de", "VPR (CSI e, ECMA-48 8.3.160)"),
    (r"home=\Ec", "RIS (ESC c, ECMA-48 8.3.105)"), (r"civis=\E[?12l", "blinking cursor (CSI ? 12 l, xterm, ctlseqs)"),
    (r"setaf=\E[38;5;%p1%dm", "SGR 38, a foreground of 256 or direct color (CSI 38 m, ISO 8613-6)"),
    (r"setab=\E[48;5;%p1%dm", "SGR 48, a background of 256 or direct color (CSI 48 m, ISO 8613-6)"),
    (r"el=\233K", "8-bit controls (byte 155, ECMA-48 5.3)"), (r"ind=\204", "8-bit controls (byte 132, ECMA-48 5.3)"),
    (r"acsc=q\304, smacs=\E[11m, rmacs=\E[10m", "code page 437 (CSI 11 m, console_codes(4))"),
    (r"el=\E[1K", None), (r"bold=\E[2m", None), (r"acsc=q\304, smacs=^N, rmacs=^O", None),
]  # fmt: skip
UNKNOWN = "T has no {}; nothing is known of this string"
ALL_UNKNOWN = "each fault of this entry is a function that T lacks: nothing is known against it on its own terminal"


def fail(text):
    sys.exit(f"grades: {text}")


def name_of(field):
    return field.replace("@", "=").replace("#", "=").split("=")[0]


def source(wanted):
    """An entry for each field."""
    entries = []
    for number, (fields, _) in enumerate(wanted):
        own = fields.split(", ")
        taken = {name_of(field) for field in own}
        others = [f"{name}={string}" for name, string in RIGHT.items() if name not in taken]
        entries.append(f"g{number}|one fault,\n\t{', '.join([*own, *others])},\n")
    return "".join(entries).encode()


def judge_outside():
    """Ends the script where `check` says something else of an entry with one of these fields, or of one with a judged fault
    beside them."""
    both = [*OUTSIDE, (OUTSIDE[0][0] + r", el=\E[1K", None)]
    cases = [Case(["check", "--", f"-:g{number}", str(ROWS), str(COLS)], source(both)) for number in range(len(both))]
    for (fields, function), told in zip(both, run_cases(PROGRAM, cases)):
        lines = [line for line in told.err.decode("ascii").splitlines() if not line.startswith("note ")]
        # a session can do without these strings, and the line that says so comes last
        right = told.status == 1 and lines[0].startswith("refused: no ") and lines.pop().startswith("a session leaves out ")
        if function is None:
            right = right and not any(line.startswith("T has no ") for line in lines) and ALL_UNKNOWN not in lines
        else:
            right = right and UNKNOWN.format(function) in lines[1:] and lines[-1] == ALL_UNKNOWN
        if not right:
            fail(f"of {fields} `check` says {told.err}")


def main():
    words = ["survey", "--json", "--all", str(ROWS), str(COLS), "{}"]
    (told,) = run_cases(PROGRAM, [Case(words, source(GRADES))])
    found = {}
    for line in told.out.decode("ascii").splitlines():
        one = json.loads(line)
        if one["verdict"] == "no":
            found[one["entry"], one["capability"]] = one
    for number, (fields, grade) in enumerate(GRADES):
        one = found.get((f"g{number}", name_of(fields)))
        if one is None or one["grade"] != grade:
            fail(f"{fields} isn't {grade}: {one}")
    judge_outside()
    print(f"grades: {len(GRADES)} faults have the grades that were worked out by hand, and {len(OUTSIDE)} name what T lacks")


main()
