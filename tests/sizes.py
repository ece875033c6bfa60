"""Entries that are right at every size, and entries that are not: what `--every-size` says of them, and `check` at many
sizes of the former."""

import glob
import os
import random
import sys

from faults import RIGHT
from trying import PROGRAM, Case, run_cases

# fields in place of right ones, and the words of the line behind the name, worked out by hand: a number of three digits
# is cut, or a row or a column comes out as 0, or a blank is in a control sequence; with a tab, or by way of a place that is
# off the screen, a string is right at every size, and no law covers it
FIELDS = [
    ("", "yes"),
    (r"cup=\E[%i%p1%03d;%p2%03dH", "yes"),
    (r"cup=\E[%i%p1%d;%p2%{100}%m%dH", "no cup 0 99: WrongEffect at 200 500"),
    (r"cup=\E[%i%p1%{30}%m%d;%p2%dH", "no cup 29 0: WrongEffect at 200 500"),
    (r"cup=\E[%i%p1%d;%p2%{10}%m%dH", "no cup 0 9: WrongEffect at 24 80"),
    (r"cup=\E[%i%p1%2d;%p2%2dH", "no cup 0 0: "),
    (r"hpa=\E[%i%p1%{100}%m%dG", "no hpa 99: WrongEffect at 200 500"),
    (r"vpa=\E[%i%p1%{100}%m%dd", "no vpa 99: WrongEffect at 200 500"),
    (r"cuf=\E[%p1%{300}%m%dC", "no cuf 300: WrongEffect at 200 500"),
    (r"ech=\E[%p1%{2}%m%dX", "no ech 2: WrongEffect at 2 2"),
    (r"csr=\E[%i%p1%d;%p2%{100}%m%dr", "no csr 0 99: WrongEffect at 200 500"),
    (r"home=\E[H\t\E[H", "undecided home"),
    (r"clear=\E[999;999H\E[H\E[2J", "undecided clear"),
]
KINDS = ("yes", "no", "undecided", "refused")
# options that are for one size, or for another output
USAGE = (["--out", "made"], ["--all"], ["--fix"], ["--sarif"], ["--json"])

PLACES = ("/usr/share/terminfo", "/lib/terminfo", "/etc/terminfo")
ENTRIES, TRIED = 30, 36
SMALL = [(rows, cols) for rows in range(2, 13) for cols in range(2, 21)]
OTHERS = 100


def source():
    """A source with an entry for each of the fields."""
    text = ""
    for at, (fields, _) in enumerate(FIELDS):
        capabilities = dict(RIGHT)
        if fields:
            name, _, value = fields.partition("=")
            capabilities[name] = value
        text += f"e{at},\n" + "".join(f"\t{name}={value},\n" for name, value in sorted(capabilities.items()))
    return text.encode()


def expect(is_so, what):
    if not is_so:
        sys.exit(f"sizes: {what}")


def planted(data):
    """Says what is wrong with the answers about the fields above."""
    told = run_cases(PROGRAM, [Case(["survey", "--every-size", "s.ti"]), Case(["survey", "--every-size", "--fail", "s.ti"])], data)
    lines = told[0].out.decode().splitlines()
    expect(len(lines) == len(FIELDS), f"{len(lines)} lines for {len(FIELDS)} entries:\n" + told[0].err.decode())
    for at, (line, (fields, answer)) in enumerate(zip(lines, FIELDS)):
        expect(line == f"e{at} {answer}" or (answer[-1] == " " and line.startswith(f"e{at} {answer}")), f"{fields}: {line}")
    counts = [sum(line.split()[1] == kind for line in lines) for kind in KINDS]
    counted = ", ".join(f"{kind} {count}" for kind, count in zip(KINDS, counts))
    expect(told[0].err.decode() == f"total {len(lines)}, {counted}\n", f"counts: {told[0].err}")
    expect((told[0].status, told[1].status, told[1].out) == (0, 1, told[0].out), "the status without --fail, and with it")
    checks = run_cases(PROGRAM, [Case(["check", "--every-size", f"s.ti:e{at}"]) for at in range(len(FIELDS))], data)
    for check, line, (fields, answer) in zip(checks, lines, FIELDS):
        words = line.split(" ", 1)[1]
        if answer == "yes":
            expect((check.status, check.out, check.err) == (0, b"yes at every size\n", b""), f"{fields}: {check.out}, {check.err}")
            continue
        no, _, size = words.partition(" at ")
        wanted = f"refused: {no.replace('undecided', 'Undecided')}\n" + (f"at {size}\n" if size else "")
        expect(check.status == 1 and check.err.decode().startswith(wanted), f"{fields}: {check.err}")
    for options in USAGE:
        for command in (["check", "--every-size", *options, "s.ti:e0"], ["survey", "--every-size", *options, "s.ti"]):
            expect(run_cases(PROGRAM, [Case(command)], data)[0].status == 2, f"{command} is no usage error")


def right_among(words, paths):
    """The paths whose entry has a yes in the survey with these words."""
    told = run_cases(PROGRAM, [Case(["survey", *words, *paths])])[0]
    lines = told.out.decode("latin-1").splitlines()
    return [path for path, line in zip(paths, lines) if line.endswith(" yes")]


def spread(paths, count):
    return [paths[at * len(paths) // count] for at in range(count)]


def of_database():
    """The paths of some entries of the system's database that are right at every size."""
    paths = sorted(path for place in PLACES for path in glob.glob(f"{place}/*/*") if not os.path.islink(path))
    certified = right_among(["24", "80"], paths) if paths else []
    if len(certified) < TRIED:
        return []
    # all of them would take a minute
    right = right_among(["--every-size"], spread(certified, TRIED))
    return spread(right, ENTRIES) if len(right) >= ENTRIES else []


def main():
    data = {"s.ti": source()}
    planted(data)
    paths = of_database()
    if not paths:
        print(f"sizes: no {ENTRIES} entries in the system's database: check at many sizes is skipped")
        return
    random.seed(3)
    sizes = [*SMALL, *((random.randrange(2, 201), random.randrange(2, 501)) for _ in range(OTHERS))]
    cases = [Case(["survey", str(rows), str(cols), *paths]) for rows, cols in sizes]
    for size, told in zip(sizes, run_cases(PROGRAM, cases)):
        lines = told.out.decode("latin-1").splitlines()
        expect(lines[-1] == f"total {ENTRIES}, yes {ENTRIES}", f"{size}: {lines}")
    print(f"sizes: {len(FIELDS)} planted entries, and {ENTRIES} entries at {len(sizes)} sizes")


if __name__ == "__main__":
    main()
