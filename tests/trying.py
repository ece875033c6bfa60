"""Many runs of a program with one build: of ticurses itself, as ./ticurses builds it, or of a test's own, by `rt try`.

    python3 -B tests/trying.py FOLDER [NAME=FILE..]

runs ticurses for each case of the folder: its words are in NAME.args, one a line, its standard input in NAME, what it
has to print in NAME.stdout, and its status in NAME.status (0 where that file is not there). Without NAME.stdout the
output is printed below a line `== NAME`. Each run begins in an empty folder with copies of the files that are given by
name."""

import os
import re
import shutil
import subprocess
import sys
import tempfile

TOP = os.path.dirname(os.path.dirname(os.path.abspath(__file__)))
sys.path.append(f"{TOP}/tools")
PROGRAM = f"{TOP}/crates/ticurses"
# a program that takes longer hangs: no measure of speed, since machines are slow or busy
PATIENCE = 600

import crates as listing


class Case:
    """A run: its words, what standard input has, and what standard output is to have, if that is known before."""

    def __init__(self, words=(), given=b"", wanted=None):
        self.words, self.given, self.wanted = words, given, wanted


class Told:
    """The results of a run: its status, standard output and standard error. For a case of `rt try` that printed the
    wanted output, only the status is known."""

    def __init__(self, status, out, err):
        self.status, self.out, self.err = status, out, err


def run_cases(crate, cases, data=None):
    """Runs the program of the crate's folder for each case, in a folder with the data: bytes by name. An output
    that is not the wanted one ends the script."""
    return run_built(cases, data) if crate == PROGRAM else run_unproved(crate, cases, data)


def run_built(cases, data):
    """Runs ticurses, which is built where it has to be, once for all scripts. A word `{}` is the path of the case's file."""
    subprocess.run([f"{TOP}/build"], check=True)
    return [run_in_room(case, data or {}) for case in cases]


def run_in_room(case, data):
    with tempfile.TemporaryDirectory() as room:
        os.mkdir(f"{room}/here")
        write(f"{room}/given", case.given)
        words = [f"{room}/given" if word == "{}" else word for word in case.words]
        for name, held in data.items():
            if any(name in word for word in words):
                write(f"{room}/here/{name}", held)
        pipe = subprocess.PIPE
        how = {"cwd": f"{room}/here", "env": {}, "input": case.given, "stdout": pipe, "stderr": pipe, "timeout": PATIENCE}
        ran = subprocess.run([f"{PROGRAM}/out/ticurses", *words], **how)
    if case.wanted is not None and ran.stdout != case.wanted:
        print(f"ticurses {' '.join(map(str, case.words))}: it printed\n{ran.stdout!r}\nand was to print", file=sys.stderr)
        sys.exit(repr(case.wanted))
    return Told(ran.returncode, ran.stdout, ran.stderr)


def run_unproved(crate, cases, data):
    """The results of the cases for the program of a test, by `rt try --cases`."""
    with tempfile.TemporaryDirectory() as work:
        os.mkdir(f"{work}/cases")
        os.mkdir(f"{work}/data")
        # compiled runs alone: of these long ones the interpreter gives no answer
        words = ["rt", "try", "--steps", "1", "--seconds", "600", "--cases", f"{work}/cases"]
        for at, (name, held) in enumerate((data or {}).items()):
            write(f"{work}/data/{at}", held)
            words += ["--data", f"{name}={work}/data/{at}"]
        for at, case in enumerate(cases):
            write_case(f"{work}/cases/{at:06}", case)
        pipe = subprocess.PIPE
        ran = subprocess.run(words, cwd=crate, stdin=subprocess.DEVNULL, stdout=pipe, stderr=pipe)
    outs = dict(re.findall(rb"^== (\d{6})\n(.*?)(?=^== \d{6}\n|\Z)", ran.stdout, re.M | re.S))
    ends = re.findall(rb"((?:(?!^case=).*\n)*?)^case=(\d{6}) run=ended status=(\d+) .*\n", ran.stderr, re.M)
    told = {int(name): Told(int(status), outs.get(name, b""), err) for err, name, status in ends}
    if ran.returncode or len(told) != len(cases):
        sys.stdout.write(ran.stdout.decode(errors="replace"))
        sys.stderr.write(ran.stderr.decode(errors="replace"))
        sys.exit(f"not each of the program's {len(cases)} runs gave what it is to give")
    return [told[at] for at in range(len(cases))]


def write_case(path, case):
    write(path, case.given)
    if case.words:
        write(f"{path}.args", "".join(f"{word}\n" for word in case.words).encode())
    if case.wanted is not None:
        write(f"{path}.stdout", case.wanted)


def probe(work, source):
    """Makes a program of the source text, a file of this folder, over copies of the crates that it uses and those that
    they depend on, and returns the folder of its crate. The folder is outside the repository, so no check reads it."""
    uses = listing.listed()
    named = re.findall(rb"^ *use (\w+)::", held_in(f"{TOP}/tests/{source}"), re.M)
    laid = listing.below(sorted({it.decode() for it in named} & set(uses)), uses)
    for crate in laid:
        for part in ("src", "specs", "proofs"):
            if os.path.isdir(f"{TOP}/crates/{crate}/{part}"):
                shutil.copytree(f"{TOP}/crates/{crate}/{part}", f"{work}/crates/{crate}/{part}")
    os.makedirs(f"{work}/crates/probe/src")
    shutil.copy(f"{TOP}/tests/{source}", f"{work}/crates/probe/src/main.rt")
    lines = [f"{crate}: {' '.join(uses[crate])}\n" for crate in laid]
    write(f"{work}/crates.txt", "".join([*lines, f"probe: {' '.join(laid)}\n"]).encode())
    return f"{work}/crates/probe"


def write(path, held):
    with open(path, "wb") as file:
        file.write(held)


def held_in(path, otherwise=None):
    """The content of a file, or `otherwise` if there is none."""
    if not os.path.isfile(path):
        return otherwise
    with open(path, "rb") as file:
        return file.read()


def main(folder, *given):
    """Runs the cases of a folder."""
    data = {name: held_in(path) for name, _, path in (it.partition("=") for it in given)}
    names = sorted(it[: -len(".args")] for it in os.listdir(folder) if it.endswith(".args"))
    cases = []
    for name in names:
        words = held_in(f"{folder}/{name}.args").decode("utf-8", "surrogateescape").split("\n")[:-1]
        cases.append(Case(words, held_in(f"{folder}/{name}", b""), held_in(f"{folder}/{name}.stdout")))
    bad = 0
    for name, case, told in zip(names, cases, run_cases(PROGRAM, cases, data)):
        wanted = int(held_in(f"{folder}/{name}.status", b"0"))
        if told.status != wanted:
            print(f"{name}: the status is {told.status}, and {wanted} was wanted: {told.err!r}", file=sys.stderr)
            bad += 1
        if case.wanted is None:
            print(f"== {name}\n{told.out.decode('latin-1')}", end="")
    return min(bad, 1)


if __name__ == "__main__":
    sys.exit(main(*sys.argv[1:]))
