"""The Python package's `ticurses.curses`: its numbers beside the header; the interpreter's own tests of `curses`;
programs that other people wrote for `curses`, beside ncurses; and the tests of python_screen.py.

    python3 -B tests/python_curses.py FOLDER [PREFIX]

takes the package from this folder, and the library from where ./install put it, or from below the prefix.
PYTHON_PROGRAMS names a folder with the files of Debian's packages python3.11-examples and percol (docs/CURSES.md); they
are no part of this repository."""

import json
import os
import re
import subprocess
import sys
import time

import curses_panes as panes
import python_screen
from linked import Terminal, missing, rooms
from trying import PATIENCE, TOP, held_in, write

HEADERS = [f"{TOP}/include/ticurses/{it}.h" for it in ("curses", "attributes")]
STANDARD = os.path.dirname(os.__file__)
# tests of the interpreter that fail, as the page explains
EXPLAINED = set()
# until 3.9 the tests expect errors of other types for colors and pairs that don't exist
if sys.version_info < (3, 10):
    EXPLAINED |= {"test_color_content", "test_init_pair", "test_pair_content"}
LEAST = 50

# runs a program that uses random numbers, each time with the same ones
SEEDED = """import random, runpy, sys
random.seed(7)
sys.argv = sys.argv[1:]
runpy.run_path(sys.argv[0], run_name="__main__")
"""
DEMOS = "{debian}/usr/share/doc/python3.11/examples/demo"
# programs by their paths, with arguments and keys (as in tests/curses.py); {debian} is the folder of Debian's files
PROGRAMS = {
    "textpad": (
        f"{STANDARD}/curses/textpad.py", [],
        "=hello =world Left Left BSpace C-n =more C-a C-k C-o =x C-p C-e C-g",
    ),
    "life": (f"{DEMOS}/life.py", [], "Space Up Space Up Space s s r s s Left Space e q"),
    "percol": ("{debian}/usr/bin/percol", [f"{TOP}/crates.txt"], "Down Down =cur C-Space Down BSpace =r_ C-k Enter"),
}


def hold(holds, what, *seen):
    if not holds:
        sys.exit(f"python: ticurses.curses: {what}: {seen}")


class Package:
    """The package as programs run it: an interpreter's command and its environment."""

    def __init__(self, folder, prefix):
        self.variables = {"PYTHONPATH": folder, "PYTHONDONTWRITEBYTECODE": "1"}
        if prefix:
            self.variables["TICURSES_LIBRARY"] = f"{prefix}/lib/libticurses.so.1"

    def words(self, *own):
        """The command that runs a program over the package."""
        return [sys.executable, "-m", "ticurses.curses", *own]

    def environment(self):
        return [f"{name}={value}" for name, value in self.variables.items()]

    def pane(self, work, name, words):
        """A command with the package in tmux, with a running clock."""
        return panes.Pane(work, name, ["env", "-u", "LD_PRELOAD", *self.environment(), *words])

    def beside(self, folder):
        """The package with a further folder of modules."""
        other = Package(self.variables["PYTHONPATH"] + f":{folder}", "")
        other.variables = {**self.variables, "PYTHONPATH": other.variables["PYTHONPATH"]}
        return other

    def terminal(self, words, **more):
        return Terminal(24, 80, words, {**self.variables, **more})

    def printed(self, program):
        """The output of a program that needs no terminal."""
        words = [sys.executable, "-c", program]
        ran = subprocess.run(words, env={**os.environ, **self.variables}, capture_output=True, text=True)
        hold(ran.returncode == 0, "a program fails", program, ran.stderr)
        return ran.stdout


# -- numbers --


def check_numbers(package):
    """Each number of the package that the headers have too is theirs."""
    header = "".join(held_in(it).decode() for it in HEADERS)
    found = re.findall(r"^#define ((?:A|COLOR|KEY)_\w+) (0x[0-9a-f]+|0[0-7]+|\d+)u?$", header, re.M)
    # C writes octal numbers with a leading zero
    wanted = {name: int(text, 8 if re.fullmatch("0[0-7]+", text) else 0) for name, text in found}
    wanted.pop("KEY_CODE_YES")
    wanted.update({f"KEY_F{number}": wanted["KEY_F0"] + number for number in range(1, 64)})
    for name, button, event in re.findall(r"^#define (BUTTON\d_\w+) TICURSES_BUTTON\((\d), (\d+)\)$", header, re.M):
        wanted[name] = int(event) << (int(button) - 1) * 5
    letters = dict(re.findall(r"^#define (ACS_\w+) TICURSES_ACS\('(.)'\)$", header, re.M))
    letters.update({name: letters[of] for name, of in re.findall(r"^#define (ACS_\w+) (ACS_\w+)$", header, re.M)})
    program = "import json, ticurses.curses as curses\nfrom ticurses.curses import _constants\n"
    program += "print(json.dumps([{name: it for name, it in vars(curses).items() if type(it) is int}, _constants.ACS]))"
    [numbers, acs] = json.loads(package.printed(program))
    differing = {name: (numbers.get(name), it) for name, it in wanted.items() if numbers.get(name) != it}
    hold(len(wanted) > 200 and not differing, "numbers differ from the header's", differing)
    hold(acs == letters and len(acs) > 40, "line drawing differs from the header's", acs, letters)
    counts = f"{len(wanted)} numbers and {len(letters)} line drawing characters"
    print(f"python: ticurses.curses has {counts} as the header has them")


# -- the interpreter's own tests --


def check_own_tests(package, work):
    """test.test_curses of this Python, with the package in place of `curses`."""
    if not os.path.exists(f"{STANDARD}/test/test_curses.py"):
        print("python: this Python has no test.test_curses, and what needs it is left out")
        return
    log = f"{work}/own.log"
    line = " ".join(package.words("-m", "unittest", "-v", "test.test_curses"))
    pane = package.pane(work, "own", ["sh", "-c", f"{line} 2>{log}; echo over >>{log}"])
    end = time.monotonic() + PATIENCE
    while not held_in(log, b"").endswith(b"over\n") and time.monotonic() < end:
        time.sleep(0.1)
    pane.run("kill-server")
    told = held_in(log, b"").decode()
    [count] = re.findall(r"^Ran (\d+) tests", told, re.M) or [0]
    bad = set(re.findall(r"^(?:ERROR|FAIL): (\w+)", told, re.M))
    skipped = set(re.findall(r"^(\w+) \(.* skipped ", told, re.M))
    passed = int(count) - len(bad) - len(skipped)
    hold(bad <= EXPLAINED, "the interpreter's own tests fail, and the page doesn't say why", sorted(bad), told[-3000:])
    hold(passed >= LEAST, "few of the interpreter's own tests pass", passed, told[-3000:])
    print(f"python: of the {count} tests of this Python's test.test_curses {passed} pass, {len(skipped)} are skipped; "
          f"{sorted(bad)} differ")


# -- programs --


def shots(package, work, name, words, keys):
    """The screens of a program after each key, over the standard module and over the package."""
    one = package.pane(work, f"{name}-ncurses", [sys.executable, *words])
    other = package.pane(work, f"{name}-ticurses", package.words(*words))
    return one.shots(keys, panes.STARTING), other.shots(keys, panes.STARTING)


def check_programs(package, work):
    """Other people's programs show the same screens over both modules."""
    debian, count, tried = os.environ.get("PYTHON_PROGRAMS", ""), 0, []
    package = package.beside(f"{debian}/usr/lib/python3/dist-packages")
    write(f"{work}/seeded.py", SEEDED.encode())
    subprocess.run(["cc", "-shared", "-fPIC", "-o", f"{work}/still.so", f"{panes.HERE}/still.c"], check=True)
    for name, (path, words, keys) in PROGRAMS.items():
        path = path.replace("{debian}", debian or "/nonexistent")
        if not os.path.exists(path):
            continue
        run = package, work, name, [f"{work}/seeded.py", path, *words], keys.split()
        one, other = shots(*run)
        # a busy machine may show a program before it has drawn all; it then runs once more
        if panes.differing(one, other):
            one, other = shots(*run)
        bad = panes.differing(one, other)
        hold(not any("Traceback" in text for text, _ in one), f"{name} doesn't run", one[0][0])
        if bad:
            panes.show(bad[0])
        hold(not bad, f"{name} shows something else than with ncurses", len(bad), len(one))
        count, tried = count + len(one), [*tried, name]
    if len(tried) < len(PROGRAMS):
        print("python: PYTHON_PROGRAMS names no folder of Debian's programs (docs/CURSES.md); they are left out")
    print(f"python: {', '.join(tried)} show the same as with ncurses, on {count} screens")


def main():
    folder, prefix = sys.argv[1], sys.argv[2] if len(sys.argv) > 2 else ""
    with rooms() as work:
        check(Package(os.path.abspath(folder), prefix and os.path.abspath(prefix)), work)


def check(package, work):
    # this folder has a module named `curses`, and `python3 -m` looks for modules in the present folder
    os.chdir(work)
    check_numbers(package)
    if missing("python", "tmux", "cc"):
        return
    check_own_tests(package, work)
    check_programs(package, work)
    python_screen.check(package, work)


if __name__ == "__main__":
    main()
