"""The library of <ticurses/term.h> and <ticurses/termcap.h>, beside ncurses: its table, all that it answers for each
entry of the system's database, the expansion of each string, padding, failures; random strings with the sanitizers; a
program with rights that its user lacks; Debian's own binaries over the drop-in (tinfo_programs.py); readline and less
from their sources, where TINFO_SOURCES names a folder with them.

    python3 -B tests/tinfo.py [PREFIX] [--strings N] [NAME..]

takes the library from where ./install put it. With names it runs only these binaries. --strings sets the number of
random strings, 10,000 by default."""

import argparse
import collections
import ctypes
import glob
import os
import random
import re
import shutil
import subprocess
import sys
from concurrent.futures import ThreadPoolExecutor

from linked import SANITIZED, STRICT, installed, missing, rooms
from trying import TOP, held_in

sys.path.append(f"{TOP}/tools")

import tinfo_library
import tinfo_programs

HERE = f"{TOP}/tests/tinfo"
FOLDERS = ("/etc/terminfo", "/lib/terminfo", "/usr/share/terminfo")
SYSTEM = "libtinfo.so.6"
NOBODY = 65534
# how many entries one run of a program tells of, and how many random parameters each string gets
EACH, DRAWS = 100, 4
# the faults that strings of a database can have for random parameters, by the words of ticurses_terminfo.h; ncurses
# goes on after each of them, with a number that C leaves open, with a 0, or with a part of a number
FAULTS = {
    "a result doesn't fit in 32 bits",
    "a code took a value from the empty stack",
    "a number to be written as one byte isn't from 0 to 255",
    "a conditional isn't %? %t %e %;",
    "no code begins with this %",
    "a text stands where a number is needed, or the other way round",
}


def fail(text):
    sys.exit(f"tinfo: {text}")


# -- the table --


def judge_table():
    """The header's macros are those of the table, and terminfo(5) has its rows."""
    if held_in(f"{tinfo_library.INCLUDE}/term_names.h").decode() != tinfo_library.names_header():
        fail("include/ticurses/term_names.h isn't made from tinfo/names.def")
    rows = {it[1:] for it in tinfo_library.capabilities()}
    ran = subprocess.run(["man", "-w", "5", "terminfo"], capture_output=True, text=True) if shutil.which("man") else None
    if ran is None or ran.returncode:
        print("tinfo: the page terminfo(5) is not installed, and the table isn't compared with it")
        return
    opener = "zcat" if ran.stdout.strip().endswith(".gz") else "cat"
    page = subprocess.run([opener, ran.stdout.strip()], capture_output=True, text=True, check=True).stdout
    listed = set(re.findall(r"^(\w+)\t(\S+)\t(\S+)\tT\{$", page, re.M))
    if len(listed) < 400 or listed - rows:
        fail(f"of {len(listed)} rows of terminfo(5) the table lacks {sorted(listed - rows)}")
    print(f"tinfo: the table has the {len(listed)} rows of terminfo(5), among {len(rows)}")


def arrays(library):
    """The nine arrays of names of a library."""
    found = {}
    for kind in ("bool", "num", "str"):
        for what in ("names", "codes", "fnames"):
            cells, names = (ctypes.c_char_p * 500).in_dll(library, kind + what), []
            while cells[len(names)] is not None:
                names.append(cells[len(names)])
            found[kind + what] = names
    return found


def judge_arrays(drop_in):
    one, other = arrays(ctypes.CDLL(SYSTEM)), arrays(ctypes.CDLL(drop_in))
    bad = [it for it in one if one[it] != other[it]]
    if bad or sum(map(len, one.values())) != 3 * 497:
        fail(f"the arrays {bad} aren't those of ncurses")
    print(f"tinfo: the nine arrays of names are those of ncurses, {sum(map(len, one.values()))} names")


def symbols(library):
    """The names that a library exports, each with its version and type, and the size of its data."""
    told = subprocess.run(["readelf", "-W", "--dyn-syms", library], stdout=subprocess.PIPE, text=True, check=True).stdout
    rows = re.findall(r"^ *\d+: \w+ +(\d+) (\w+) +\w+ +\w+ +\d+ (\w+)@@(\S+)$", told, re.M)
    return {name: (version, kind, int(size) if kind == "OBJECT" else 0) for size, kind, name, version in rows}


def judge_symbols(drop_in):
    """A program's binary finds each name of the drop-in under the version of ncurses, and copies data of its size."""
    if missing("tinfo", "readelf"):
        return
    system, here = symbols(glob.glob(f"/lib/*/{SYSTEM}")[0]), symbols(drop_in)
    bad = [f"{it}: {here[it]}, and in ncurses {system.get(it)}" for it in here if here[it] != system.get(it)]
    if bad or len(here) < 30:
        fail(f"of the {len(here)} names of the drop-in these are others: {bad}")
    print(f"tinfo: the {len(here)} names of the drop-in have ncurses' versions, and its data ncurses' sizes")


# -- answers --


class Compiled:
    """The program of answers.c, over ncurses and over this library."""

    def __init__(self, work, prefix):
        self.work, self.environment = work, {k: v for k, v in os.environ.items() if k not in DROPPED}
        self.environment["HOME"] = f"{work}/nobody"
        here = [f"-I{prefix}/include/ticurses", f"-I{prefix}/include", f"-L{prefix}/lib", f"-Wl,-rpath,{prefix}/lib"]
        here += ["-lticurses_tinfo", "-lticurses_terminfo"]
        self.words = {"ncurses": ["-DFOR_NCURSES", "-w", "-lncurses", "-ltinfo"], "here": [*STRICT, *here]}
        for library, words in self.words.items():
            line = ["cc", "-std=gnu99", "-O1", f"{HERE}/answers.c", *words, "-o", f"{work}/{library}"]
            if subprocess.run(line).returncode:
                fail(f"answers.c doesn't compile for {library}")

    def run(self, words, given=""):
        """The lines that both write."""
        with ThreadPoolExecutor(2) as pool:
            return list(pool.map(lambda it: self.told(it, words, given).stdout.splitlines(), self.words))

    def told(self, library, words, given=""):
        line = [f"{self.work}/{library}", *words]
        return subprocess.run(line, env=self.environment, input=given, capture_output=True, encoding="latin-1")


# what would lead both to other entries or sizes
DROPPED = {"TERMINFO", "TERMINFO_DIRS", "LINES", "COLUMNS", "CC"}


def entries():
    """The names of all entries of the system."""
    return sorted({os.path.basename(it) for folder in FOLDERS for it in glob.glob(f"{folder}/?/*")})


def compare(made, words, plain=lambda it: it):
    """Compares all lines; returns those of this library."""
    one, other = made.run(words)
    bad = [(a, b) for a, b in zip(one, other) if plain(a) != b]
    if bad or len(one) != len(other):
        fail(f"{' '.join(words)[:60]}: {len(one)} and {len(other)} lines; first (ncurses, here): {bad[:1]}")
    return other


def without_cancelled(line):
    """A line of ncurses; a cancelled number, which macros read there as -2, is absent here."""
    return line.replace(" -2,", " -1,") if line.startswith("macro ") else line


def judge_entries(made):
    """Whatever terminfo's and termcap's calls tell of each entry. Returns the strings of all entries."""
    names, strings, counts = entries(), set(), [0, 0]
    for at in range(0, len(names), EACH):
        for kind, what in enumerate(("entries", "termcap")):
            lines = compare(made, [what, *names[at : at + EACH]], without_cancelled)
            counts[kind] += len(lines)
            strings |= {it.rpartition("=")[2] for it in lines if it.startswith("string ") and "=" in it}
    print(
        f"tinfo: of {len(names)} entries terminfo's calls answer as in ncurses, {counts[0]} answers, and termcap's too, "
        f"{counts[1]} answers"
    )
    return sorted(strings)


def judge_calls(made):
    """Calls without a terminal, failures, what vidattr sends, and how a program ends without a terminal."""
    count = len(compare(made, ["calls"]))
    names = [it for it in ("xterm", "vt100", "linux", "wy50", "dumb", "adm3a") if it in entries()]
    count += len(compare(made, ["drawing", *names]))
    for name in ("no-such-entry", "tty33", "unknown", "dialup", "vt100"):
        one, other = (made.told(it, ["exits", name]) for it in made.words)
        if (one.returncode, one.stderr) != (other.returncode, other.stderr):
            told = f"{one.returncode} {one.stderr!r}, and here {other.returncode} {other.stderr!r}"
            fail(f"setupterm of {name} ends with {told}")
    print(f"tinfo: calls without a terminal, failures, ends and vidattr are as in ncurses, {count} lines")


# -- expansions --


def texts_of(string):
    """Which parameters ncurses takes to be texts: those that %s or %l takes next."""
    return sum(1 << int(it) - 1 for it in set(re.findall(rb"%p([1-9])[^%]*%[:# .0-9-]*[ls]", string)))


def draw(chance):
    """A random parameter: mostly a place or a color, sometimes at an edge."""
    places = [chance.randrange(it) for it in (10, 100, 300, 70000)]
    return chance.choice((*places, 0, 1, -1, 2**31 - 1))


def expansion(chance, digits):
    string = bytes.fromhex(digits)
    texts = texts_of(string)
    given = [
        bytes(chance.choices(range(33, 127), k=chance.randrange(1, 9))).hex() if texts & 1 << at else str(draw(chance))
        for at in range(9)
    ]
    return f"{digits} {texts} {' '.join(given)}\n"


def judge_expansions(made, strings):
    """Each string for random parameters: equal bytes, or a fault that has a name."""
    chance = random.Random(93)
    given = [expansion(chance, it) for it in strings if it for _ in range(DRAWS)]
    one, other = made.run(["expansions"], "".join(given))
    if not len(one) == len(other) == len(given):
        fail(f"of {len(given)} expansions ncurses tells {len(one)}, and here are {len(other)}")
    faults, faulty = collections.Counter(), set()
    for line, told, here in zip(given, one, other):
        # terminfo(5) has %i add 1 each time, and ncurses the first time alone
        if told != here and bytes.fromhex(line.split()[0]).count(b"%i") < 2:
            name = here.removeprefix("fault ")
            if name not in FAULTS:
                fail(f"the string and parameters {line.strip()} expand to {told}, and here to {here}")
            faults[name] += 1
            faulty.add(line.split()[0])
    told = ", ".join(f"{count} times {name!r}" for name, count in faults.most_common())
    print(f"tinfo: of {len(strings)} strings {len(given)} expansions are ncurses', or faults of {len(faulty)} strings: {told}")
    if sum(faults.values()) * 20 > len(given):
        fail("more than a twentieth of the expansions have faults")


def judge_padding(made, strings):
    """The bytes that tputs sends: of each string, and of random ones of the characters that padding is made of."""
    chance = random.Random(5)
    tokens = ["$", "<", "$<", ">", "1", "25", ".", "*", "/", "$<5>", "$<1.5*/>", "$<.1*>", "a", "\\", "\x1b[H"]
    made_up = ["".join(chance.choice(tokens) for _ in range(chance.randrange(1, 12))) for _ in range(20000)]
    given = [f"{it}\n" for it in strings] + [f"{it.encode().hex()}\n" for it in made_up]
    one, other = made.run(["padding"], "".join(given))
    bad = [it for it in zip(given, one, other) if it[1] != it[2]]
    if bad or len(one) != len(given):
        fail(f"tputs sends otherwise than in ncurses, {len(bad)} times, first {bad[:1]}")
    print(f"tinfo: tputs sends of {len(given)} strings what it sends in ncurses")


# -- other ways to find an entry --


def judge_rights(work, prefix):
    """A program with rights that its user lacks finds no entry by the environment. The program is answers.c."""
    if os.geteuid() != 0 or missing("tinfo", "tic", "setpriv"):
        print("tinfo: only root can make programs with more rights, and this is left out")
        return
    os.chmod(work, 0o755)
    os.makedirs(f"{work}/own/.terminfo")
    for at, name in (("own/.terminfo", "athome"), ("named", "named"), ("listed", "listed")):
        source = f"{work}/{name}.ti"
        with open(source, "w", encoding="ascii") as file:
            file.write(f"{name},\n\tam, cols#80, cup=\\E[%i%p1%d;%p2%dH,\n")
        subprocess.run(["tic", "-o", f"{work}/{at}", source], check=True)
    line = ["cc", "-std=gnu99", "-w", f"{HERE}/answers.c", f"-I{prefix}/include/ticurses", f"-I{prefix}/include"]
    line += [f"{prefix}/lib/{tinfo_library.ARCHIVE}", f"{prefix}/lib/libticurses_terminfo.a", "-o", f"{work}/rights"]
    subprocess.run(line, check=True)
    given = {"HOME": f"{work}/own", "TERMINFO": f"{work}/named", "TERMINFO_DIRS": f"{work}/none:{work}/listed:"}
    for mode, found in ((0o755, True), (0o4755, False), (0o755, True)):
        os.chmod(f"{work}/rights", mode)
        words = ["setpriv", f"--reuid={NOBODY}", f"--regid={NOBODY}", "--clear-groups", f"{work}/rights", "entries"]
        for name in ("athome", "named", "listed"):
            told = subprocess.run([*words, name], env=given, stdout=subprocess.PIPE, text=True).stdout
            if told.startswith(f"entry {name} 0 1") != found:
                fail(f"with mode {mode:o} the entry {name} is {'not ' * found}found by the environment: {told[:99]}")
        told = subprocess.run([*words, "vt100"], env=given, stdout=subprocess.PIPE, text=True).stdout
        if not told.startswith("entry vt100 0 1"):
            fail(f"with mode {mode:o} the system's entry isn't found")
    print("tinfo: TERMINFO, HOME and TERMINFO_DIRS lead to entries, and in a set-user-id program they don't")


# -- random strings --


def judge_random(work, prefix, count):
    """tparm, tgoto, tputs and termcap's calls of random strings, with the sanitizers."""
    program = f"{work}/random_strings"
    line = ["cc", "-std=gnu99", "-O1", *STRICT, *SANITIZED, f"-I{prefix}/include/ticurses", f"{HERE}/random_strings.c"]
    # the C of the library is compiled anew, with the sanitizers
    line += [f"{tinfo_library.SOURCES}/{it}" for it in tinfo_library.sources()]
    if subprocess.run([*line, f"{prefix}/lib/libticurses_terminfo.a", "-o", program]).returncode:
        fail("random_strings.c doesn't compile with the sanitizers")
    ran = subprocess.run([program, str(count)], capture_output=True, text=True, env={**os.environ, "TERM": "xterm"})
    if ran.returncode:
        fail(f"random strings end with status {ran.returncode}: {ran.stdout[-500:]} {ran.stderr[-3000:]}")
    print(f"tinfo: {ran.stdout.strip()}, with the sanitizers")


def judge_valgrind(work, folder):
    """less and bash over the drop-in make no error of memory."""
    if missing("tinfo", "valgrind", "script"):
        return
    text = f"{work}/text"
    with open(text, "w", encoding="ascii") as file:
        file.writelines(f"line {it}\n" for it in range(200))
    tries = [("less", f"less {text}", b" q"), ("bash", "bash --norc --noprofile -i", b"echo on\x01\x05e\t\nexit\n")]
    for name, words, keys in tries:
        log = f"{work}/{name}.valgrind"
        line = f"valgrind -q --error-exitcode=77 --log-file={log} {words}"
        given = {**os.environ, "TERM": "xterm", "LD_LIBRARY_PATH": folder}
        ran = subprocess.run(["script", "-qec", line, "/dev/null"], input=keys, env=given, capture_output=True)
        # memory that the program itself loses doesn't count: only errors are
        if ran.returncode or os.path.getsize(log):
            fail(f"valgrind says of {name}: {ran.returncode} {held_in(log).decode()[:2000]}")
    print("tinfo: less and bash over the drop-in make no error that valgrind sees")


def flags_of(prefix, name):
    """The words of pkg-config for a library."""
    given = {**os.environ, "PKG_CONFIG_PATH": f"{prefix}/lib/pkgconfig"}
    line = ["pkg-config", "--cflags", "--libs", name]
    return subprocess.run(line, env=given, stdout=subprocess.PIPE, text=True, check=True).stdout.split()


def judge_page(work, prefix):
    """The program of docs/TERMINFO.md compiles by its line, without a warning, and draws."""
    page = held_in(f"{TOP}/docs/TERMINFO.md").decode()
    lines = page.partition("    $ cat show.c\n")[2].partition("    $ cc ")[0].splitlines()
    with open(f"{work}/show.c", "w", encoding="ascii") as file:
        file.writelines(f"{it[4:]}\n" for it in lines)
    words = [f"-I{prefix}/include/ticurses", f"-L{prefix}/lib", f"-Wl,-rpath,{prefix}/lib"]
    words += ["-lticurses_tinfo", "-lticurses_terminfo"]
    if shutil.which("pkg-config") and os.path.exists(f"{prefix}/lib/pkgconfig/ticurses-tinfo.pc"):
        words = flags_of(prefix, "ticurses-tinfo")
    if subprocess.run(["cc", *STRICT, f"{work}/show.c", *words, "-o", f"{work}/show"]).returncode:
        fail("the program of docs/TERMINFO.md doesn't compile")
    ran = subprocess.run([f"{work}/show"], env={**os.environ, "TERM": "vt100"}, stdout=subprocess.PIPE)
    # the strings of a VT100, by its user guide: clear, move to line 3 and column 5, bold, and no attribute
    wanted = b"\x1b[H\x1b[J\x1b[3;5H\x1b[1mvt100 has -1 colors\x1b[m\x0f\x1b[5;1H"
    if ran.returncode or ran.stdout != wanted:
        fail(f"the program of docs/TERMINFO.md sends {ran.stdout!r}")
    ran = subprocess.run([f"{work}/show"], env={**os.environ, "TERM": "none-such"}, capture_output=True, text=True)
    if ran.returncode != 1 or "unknown terminal type" not in ran.stderr:
        fail(f"the program of docs/TERMINFO.md says of an unknown terminal {ran.returncode} {ran.stderr!r}")
    print("tinfo: the program of docs/TERMINFO.md compiles by its line, and sends what a VT100 needs")


def judge_headers(work, prefix):
    """Both compilers take the headers, in C and C++, in either order."""
    orders = ("term.h", "termcap.h"), ("termcap.h", "term.h"), ("curses.h", "term.h"), ("curses.h", "termcap.h")
    tries = [(it, "c", f"-std={standard}") for it in ("gcc", "clang") for standard in ("c99", "c11", "gnu17")]
    tries += [(it, "c++", f"-std={standard}") for it in ("g++", "clang++") for standard in ("c++11", "c++17")]
    tries = [it for it in tries if shutil.which(it[0])]
    for order in orders:
        with open(f"{work}/headers.c", "w", encoding="ascii") as file:
            file.writelines(f"#include <{it}>\n" for it in order)
            file.write('int main(void) { return tputs("", 1, 0); }\n')
        for compiler, language, standard in tries:
            words = [compiler, standard, *STRICT, "-Wshadow", "-Wconversion", f"-I{prefix}/include/ticurses"]
            words += ["-x", language, "-c", f"{work}/headers.c", "-o", f"{work}/object"]
            if subprocess.run(words).returncode:
                fail(f"{' '.join(words)} is refused, with {order}")
    print(f"tinfo: the headers compile without a warning in {len(tries)} ways and {len(orders)} orders")


def judge_curses(work, prefix):
    """A program of <curses.h> and <term.h>: what initscr has made current answers as in ncurses."""
    if not os.path.exists(f"{prefix}/lib/libticurses_curses.so") or missing("tinfo", "script"):
        print("tinfo: the library of <curses.h> or the program script is missing, and they aren't tried together")
        return
    here = [f"-I{prefix}/include/ticurses", f"-L{prefix}/lib", f"-Wl,-rpath,{prefix}/lib", "-lticurses_curses"]
    here += ["-lticurses", "-lticurses_tinfo", "-lticurses_terminfo"]
    if shutil.which("pkg-config"):
        here = flags_of(prefix, "ticurses-curses")
    names = ("ticurses_curses", "ticurses", "ticurses_tinfo", "ticurses_terminfo")
    archives = [f"{prefix}/lib/lib{it}.a" for it in names]
    ways = {"ncurses": ["-w", "-lncurses", "-ltinfo"], "shared": [*STRICT, *here]}
    ways["archives"] = [*STRICT, f"-I{prefix}/include/ticurses", *archives]
    told = []
    for way, words in ways.items():
        program = f"{work}/with_curses_{way}"
        if subprocess.run(["cc", "-std=gnu99", "-O1", f"{HERE}/with_curses.c", *words, "-o", program]).returncode:
            fail(f"with_curses.c doesn't compile for {way}")
        line = ["script", "-qec", f"stty rows 24 cols 80; {program} {program}.told", "/dev/null"]
        ran = subprocess.run(line, env={**os.environ, "TERM": "xterm-256color"}, capture_output=True)
        if ran.returncode:
            fail(f"with_curses over {way} ends with status {ran.returncode}: {ran.stdout[-300:]}")
        told.append(held_in(f"{program}.told").decode())
    if len(set(told)) != 1 or len(told[0].splitlines()) < 40:
        fail(f"with a screen of <curses.h> ncurses tells {told[0]}, and here {told[1]}, and {told[2]}")
    print(f"tinfo: initscr makes a terminal current that answers as in ncurses, {len(told[0].splitlines())} lines")


# what both modules print: expansions, errors, and what putp sends
PYTHON = """
import sys
curses = __import__(sys.argv[1], fromlist=["x"])
try:
    curses.tparm(b"x")
except curses.error as error:
    print(error)
curses.setupterm("xterm-256color", 1)
for name, *given in (("cup", 3, 4), ("sgr", 1, 0, 1, 0, 0, 1, 0, 0, 1), ("setaf", 200), ("cub", 7), ("bel",)):
    print(name, curses.tparm(curses.tigetstr(name), *given))
print(curses.tparm(b"%p1%PA%p9%d", 5, 0, 0, 0, 0, 0, 0, 0, 9))
print(curses.tparm(b"%gA%d"))
for wrong in (("a",), (b"a", "b"), (b"a", 2**40), ()):
    try:
        curses.tparm(*wrong)
    except (TypeError, OverflowError) as error:
        print(type(error).__name__)
sys.stdout.flush()
curses.putp(b"put $<5>here")
"""


def judge_python(prefix):
    """tparm and putp of ticurses.curses beside those of the standard module."""
    library = f"{prefix}/lib/libticurses.so.1"
    # a folder without modules: Python looks there first, and tests/ has a curses.py
    standard = subprocess.run([sys.executable, "-c", "import curses"], cwd=prefix, stderr=subprocess.DEVNULL)
    if not os.path.exists(library) or standard.returncode:
        print("tinfo: the library of sessions or the standard curses module is missing, and Python's tparm is left out")
        return
    given = {**os.environ, "TICURSES_LIBRARY": library, "PYTHONPATH": f"{TOP}/bindings/python", "TERM": "xterm"}
    given["PYTHONDONTWRITEBYTECODE"] = "1"
    told = [
        subprocess.run([sys.executable, "-c", PYTHON, it], cwd=prefix, env=given, capture_output=True)
        for it in ("curses", "ticurses.curses")
    ]
    if told[0].returncode or (told[0].stdout, told[0].returncode) != (told[1].stdout, told[1].returncode):
        fail(f"Python's calls tell {told[0]}, and here {told[1]}")
    print("tinfo: Python's tparm and putp answer and send what those of the standard module do")


# -- sources --


def judge_sources(work, prefix):
    """less and readline, built from the sources that TINFO_SOURCES names, over this library."""
    folder = os.environ.get("TINFO_SOURCES", "")
    for name in ("less", "readline"):
        found = sorted(glob.glob(f"{folder}/{name}-[0-9]*/configure")) if folder else []
        if not found:
            print(f"tinfo: TINFO_SOURCES names no folder with the sources of {name}, which is left out")
            continue
        build_from(work, prefix, name, os.path.dirname(found[-1]))


def build_from(work, prefix, name, source):
    """Configures and makes one of them with the flags of ticurses-tinfo, and runs it."""
    room = shutil.copytree(source, f"{work}/{name}-source", symlinks=True)
    flags = f"-I{prefix}/include/ticurses"
    libraries = f"-L{prefix}/lib -Wl,-rpath,{prefix}/lib -lticurses_tinfo -lticurses_terminfo"
    given = {**os.environ, "CPPFLAGS": flags, "CFLAGS": f"-O1 -w {flags}", "LIBS": libraries, "LDFLAGS": ""}
    steps = [["./configure", *(["--disable-shared"] if name == "readline" else [])]]
    # what configure has found is replaced: it looks for libraries by their names
    steps.append(["make", f"LIBS={libraries}", f"TERMCAP_LIB={libraries}"])
    if name == "readline":
        steps.append(["make", "-C", "examples", "rl", f"TERMCAP_LIB={libraries}"])
    for step in steps:
        ran = subprocess.run(step, cwd=room, env=given, capture_output=True, text=True)
        if ran.returncode:
            fail(f"{name}: {' '.join(step)} failed: {ran.stdout[-800:]} {ran.stderr[-1500:]}")
    program, keys, wanted = f"{room}/less {room}/README", b" q", b"\x1b["
    if name == "readline":
        program, keys, wanted = f"{room}/examples/rl -p 'ask> '", b"one\x01two\n", b"twoone"
    told = subprocess.run(["ldd", program.split()[0]], capture_output=True, text=True).stdout
    line = ["script", "-qec", program, "/dev/null"]
    ran = subprocess.run(line, input=keys, env={**os.environ, "TERM": "xterm"}, capture_output=True)
    if "libticurses_tinfo" not in told or "libtinfo.so" in told or ran.returncode or wanted not in ran.stdout:
        fail(f"{name} from its sources: {told} {ran.returncode} {ran.stdout[-500:]!r}")
    print(f"tinfo: {name}, built from its sources over ticurses-tinfo, runs")


def main():
    arguments = argparse.ArgumentParser()
    arguments.add_argument("--strings", type=int, default=10000)
    arguments.add_argument("rest", nargs="*")
    given = arguments.parse_args()
    judge_table()
    with rooms() as work:
        rest = list(given.rest)
        prefix = rest.pop(0) if rest and os.path.isdir(rest[0]) else installed(work)
        folder = f"{prefix}/lib/{tinfo_library.DROP_IN_FOLDER}"
        if rest:
            same, tried = tinfo_programs.judge_programs(work, folder, rest)
            sys.exit(same < tried)
        judge_all(work, prefix, folder, given.strings)


def judge_all(work, prefix, folder, strings):
    if os.path.exists("/usr/include/term.h") and glob.glob("/lib/*/libtinfo.so.6"):
        judge_arrays(f"{folder}/{tinfo_library.DROP_IN}")
        judge_symbols(f"{folder}/{tinfo_library.DROP_IN}")
        made = Compiled(work, prefix)
        found = judge_entries(made)
        judge_calls(made)
        judge_expansions(made, found)
        judge_padding(made, found)
    else:
        print("tinfo: ncurses' header or its libtinfo is not installed, and nothing is compared with it")
    judge_headers(work, prefix)
    judge_page(work, prefix)
    judge_rights(work, prefix)
    judge_random(work, prefix, strings)
    judge_valgrind(work, folder)
    judge_curses(work, prefix)
    judge_python(prefix)
    judge_sources(work, prefix)
    same, tried = tinfo_programs.judge_programs(work, folder, [])
    if same < tried:
        fail(f"{tried - same} of {tried} programs show something else")


if __name__ == "__main__":
    main()
