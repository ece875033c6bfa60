"""The library of <ticurses/curses.h>: docs/CURSES.md beside the header, and programs that are compiled for ncurses and
for this library and run in tmux with the same keys and a stopped clock. After each key the script compares the text,
the attributes, the colors and the cursor of both.

    python3 -B tests/curses.py [PREFIX] [NAME..]

takes the library from where ./install put it. With names it runs only these programs, and prints the differences.
NCURSES_TESTS names a folder with the sources of ncurses' test programs, and CURSES_PROGRAMS one with those of other
people's programs; neither are part of this repository."""

import fcntl
import os
import pathlib
import pty
import re
import shutil
import struct
import subprocess
import sys
import termios
from concurrent.futures import ThreadPoolExecutor

from curses_panes import HERE, Compiled, Pane, cells_of, differing, fail, show
from linked import SANITIZED, STRICT, installed, missing, rooms
from trying import PROGRAM, TOP, Case, held_in, run_cases

sys.path.append(f"{TOP}/tools")

import curses_library
import curses_programs
import curses_terminals
import tinfo_library

PAGE = f"{TOP}/docs/CURSES.md"
# how many scripts of scrolling regions are compared
SCRIPTS = 2000
MACROS = {"getyx", "getbegyx", "getmaxyx", "getparyx", "COLOR_PAIR", "PAIR_NUMBER"}

# The programs, their arguments and their keys: names of tmux, or texts after =. @N waits for N milliseconds; after a
# key with ~ the screen isn't compared, as it depends on the moment. {tests} is the folder of their sources.
PROGRAMS = {
    "background": ([], "Space Space q"),
    "blue": ([], "=a =b q"),
    "bs": ([], "@500 Space Right Down h Space v Down Space q"),
    "chgat": ([], "Down Right Right v c q"),
    "color_set": ([], "Space Space Space"),
    "firstlast": ([], "Space @2500 Space"),
    # reads a key once a second
    "gdc": ([], "@800 ~q @1500"),
    "hanoi": (["3"], "1 ~=3 @900 ~Enter @900 q"),
    "inchs": (["{tests}/README"], "Down Down w q"),
    "insdelln": ([], "Down Down i d I D w q"),
    "inserts": ([], "=hello Left Left =xx q"),
    "knight": ([], "@300 Down Right Enter Down l Enter q"),
    "lrtest": ([], "~@800 q"),
    "movewindow": ([], "c c Down Down Right Right c t q"),
    "ncurses": ([], "s Enter c a d b e a f b g a h b i b j a C-q q Enter"),
    "newdemo": ([], "@1500 Space @1500 Space q"),
    "padview": (["{tests}/Makefile.in"], "Down Down Right Right Down PageDown q"),
    "rain": ([], "~@800 q"),
    "redraw": ([], "Space r q"),
    "tclock": ([], "@800 q"),
    "test_addchstr": ([], "=abc Down =de q"),
    "test_addstr": ([], "=hello Down =more q"),
    "test_getstr": (["{tests}/README"], "=w =some BSpace =text Enter Up =s =one Enter q"),
    "test_instr": (["{tests}/README"], "Down w q"),
    "testaddch": ([], "Space"),
    "clip_printw": ([], "Space v c Down =3 Space Right q"),
    "demo_tabs": ([], "q"),
    "testcurs": ([], "Down Down Up Enter Space Space Space Space Space q"),
    "test_opaque": ([], "Down Space Down Space =x q"),
    "testscanw": ([], "=12 Enter =x BSpace =7 Enter =0 Enter"),
    "view": (["{tests}/bs.c"], "Down Down Down Right Right Up n n p q"),
    "worm": ([], "~@800 q"),
    "xmas": ([], "~@4000 q"),
}
# programs that differ, as the page explains
EXPLAINED = {"background", "newdemo", "testaddch"}
# programs that also run with the sanitizers and under valgrind: of this repository, with their keys, and of ncurses
OWN = {
    f"{HERE}/answers.c": "a Left F5 =word BSpace Enter =12 Space =34 Enter x %-x,70,-y,20 y",
    f"{TOP}/examples/curses/snake.c": "Right Down p p q",
}
CHECKED = ("chgat", "movewindow", "padview", "testcurs", "view")
# files that a program is linked with if its source includes their headers
PARTS = ("popup_msg", "dump_window")


# -- the page and the header --


def rows_of_page():
    """The names in the page's table, each with the word of its row: same, differs, not there, or answers ERR."""
    form = r"^\| (`\w+`(?:, `\w+`)*) \| (same|differs: |not there: |not there)(.*) \|$"
    rows = re.findall(form, held_in(PAGE).decode(), re.M)
    found = {}
    for names, kind, rest in rows:
        for name in re.findall(r"`(\w+)`", names):
            if name in found:
                fail(f"docs/CURSES.md has {name} twice")
            found[name] = kind.strip(": ") if kind != "not there: " or not rest.startswith("answers") else "answers ERR"
    return found


def judge_page():
    page = rows_of_page()
    functions, variables = curses_library.declared()
    header = functions | variables | MACROS
    absent = held_in(f"{curses_library.INCLUDE}/not_there.h").decode()
    absent = set(re.findall(r"^#define (\w+)\(\.\.\.\)", absent, re.M))
    # the library below has these
    header |= set(tinfo_library.exported())
    past = held_in(PAGE).decode().partition("\n## Past the standard\n")[2].partition("\n## ")[0]
    past = set(re.findall(r"`(\w+)`", past))
    wrong = {it for it, kind in page.items() if (it in absent) != (kind == "not there")}
    wrong |= {it for it in page if (it in header) == (it in absent)} | (header - set(page) - past)
    if wrong or len(page) < 350:
        fail(f"docs/CURSES.md and the headers differ in {sorted(wrong)}")
    print(f"curses: docs/CURSES.md has the {len(page)} names of its table as the headers have them")


def judge_headers(work):
    """Both compilers take the headers in each of these standards, and report each function that is missing."""
    at = f"-I{curses_library.INCLUDE}"
    for name in ("curses", "ncurses", "unctrl"):
        with open(f"{work}/{name}.c", "w", encoding="ascii") as file:
            file.write(f"#include <{name}.h>\nint main(void) {{ return initscr() == 0; }}\n")
    tries = [(it, "c", f"-std={standard}") for it in ("gcc", "clang") for standard in ("c99", "c11", "gnu17")]
    tries += [(it, "c++", f"-std={standard}") for it in ("g++", "clang++") for standard in ("c++11", "c++17")]
    tries = [it for it in tries if shutil.which(it[0])]
    for compiler, language, standard in tries:
        for name in ("curses", "ncurses", "unctrl"):
            words = [compiler, standard, *STRICT, "-Wshadow", "-Wconversion", at, "-x", language, "-c"]
            words.append(f"{work}/{name}.c")
            if subprocess.run([*words, "-o", f"{work}/object"]).returncode:
                fail(f"{' '.join(words)} is refused")
    with open(f"{work}/wide.c", "w", encoding="ascii") as file:
        file.write("#include <curses.h>\nint main(void) { return add_wch(0); }\n")
    ran = subprocess.run(["cc", at, "-c", f"{work}/wide.c", "-o", f"{work}/object"], capture_output=True, text=True)
    if ran.returncode == 0 or "has no wide characters" not in ran.stderr:
        fail(f"of a call of wide characters the compiler says {ran.stderr}")
    print(f"curses: the headers compile without a warning in {len(tries)} ways, and a call that isn't there is an error")


def judge_library(prefix):
    """Both forms of the library export the names that the header declares, and no others."""
    declared = set().union(*curses_library.declared())
    for words in (["-D"], ["-g"]):
        form = "libticurses_curses.so" if words == ["-D"] else "libticurses_curses.a"
        words = ["nm", *words, "--defined-only", f"{prefix}/lib/{form}"]
        ran = subprocess.run(words, stdout=subprocess.PIPE, text=True, check=True)
        exported = {it[2] for it in map(str.split, ran.stdout.splitlines()) if len(it) == 3}
        if exported != declared:
            fail(f"{form} exports {sorted(exported ^ declared)} differently from curses.h")
    print(f"curses: both forms of the library export the {len(declared)} names of curses.h alone")


def judge_own_names(work, prefix):
    """A program whose functions have names of curses' changes no call within the shared library."""
    line = ["cc", "-std=c99", *STRICT, f"-I{prefix}/include/ticurses", f"{HERE}/own_names.c", "-o", f"{work}/own_names"]
    libraries = [f"{prefix}/lib/{curses_library.SONAME}", f"-Wl,-rpath,{prefix}/lib", f"-L{prefix}/lib", "-lticurses"]
    if subprocess.run([*line, *libraries]).returncode:
        fail("own_names.c doesn't compile")
    ran = subprocess.run([f"{work}/own_names"], capture_output=True, text=True)
    if ran.returncode:
        fail(f"where a program has functions by names of curses, the library calls {ran.stdout or ran.stderr}")
    print("curses: the shared library's calls of its own functions stay in it")


# -- programs --


def compared(made, tests, name):
    """Runs a program over both libraries. Returns the number of shots, and those that differ."""
    words, keys = PROGRAMS[name]
    words, keys = [it.replace("{tests}", tests) for it in words], keys.split()
    with ThreadPoolExecutor(2) as pool:
        lines = {library[0]: [f"{made.work}/{library}/{name}", *words] for library in made.words}
        panes = [Pane(made.work, f"{library}-{name}", line) for library, line in lines.items()]
        one, other = pool.map(lambda it: it.shots(keys), panes)
    return len(one), differing(one, other)


def sources_of(tests, name):
    """The files of a program of ncurses' test directory."""
    text = held_in(f"{tests}/{name}.c").decode("latin-1")
    return [f"{tests}/{it}.c" for it in (name, *PARTS) if it == name or f'"{it}.h"' in text or f"<{it}.h>" in text]


def judge_programs(made, tests, names):
    """The programs of ncurses' test directory."""
    counts, others, names, all_names = [], {}, names or sorted(PROGRAMS), not names
    for name in names:
        refused = made.make(name, sources_of(tests, name), f"-I{HERE}", f"-I{tests}")
        if refused:
            fail(f"{name} doesn't compile: {refused}")
    with ThreadPoolExecutor(len(os.sched_getaffinity(0))) as pool:
        for name, (count, bad) in zip(names, pool.map(lambda it: compared(made, tests, it), names)):
            counts.append(count)
            if bad:
                others[name] = (count, bad)
    # a busy machine may show a program before it has drawn all; those that differ run once more, one at a time
    others = {name: (count, bad) for name in others for count, bad in [compared(made, tests, name)] if bad}
    for name, (count, bad) in others.items():
        print(f"curses: {name}: {len(bad)} of {count} screens differ")
        if not all_names:
            show(bad[0])
    if set(others) - EXPLAINED and all_names:
        fail(f"{sorted(set(others) - EXPLAINED)} differ, and the page doesn't say why")
    print(
        f"curses: {len(counts) - len(others)} of {len(counts)} programs of ncurses show the same on all of their screens, "
        f"which are {sum(counts)} with those that differ"
    )


def judge_answers(made):
    """One program of many calls writes the answer of each, and shows screens; both libraries give the same ones."""
    refused = made.make("answers", [f"{HERE}/answers.c"], "-std=c99")
    if refused:
        fail(f"answers.c doesn't compile: {refused}")
    told, shots = [], []
    for library in made.words:
        log = f"{made.work}/{library}.log"
        pane = Pane(made.work, f"answers-{library}", [f"{made.work}/{library}/answers", log])
        shots.append(pane.shots(["a", "Left", "F5", "=word", "BSpace", "Enter", "=12 34", "Enter", "x", "%-x,70,-y,20", "y"]))
        told.append(held_in(log, b"").decode("latin-1").splitlines())
    if told[0] != told[1] or len(told[0]) < 100:
        lines = [f"{one} | {other}" for one, other in zip(*told) if one != other]
        counts = [len(it) for it in told]
        fail(f"the calls answer otherwise than ncurses (ncurses | here), {counts} lines:\n" + "\n".join(lines))
    bad = differing(*shots)
    if bad:
        show(bad[0])
        fail("after the same calls something else is seen")
    print(f"curses: {len(told[0])} calls answer what they answer in ncurses, and {len(shots[0])} screens are the same")


def on_terminal(words, rows=10, cols=30):
    """The output of a program that has a terminal of this size beside."""
    outer, inner = pty.openpty()
    try:
        fcntl.ioctl(outer, termios.TIOCSWINSZ, struct.pack("HHHH", rows, cols, 0, 0))
        how = {"stdin": inner, "stdout": subprocess.PIPE, "start_new_session": True}
        ran = subprocess.run(words, preexec_fn=lambda: fcntl.ioctl(0, termios.TIOCSCTTY, 0), **how)
    finally:
        os.close(outer)
        os.close(inner)
    if ran.returncode:
        fail(f"{' '.join(words)} ends with status {ran.returncode}")
    return ran.stdout.decode("latin-1").splitlines()


def judge_regions(made):
    """Random scripts of scrolling regions, scrollok and writes at each edge: after each call its answer, the cursor and
    the cells are those of ncurses."""
    if made.make("regions", [f"{HERE}/regions.c"], "-std=c99"):
        fail("regions.c doesn't compile")
    programs = [f"{made.work}/{it}/regions" for it in made.words]
    one, other = (on_terminal([it, "1", str(SCRIPTS)]) for it in programs)
    differing = [line.split()[0] for line, here in zip(one, other) if line != here]
    if differing or len(one) != SCRIPTS or len(other) != SCRIPTS:
        seed = differing[0] if differing else "1"
        told = zip(*(on_terminal([it, seed, seed, "listed"]) for it in programs))
        first = next((pair for pair in told if pair[0] != pair[1]), "")
        fail(f"{len(differing)} of {SCRIPTS} scripts of regions differ; script {seed} first in (ncurses, here):\n{first}")
    print(f"curses: {SCRIPTS} random scripts of scrolling regions and edges go as they go in ncurses, call by call")


# stops the program and continues it; prints the terminal's modes in between and at the end
STOPPED = """set -m; "$0"; echo stopped $?; modes; read key; fg >/dev/null; echo again $?; modes"""
ENDED = """trap : INT; "$0"; echo over $?; modes"""
MODES = r"""modes() { stty -a | tr ' ;' '\n\n' | grep -xe '-*icanon' -e '-*echo' -e '-*opost' | tr '\n' ' '; echo; }; """


def judge_signals(made):
    """The game of examples/curses: keys that end or stop it leave the terminal as it was, and it draws anew after."""
    if made.make("snake", [f"{TOP}/examples/curses/snake.c"], "-std=c99"):
        fail("the game of examples/curses doesn't compile")
    game, modes = f"{made.work}/ticurses/snake", "opost icanon echo"

    def shown(name, script, *keys):
        # the shell must know its own process id
        words = ["env", "-u", "LD_PRELOAD", "sh", "-c", MODES + script, game]
        shots = [re.sub(r"\x1b\[[\d;]*m", "", text) for text, _ in Pane(made.work, name, words).shots(keys)]
        return [re.sub(" +\n", "\n", it) for it in shots]

    # p has the game wait
    seen = shown("ended", ENDED, "p", "C-c")
    if "0 points, q" not in seen[1] or f"over 130\n{modes}" not in seen[2] or "0 points, q" in seen[2]:
        fail(f"after an interrupt the game leaves\n{seen[2]}")
    seen = shown("stopped", STOPPED, "p", "C-z", "Enter", "x", "q")
    if f"stopped 148\n{modes}" not in seen[2] or "0 points, q" not in seen[3] or f"again 0\n{modes}" not in seen[5]:
        fail("stopped, going on and over, the game leaves\n" + "\n".join(seen[2:]))
    print("curses: an interrupt ends the game, and ^Z stops it, with the terminal as it was before; it goes on and draws anew")


# entries without signs, and with some, of which arrows have partners from 95 on
SIGNS = b"""bare|an entry without signs,
\tam, cols#80, lines#24, clear=\\E[H\\E[2J, cup=\\E[%i%p1%d;%p2%dH, sgr0=\\E[m,
part|an entry with some,
\tacsc=qqxxllkk{{\\,h+i0ahh, smacs=\\E(0, rmacs=\\E(B, use=bare,
"""
# the arrows and the block, the first signs of signs.c, which the entry of screen has below 95: what is seen in their place
BELOW = "<>^v#"


def signs_of(made, term):
    """The cells that signs.c draws on a terminal of this type over each library, and its line about colors."""
    own = [f"TERMINFO={made.work}/own"] if term in ("bare", "part") else []
    lines = [["env", *own, f"{made.work}/{library}/signs"] for library in made.words]
    panes = [Pane(made.work, f"signs-{term}-{at}", line, term) for at, line in enumerate(lines)]
    with ThreadPoolExecutor(2) as pool:
        shots = pool.map(lambda it: it.shots(["q"]), panes)
        return [(cells_of(one[0]), re.findall(r"start_color -?\d, has_colors \d", last[0])) for one, last in shots]


def judge_signs(made):
    """Each character of ACS_* is seen as in ncurses, on terminals that have all signs, some or none."""
    if made.make("signs", [f"{HERE}/signs.c"], "-std=c99"):
        fail("signs.c doesn't compile")
    for name in ("bare", "part"):
        os.makedirs(f"{made.work}/own/{name[0]}", exist_ok=True)
        words = ["tic", f"signs.ti:{name}", "--out", f"{made.work}/own/{name[0]}/{name}"]
        if run_cases(PROGRAM, [Case(words)], {"signs.ti": SIGNS})[0].status:
            fail(f"the entry {name} isn't compiled")
    terms = ("screen", "xterm", "vt100", "bare", "part")
    for term in terms:
        (one, colors), (other, here) = signs_of(made, term)
        for row, sign in enumerate(BELOW if term == "screen" else ""):
            if other[row][11] != (sign, frozenset(), ("39", "49")):
                fail(f"in place of sign {row} of {term} is seen {other[row][11]}")
            one[row][11] = other[row][11]
        bad = [row for row, pair in enumerate(zip(one, other)) if pair[0] != pair[1]]
        if bad or len(one[0]) < 30:
            fail(f"signs of {term} differ in the lines {bad} from ncurses':\n{one}\n{other}")
        if colors != here or not colors:
            fail(f"the colors of {term} are answered with {here}, and by ncurses with {colors}")
    print(f"curses: the signs of ACS_* are seen as in ncurses on {len(terms)} terminals, but those that CURSES.md names")


def below(prefix):
    """The archives that the library stands on."""
    return [f"{prefix}/lib/lib{it}.a" for it in ("ticurses_tinfo", "ticurses_terminfo", "ticurses")]


def judge_random(work, prefix):
    """Random calls on a terminal that doesn't exist, with the sanitizers and under valgrind. Calls that write text
    answer alike, and leave the same windows, whether the text waits or is sent at once."""
    made, seeds = f"{work}/random", range(4)
    sources = [f"{curses_library.SOURCES}/{it}" for it in curses_library.sources()]
    words = ["cc", "-std=c99", "-O1", "-w", f"-I{curses_library.INCLUDE}", f"{HERE}/random.c"]
    for name, own in ((f"{made}_sanitized", SANITIZED), (made, ["-g"])):
        if subprocess.run([*words, *own, *sources, *below(prefix), "-o", name]).returncode:
            fail("random.c doesn't compile")
    tries = [[f"{made}_sanitized", str(seed), "30000"] for seed in seeds]
    tries += [[made, str(seed), "30000", "once"] for seed in seeds]
    if not missing("curses", "valgrind"):
        tries.append(["valgrind", "-q", "--error-exitcode=9", "--leak-check=full", made, "5", "6000"])
    told = []
    with ThreadPoolExecutor(len(os.sched_getaffinity(0))) as pool:
        for ran in pool.map(lambda it: subprocess.run(it, capture_output=True, text=True, errors="replace"), tries):
            if ran.returncode:
                fail(f"{' '.join(ran.args)} ends with status {ran.returncode}: {ran.stderr[-4000:]}")
            told.append(ran.stdout)
    for seed in seeds:
        if not told[seed] or told[seed] != told[seed + len(seeds)]:
            fail(f"random {seed} gives {told[seed]!r}, and {told[seed + len(seeds)]!r} where each text is sent at once")
    print(f"curses: random calls, {len(tries)} runs, some with the sanitizers and valgrind, find nothing wrong")


# -- the sanitizers and valgrind --


class Watched:
    """The library's objects with the sanitizers, and with what valgrind needs; programs that are linked with them."""

    def __init__(self, work, prefix):
        self.panes, self.work, self.prefix = work, f"{work}/watched", prefix
        self.tools = {"sanitized": SANITIZED}
        if not missing("curses", "valgrind"):
            self.tools["valgrind"] = ["-g"]
        for tool, own in self.tools.items():
            os.makedirs(f"{self.work}/{tool}/objects")
            sources = [f"{curses_library.SOURCES}/{it}" for it in curses_library.sources()]
            line = ["cc", "-std=c99", "-O1", "-w", *own, "-c", *sources]
            if subprocess.run(line, cwd=f"{self.work}/{tool}/objects").returncode:
                fail(f"the library doesn't compile for {tool}")

    def make(self, tool, name, sources, *words):
        """Compiles a program, without the sanitizers if it is another's, and links it with the library's objects."""
        room, own = f"{self.work}/{tool}", self.tools[tool]
        os.makedirs(f"{room}/{name}.objects")
        line = ["cc", "-w", "-g", "-O1", f"-I{curses_library.INCLUDE}", *words, "-c", *sources]
        objects = [f"{room}/objects/{it[:-2]}.o" for it in curses_library.sources()]
        objects += [f"{room}/{name}.objects/{os.path.basename(it)[:-2]}.o" for it in sources]
        link = ["cc", *own, *objects, *below(self.prefix), "-lm", "-o", f"{room}/{name}"]
        for words in (line, link):
            if subprocess.run(words, cwd=f"{room}/{name}.objects").returncode:
                fail(f"{name} doesn't compile for {tool}")

    def found(self, tool, name, words, keys):
        """The report of a tool on a program, or its last screen if it didn't end as it should; "" where all is well."""
        report = f"{self.work}/{tool}/{name}.report"
        line = [f"ASAN_OPTIONS=detect_leaks=0:log_path={report}", f"UBSAN_OPTIONS=print_stacktrace=1:log_path={report}"]
        if tool == "valgrind":
            line = ["valgrind", "-q", "--error-exitcode=99", f"--log-file={report}"]
        # the sanitizers must come before anything that is preloaded
        line = ["env", "-u", "LD_PRELOAD", *line, f"{self.work}/{tool}/{name}", *words]
        text = Pane(self.panes, f"{tool}-{name}", line).last(keys)
        told = "".join(it.read_text("latin-1") for it in sorted(pathlib.Path(report).parent.glob(f"{name}.report*")))
        return told or ("" if "ended 0" in text else text)


def judge_watched(work, prefix, tests):
    """Programs with the sanitizers and under valgrind: the repository's own, and some of ncurses where they are there."""
    watched, runs = Watched(work, prefix), []
    for tool, own in watched.tools.items():
        for source, keys in OWN.items():
            name = os.path.basename(source)[:-2]
            watched.make(tool, name, [source], "-std=c99", *own)
            runs.append((tool, name, [f"{watched.work}/{tool}/log"] if name == "answers" else [], keys.split()))
        for name in CHECKED if tests else ():
            watched.make(tool, name, sources_of(tests, name), f"-I{HERE}", f"-I{tests}")
            words, keys = PROGRAMS[name]
            runs.append((tool, name, [it.replace("{tests}", tests) for it in words], keys.split()))
    with ThreadPoolExecutor(len(os.sched_getaffinity(0))) as pool:
        for run, told in zip(runs, pool.map(lambda it: watched.found(*it), runs)):
            if told:
                fail(f"{run[1]} ({run[0]}): {told[:4000]}")
    count = len(runs) // len(watched.tools)
    print(f"curses: {count} programs run with {' and '.join(watched.tools)}, and nothing is reported")


def main():
    given = sys.argv[1:]
    judge_page()
    with rooms() as work:
        judge_headers(work)
        prefix = given[0] if given else installed(work)
        judge_library(prefix)
        judge_own_names(work, prefix)
        judge_random(work, prefix)
        if missing("curses", "tmux") or not os.path.exists("/usr/include/curses.h"):
            print("curses: tmux or ncurses' header is not installed; the programs are left out")
            return
        made = Compiled(work, prefix)
        judge_answers(made)
        judge_regions(made)
        curses_terminals.judge(made)
        judge_signals(made)
        judge_signs(made)
        curses_programs.judge(made)
        tests = os.path.abspath(os.environ.get("NCURSES_TESTS") or f"{work}/none")
        has_tests = os.path.isfile(f"{tests}/test.priv.h")
        if not given[1:]:
            judge_watched(work, prefix, tests if has_tests else "")
        if not has_tests:
            print("curses: NCURSES_TESTS names no folder of ncurses' test programs (docs/CURSES.md); they are left out")
            return
        judge_programs(made, tests, given[1:])


if __name__ == "__main__":
    main()
