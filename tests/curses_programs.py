"""Unchanged programs by other people that use scrolling regions or many color pairs, compiled from Debian's sources for
ncurses and for <ticurses/curses.h>: after each key both show the same. tests/curses.py runs this.

CURSES_PROGRAMS names the folder in which `apt-get source` unpacked them (docs/CURSES.md); none of their code is in this
repository."""

import dataclasses
import glob
import os
import subprocess
from concurrent.futures import ThreadPoolExecutor

from curses_panes import Pane, differing, fail, show


@dataclasses.dataclass
class Program:
    """A program: its Debian source, its files there, and what the compiler is given; its keys as in curses.py, and a
    text that one of its screens has. TERM is the terminal's type, where it isn't screen."""

    source: str
    files: str
    flags: list
    keys: str
    shows: str
    term: str = "screen"


OF_NSNAKE = ["-Isrc", "-Ideps", '-DVERSION="3"', '-DPACKAGE="nsnake"', '-DDATE=""', '-DSYSTEM_LEVEL_DIR="."']
OF_KITTEN = ["-DHAVE_CURSES_H", '-DPACKAGE_VERSION="2"', '-DSYSTEM_NKI_DIR="nki"']
OF_NBSDGAMES = ['-DSCORES_DIR="."']
PROGRAMS = {
    # 71 pairs, of which the last eight color most of its text
    "nsnake": Program("nsnake", "src/**/*.cpp", OF_NSNAKE, "Down Down Down Up Enter Down q q", "Arcade"),
    # arrows, which the entry of screen has as signs and that of xterm hasn't (docs/CURSES.md)
    "battleship": Program("nbsdgames", "battleship.c", OF_NBSDGAMES, "Enter Down Right r Enter Enter q", "board", "xterm"),
    # seven pairs each, with attributes
    "robotfindskitten": Program("robotfindskitten", "src/*.c", OF_KITTEN, "Space Right Right Down Down Left Up q", "kitten"),
    "mines": Program("nbsdgames", "mines.c", OF_NBSDGAMES, "Down Right Enter Down Space Right Enter q", "INES Mines"),
    "memoblocks": Program("nbsdgames", "memoblocks.c", OF_NBSDGAMES, "Down Right Enter Right Enter Down Enter q", "LOCKS"),
}


def folder_of(top, program):
    """The folder of a program's source, or "" if there is none."""
    found = sorted(glob.glob(f"{glob.escape(top)}/{program.source}-[0-9]*/"))
    return found[-1] if found else ""


def make(made, top, name):
    """Compiles a program for both libraries."""
    program = PROGRAMS[name]
    folder = folder_of(top, program)
    sources = sorted(glob.glob(f"{glob.escape(folder)}{program.files}", recursive=True))
    flags = [f"-I{folder}{it[2:]}" if it.startswith("-I") else it for it in program.flags]
    # one of them asks for what its configure would write
    with open(f"{made.work}/config.h", "w", encoding="ascii"):
        flags.append(f"-I{made.work}")
    if name == "nsnake":
        part = f"{made.work}/commander.o"
        subprocess.run(["cc", "-w", "-c", f"{folder}deps/commander/commander.c", "-o", part], check=True)
        sources += [part, "-lstdc++"]
    refused = made.make(name, sources, *flags, "-O0")
    if refused:
        fail(f"{name} doesn't compile: {refused[-2000:]}")


def compared(made, top, name):
    """Runs a program over both libraries. Returns the number of shots, and those that differ."""
    program, panes = PROGRAMS[name], []
    for library in made.words:
        home = f"{made.work}/{library}/home-{name}"
        os.makedirs(home, exist_ok=True)
        words = ["env", "-C", folder_of(top, program), f"HOME={home}", f"{made.work}/{library}/{name}"]
        panes.append(Pane(made.work, f"{library}-{name}", words, program.term))
    with ThreadPoolExecutor(2) as pool:
        one, other = pool.map(lambda it: it.shots(program.keys.split()), panes)
    if not any(program.shows in text for text, _ in one):
        fail(f"{name} doesn't show what it shows:\n{one[0][0]}")
    return len(one), differing(one, other)


def judge(made):
    """All of these programs."""
    top = os.path.abspath(os.environ.get("CURSES_PROGRAMS") or f"{made.work}/none")
    lacking = sorted({it.source for it in PROGRAMS.values() if not folder_of(top, it)})
    if lacking:
        print(f"curses: CURSES_PROGRAMS names no folder with the sources of {', '.join(lacking)} (docs/CURSES.md); "
              f"its {len(PROGRAMS)} programs are left out")
        return
    count = 0
    for name in PROGRAMS:
        make(made, top, name)
        shots, bad = compared(made, top, name)
        if bad:
            # a busy machine may show a program before it has drawn all
            shots, bad = compared(made, top, name)
        if bad:
            show(bad[0])
            fail(f"{name} of {PROGRAMS[name].source}: {len(bad)} of {shots} screens differ")
        count += shots
    print(f"curses: {len(PROGRAMS)} programs of Debian's sources show the same as with ncurses on their {count} screens")
