"""Compiles the library of <ticurses/curses.h>, in both forms, from the C sources in curses/.

    python3 -B tools/curses_library.py FOLDER LIBTICURSES.so LIBTICURSES_TINFO.so     leaves them in FOLDER, over these
                                                              libraries; for a try by hand

The library isn't proved. It is compiled anew whenever it is installed or packed, which takes seconds."""

import os
import re
import sys
import tempfile

from crates import TOP
from linking import TOOLS, run
from version import VERSION

SOURCES = f"{TOP}/curses"
INCLUDE = f"{TOP}/include/ticurses"
# curses.h and what it includes, and the two names by which programs include it too
HEADERS = (
    "curses.h", "ncurses.h", "unctrl.h", "not_there.h", "term_calls.h", "attributes.h", "panel.h", "menu.h", "form.h",
)
ARCHIVE = "libticurses_curses.a"
SONAME = f"libticurses_curses.so.{VERSION.split('.')[0]}"
FLAGS = ["-std=c99", "-O2", "-fPIC", "-Wall", "-Wextra", "-Wconversion", "-Wshadow"]

PKGCONFIG = """prefix={prefix}
includedir=${{prefix}}/include
libdir={libdir}

Name: ticurses-curses
Description: X/Open Curses over sessions with a proved refresh
Version: {version}
Requires: ticurses-tinfo
Cflags: -I${{includedir}}/ticurses
Libs: -L${{libdir}}{found} -lticurses_curses -lticurses
"""


def declared(header=f"{INCLUDE}/curses.h"):
    """The functions and the variables that the header declares."""
    with open(header, encoding="utf-8") as file:
        text = re.sub(r"/\*.*?\*/", "", file.read(), flags=re.S)
    text = re.sub(r"^#.*(?:\\\n.*)*", "", text, flags=re.M)
    functions = re.findall(r"^[A-Za-z_][\w ]*?[ *]+(\w+)\([^;{]*?\)(?: TICURSES_CURSES_\w+(?:\(\d, \d\))?)?;", text, re.M)
    variables = [it.strip(" *") for line in re.findall(r"^extern \w+ ([^;(]*);", text, re.M) for it in line.split(",")]
    return set(functions), {it.partition("[")[0] for it in variables}


def sources():
    return sorted(it for it in os.listdir(SOURCES) if it.endswith(".c"))


def built(room, below, searched=""):
    """Leaves both forms in the folder. `below` are the libraries that the shared form needs, of sessions and of term.h,
    and `searched` where they are looked for by the form itself, as $ORIGIN; by default where the system looks."""
    compiler, archiver, copier = (os.environ.get(it) or other for it, other in TOOLS)
    with tempfile.TemporaryDirectory() as work:
        # paths of this machine are in no file
        flags = [*FLAGS, f"-ffile-prefix-map={TOP}=.", f'-DTCU_VERSION="{VERSION}"']
        for name in sources():
            run([*compiler.split(), *flags, "-c", f"{SOURCES}/{name}", "-o", f"{work}/{name[:-2]}.o"])
        names = sorted(set().union(*declared()))
        with open(f"{work}/names", "w", encoding="ascii") as file:
            file.writelines(f"{it}\n" for it in names)
        with open(f"{work}/exported", "w", encoding="ascii") as file:
            file.write("{ global: %s; local: *; };\n" % "; ".join(names))
        objects = [f"{name[:-2]}.o" for name in sources()]
        run([*compiler.split(), "-r", "-nostdlib", "-o", "whole.o", *objects], cwd=work)
        # a program may have names of its own for all but these
        run([*copier.split(), "--keep-global-symbols=names", "whole.o", "ticurses_curses.o"], cwd=work)
        run([*archiver.split(), "rcsD", f"{os.path.abspath(room)}/{ARCHIVE}", "ticurses_curses.o"], cwd=work)
        # Calls within the library stay in it, whatever functions a program defines. Not so variables: a program may
        # hold those itself, such as stdscr, and the library must use the program's.
        words = ["-shared", "-Wl,-Bsymbolic-functions", f"-Wl,-soname,{SONAME}", "-Wl,--version-script,exported"]
        words += [f"-Wl,-rpath,{searched}"] if searched else []
        words += ["-o", f"{os.path.abspath(room)}/{SONAME}", "ticurses_curses.o", *map(os.path.abspath, below)]
        run([*compiler.split(), *words], cwd=work)


if __name__ == "__main__":
    os.makedirs(sys.argv[1], exist_ok=True)
    built(sys.argv[1], sys.argv[2:4], "$ORIGIN")
