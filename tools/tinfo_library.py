"""Compiles the library of <ticurses/term.h> and <ticurses/termcap.h>, in both forms, and the drop-in for ncurses'
libtinfo.so.6, from the C sources in tinfo/.

    python3 -B tools/tinfo_library.py FOLDER ARCHIVE SHARED   leaves them in FOLDER, over these forms of the library of
                                                              ticurses_terminfo.h; for a try by hand
    python3 -B tools/tinfo_library.py names                   writes include/ticurses/term_names.h from tinfo/names.def

The C isn't proved. It is compiled anew whenever it is installed or packed, which takes seconds."""

import os
import re
import sys
import tempfile

from crates import TOP
from curses_library import FLAGS, INCLUDE, declared
from linking import TOOLS, run
from version import VERSION

SOURCES = f"{TOP}/tinfo"
HEADERS = ("term.h", "termcap.h", "term_calls.h", "term_names.h", "attributes.h")
# those that declare functions and variables
DECLARING = HEADERS[:3]
ARCHIVE = "libticurses_tinfo.a"
SONAME = f"libticurses_tinfo.so.{VERSION.split('.')[0]}"
# an object of its own in the archive: its names are those of another library too
APART = "shared.c"
DROP_IN = "libtinfo.so.6"
# where the drop-in is, below the folder of libraries: no linker searches there by itself
DROP_IN_FOLDER = "ticurses/tinfo6"
# ncurses' nodes of versions, each with the names of this library that ncurses has in it; it has the others nowhere
NODE, LATER_NODE = "NCURSES6_TINFO_5.0.19991023", "NCURSES6_TINFO_5.8.20110226"
LATER = {"tiparm"}
ABSENT = {"tiparm_s", "vidattr", "vidputs", "vid_attr", "vid_puts", "mvcur", "restartterm"}

PKGCONFIG = """prefix={prefix}
includedir=${{prefix}}/include
libdir={libdir}

Name: ticurses-tinfo
Description: terminfo and termcap over a proved expansion of parameter strings
Version: {version}
Cflags: -I${{includedir}}/ticurses
Libs: -L${{libdir}}{found} -lticurses_tinfo -lticurses_terminfo
"""

NAMES_FORM = """/* The long names of terminfo(5)'s capabilities, as macros for the current terminal's values. This file is made from
 * tinfo/names.def by tools/tinfo_library.py, and tests/tinfo.sh compares it. */
#ifndef TICURSES_TERM_NAMES_H
#define TICURSES_TERM_NAMES_H

{}
#endif
"""
LISTS = {"FLAG": "Booleans", "NUMBER": "Numbers", "STRING": "Strings"}


def capabilities():
    """The rows of the table: the kind, the long name, terminfo's name, termcap's code."""
    with open(f"{SOURCES}/names.def", encoding="ascii") as file:
        return re.findall(r'^(FLAG|NUMBER|STRING)\((\w+), "([^"]+)", "([^"]+)"\)$', file.read(), re.M)


def names_header():
    """The text of include/ticurses/term_names.h."""
    counts, lines = dict.fromkeys(LISTS, 0), []
    for kind, long_name, *_ in capabilities():
        lines.append(f"#define {long_name} CUR {LISTS[kind]}[{counts[kind]}]\n")
        counts[kind] += 1
    return NAMES_FORM.format("".join(lines))


def exported():
    """The names that the library's headers declare."""
    found = set().union(*(names for it in DECLARING for names in declared(f"{INCLUDE}/{it}")))
    # a variable comes with words of its type
    return sorted({it.split()[-1] for it in found})


def sources():
    return sorted(it for it in os.listdir(SOURCES) if it.endswith(".c"))


def versions():
    """The linker's script of the drop-in."""
    here = [it for it in exported() if it not in LATER | ABSENT]
    first = "%s { global: %s; local: *; };\n" % (NODE, "; ".join(here))
    return first + "%s { global: %s; } %s;\n" % (LATER_NODE, "; ".join(sorted(LATER)), NODE)


def compile_all(compiler, copier, work):
    """Leaves two objects in the folder: what only this library has, and what others have too."""
    # paths of this machine are in no file
    flags = [*FLAGS, f"-ffile-prefix-map={TOP}=."]
    for name in sources():
        run([*compiler, *flags, "-c", f"{SOURCES}/{name}", "-o", f"{work}/{name[:-2]}.o"])
    with open(f"{work}/names", "w", encoding="ascii") as file:
        file.writelines(f"{it}\n" for it in exported())
    run([*compiler, "-r", "-nostdlib", "-o", "whole.o", *(f"{it[:-2]}.o" for it in sources() if it != APART)], cwd=work)
    # a program may have names of its own for all but these
    run([*copier, "--keep-global-symbols=names", "whole.o", "ticurses_tinfo.o"], cwd=work)
    os.replace(f"{work}/{APART[:-2]}.o", f"{work}/ticurses_tinfo_shared.o")
    return ["ticurses_tinfo.o", "ticurses_tinfo_shared.o"]


def script(work, name, text):
    with open(f"{work}/{name}", "w", encoding="ascii") as file:
        file.write(text)
    return f"-Wl,--version-script,{name}"


def built(room, archive, shared, searched=""):
    """Leaves both forms and the drop-in in the folder. `archive` and `shared` are the forms of the library of
    ticurses_terminfo.h: the drop-in has the one in it, and the shared form needs the other, which is looked for by the
    form itself in `searched`, as $ORIGIN; by default where the system looks."""
    compiler, archiver, copier = ((os.environ.get(it) or other).split() for it, other in TOOLS)
    room = os.path.abspath(room)
    with tempfile.TemporaryDirectory() as work:
        objects = compile_all(compiler, copier, work)
        if os.path.lexists(f"{room}/{ARCHIVE}"):
            os.remove(f"{room}/{ARCHIVE}")
        run([*archiver, "rcsD", f"{room}/{ARCHIVE}", *objects], cwd=work)
        # Calls within the library stay in it, whatever functions a program defines. Not so variables: a program holds
        # those itself that it uses, such as PC, and the library must use the program's.
        words = [*compiler, "-shared", "-Wl,-Bsymbolic-functions"]
        names = script(work, "exported", "{ global: %s; local: *; };\n" % "; ".join(exported()))
        found = [f"-Wl,-rpath,{searched}"] if searched else []
        words_here = [f"-Wl,-soname,{SONAME}", names, *found, "-o", f"{room}/{SONAME}", *objects]
        run([*words, *words_here, os.path.abspath(shared)], cwd=work)
        names = script(work, "versions", versions())
        words_here = [f"-Wl,-soname,{DROP_IN}", names, "-o", f"{room}/{DROP_IN}", *objects]
        run([*words, *words_here, os.path.abspath(archive)], cwd=work)


def main():
    if sys.argv[1:] == ["names"]:
        with open(f"{INCLUDE}/term_names.h", "w", encoding="ascii") as file:
            file.write(names_header())
        return
    os.makedirs(sys.argv[1], exist_ok=True)
    built(*sys.argv[1:4], "$ORIGIN")


if __name__ == "__main__":
    main()
