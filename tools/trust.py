"""The tables of docs/TRUST.md that have sizes of this repository."""

import os

import sizes
from crates import TOP

HEAD = ["| part | size | why |", "|---|---|---|"]


def lines_in(*paths):
    """How many lines files have together."""
    count = 0
    for path in paths:
        with open(f"{TOP}/{path}", encoding="utf-8") as file:
            count += len(file.read().splitlines())
    return count


def about(count):
    """A count to two figures or to hundreds, so that the page doesn't change with every line."""
    step = 100 if count >= 1000 else 10
    return f"{(count + step // 2) // step * step:,}"


def below(folder, *endings):
    """The files below a folder, by the endings of their names."""
    found = [os.path.relpath(f"{at}/{name}", TOP) for at, _, names in os.walk(f"{TOP}/{folder}") for name in names]
    return sorted(it for it in found if it.endswith(endings) and "__pycache__" not in it)


def row(part, size, why):
    return f"| {part} | {size} | {why} |"


def what_is_read(totals):
    """The definitions that a reader has to understand, by the tables of docs/AUDIT.md."""
    why = {
        "the main theorem": "they say what a run promises, and what T, windows and calls are",
        "the types of code": "the definitions of the main theorem name them",
        "the library's words": "likewise; they are the toolchain's",
        "verify": "they say what a certificate's yes means",
        "the library for C": "they say what C and Python are promised",
        "the library of entries": "they say what the calls on entries are promised",
        "the commands": "they say what the program replies",
        "the other calls": "they say what the libraries' other calls promise",
    }
    of = {"the types of code": ("types of the code", "types"), "the library's words": ("words of the library", "words")}
    rows = []
    for name, (count, lines) in totals.items():
        part, unit = of.get(name, (f"definitions of {name}", "files"))
        rows.append(row(part, f"{count} {unit}, {lines:,} lines", why[name]))
    return "\n".join(HEAD + rows)


def what_is_proved():
    """The parts that need no reading."""
    totals = [sum(column) for column in zip(*([code, proofs, edits] for _, _, code, _, proofs, edits in sizes.sizes()))]
    crates = len(list(sizes.sizes()))
    rows = [
        row(
            "code", f"{crates} crates, about {about(totals[0])} lines", "each function is proved to meet its clauses"
        ),
        row("proofs", f"about {about(totals[1])} lines", "the kernel checks each"),
        row("wrong bodies", f"{totals[2]} edits", "the prover refuses each, in every gate"),
    ]
    return "\n".join(HEAD + rows)


def what_runs():
    """The unproved edge."""
    python = below("bindings/python", ".py")
    of_curses = [*below("curses", ".c"), *below("curses", ".h"), *below("include/ticurses", ".h")]
    headers = [it for it in below("include", ".h") if it not in of_curses]
    scripts = [*below("tools", ".py"), "build", "install", "package", "ticurses", "packaging/install.sh"]
    rows = [
        row(
            "headers for C",
            f"about {about(lines_in(*headers))} lines",
            "they pass pointers and lengths on; compiled into your program",
        ),
        row(
            "`<ticurses/curses.h>` and `curses/`",
            f"about {about(lines_in(*of_curses))} lines",
            "in programs that were written for curses: they make calls of sessions, and read keys",
        ),
        row("Python package", f"about {about(lines_in(*python))} lines", "it loads the library and passes values on"),
        row("scripts", f"about {about(lines_in(*scripts))} lines", "they build, install and package what was proved"),
        row("Linux", "glibc 2.34, libgcc_s, x86-64-v2", "memory, files, and bytes that arrive; processors since about 2009"),
        row("your terminal", "like T", "no proof reaches it; [TERMINAL](TERMINAL.md) has what is known"),
    ]
    return "\n".join(HEAD + rows)
