"""The table of docs/LIBRARY.md: which crates another repository copies to use one of these libraries."""

import re

import sizes
from crates import TOP, below, listed

# the processor minutes that all proofs took on the machine that docs/PROVING.md calls half as fast
MINUTES = 202
LIBRARIES = [
    ("the terminal T", "vt_term"),
    ("source texts", "ti_source"),
    ("entries through `use=`", "ti_resolve"),
    ("compiled entries", "ti_compiled"),
    ("parameter strings", "ti_parm"),
    ("judging certificates", "ti_cert"),
    ("making certificates", "ti_checker"),
    ("curses", "curses"),
]


def sizes_of(held):
    """The lines that a proof works through: code with its clauses, and proofs."""
    return held[1] + held[3]


def exported():
    """The functions that the library for C exports, in the order of its header."""
    with open(f"{TOP}/include/ticurses.h", encoding="utf-8") as file:
        names = re.findall(r"^[a-z]\w* (ticurses_raw_\w+)\(", file.read(), re.M)
    return ", ".join(f"`{name}`" for name in names) + "."


def table():
    """A row for each library."""
    of, uses = {name: held for name, *held in sizes.sizes()}, listed()
    rows = ["| for | crates | lines of code; of specs and proofs | to prove | libraries of the kit |"]
    rows.append("|---|---|---|---|---|")
    rate = MINUTES / sum(sizes_of(held) for held in of.values())
    for part, crate in LIBRARIES:
        names = below([crate], uses)
        code, others = sum(of[it][1] for it in names), sum(of[it][2] + of[it][3] for it in names)
        minutes = max(1, round(rate * sum(sizes_of(of[it]) for it in names)))
        kit = sorted({it for name in names for it in uses[name] if it not in uses})
        shown = ", ".join([f"[{crate}](../crates/{crate}/README.md)", *reversed(names[:-1])])
        rows.append(f"| {part} | {len(names)}: {shown} | {code:,}; {others:,} | {minutes} min | {', '.join(kit)} |")
    return "\n".join(rows)
