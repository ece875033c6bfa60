"""docs/MAP.md: the parts of the project, their crates, and the subject of each file."""

import os
import re
import sys

from crates import TOP
from made import MADE, wrapped
from specs import CRATES, crates_listed, files_of, read

# The parts of the project, each with its crates from the top down.
PARTS = [
    (
        "The program",
        [
            "ticurses",
            "ti_arguments",
            "ti_requests",
            "cur_commands",
            "ti_printers",
            "ti_reports",
            "ti_everywhere",
            "ti_surveys",
            "ti_repairs",
            "ti_verdicts",
            "ti_openings",
            "ti_commands",
            "ti_hints",
            "ti_words",
            "ti_files",
            "ti_diffs",
        ],
    ),
    ("For programs", ["curses", "hello", "curses_c", "terminfo_c"]),
    (
        "Descriptions",
        [
            "ti_rounds", "ti_steps", "ti_fixes", "ti_sources", "ti_resolve", "ti_source", "ti_compiled", "ti_caps", "ti_parm",
            "ti_blames",
        ],
    ),
    ("The terminal", ["vt_effects", "vt_states", "vt_term", "vt_screen", "grids"]),
    (
        "Certificates",
        [
            "ti_sizes", "ti_advice", "ti_without", "ti_grades", "ti_faults", "ti_checker", "ti_cert", "ti_forms",
            "ti_lines", "ti_conforms", "ti_rows",
        ],
    ),
    ("Windows", ["cur_pads", "cur_windows", "cur_screens", "cur_drawing"]),
    (
        "Painting",
        [
            "cur_play",
            "cur_scripts",
            "cur_update",
            "cur_paint",
            "cur_moves",
            "cur_steps",
        ],
    ),
]

WHAT_FOR = (
    "Use this page to find the crate and the file for a subject. Each part lists its crates from the top down: the "
    "crate's purpose, the crates that it depends on (without those that it depends on only through another crate), and "
    "the files of its src/, each with the first sentence of the comment at its head. [AUDIT](AUDIT.md) lists the "
    "definitions of specs/. [ARCHITECTURE](ARCHITECTURE.md) says how the "
    "parts work together, and where a change goes."
)


def head(path, mark):
    """The first sentence of the comment at a file's head, whose lines begin with `mark`."""
    words = []
    for line in read(path).splitlines():
        if not line.startswith(mark):
            break
        words.append(line[len(mark) :].strip())
    text = re.sub(r"^\(Serves the code alone\.\) ", "", " ".join(words).strip())
    found = re.match(r"(.*?[.:])(\s|$)", text)
    return (found.group(1) if found else text).rstrip(":.")


def reduced(crates):
    """For each crate those that it depends on, without those that it depends on only through another one."""
    below = {}

    def all_below(crate):
        if crate not in below:
            below[crate] = set()
            for other in crates[crate]:
                below[crate] |= {other} | all_below(other)
        return below[crate]

    return {c: [d for d in crates[c] if not any(d in all_below(e) for e in crates[c] if e != d)] for c in crates}


def from_docs(crate, link):
    """A link of a crate's README as a link from docs/."""
    return os.path.relpath(os.path.join(CRATES, crate, link), os.path.join(TOP, "docs"))


def subject(crate):
    """The first sentence of a crate's README."""
    paragraphs = [part.strip() for part in read(os.path.join(CRATES, crate, "README.md")).split("\n\n")]
    text = " ".join(next(part for part in paragraphs if part and not part.startswith("#")).split())
    text = re.sub(r"\]\((?!\w+:)([^)#]+)", lambda found: f"]({from_docs(crate, found[1])}", text)
    return re.match(r"(.*?[^.][.])(\s|$)", text + " ").group(1)


def file_rows(crate):
    """The rows of a crate's table: the files of its src/, each with its first sentence."""
    root = "lib" if "lib" in files_of(crate, "src", ".rt") else "main"
    for name in files_of(crate, "src", ".rt"):
        if name != root:
            text = head(os.path.join(CRATES, crate, "src", name + ".rt"), "//!")
            text = text.replace("|", "\\|")
            yield f"| {name}.rt | {text} |"


def section(crate, below):
    """The rows about a crate, which depends directly on the crates `below`."""
    depends = ", ".join(below) or "no other crate"
    return [f"| **{crate}** | {subject(crate)} It depends on {depends}. |", *file_rows(crate)]


def page():
    """The text of docs/MAP.md."""
    crates = crates_listed()
    below = reduced(crates)
    left = set(crates) - {crate for _, part in PARTS for crate in part}
    if left:
        sys.exit(f"pages: no part has {sorted(left)}")
    out = ["# The map\n", MADE, wrapped(WHAT_FOR) + "\n"]
    for part, names in PARTS:
        out += [f"## {part}\n", "| crate, file | what is in it |", "|---|---|"]
        for crate in names:
            out += section(crate, below[crate]) if crate in crates else []
        out.append("")
    return "\n".join(out).rstrip() + "\n"
