"""The diagram of what is trusted, from the tables of docs/TRUST.md: a band for each table, a box for each row."""

import re
import textwrap

from crates import TOP
from svg import FAINT, INK, Picture

# each band: its heading on the page, what it is, and its colors
BANDS = [
    ("What you read", "trusted by you, who read it", "#0969da", "#ddf4ff"),
    ("What is proved", "not trusted: checked by what stands below", "#1a7f37", "#dafbe1"),
    ("What proves it", "trusted", "#9a6700", "#fff8c5"),
    ("What compiles it", "trusted", "#9a6700", "#fff8c5"),
    ("What runs it", "trusted", "#9a6700", "#fff8c5"),
]
HEAD = "| part | size | why |"
WIDTH, LEFT, GAP, HIGH = 860, 170, 10, 62


def rows(page, heading):
    """The parts of a table, each with its size."""
    section = page[page.index(f"### {heading}\n") :].split("\n##", 2)[0]
    table = section[section.index(HEAD) :].split("\n\n", 1)[0]
    cells = [[it.strip() for it in line.strip("|").split("|")] for line in table.splitlines()]
    return [(part, re.sub(r", `[^`]*`$", "", size)) for part, size, _ in cells[2:]]


def drawn():
    """The picture's file."""
    with open(f"{TOP}/docs/TRUST.md", encoding="utf-8") as file:
        page = file.read()
    picture = Picture(WIDTH, "What you read, what is proved, and what is trusted")
    y = 16
    for at, (heading, what, color, paper) in enumerate(BANDS):
        boxes = rows(page, heading)
        picture.text(16, y + 26, heading, 14, color, font_weight="bold")
        for line_at, line in enumerate(textwrap.wrap(what, 24)):
            picture.text(16, y + 43 + 13 * line_at, line, 11, FAINT)
        wide = (WIDTH - LEFT - 16 - GAP * (len(boxes) - 1)) / len(boxes)
        for place, (part, size) in enumerate(boxes):
            x = LEFT + place * (wide + GAP)
            picture.box(x, y, wide, HIGH, paper, rx=6, stroke=color)
            words = textwrap.wrap(part, max(12, int(wide / 6.4)))
            sizes = textwrap.wrap(size, max(12, int(wide / 5.6)))
            top = y + HIGH / 2 + 10 - 7 * (len(words) + len(sizes) - 1) - 4
            for line_at, line in enumerate(words):
                picture.text(x + wide / 2, top + 14 * line_at, line, 12, INK, text_anchor="middle", font_weight="bold")
            for line_at, line in enumerate(sizes):
                picture.text(x + wide / 2, top + 14 * (len(words) + line_at), line, 11, FAINT, text_anchor="middle")
        y += HIGH
        if at + 1 < len(BANDS):
            middle = LEFT + (WIDTH - LEFT - 16) / 2
            words = [
                "is what these are proved to meet",
                "whose proofs this checks",
                "and whose code this turns into a program",
                "that runs on",
            ][at]
            picture.line(middle, y + 3, middle, y + 21, FAINT, stroke_width=1.5)
            picture.add(
                "path", d=f"M{middle - 4:.0f} {y + 17} L{middle:.0f} {y + 23} L{middle + 4:.0f} {y + 17} Z", fill=FAINT
            )
            picture.text(middle + 12, y + 16, words, 11, FAINT)
            y += 26
    return picture.written()
