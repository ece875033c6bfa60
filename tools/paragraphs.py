"""The paragraphs of docs/ and of README end where a sentence may end: with a mark of punctuation, a bracket or a
backtick. A line that was cut away by mistake leaves one that doesn't. Items of one line need no mark.

    python3 -B tools/paragraphs.py      names each paragraph that breaks off, with its file and line; status 1 if there is one"""

import os
import re
import sys

from crates import TOP

ENDS = tuple(".,:;!?)]}>`\"'*_")
# what isn't prose: a heading, a row of a table, code by its indentation, a picture or a comment in HTML
OTHER = re.compile(r"#|\s*\||    |<|!\[")
ITEM = re.compile(r"\s*(?:[-*]|\d+\.) ")


def pages():
    docs = sorted(it for it in os.listdir(f"{TOP}/docs") if it.endswith(".md"))
    return ["README.md", *(f"docs/{it}" for it in docs)]


def prose(text):
    """The lines of a page with their numbers, without code between fences, whose lines are empty then."""
    is_code = False
    for number, line in enumerate(text.splitlines(), 1):
        is_fence = line.lstrip().startswith("```")
        is_code ^= is_fence
        yield number, "" if is_code or is_fence else line


def paragraphs(text):
    """The last line of each paragraph of a page, and of each item of a list that has more than one line, with its number."""
    last, count, is_item = None, 0, False
    for number, line in [*prose(text), (0, "")]:
        is_end = not line.strip() or ITEM.match(line) or OTHER.match(line)
        if last and is_end and not (is_item and count == 1):
            yield last
        if is_end:
            last, count, is_item = None, 0, bool(ITEM.match(line))
        if line.strip() and not OTHER.match(line):
            last, count = (number, line), count + 1


def broken_off(path):
    """The lines of a page with which a paragraph breaks off."""
    with open(f"{TOP}/{path}", encoding="utf-8") as file:
        text = file.read()
    return [f"{path}:{number}: {line.strip()}" for number, line in paragraphs(text) if not line.rstrip().endswith(ENDS)]


def main():
    found = [it for path in pages() for it in broken_off(path)]
    for it in found:
        print(f"paragraphs: it breaks off: {it}", file=sys.stderr)
    if not found:
        print(f"paragraphs: those of {len(pages())} pages end where a sentence may end")
    return 1 if found else 0


if __name__ == "__main__":
    sys.exit(main())
