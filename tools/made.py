"""The forms that made pages share: their first sentence, the width of their lines, and the marks around a made part."""

import textwrap

MADE = "This page is made from the sources by `tools/pages.py`, and `tests/pages.sh` compares it with them.\n"
FIRST, LAST = "<!-- from here on made by tools/pages.py: {} -->\n", "<!-- to here -->\n"


def wrapped(text):
    """The text in lines of at most 120 columns where that is possible; an item's further lines are indented."""
    indent = "  " if text.startswith("- ") else ""
    lines = textwrap.wrap(text, 120, subsequent_indent=indent, break_long_words=False, break_on_hyphens=False)
    return "\n".join(lines)


def between(text, name, made):
    """The text with `made` in place of the part that the marks of this name enclose."""
    first = FIRST.format(name)
    at = text.index(first) + len(first)
    return text[:at] + "\n" + made.strip() + "\n\n" + text[text.index(LAST, at) :]
