"""Texts of a report as HTML, and bytes as a terminfo source has them."""

import html
import re
import unicodedata

ESCAPES = {27: r"\E", 10: r"\n", 13: r"\r", 9: r"\t", 8: r"\b", 12: r"\f", 44: r"\,", 92: r"\\", 94: r"\^", 0: r"\200"}
# of a string and of a list of names, as much as helps; the rest is in the JSON
LONGEST = 240


def shown(text):
    """A text as HTML: what has no picture, or would turn the line round, is an escape."""
    visible = "".join(
        it if it == " " or unicodedata.category(it)[0] not in "CZ" else f"\\u{{{ord(it):x}}}" for it in text
    )
    return html.escape(visible)


def cut(text):
    return text if len(text) <= LONGEST else f"{text[:LONGEST]} .."


def source_form(sent):
    """Bytes as a terminfo source has them, from hexadecimal."""
    return "".join(
        ESCAPES.get(it) or (f"^{chr(it + 64)}" if it < 32 else chr(it) if it < 127 else f"\\{it:03o}")
        for it in bytes.fromhex(sent)
    )


def counted(number, one, many):
    return f"{number:,} {one if number == 1 else many}"


def code_spans(text):
    """The backticks of a meaning as HTML."""
    return re.sub(r"`([^`]*)`", r"<code>\1</code>", html.escape(text))
