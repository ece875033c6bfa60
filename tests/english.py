"""The kinds of stilted English that can be counted, in pages and comments.

english.py          counts them; status 1 if there are more than the limit
english.py --list   prints each with its file and line, and then the counts

Two sorts of things are counted:
- Words: sentences that begin with That, Those, What or "The same" (a question may begin with What), the phrases of
  `PHRASES`, and "stands" before a place. A sentence begins with a capital letter. Headings, code and text between
  backticks don't count.
- Doc comments of three lines or more that name no parameter of a function with two or more. In Rattle a name counts
  only between backticks.

Comments of Rattle and shell, and those of C after `//`, count only on lines of their own.

All of it together may have at most `LIMIT` such places."""

import ast
import io
import os
import re
import signal
import sys
import tokenize
from collections import Counter

TOP = os.path.dirname(os.path.dirname(os.path.abspath(__file__)))
PROGRAMS = ["include", "bindings", "curses", "examples", "packaging", "vectors", "tools", "tests", "bench", "crates"]
FOLDERS = ["docs", "man", *PROGRAMS]
ALONE = ["README.md", "NEWS.md", "build", "install", "package", "test", "ticurses"]
# docs/MAP.md repeats the first sentences of comments
LEFT_OUT = {"docs/MAP.md", "tests/english.py"}
SKIPPED = {"out", "proofs", "must-fail", "__pycache__"}

LIMIT = 0
# the fewest paragraphs that must be read of each kind of file, so that the script can't pass by reading nothing
FEWEST = {"md": 4000, "rt": 3500, "antt": 2300, "py": 850, "sh": 120, "c": 400, "man": 400}

PHRASES = ["told", "be had", "goes over to", "so many bytes", "as it were", "a front of", "colour"]
BEGINNINGS = re.compile(r"(That|Those|What|The same)\b")
# but not "cannot stand in a cell", which is a message
STANDS = re.compile(r"(?<!cannot )\b(?:stands?|stood) (?:there|here|at|in(?! for\b))\b")
# how an item of a list and a row of a table begin
ITEM = re.compile(r"[-*|] |\d+\. ")
SILENT = "names no parameter"


# ---- what counts


def sentences(text):
    """The sentences of a paragraph without code and links, each without the marks of a list or of emphasis."""
    plain = re.sub(r"`[^`]*`|\]\([^)]*\)", "`x`", " ".join(text.split()))
    for sentence in re.split(r"(?<=[.!?:])\s+", plain):
        yield sentence.lstrip("-*_|>( \"'")


def kinds_in(text):
    """Each kind that a paragraph has, with the sentence."""
    for sentence in sentences(text):
        begins = BEGINNINGS.match(sentence)
        if begins and not sentence.endswith("?"):
            yield begins.group(1), sentence
        for phrase in PHRASES:
            for _ in re.findall(rf"\b{phrase}", sentence, re.I):
                yield phrase, sentence
        for _ in STANDS.findall(sentence):
            yield "stands for is", sentence


def is_silent(kind, lines, parameters):
    """Whether a doc comment in a file of this kind has three lines or more and names none of two parameters or more."""
    said = [line for line in lines if line.strip()]
    text = " ".join(said)
    named = " ".join(re.findall(r"`([^`]*)`", text)) if kind == "rt" else text
    return len(said) > 2 and len(parameters) > 1 and not set(re.findall(r"\w+", named)) & set(parameters)


# ---- texts of a file: each with its line, and the doc comments that name no parameter


def paragraphs(lines, first):
    """The paragraphs of lines of prose, without headings and code between fences; each with its line."""
    part, at, is_code = [], first, False
    for number, line in enumerate([*lines, ""], first):
        text = line.strip()
        is_fence = text.startswith("```")
        is_prose = not (is_fence or is_code or not text or text.startswith("#"))
        is_code = is_code != is_fence
        if part and (not is_prose or ITEM.match(text)):
            yield at, " ".join(part)
            part = []
        if is_prose:
            part, at = [*part, text], at if part else number


def blocks(text, mark):
    """The comments of whole lines that begin with a mark: each with its first line, and its lines without the mark."""
    found, at = [], 0
    for number, line in enumerate([*text.splitlines(), ""], 1):
        comment = re.match(rf"\s*(?:{mark})(?: |$)(.*)", line)
        if comment:
            found, at = [*found, comment.group(1)], at if found else number
        elif found:
            yield at, found
            found = []


def page_texts(text):
    """The paragraphs and list items of a page, and its cells but those of one word, which is a name."""
    text = re.sub(r"<!--.*?-->", lambda it: "\n" * it[0].count("\n"), text, flags=re.S)
    lines = ["" if line.startswith("    ") else line for line in text.splitlines()]
    for at, part in paragraphs(lines, 1):
        cells = [cell.strip() for cell in part.strip("|").split(" | ")] if part.startswith("|") else []
        yield from ((at, cell) for cell in cells if " " in cell)
        if not cells:
            yield at, part


def comment_texts(text, mark):
    """The paragraphs of the comments that begin with a mark."""
    for at, lines in blocks(text, mark):
        yield from paragraphs(lines, at)


def c_texts(text):
    """The paragraphs of the comments of C."""
    for one in re.finditer(r"/\*(.*?)\*/", text, re.S):
        lines = [re.sub(r"^\s*\* ?", "", line) for line in one.group(1).splitlines()]
        yield from paragraphs(lines, text.count("\n", 0, one.start()) + 1)
    yield from comment_texts(text, "//")


def python_texts(text):
    """The paragraphs of the comments and of the doc strings of Python."""
    yield from comment_texts(text, "#")
    for node in documented(text):
        first = node.body[0]
        yield from paragraphs(ast.get_docstring(node).splitlines(), first.lineno)
    for token in tokenize.generate_tokens(io.StringIO(text).readline):
        if token.type == tokenize.COMMENT and token.line.strip() != token.string.strip():
            yield token.start[0], token.string.lstrip("# ")


def man_texts(text):
    """The paragraphs of a manual page, without what is printed as it stands in the source."""
    text = re.sub(r"^\.Bd -literal.*?^\.Ed", lambda it: "\n" * it[0].count("\n"), text, flags=re.M | re.S)
    lines = ["" if line.startswith((".", "#")) else line for line in text.splitlines()]
    yield from paragraphs(lines, 1)


def documented(text):
    """The parts of a program in Python that have a doc string."""
    kinds = (ast.Module, ast.ClassDef, ast.FunctionDef, ast.AsyncFunctionDef)
    return [node for node in ast.walk(ast.parse(text)) if isinstance(node, kinds) and ast.get_docstring(node)]


# the attributes and the head of a function, up to what follows its parameters
RATTLE_HEAD = re.compile(
    r"(?:\s*#\[[^\n]*\]\n)*[ \t]*(?:\w+(?: \"C\")? )*fn \w+(?:<[^(]*>)?\(([^{;]*?)\)[^()]*?[{;\n]"
)


def rattle_functions(text):
    """The functions with a doc comment: its line, its lines, and the names of the parameters but `self`."""
    for at, lines in blocks(text, "///"):
        rest = "\n".join(text.splitlines()[at + len(lines) - 1 :])
        head = RATTLE_HEAD.match(rest)
        if head:
            yield at, lines, re.findall(r"(?:^|,|\()\s*(?:mut )?(\w+): ", head.group(1))


def python_functions(text):
    """The functions with a doc string: its line, its lines, and the names of the parameters but `self`."""
    for node in documented(text):
        if isinstance(node, (ast.FunctionDef, ast.AsyncFunctionDef)):
            names = [one.arg for one in node.args.args + node.args.kwonlyargs if one.arg not in {"self", "cls"}]
            yield node.body[0].lineno, ast.get_docstring(node).splitlines(), names


def c_functions(text):
    """The functions with a comment just before them: its line, its lines, and the names of the parameters."""
    for one in re.finditer(r"/\*((?:(?!\*/).)*)\*/\n(?!\n)[^;{}#/]*?\w\(([^;{}]*?)\)\s*[;{]", text, re.S):
        names = re.findall(r"(\w+)(?:\[\w*\])?\s*(?:,|$)", one.group(2))
        yield text.count("\n", 0, one.start()) + 1, one.group(1).splitlines(), names


# ---- files

READERS = {
    "md": (page_texts, None),
    "rt": (lambda text: comment_texts(text, "//[/!]?"), rattle_functions),
    "antt": (lambda text: comment_texts(text, "--"), None),
    "py": (python_texts, python_functions),
    "sh": (lambda text: comment_texts(text, "#"), None),
    "c": (c_texts, c_functions),
    "man": (man_texts, None),
}
ENDINGS = {".md": "md", ".rt": "rt", ".antt": "antt", ".py": "py", ".pyi": "py", ".sh": "sh", ".c": "c", ".h": "c"}


def kind_of(path, text):
    """The kind of a file, by its ending or its first line; nothing if it isn't read."""
    ending = os.path.splitext(path)[1]
    if ending in ENDINGS:
        return ENDINGS[ending]
    if path.startswith("man/"):
        return "man"
    if ending == ".txt" and re.match(r"//!|.*\n(?:ghost )?use ", text):
        return "rt"
    return "sh" if text.startswith("#!/bin/sh") or path == "tests/probing" else None


def read_files():
    """Each file that is read: its path below the top folder, its kind and its text."""
    paths = list(ALONE)
    for folder in FOLDERS:
        for at, folders, names in os.walk(f"{TOP}/{folder}"):
            folders[:] = sorted(it for it in folders if it not in SKIPPED and not it.startswith("."))
            paths += [os.path.relpath(f"{at}/{name}", TOP) for name in sorted(names)]
    for path in paths:
        if path in LEFT_OUT or os.path.islink(f"{TOP}/{path}"):
            continue
        with open(f"{TOP}/{path}", encoding="utf-8", errors="replace") as file:
            text = file.read()
        kind = kind_of(path, text)
        if kind:
            yield path, kind, text


def found_in(kind, text):
    """The counted places of a file, each with its kind, line and words; and the number of its paragraphs."""
    texts_of, functions_of = READERS[kind]
    texts = list(texts_of(text))
    found = [(what, at, shown) for at, part in texts for what, shown in kinds_in(part)]
    for at, lines, names in functions_of(text) if functions_of else []:
        if is_silent(kind, lines, names):
            found.append((SILENT, at, f"({', '.join(names)}) {' '.join(' '.join(lines).split())}"))
    return found, len(texts)


# ---- examples of what counts


EXAMPLES = [
    ("That the number is free is the caller's condition.", ["That"]),
    ("It fails. Those of `send` are its errors.", ["Those"]),
    ("**What a move takes**, in bytes.", ["What"]),
    ("The same, however many lines differ.", ["The same"]),
    ("A colour that can't be had is told to the caller.", ["told", "be had", "colour"]),
    ("It goes over to a front of the string.", ["goes over to", "a front of"]),
    ("It takes so many bytes, as it were.", ["so many bytes", "as it were"]),
    ("The width stands in the header, and the height stands there too.", ["stands for is", "stands for is"]),
    ("What does it print?", []),
    ("The caller checks that the number is free, and what it means; those are the same.", []),
    ("A row stands for a line; `a front of` is a name, and `colour235` another. `That` too.", []),
    ("The color is behind the frontier; R stands in for a resize, as in [`Told`](specs/told.antt).", []),
]

RATTLE = """/// Writes a line
/// to the row,
/// {}.
#[inline(always)]
pub fn put<W: Wire>(wire: &mut W, row: usize) -> bool {{
"""

PYTHON = '''def put(wire, row):
    """Writes a line

    to the screen,
    {}."""
'''

HEADER = """/* Writes a line
 * to the screen,
 * {}. */
int put(struct wire *wire, int row);
"""

PAGE = """# What it is

It is
told.

```
What
```

| a | That it is. |
- Those are
    What
"""


def examples_fail():
    """The examples that are counted wrongly."""
    for text, wanted in EXAMPLES:
        found = sorted(kind for kind, _ in kinds_in(text))
        if found != sorted(wanted):
            yield f"{text!r} has {found}, and not {wanted}"
    for kind, form in (("rt", RATTLE), ("py", PYTHON), ("c", HEADER)):
        for words, wanted in (("at `row`", []), ("at the end", [SILENT])):
            found = [what for what, _, _ in found_in(kind, form.format(words))[0]]
            if found != wanted:
                yield f"{form.format(words)!r} has {found}, and not {wanted}"
    found = [(what, at) for what, at, _ in found_in("md", PAGE)[0]]
    if found != [("told", 3), ("That", 10), ("Those", 11)]:
        yield f"a page has {found}"


# ---- the count


def printed(counts):
    """Counts in one line, the largest first."""
    return ", ".join(f"{name} {count}" for name, count in counts.most_common()) or "none"


def over(count, read):
    """What is above the limit, and the kinds of files of which hardly anything was read."""
    if count > LIMIT:
        yield f"{count} places, and {LIMIT} is the limit; `english.py --list` shows them"
    for kind, fewest in FEWEST.items():
        if read[kind] < fewest:
            yield f"only {read[kind]} paragraphs of {kind} were read"


def main():
    # a list that is read in part, as by head, ends this script without a word
    signal.signal(signal.SIGPIPE, signal.SIG_DFL)
    wrong = list(examples_fail())
    if wrong:
        sys.exit("english: " + "\nenglish: ".join(wrong))
    is_listed = sys.argv[1:] == ["--list"]
    kinds, places, read = Counter(), Counter(), Counter()
    for path, kind, text in read_files():
        found, count = found_in(kind, text)
        read[kind] += count
        for what, at, shown in found:
            kinds[what] += 1
            places["/".join(path.split("/")[:2])] += 1
            if is_listed:
                print(f"{path}:{at}: {what}: {shown[:160]}")
    if is_listed:
        for name, counts in (("by kind", kinds), ("by place", places), ("read", read)):
            print(f"{name}: {printed(counts)}")
    wrong = list(over(kinds.total(), read))
    if wrong:
        sys.exit("english: " + "\nenglish: ".join(wrong))
    print(f"english: {read.total()} paragraphs have {kinds.total()} places to reword, of {LIMIT} that they may have")


if __name__ == "__main__":
    main()
