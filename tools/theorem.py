"""docs/THEOREM.md: the statement as the sources have it, and whether the page explains each of its words."""

import os
import re

from crates import TOP
from specs import CRATES, cited, each_clause, read, spec

STATED = ("cur_play", "Log", ["Ran", "Plays", "Tells"])
ROW = re.compile(
    r"^\| ((?:`\S+`(?:, )?)+) \| .* \| \[[^\]]*\]\(\.\./crates/(\w+)/(specs|src)/(\w+)\.(?:antt|rt)\) \|$", re.M
)
CLAIM = re.compile(r"^\| (\"[^|]*\") \| ([^|]*) \|", re.M)
CLAUSE = re.compile(r"`(\w+)::((?:\w+::)?\w+)` \(([^)]*)\)")


def definition(crate, module, name):
    """The text of a definition with the comment above it."""
    lines = read(os.path.join(CRATES, crate, "specs", module + ".antt")).splitlines()
    at = next(
        i for i, line in enumerate(lines) if re.match(rf"(abbrev |unfoldable |pub |record |data )*{name}\b", line)
    )
    first = at
    while first and lines[first - 1].startswith("--") and not lines[first - 1].startswith("-- ----"):
        first -= 1
    last = at + 1
    while last < len(lines) and (not lines[last] or lines[last][0].isspace() or lines[last].startswith(name)):
        last += 1
    return "\n".join(lines[first:last]).rstrip()


def statement():
    """The clause of `run` and the definitions that state the theorem."""
    text = read(os.path.join(CRATES, "cur_play", "src", "runs.rt"))
    at = re.search(r"^pub fn run<", text, re.M).end()
    clause = next(it for kind, name, it in each_clause(text, at) if name == "ran")
    parts = ["ensures ran " + clause[clause.index("{") :].replace("\n        ", "\n    ")]
    crate, module, names = STATED
    parts += [definition(crate, module, name) for name in names]
    return "```\n" + "\n\n".join(parts) + "\n```\n"


def words_wanted():
    """The words that the statement names."""
    crate, module, names = STATED
    there = spec(crate, module)
    text = "\n".join("\n".join(there.blocks[name]) for name in names)
    return {word for _, _, word in cited(text, there.words, there.modules, there)} - set(names)


def unexplained(page):
    """The words of the statement that the page doesn't explain, and rows whose words aren't where they say."""
    explained = set()
    for words, crate, folder, name in ROW.findall(page):
        for word in re.findall(r"`(\S+?)`", words):
            explained.add(word)
            path = os.path.join(CRATES, crate, folder, name + (".antt" if folder == "specs" else ".rt"))
            if not os.path.exists(path) or not re.search(rf"(?<!\w){re.escape(word)}(?!\w)", read(path)):
                yield f"THEOREM.md: {word} isn't in {crate}/{folder}/{name}"
    for word in sorted(words_wanted() - explained):
        yield f"THEOREM.md doesn't explain {word}, which the statement names"


def plain(text):
    """A text without marks, on one line."""
    return " ".join(re.sub(r"\[([^\]]*)\]\([^)]*\)", r"\1", text).replace("`", "").replace("**", "").split())


def unclaimed(page):
    """The sentences of the theorem in words that no row takes up, and rows that neither they, nor TRUST, nor the code
    bear out."""
    section = re.search(r"^## In words\n(.*?)^## ", page, re.M | re.S)
    said = plain(section[1]) if section else ""
    claims = [plain(quoted).strip('"') for quoted, _ in CLAIM.findall(page)]
    for claim in claims:
        if claim.removesuffix(" ..") not in f"{said} {plain(read(os.path.join(TOP, 'docs', 'TRUST.md')))}":
            yield f"THEOREM.md has a row for a sentence that isn't there: {claim}"
    for sentence in re.split(r"(?<=\.) (?=[A-Z])", said):
        if not any(sentence.startswith(claim.removesuffix(" ..")) for claim in claims):
            yield f"THEOREM.md has no row for its sentence: {sentence}"
    for _, clauses in CLAIM.findall(page):
        for crate, call, names in CLAUSE.findall(clauses):
            rows = [
                line
                for line in read(os.path.join(CRATES, crate, "README.md")).splitlines()
                if f"`{call}`" in line.split(" | ")[0]
            ]
            said = " ".join(row.split(" | ")[1] for row in rows if row.count(" | ") >= 2)
            for name in re.findall(r"`(\w+)`", names):
                if f"`{name}`" not in said:
                    yield f"THEOREM.md: {crate}'s {call} has no clause {name}"


def unnamed_laws(page):
    """The laws of the library for C that the page doesn't name."""
    laws = re.findall(r"^pub fn (\w+)", read(os.path.join(CRATES, "curses_c", "src", "laws.rt")), re.M)
    return [f"THEOREM.md doesn't name the law {it} of curses_c" for it in laws if f"`{it}`" not in page]


def faults(page):
    return [*unexplained(page), *unclaimed(page), *unnamed_laws(page)]
