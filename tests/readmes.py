"""Each crate's README has the one form, and names what the crate exports with the clauses of its sources; and lines of
code and definitions aren't too wide.

readmes.py                    compares all READMEs with the sources; status 1 if one differs
readmes.py --callers FOLDER   writes the READMEs' callers into a folder, as modules of a crate, and names the modules
readmes.py --rows CRATE       prints the table's rows without their words, to begin a README with

A row of the table has calls or types (a type before `::` is meant for the names after it too), the names of their clauses,
and what these say. A call may have several rows; together they name just its clauses: those of `ensures`, and after the word
"requires" those of `requires`; "unnamed" is one without a name. A row `from CRATE` lists what is passed on."""

import os
import re
import sys

TOP = os.path.dirname(os.path.dirname(os.path.abspath(__file__)))
sys.path.append(f"{TOP}/tools")

from crates import listed
from specs import block_at, each_clause, exported, files_of, read

CRATES = f"{TOP}/crates"
# a crate that is copied into another repository says its license
LICENSE = "License: MIT, copyright (c) 2026 the ticurses authors ([LICENSE](../../LICENSE))."
HEADINGS = ["Contracts", "Words", "A caller", "Only tested", "Not done", "Trusted", "Rules"]
NEEDED = ["Contracts", "A caller", "Only tested", "Trusted"]
HEAD = "| call | clauses | what they say |"
MOST_WORDS = 40
MOST_COLUMNS = 120
# what may make a line longer: printed text, and a list of lemmas, which the formatter joins
TEXT = re.compile(r'"(?:[^"\\]|\\.)*"?')
LEMMAS = "#[tactic("
# lines that are longer until their crates, which cost half an hour of proofs with those above them, change for a reason
LONGER = {("ti_hints/src/uses.rt", 7), ("ti_verdicts/src/lib.rt", 1)}

IMPL = r"^impl(?:<[^{\n]*?>)? (?:(\w+)(?:<[^{\n]*>)? for )?(\w+)[^{\n]*\{"
KINDS = r"(fn|struct|enum|trait|const|type|static) (\w+)"
ITEM = rf'^pub (?:extern "C" )?{KINDS}'
FOR_C = r'^pub extern "C" fn (\w+)'


# ---- what the sources say


def clauses_at(text, at):
    """The clauses of a function as a README names them."""
    found = [(kind, name or "unnamed") for kind, name, _ in each_clause(text, at)]
    return [name if kind == "ensures" else f"requires {name}" for kind, name in found]


def methods(kind, body, form):
    """The functions of a type's or a trait's body that match this form."""
    found = re.finditer(form, body, re.M)
    return {f"{kind}::{one.group(1)}": clauses_at(body, one.end()) for one in found}


def module_items(text, names, prefix):
    """The items of a module with these names (all where there is a prefix): each call with its clauses, each type with
    None."""
    found = {}
    for one in re.finditer(ITEM, text, re.M):
        kind, name = one.groups()
        if prefix or name in names:
            found[prefix + name] = clauses_at(text, one.end()) if kind == "fn" else None
            if kind == "trait":
                found |= methods(name, block_at(text, one.start()), r"^    fn (\w+)")
    for one in re.finditer(IMPL, text, re.M):
        of_trait, kind = one.groups()
        if kind in names and not of_trait:
            found |= methods(kind, block_at(text, one.start()), r"^    pub (?:const )?fn (\w+)")
    return found


def functions(crate):
    """All functions and public types of a program, each function with its clauses."""
    texts = [read(f"{CRATES}/{crate}/src/{module}.rt") for module in files_of(crate, "src", ".rt")]
    names = {name for text in texts for _, name in re.findall(rf"^(?:pub )?{KINDS}", text, re.M)}
    found = {}
    for text in texts:
        found |= module_items(text, names, "")
        for one in re.finditer(r"^fn (\w+)", text, re.M):
            found[one.group(1)] = clauses_at(text, one.end())
    return found


def public(crate):
    """The names that a library exports of its own, each with its clauses; and those that it passes on, each with its
    crate."""
    text = read(f"{CRATES}/{crate}/src/lib.rt")
    own, passed, laws = exported(crate)
    own |= {name for _, name in re.findall(ITEM, text, re.M)}
    found = {}
    for module in files_of(crate, "src", ".rt"):
        prefix = f"{module}::" if module in laws else ""
        source = read(f"{CRATES}/{crate}/src/{module}.rt")
        found |= module_items(source, own | set(re.findall(FOR_C, source, re.M)), prefix)
    renamed = {name: source for source, name in re.findall(r"^pub use (\w+)(?:::\w+)+ as (\w+);", text, re.M)}
    return found, renamed | {name: source for source, names in passed for name in names}


# ---- what a README says


def sections(text):
    """The paragraphs before the first heading of the second degree, and the text below each such heading, in order."""
    parts = re.split(r"^## (.*)\n", text, flags=re.M)
    return parts[0], list(zip(parts[1::2], parts[2::2]))


def cells(line):
    """The cells of a table's row."""
    return [cell.strip() for cell in re.split(r"(?<!\\)\|", line.strip().strip("|"))]


def rows(text):
    """The rows of all tables of a text, without those that make it a table."""
    return [cells(line) for line in text.splitlines() if line.startswith("|") and not line.startswith("|---")]


def full_names(cell, known):
    """The calls that a row is about: a type that stands before one call is meant for the next ones too."""
    kind, found = "", []
    for name in re.findall(r"`([\w:]+)`", cell):
        if "::" in name:
            kind = name.rsplit("::", 1)[0]
        elif name not in known and f"{kind}::{name}" in known:
            name = f"{kind}::{name}"
        found.append(name)
    return found


def clause_names(cell):
    """The clauses that a row names."""
    ensured, _, required = cell.partition("requires")
    named = r"`(\w+)`|\b(unnamed)\b"
    return {a or b for a, b in re.findall(named, ensured)} | {
        f"requires {a or b}" for a, b in re.findall(named, required)
    }


def described(table, known):
    """The calls of a table, each with the clauses that its rows name; and the names that are passed on, with their crates."""
    calls, passed = {}, {}
    for call, clauses, says in table:
        source = re.fullmatch(r"from `(\w+)`", call)
        if source:
            passed |= {name: source.group(1) for name in re.findall(r"`(\w+)`", says)}
        names = [] if source else full_names(call, known)
        only_types = all(known.get(name) is None for name in names)
        for name in names:
            of_type = known.get(name) is None and not only_types
            calls.setdefault(name, set()).update([] if of_type else clause_names(clauses))
    return calls, passed


# ---- what is wrong


def form_faults(text):
    """Where a README hasn't the form."""
    top, parts = sections(text)
    names = [name for name, _ in parts]
    lines = [line for line in top.splitlines() if line]
    sentences = re.findall(r"[.](?=\s|$)", " ".join(lines[1:]))
    if not 1 <= len(sentences) <= 2:
        yield f"{len(sentences)} sentences say what it is for, and not two"
    if names != [name for name in HEADINGS if name in names]:
        yield f"its headings are {names}, and not, in this order, of {HEADINGS}"
    yield from (f"it has no heading {name}" for name in NEEDED if name not in names)
    if not text.endswith(f"\n\n{LICENSE}\n"):
        yield f"its last line isn't: {LICENSE}"
    yield from (f"there is nothing below {name}" for name, part in parts if not part.strip())
    for row in rows(text):
        for cell in row:
            if len(cell.split()) > MOST_WORDS:
                yield f"a cell has {len(cell.split())} words: {cell[:60]}.."


def table_faults(part, crate):
    """Where the table of contracts isn't what the sources say."""
    table = rows(part)
    if not part.lstrip().startswith(HEAD) or any(len(row) != 3 for row in table):
        yield f"its contracts don't begin with the table {HEAD}"
        return
    is_library = os.path.isfile(f"{CRATES}/{crate}/src/lib.rt")
    known, given = public(crate) if is_library else (functions(crate), {})
    calls, passed = described(table[1:], known)
    if is_library:
        yield from (f"it lacks {name}" for name in sorted(known.keys() - calls.keys()))
    yield from (f"it names {name}, which isn't exported" for name in sorted(calls.keys() - known.keys()))
    for name in sorted(known.keys() & calls.keys()):
        there = set(known[name] or [])
        yield from (f"{name}: the clause {one} is missing" for one in sorted(there - calls[name]))
        yield from (f"{name} has no clause {one}" for one in sorted(calls[name] - there))
    for name in sorted(given.keys() | passed.keys()):
        if given.get(name) != passed.get(name):
            yield f"{name} is passed on from {given.get(name)}, and not from {passed.get(name)}"


def word_faults(text, sources):
    """The names in a README's code that no source has; names of files and programs in other languages are left out."""
    prose = re.sub(r"^```.*?^```", "", text, flags=re.M | re.S)
    code = [part for part in re.findall(r"`([^`]+)`", prose) if not re.search(r"/|\.(sh|py|txt)$", part)]
    names = {name for part in code for name in re.findall(r"\b[A-Za-z]\w+\b", part)}
    names = {name for name in names if "_" in name.strip("_") or re.match(r"[A-Z]\w*[a-z]", name)}
    gone = {name for name in names - sources if not (name.endswith("_") and any(it.startswith(name) for it in sources))}
    yield from (f"it names {name}, which no source has" for name in sorted(gone))


def words_of_sources():
    """All words of the crates' sources, specifications and proofs, and the names of the crates."""
    found = set(listed())
    for crate in listed():
        for folder in ("src", "specs", "proofs"):
            for at, _, names in os.walk(f"{CRATES}/{crate}/{folder}"):
                for name in names:
                    found |= {name.split(".")[0]} | set(re.findall(r"\w+", read(f"{at}/{name}")))
    return found


def faults(crate, sources):
    """The faults of a crate's README."""
    path = f"{CRATES}/{crate}/README.md"
    if not os.path.isfile(path):
        return [f"{crate}: no README.md"]
    text = read(path)
    contracts = dict(sections(text)[1]).get("Contracts", "")
    found = [*form_faults(text), *table_faults(contracts, crate), *word_faults(text, sources)]
    return [f"{crate}: {fault}" for fault in found]


def top_faults():
    """Where the README of the top folder is too long."""
    text = read(f"{TOP}/README.md")
    if len(text.splitlines()) > 100:
        yield f"README.md: it has {len(text.splitlines())} lines, and not at most 100"
    for table in re.findall(r"(?:^\|.*\n)+", text, re.M):
        body = rows(table)[1:]
        if len(body) > 9:
            yield f"README.md: a table has {len(body)} rows, and not at most 9"
        for cell in (cell for row in body for cell in row if len(cell.split()) > MOST_WORDS):
            yield f"README.md: a cell has {len(cell.split())} words: {cell[:60]}.."


def wide_lines(crate):
    """Lines of a crate's code and definitions that have too many columns without printed text."""
    for folder, ending in (("src", ".rt"), ("specs", ".antt")):
        for name in files_of(crate, folder, ending):
            path = f"crates/{crate}/{folder}/{name}{ending}"
            for number, line in enumerate(read(f"{TOP}/{path}").splitlines(), 1):
                if (f"{crate}/{folder}/{name}{ending}", number) in LONGER:
                    continue
                if len(TEXT.sub("", line)) > MOST_COLUMNS and LEMMAS not in line:
                    yield f"{path}:{number}: it has more than {MOST_COLUMNS} columns"


# ---- what else it does


def caller(crate):
    """The program in a README's section on a caller, if it is one in this language."""
    part = dict(sections(read(f"{CRATES}/{crate}/README.md"))[1]).get("A caller", "")
    found = re.search(r"^```rust\n(.*?)^```", part, re.M | re.S)
    return found.group(1) if found else None


def write_callers(folder):
    """Each caller as a module of a crate's source folder; the names of the modules are printed."""
    for crate in listed():
        text = caller(crate)
        if text:
            name = f"calls_{crate}"
            with open(f"{folder}/{name}.rt", "w", encoding="utf-8") as file:
                file.write(f"//! The caller of the README of {crate}.\n\n{text}")
            print(name)


def print_rows(crate):
    """The rows of a table of contracts: calls of one type that have clauses of the same names share one row."""
    print(f"{HEAD}\n|---|---|---|")
    known, given = public(crate)
    grouped = {}
    for name, clauses in known.items():
        grouped.setdefault((name.rpartition("::")[0], tuple(clauses or [])), []).append(name)
    for (kind, clauses), names in grouped.items():
        calls = [names[0], *(name.rpartition("::")[2] for name in names[1:])]
        ensured = ", ".join(c if c == "unnamed" else f"`{c}`" for c in clauses if " " not in c)
        required = ", ".join(c[9:] if c[9:] == "unnamed" else f"`{c[9:]}`" for c in clauses if " " in c)
        cell = "; ".join(part for part in (ensured, required and f"requires {required}") if part)
        print("| " + ", ".join(f"`{name}`" for name in calls) + f" | {cell} |  |")
    for source in sorted(set(given.values())):
        print(f"| from `{source}` | | " + ", ".join(f"`{n}`" for n in sorted(given) if given[n] == source) + " |")


def main():
    if sys.argv[1:2] == ["--callers"]:
        return write_callers(sys.argv[2])
    if sys.argv[1:2] == ["--rows"]:
        return print_rows(sys.argv[2])
    crates, sources = listed(), words_of_sources()
    asked = sys.argv[1:] or crates
    found = [*top_faults(), *(fault for crate in asked for fault in [*faults(crate, sources), *wide_lines(crate)])]
    if found:
        sys.exit("readmes: " + "\nreadmes: ".join(found))
    print(f"readmes: {len(crates)} READMEs have the form, and name what their crates export with its clauses")
    print(f"readmes: lines of code and definitions have at most {MOST_COLUMNS} columns, but for printed text")
    return None


if __name__ == "__main__":
    main()
