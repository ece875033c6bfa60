"""The lists of docs/AUDIT.md: what to read for the main theorem, for the library for C and for each command, and after
that every word on which a published clause depends."""

import math
import re

import kit_words
from crates import TOP
from specs import (
    CRATES,
    cited,
    clauses,
    closure,
    crates_listed,
    each_item,
    files_of,
    imports_of,
    read,
    roots_of,
    spec,
)

# the crates whose exported clauses are the promises to users; a helper crate counts where these cite it
PUBLISHED = [
    "ti_caps",
    "ti_source",
    "ti_resolve",
    "ti_compiled",
    "ti_parm",
    "ti_conforms",
    "vt_term",
    "vt_effects",
    "ti_cert",
    "ti_checker",
    "cur_windows",
    "cur_pads",
    "cur_update",
    "cur_play",
    "ti_commands",
    "ti_verdicts",
    "ti_surveys",
    "ti_everywhere",
    "ti_repairs",
    "ti_files",
    "ti_reports",
    "ti_printers",
    "cur_commands",
    "curses_c",
    "terminfo_c",
]

# the commands, with the functions that the program calls for each
COMMANDS = [
    ("expand", [("ti_commands", "expand_string")]),
    ("feed", [("ti_commands", "feed_file")]),
    ("feed --state, --json, --cases", [("ti_commands", "feed_state")]),
    ("infocmp", [("ti_commands", "print_entry"), ("ti_commands", "compare_entries")]),
    ("tic", [("ti_commands", "compile_entry")]),
    ("verify", [("cur_commands", "verify_certificate")]),
    ("play", [("cur_commands", "play_script")]),
    ("show", [("cur_commands", "show_script")]),
    ("check", [("ti_verdicts", "check_entry"), ("ti_verdicts", "notes_on")]),
    ("check --all", [("ti_verdicts", "check_all")]),
    ("check --fix", [("ti_repairs", "fix_entry")]),
    ("survey --fix", [("ti_repairs", "fix_survey")]),
    ("survey", [("ti_surveys", "survey_paths"), ("ti_surveys", "survey_files")]),
    ("check --json, survey --json", [("ti_reports", "check_reports"), ("ti_reports", "survey_reports")]),
    ("check --sarif, survey --sarif", [("ti_printers", "sarif_file")]),
    ("survey --baseline", [("ti_printers", "sarif_file")]),
    ("check --every-size", [("ti_everywhere", "check_everywhere")]),
    ("survey --every-size", [("ti_everywhere", "survey_everywhere")]),
]

# functions by which the program answers all commands, and the parser of the line, which has no clause
OF_ALL = {"report", "write_reply", "write_text", "usage_error", "refuse_usage", "parse_line"}

PAGE = f"{TOP}/docs/AUDIT.md"

# how fast a reader goes who looks at each line until it is clear
LINES_A_MINUTE = 6


def said_by(functions):
    """The words that the clauses of these functions name."""
    found = set()
    for crate, name in functions:
        if not any(item == name for item, _, _ in each_item(crate)):
            raise SystemExit(f"audit: {crate} has no function {name}")
        for item, text, at in each_item(crate):
            if item == name:
                found |= cited(clauses(text, at), *imports_of(text))
    return found


def commands():
    """The commands with their functions. A function that the program calls and that is in no row gets one of its own."""
    text = read(f"{CRATES}/ticurses/src/run.rt")
    called = [
        (crate, name)
        for crate, names in re.findall(r"^use ((?:ti|cur|vt)_\w+)::\{([^}]*)\}", text, re.M)
        for name in re.findall(r"\b[a-z]\w*", names)
    ]
    known = {it for _, functions in COMMANDS for it in functions}
    return COMMANDS + [(it[1], [it]) for it in called if it not in known and it[1] not in OF_ALL]


def lines_of(crate, module, words):
    """How many lines of a file state these words."""
    blocks = spec(crate, module).blocks
    return sum(1 for word in words for line in blocks[word] if line.strip())


def files_in(known, crates):
    """The files of the words `known`, from the bottom up: each with its words that are in `known`, in its own order."""
    found = {}
    for crate in crates:
        for module in files_of(crate, "specs", ".antt"):
            words = [word for word in spec(crate, module).order if (crate, module, word) in known]
            if words:
                found[crate, module] = words
    placed = []

    def place(key):
        if key in placed:
            return
        placed.append(None)
        there = spec(*key)
        for crate, module, _ in sorted(
            cited("\n".join("\n".join(there.blocks[it]) for it in found[key]), there.words, there.modules)
        ):
            # only files of its own crate: files of other crates are placed with their crate
            if (
                crate == key[0]
                and (crate, module) in found
                and (crate, module) not in placed
                and (crate, module) != key
            ):
                place((crate, module))
        placed.append(key)

    for key in found:
        place(key)
    return [(key, found[key]) for key in placed if key]


def types_of(known):
    """The types of the code that these words name: for each file of src/ their names."""
    found = {}
    for crate, module, word in known:
        there = spec(crate, module)
        names = set(" ".join(there.blocks[word]).replace("(", " ").replace(")", " ").replace(";", " ").split())
        for name in names & set(there.types):
            owner, path, kind = there.types[name]
            found.setdefault((owner, path), set()).add(kind)
    return found


def library_of(known):
    """The words of the toolchain's library that these words name: for each file of the kit its words as the files of
    specs/ write them, and the lines of what states each."""
    found = {}
    for module, word in kit_words.imported(known):
        path, owner, lines = kit_words.place_of(module, word)
        words, stated = found.setdefault(path, (set(), {}))
        words.add(word)
        stated[owner] = lines
    return {path: (sorted(words), sum(stated.values())) for path, (words, stated) in found.items()}


def named(key, words):
    """The words of a file as a list in a page."""
    return ", ".join(f"`{it}`" for word in words for it in spec(*key).shown(word))


class Lists:
    """Tables of words, and the words that they have had so far; `wrapped` breaks a text into lines."""

    def __init__(self, parts, wrapped):
        self.parts, self.wrapped, self.out = parts, wrapped, []
        self.read = set()
        # for each part of the page the files and the lines of its tables
        self.totals = {}

    def row(self, key, words):
        crate, module = key
        lines = lines_of(crate, module, words)
        link = f"[{crate} `{module}`](../crates/{crate}/specs/{module}.antt)"
        self.out.append(f"| {link} | {named(key, words)} | {lines} | {math.ceil(lines / LINES_A_MINUTE)} |")
        return lines

    def count(self, part, files, lines):
        before = self.totals.get(part, (0, 0))
        self.totals[part] = before[0] + files, before[1] + lines

    def table(self, part, known, first=None):
        """A table of the files that have these words, but for those that an earlier table had."""
        left = known - self.read
        files = files_in(left, crates_listed())
        if first:
            files = [it for it in files if it[0] == first] + [it for it in files if it[0] != first]
        self.out += ["| file | words | lines | minutes |", "|---|---|---|---|"]
        lines = sum(self.row(*it) for it in files)
        self.count(part, len(files), lines)
        self.out += [f"| {len(files)} files | {len(left)} words | {lines} | {math.ceil(lines / LINES_A_MINUTE)} |", ""]
        self.read |= known

    def types(self, known):
        """A table of the types of the code."""
        rows, count, lines = [], 0, 0
        for (crate, path), names in sorted(types_of(known).items()):
            text = read(f"{CRATES}/{crate}/src/{path}.rt")
            own = sum(kit_words.declaration(text, it) for it in names)
            link = f"[{crate} `{path}`](../crates/{crate}/src/{path}.rt)"
            rows.append(f"| {link} | {', '.join(f'`{it}`' for it in sorted(names))} | {own} |")
            count, lines = count + len(names), lines + own
        self.say(
            f"These {count} types of the code are named by the words of the table. The lines are those of each "
            "declaration in the crate's `src/`, with its doc comments."
        )
        total = f"| {len(rows)} files | {count} types | {lines} |"
        self.out += ["| file | types | lines |", "|---|---|---|", *rows, total, ""]
        self.totals["the types of code"] = count, lines

    def library(self, known):
        """A table of the words of the toolchain's library. Without the toolchain the page keeps what it has."""
        if not kit_words.folder():
            kept = re.search(r"^And these (\d+) words.*?\| (\d+) \|\n\n(?=### )", read(PAGE), re.M | re.S)
            self.out += kept[0].rstrip("\n").split("\n") + [""]
            self.totals["the library's words"] = int(kept[1]), int(kept[2])
            return
        found = library_of(known)
        words, lines = sum(len(it) for it, _ in found.values()), sum(it for _, it in found.values())
        self.say(
            f"And these {words} words of the toolchain's library are named there: numbers, lists, options, sums, and "
            "what Rust's operators mean. The files are those of the kit, in the folder `rattle` beside the page that "
            "`rt doc` names; a word without a file is built into the prover. A constructor counts with its type."
        )
        self.out += ["| file of the kit | words | lines |", "|---|---|---|"]
        for path, (names, own) in sorted(found.items()):
            shown = ", ".join(f"`{it.replace('|', chr(92) + '|')}`" for it in names)
            file = "built in" if path == kit_words.BUILT_IN else f"`{path}`"
            self.out.append(f"| {file} | {shown} | {own} |")
        self.out += [f"| {len(found) - 1} files | {words} words | {lines} |", ""]
        self.totals["the library's words"] = words, lines

    def say(self, text):
        self.out += [self.wrapped(text), ""]


def reading(lists):
    """The order to read: for the main theorem, then `verify`, the library for C, and each command."""
    lists.out += ["### The main theorem", ""]
    lists.say(
        "To believe the main theorem, read this table: first the statement, `Ran`, then the words that it names, from the "
        "terminal up to a call's step."
    )
    theorem = closure({("cur_play", "Log", "Ran")})
    lists.table("the main theorem", theorem, ("cur_play", "Log"))
    lists.types(theorem)
    lists.library(theorem)
    lists.out += ["### What `verify` adds", ""]
    lists.say(
        "`run` takes a certificate that `verify` has accepted (the trait `Certificate` of ti_conforms, whose `rows` promises "
        "`IsChecked`). To believe a yes of `verify`, read this table too: `Conforms` says what an accepted certificate means, and "
        "`IsTableOf` what its text is."
    )
    lists.table(
        "verify",
        closure(
            said_by([("ti_cert", "verify"), ("ti_cert", "verify_from")]) | roots_of("ti_conforms", {"Certificate"})
        ),
    )
    lists.out += ["### The library for C", ""]
    lists.say("To believe the library for C, also read these words, of its exported functions and its laws.")
    lists.table("the library for C", closure(roots_of("curses_c")))
    lists.say("To believe the library of entries alone, read these.")
    lists.table("the library of entries", closure(roots_of("terminfo_c")))
    lists.out += ["### The commands", ""]
    lists.say("To believe a command's answer, also read its table: the words of the functions that answer it.")
    for command, functions in commands():
        lists.out += [f"#### {command}", ""]
        lists.table("the commands", closure(said_by(functions)))
    return "\n".join(lists.out)


def others(lists):
    """A list for each part: the words that exported clauses name, and those that these name, without those of a table;
    and the files to which no clause leads."""
    known = closure(set().union(*map(roots_of, PUBLISHED)))
    out = []
    for part, names in lists.parts:
        rows = []
        for (crate, module), words in files_in(known - lists.read, reversed(names)):
            link = f"[{crate} `{module}`](../crates/{crate}/specs/{module}.antt)"
            rows.append(lists.wrapped(f"- {link}: {named((crate, module), words)}."))
            lists.count("the other calls", 1, lines_of(crate, module, words))
        if rows:
            out += [f"### {part}\n"] + rows + [""]
    known |= lists.read
    rest = []
    for crate in crates_listed():
        for module in files_of(crate, "specs", ".antt"):
            if spec(crate, module).order and not any(one[:2] == (crate, module) for one in known):
                rest.append(f"{crate} `{module}`")
    out.append("### Not needed\n")
    out.append(
        lists.wrapped(
            "No clause of a published call leads to these files of `specs/`. They serve private functions, the own calls of "
            "helper crates, or a program: " + ", ".join(rest) + "."
        )
    )
    return "\n".join(out) + "\n"
