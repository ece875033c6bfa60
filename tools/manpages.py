#!/usr/bin/env python3
"""Writes the manual pages in man/ (mdoc) from what `ticurses --help` and `ticurses COMMAND --help` print, and the members
of a report from docs/report.schema.json.

tests/manual.sh compares them with what the program prints."""

import re
import subprocess

from crates import TOP
from members import members

DATE = "November 27, 2026"
MADE = '.\\" Made by tools/manpages.py from what ticurses COMMAND --help prints.\n'
FIRST_CALLS = "A script has a call on each line"


def escaped(text):
    """A line of text as roff reads it; text in backquotes is bold."""
    text = text.replace("\\", "\\e").replace("-", "\\-").replace("^", "\\(ha").replace("~", "\\(ti")
    text = re.sub(r"`([^`]*)`", r"\\fB\1\\fR", text)
    return f"\\&{text}" if text[:1] in (".", "'") else text


def word(text):
    """A word of a macro's line."""
    return escaped(text).replace('"', "\\(dq")


class Help:
    """The parts of what `--help` prints."""

    def __init__(self, text):
        self.about, usage, *blocks = text.rstrip("\n").split("\n\n")
        self.usage = usage.removeprefix("Usage: ").split()
        self.lists, self.body = {}, []
        for block in blocks:
            head, *lines = block.split("\n")
            if head in ("Commands:", "Arguments:", "Options:"):
                self.lists[head[:-1]] = [re.split(r"  +", line.strip(), maxsplit=1) for line in lines]
            else:
                self.body.append(block.split("\n"))

    def options(self):
        """The options and their texts, but for help and version."""
        return [it for it in self.lists.get("Options", []) if not it[0].endswith(("--help", "--version"))]

    def commands(self):
        return [name for name, _ in self.lists["Commands"] if name != "help"]


def flag(option):
    """An option as macros: `--out <FILE>`, `-c`."""
    name, *value = option.split()
    shown = f"Fl {escaped(name.removeprefix('-'))}"
    return shown + "".join(f" Ar {it.strip('<>')}" for it in value)


def synopsis(name, page):
    """The lines of a command in the synopsis."""
    lines = [".Nm", f".Cm {name}"]
    for part in page.usage[2:]:
        shown = re.match(r"[<\[](\w+)[>\]](\.\.\.)?$", part)
        several = " ..." if shown[2] else ""
        if part == "[OPTIONS]":
            lines += [f".Op {flag(option)}" for option, _ in page.options()]
        elif part.startswith("["):
            lines.append(f".Op Ar {shown[1]}{several}")
        else:
            lines.append(f".Ar {shown[1]}{several}")
    return lines


def tagged(items):
    """A list of terms, which are macros' lines already, and their texts."""
    lines = [".Bl -tag -width Ds"]
    for term, text in items:
        lines += [f".It {term}", *(escaped(line) for line in text)]
    return [*lines, ".El"]


def items_of(lines):
    """The terms and texts of indented lines: a term ends at two spaces or with its line; what is indented further goes on
    with a text."""
    items = []
    for line in lines:
        if line.startswith("      "):
            items[-1][1].append(line.strip())
        else:
            term, *text = re.split(r"  +", line.strip(), maxsplit=1)
            items.append((term, text))
    return items


def block_lines(block):
    """A block of help: text, lists, and lines as they are typed."""
    lines, rest = [".Pp"], list(block)
    while rest:
        count = next((at for at, line in enumerate(rest) if line.startswith(" ") != rest[0].startswith(" ")), len(rest))
        part, rest = rest[:count], rest[count:]
        if not part[0].startswith(" "):
            lines += [escaped(line) for line in part]
        elif any(not text for _, text in items_of(part)):
            lines += [f".Dl {word(line.strip())}" for line in part]
        else:
            lines += tagged((f"Li {word(term)}", text) for term, text in items_of(part))
    return lines


def header(title, section, name, about):
    return [f".Dd {DATE}", f".Dt {title} {section}", ".Os", ".Sh NAME", f".Nm {name}", f".Nd {escaped(about)}"]


def program_page(helps):
    """ticurses(1). `helps` has the parsed help of each command, and that of the program under the empty name."""
    top, names = helps[""], helps[""].commands()
    lines = header("TICURSES", 1, "ticurses", top.about)
    lines += [".Sh SYNOPSIS", *(line for name in names for line in synopsis(name, helps[name]))]
    lines += [".Sh DESCRIPTION", "The commands are:"]
    lines += tagged((f"Cm {name}", [text]) for name, text in top.lists["Commands"] if name != "help")
    statuses = next(block for block in top.body if block[0] == "Exit status:")
    lines += [line for block in top.body if block is not statuses for line in block_lines(block)]
    lines += [".Sh COMMANDS"]
    for name in names:
        page = helps[name]
        words = [(f"Ar {it.strip('<>[].')}", [text]) for it, text in page.lists.get("Arguments", [])]
        lines += [f".Ss {name}", *(escaped(line) for line in page.about.split("\n"))]
        lines += tagged([*((flag(it), [text]) for it, text in page.options()), *words])
        lines += [line for block in page.body for line in block_lines(block)]
    lines += [".Sh MEMBERS", "An object of", ".Fl \\-json", "has these members:"]
    lines += tagged((f"Li {word(name)}", [text]) for name, text in members())
    lines += [".Sh EXIT STATUS", *block_lines(statuses[1:])[1:]]
    return MADE + "\n".join([*lines, ".Sh SEE ALSO", ".Xr infocmp 1 ,", ".Xr tic 1 ,", ".Xr ticurses 3 ,", ".Xr terminfo 5 ,", ".Xr ticurses\\-script 5", ""])


def script_page(helps, example):
    """ticurses-script(5): what `play --help` says of a script, why calls are refused (`show --help`), and an example."""
    body = helps["play"].body
    first = next(at for at, block in enumerate(body) if block[0].startswith(FIRST_CALLS))
    last = next(at for at, block in enumerate(body) if block[0].startswith("Exit status"))
    refused = next(block for block in helps["show"].body if block[0] == "NAME is one of:")
    lines = header("TICURSES-SCRIPT", 5, "ticurses\\-script", "curses calls that ticurses plays")
    lines += [".Sh DESCRIPTION", *(line for block in body[first:last] for line in block_lines(block))]
    lines += [".Sh DIAGNOSTICS", "A call may be refused.", "The reason, which", ".Cm ticurses show", "prints, is one of:"]
    lines += block_lines(refused[1:])[1:]
    lines += [".Sh EXAMPLES", ".Bd -literal", *(escaped(line) for line in example.rstrip("\n").split("\n")), ".Ed"]
    return MADE + "\n".join([*lines, ".Sh SEE ALSO", ".Xr ticurses 1 ,", ".Xr curses 3 ,", ".Xr ticurses 3", ""])


def pages(helps, example):
    """The manual pages by their paths, from what `--help` prints of each command and of the program (the empty name)."""
    parsed = {name: Help(text) for name, text in helps.items()}
    return {"man/ticurses.1": program_page(parsed), "man/ticurses-script.5": script_page(parsed, example)}


def printed(name):
    words = [f"{TOP}/ticurses", *([name] if name else []), "--help"]
    return subprocess.run(words, check=True, stdout=subprocess.PIPE, text=True).stdout


def box():
    """The script that is the manual's example."""
    with open(f"{TOP}/examples/box.script", encoding="utf-8") as file:
        return file.read()


def main():
    helps = {"": printed("")}
    helps |= {name: printed(name) for name in Help(helps[""]).commands()}
    for path, text in pages(helps, box()).items():
        with open(f"{TOP}/{path}", "w", encoding="utf-8") as file:
            file.write(text)


if __name__ == "__main__":
    main()
