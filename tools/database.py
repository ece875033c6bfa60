#!/usr/bin/env python3
"""Writes docs/DATABASE.md: what `survey --json --all` says of all entries of the system's ncurses, and the faults of
tools/faults.txt.

Needs infocmp and the entries of ncurses-base and ncurses-term. Each fault is run again; one that no longer shows is
reported, and the page isn't written then."""

import collections
import json
import os
import re
import subprocess
import sys
import textwrap

from causes import MEANING
from crates import TOP

ROWS, COLS = "24", "80"
KNOWN = (
    "vt100 vt102 vt220 vt320 vt420 vt52 ansi pcansi dumb linux xterm xterm-256color xterm-color xterm-direct xterm-kitty "
    "screen screen-256color tmux tmux-256color rxvt rxvt-256color rxvt-unicode-256color gnome konsole vte putty mintty "
    "kitty alacritty foot iTerm2.app nsterm st st-256color terminology Eterm cygwin cons25 wsvt25 hurd sun eterm-color "
    "teraterm wy50 wy60 tvi925 hp2392 ibm3151"
).split()


def wrapped(text, indent=""):
    return "\n".join(textwrap.wrap(text, 120, subsequent_indent=indent, break_long_words=False, break_on_hyphens=False))


def run(words, given=None):
    return subprocess.run(words, input=given, stdout=subprocess.PIPE, stderr=subprocess.PIPE, cwd=TOP, check=False)


def files():
    """The compiled files of the system, each once, in the order of their names."""
    found = {}
    for folder in run(["infocmp", "-D"]).stdout.decode().split():
        for at, _, names in os.walk(folder):
            for name in names:
                path = os.path.join(at, name)
                if not os.path.islink(path) and len(os.path.basename(at)) == 1:
                    found.setdefault(name, path)
    return [found[name] for name in sorted(found)]


def survey(paths):
    """Each entry's first name with its verdict in the words of a line of `survey`, and all objects that are noes.

    The first object of a file has its verdict; further ones are further faults of the entry."""
    lines = run(["./ticurses", "survey", "--json", "--all", ROWS, COLS, *paths]).stdout.decode().splitlines()
    objects = [json.loads(line) for line in lines]
    first = {}
    for found in objects:
        first.setdefault(found["file"], found)
    return [(found["entry"], words_of(found)) for found in first.values()], [found for found in objects if found["verdict"] == "no"]


def words_of(found):
    """An object's verdict in the words of a line of `survey`."""
    if found["verdict"] == "no":
        return f"no {' '.join([found['capability'], *map(str, found['parameters'])])}: {found['cause']}"
    return found["verdict"]


def place_of(name):
    """The file of an entry, links included."""
    for folder in run(["infocmp", "-D"]).stdout.decode().split():
        path = f"{folder}/{name[0]}/{name}"
        if os.path.exists(path):
            return os.path.realpath(path)
    return None


def cause_of(verdict):
    """A refusal's cause and capability."""
    found = re.match(r"no (\S+)[\d ]*: (\w+)", verdict)
    return (found.group(2), found.group(1)) if found else None


def counts_table(verdicts, noes):
    """How many entries have which verdict, and how many faults have which cause."""
    counts = collections.Counter("yes" if verdict == "yes" else (cause_of(verdict) or ("refused",))[0] for _, verdict in verdicts)
    faults = collections.Counter(found["cause"] for found in noes)
    rows = [("**a certificate**", counts.pop("yes"), "", "")]
    rows += [
        (f"`{cause}`", counts[cause], faults[cause] or "", MEANING.get(cause, "the file could not be read"))
        for cause in sorted(counts | faults, key=lambda cause: (-counts[cause], -faults[cause]))
    ]
    return "| verdict | entries | faults | meaning |\n|---|---|---|---|\n" + "".join(f"| {a} | {b} | {c} | {d} |\n" for a, b, c, d in rows)


def about_faults(verdicts, noes):
    """The paragraph below the table of counts."""
    refused = sum(cause_of(verdict) is not None for _, verdict in verdicts)
    return wrapped(
        f"An entry's verdict names the first fault along the certificate's lines. The column \"faults\" counts all {len(noes)} "
        f"faults of the {refused} entries without a certificate. Most of these entries are for terminals of other kinds than "
        "T: attributes take a cell on the screen (`xmc`), the terminal prints on paper (`hc`, `os`), or it has control "
        "functions of its own.")


def causes_table(verdicts):
    """Causes with the capability, how often, and two examples."""
    groups = collections.defaultdict(list)
    for name, verdict in verdicts:
        if cause_of(verdict):
            groups[cause_of(verdict)].append(name)
    rows = sorted(groups.items(), key=lambda item: (-len(item[1]), item[0]))
    return "| cause | capability | entries | such as |\n|---|---|---|---|\n" + "".join(
        f"| {cause} | `{cap}` | {len(names)} | {', '.join(names[:2])} |\n" for (cause, cap), names in rows)


def known_table(verdicts):
    """The verdicts on well-known terminals."""
    by_path = dict(verdicts)
    yes, no = [], []
    for name in KNOWN:
        path = place_of(name)
        verdict = by_path.get(names_at(path)) if path else None
        if verdict == "yes":
            yes.append(f"`{name}`")
        elif verdict:
            no.append(f"| `{name}` | {verdict} |\n")
    return wrapped("A certificate: " + ", ".join(yes) + ".") + "\n\n| no certificate | verdict |\n|---|---|\n" + "".join(no)


def names_at(path):
    """An entry's first name, which is the one that `survey` prints."""
    return run(["./ticurses", "infocmp", path]).stdout.decode().split("|", 1)[0].split(",", 1)[0].strip()


PLAIN = "\tclear=\\E[H\\E[2J, cup=\\E[%i%p1%d;%p2%dH, sgr0=\\E[m,\n"


def alone(name, caps):
    """A plain entry with these strings of an entry, as source."""
    lines = run(["infocmp", "-1", name]).stdout.decode().splitlines()
    kept = [line for line in lines if re.match(rf"\t({caps})=", line)]
    return (f"{name}|,\n" + "".join(f"{line}\n" for line in kept) + PLAIN).encode()


def code_of(text):
    """A text as code in a cell of a table. A text with backticks is between pairs of them."""
    text = text.replace("|", "\\|")
    return f"`` {text} ``" if "`" in text else f"`{text}`"


def fault_row(fields):
    """A fault's row of its table, and what is stale of it."""
    names, caps, wanted, does, should, log = fields
    first = names.split(",")[0]
    given = alone(first, caps)
    said = run(["./ticurses", "check", "--", f"-:{first}", ROWS, COLS], given).stderr.decode().splitlines()
    refused = next((line[len("refused: "):] for line in said if line.startswith("refused: ")), "yes")
    at = re.search(r"no (\w+)", refused)
    cap = at.group(1) if at else caps
    string = re.search(rf"^\t{cap}=(.*),$", given.decode(), re.M)
    code = code_of(f"{cap}={string.group(1) if string else ''}")
    words = f"one {first} {caps}" if "|" not in caps else f"one {first} '{caps}'".replace("|", "\\|")
    row = f"| {names.replace(',', ', ')} | {code} | {does} | {should} | `{words}`: {refused} | {log} |"
    stale = "" if refused.startswith(wanted) else f"{first}: {refused}, and was to be {wanted}"
    return row, stale


def faults():
    """The lists of tools/faults.txt, each fault with what its run shows, and how many there are."""
    with open(f"{TOP}/tools/faults.txt", encoding="utf-8") as file:
        lines = [line for line in file.read().splitlines() if not re.match(r"#( |$)", line)]
    out, stale, count = [], [], 0
    for line in lines:
        fields = [part.strip() for part in (line + " ").split(" | ")]
        if len(fields) != 6 or line.startswith("|"):
            out.append(line)
            continue
        row, fault = fault_row(fields)
        out.append(row)
        stale += [fault] if fault else []
        count += 1
    if stale:
        sys.exit("database: not as tools/faults.txt says:\n" + "\n".join(stale))
    return "\n".join(out).strip(), count


def main():
    paths = files()
    verdicts, noes = survey(paths)
    version = run(["infocmp", "-V"]).stdout.decode().strip()
    list_of_faults, count = faults()
    page = f"""# What the checker finds in ncurses' database

Made by `tools/database.py` from {version} (Debian's ncurses-base and ncurses-term): {len(verdicts)} entries, each checked at
{ROWS} by {COLS} by `./ticurses survey --json --all`. The lists of faults are tools/faults.txt, read by hand; the script
runs each again.

## Verdicts

{counts_table(verdicts, noes)}
{about_faults(verdicts, noes)}

## Well-known terminals

{known_table(verdicts)}
## Causes

{causes_table(verdicts)}
{list_of_faults}
"""
    with open(f"{TOP}/docs/DATABASE.md", "w", encoding="utf-8") as file:
        file.write(page)
    print(f"database: {len(verdicts)} entries, {count} faults shown again")


if __name__ == "__main__":
    main()
