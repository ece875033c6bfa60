"""Compiled files beside ncurses' infocmp: the system's files read here, and files written here read there."""

import ast
import os
import re
import shutil
import subprocess
import sys
import tempfile

from trying import TOP, Case, run_cases

PLACES = ["/etc/terminfo", "/lib/terminfo", "/usr/lib/terminfo", "/usr/share/terminfo"]
MOST = 120
LETTERS = {"E": 27, "e": 27, "n": 10, "l": 10, "r": 13, "t": 9, "b": 8, "f": 12, "a": 7, "s": 32}


def unescaped(text):
    """The bytes of a string of a source text, terminfo(5)."""
    found, at = [], 0
    while at < len(text):
        octal = re.match(r"\\([0-7]{1,3})", text[at:])
        if octal:
            found.append(int(octal[1], 8) or 128)
            at += len(octal[0])
        elif text[at] == "\\":
            found.append(LETTERS.get(text[at + 1], ord(text[at + 1])))
            at += 2
        elif text[at] == "^":
            found.append(127 if text[at + 1] == "?" else ord(text[at + 1]) & 31 or 128)
            at += 2
        else:
            found.append(ord(text[at]))
            at += 1
    return bytes(found)


def value_of(name, mark, text):
    """The value of a field. The pairs of acsc are a set, since ncurses prints them in the order of letters."""
    if mark == "#":
        return int(text, 0)
    if mark == "=" and name == "acsc":
        string = unescaped(text)
        return {(string[at], string[at + 1]) for at in range(0, len(string) - 1, 2)}
    return unescaped(text) if mark == "=" else True


def fields_of(printed):
    """The names that a printed entry with one field a line has, and its values by capability."""
    lines = [it for it in printed.decode("latin-1").split("\n") if it and not it.startswith("#")]
    found = {}
    for line in lines[1:]:
        name, mark, text = re.fullmatch(r"\s*(\w+)([=#@]?)(.*),", line).groups()
        # what is cancelled is absent
        if mark != "@":
            found[name] = value_of(name, mark, text)
    return (lines[0], found) if lines else None


def infocmp(option, folder, name):
    ran = subprocess.run(["infocmp", option, "-A", folder, name], stdout=subprocess.PIPE, stderr=subprocess.PIPE)
    return ran.stdout


def standard(printed):
    """A listing of ncurses in the standard's spelling. Of `%` and the character after it ncurses prints, and reads, both
    as they are: the caret of `%^`, exclusive or, begins no control character there, and in standard text it would."""
    return re.sub(rb"%([ -~])", lambda code: b"%\\^" if code[1] == b"^" else code[0], printed)


def table_of(folder, name):
    """The system's names by kind, and which of them that begin with OT the entry has: `infocmp -1` leaves these out."""
    text = infocmp("-E", folder, name).decode("latin-1")
    literals = dict(re.findall(r'static char (\w+)\s*\[\] = ("(?:[^"\\]|\\.)*");', text))
    kinds, held = [], {}
    for part in re.findall(r"_data\[\] = \{\n(.*?)\};", text, re.S)[:3]:
        rows = re.findall(r"/\* *\d+: (\w+) *\*/\s*(\w+)", part)
        kinds.append([name for name, _ in rows])
        for name, word in rows:
            if name.startswith("OT") and not re.match("FALSE|ABSENT|CANCELLED", word):
                known = word in literals
                held[name] = ast.literal_eval("b" + literals[word]) if known else word == "TRUE" or int(word)
    return kinds, held


def theirs(folder, name):
    """An entry as the system reads it: the text of `infocmp -1`, its names, and its values by capability."""
    text = standard(infocmp("-1", folder, name))
    names, found = fields_of(text) or ("", {})
    return text, (names, {**found, **table_of(folder, name)[1]})


def is_extended(held):
    """Whether something follows the sections of a file: ncurses puts names of its users there."""
    magic, names, flags, numbers, strings, table = (held[at] + 256 * held[at + 1] for at in range(0, 12, 2))
    wide = magic == 0o1036
    end = 12 + names + flags + (names + flags) % 2 + (4 if wide else 2) * numbers + 2 * strings + table
    return end + end % 2 < len(held)


def system_entries():
    """The folder, the name and the bytes of compiled entries of the system: all, or some from each part."""
    found = {}
    for folder in PLACES:
        for at, _, names in os.walk(folder):
            for name in names:
                path = f"{at}/{name}"
                if os.path.basename(at) in (name[0], f"{ord(name[0]):x}") and not os.path.islink(path):
                    with open(path, "rb") as file:
                        found.setdefault(name, (folder, name, file.read()))
    every = [found[name] for name in sorted(found)]
    return every[:: max(1, -(-len(every) // MOST))]


def made_entry(name, kinds, least):
    """A source text with a value for each capability that the system knows, and what is to be read of it. The
    numbers are this one and above."""
    flags, numbers, strings = kinds
    lines = [f"{name}|each capability,"]
    found = {it: True for it in flags}
    for at, it in enumerate(numbers):
        found[it] = least + at * at
    for at, it in enumerate(strings):
        found[it] = bytes([at % 255 + 1, 0x2C, 255 - at % 255])
    for it in flags:
        lines.append(f"\t{it},")
    for it in numbers:
        lines.append(f"\t{it}#{found[it]},")
    for it in strings:
        lines.append(f"\t{it}=" + "".join(f"\\{byte:03o}" for byte in found[it]) + ",")
    found["acsc"] = {tuple(found["acsc"][:2])}
    return "\n".join(lines).encode() + b"\n", (lines[0], found)


def caret_entry():
    """A source text with an exclusive or, which ncurses lists in a spelling of its own, and what is to be read of it."""
    text = b"caret|exclusive or,\n\tcup=%p1%p2%\\^%c,\n\tel=%%\\^,\n"
    return text, ("caret|exclusive or,", {"cup": b"%p1%p2%^%c", "el": b"%%^"})


def compare(label, mine, other):
    """Ends the script where two readings of an entry differ."""
    if mine != other:
        names = sorted(mine[1].keys() | other[1].keys()) if mine and other else []
        for it in names:
            if mine[1].get(it) != other[1].get(it):
                print(f"  {it}: {mine[1].get(it)} and {other[1].get(it)}", file=sys.stderr)
        sys.exit(f"compiled: {label}: ncurses has {other and other[0]}, and ticurses {mine and mine[0]}")


def compiled_there(folder, name, text):
    """The folder, the name and the bytes of an entry that ncurses' own tic compiles, with a name of its user's."""
    os.mkdir(folder)
    with open(f"{folder}/source", "wb") as file:
        file.write(text + b"\tXyz=abc,\n")
    subprocess.run(["tic", "-x", "-o", folder, f"{folder}/source"], stderr=subprocess.DEVNULL, check=True)
    for letter in (name[0], f"{ord(name[0]):x}"):
        if os.path.exists(f"{folder}/{letter}/{name}"):
            with open(f"{folder}/{letter}/{name}", "rb") as file:
                return folder, name, file.read()
    sys.exit(f"compiled: tic compiled no entry {name}")


def place_for(folder, name):
    """A path in the folder where ncurses looks for the entry: below its first letter, as it is or as a number."""
    os.makedirs(f"{folder}/{name[0]}")
    os.symlink(name[0], f"{folder}/{ord(name[0]):x}")
    return f"{folder}/{name[0]}/{name}"


def version():
    """The version of the system's infocmp, if it is that of ncurses."""
    if not shutil.which("infocmp") or not shutil.which("tic"):
        return (0, 0)
    ran = subprocess.run(["infocmp", "-V"], stdout=subprocess.PIPE, stderr=subprocess.DEVNULL)
    found = re.match(rb"ncurses (\d+)\.(\d+)", ran.stdout)
    return (int(found[1]), int(found[2])) if found else (0, 0)


def main():
    # numbers of 32 bits came with 6.1
    if version() < (6, 1) or not system_entries():
        print("compiled: skipped, since the system has no infocmp and tic of ncurses 6.1 or later, or no compiled entries")
        return
    entries = system_entries()
    kinds, _ = table_of(*entries[0][:2])
    made = [made_entry("legacy", kinds, 0), made_entry("wide", kinds, 2147483647 - 38 * 38), caret_entry()]
    with tempfile.TemporaryDirectory() as work:
        for text, (names, _) in made:
            name = names.split("|")[0]
            entries.append(compiled_there(f"{work}/{name}", name, text))
        read = [theirs(folder, name) for folder, name, _ in entries]
        # each source text, and what the system is to read of the file that is written of it here
        sources = [(text, fields_of(text)) for text, _ in read[: -len(made)]] + made
        names = [wanted[0].split("|")[0] for _, wanted in sources]
        cases = [Case(["infocmp", "{}"], held) for _, _, held in entries]
        for at, name in enumerate(names):
            cases.append(Case(["tic", f"{at}.ti:{name}", "--out", place_for(f"{work}/{at}", name)]))
        data = {f"{at}.ti": text for at, (text, _) in enumerate(sources)}
        ran = run_cases(f"{TOP}/crates/ticurses", cases, data)
        written = [theirs(f"{work}/{at}", name)[1] for at, name in enumerate(names)]
    for (folder, name, _), (_, other), mine in zip(entries, read, ran):
        compare(f"{folder}/{name} read here", fields_of(mine.out), other)
    for at, (name, (_, wanted)) in enumerate(zip(names, sources)):
        compare(f"{name} written here", wanted, written[at])
    extended = sum(is_extended(held) for _, _, held in entries)
    every = sum(map(len, kinds))
    print(f"compiled: {len(entries)} files of ncurses are read here as it reads them; {extended} have an extended section,")
    print(f"compiled: which is left unread. {len(sources)} files written here are read by ncurses as their sources say. 2 files")
    print(f"compiled: each way have all {every} capabilities, 1 of these numbers of 32 bits; 1 has an exclusive or. The order in acsc isn't compared")


main()
