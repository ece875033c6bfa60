"""The library of entries alone (include/ticurses_terminfo.h): the header by itself and beside ticurses.h, what the forms
of the library export, every answer (c/terminfo.c), and `ticurses.Entry` of Python beside ncurses' library: each
capability of entries of the system's database by name and by position, and expansions of their strings."""

import ctypes
import ctypes.util
import importlib
import os
import random
import re
import subprocess
import sys
import tempfile

from linked import SANITIZED, STRICT, installed, missing
from trying import TOP, held_in, write

HEADER = f"{TOP}/include/ticurses_terminfo.h"
TERMS = (
    "xterm-256color", "xterm", "linux", "vt100", "vt220", "screen", "screen-256color", "tmux-256color", "rxvt", "ansi",
    "dumb", "sun", "cygwin", "hurd", "mach", "pcansi", "Eterm", "wsvt25",
)


def codes_of(header, word):
    """The codes that a header declares, by name."""
    text = re.search(rf"^enum {word}_code \{{(.*?)^\}}", held_in(f"{TOP}/include/{header}.h").decode(), re.M | re.S)[1]
    found = re.findall(rf"^    {word.upper()}_(\w+) = (\d+)", text, re.M)
    return {name: int(number) for name, number in found}


def check_codes():
    """Codes that both headers have are the same; each has words of its own."""
    one, other = codes_of("ticurses", "ticurses"), codes_of("ticurses_terminfo", "ticurses_terminfo")
    for name in one.keys() & other.keys():
        if one[name] != other[name]:
            sys.exit(f"terminfo: {name} is {one[name]} in one header and {other[name]} in the other")
    return other


def check_header(prefix, work):
    """Each compiler takes the header alone and beside the others, and the library exports what it declares."""
    alone = "#include <ticurses_terminfo.h>\nint main(void) { return ticurses_terminfo_text(0) == 0; }\n"
    write(f"{work}/alone.c", alone.encode())
    write(f"{work}/beside.c", f"#include <ticurses.h>\n#include <ticurses_terminal.h>\n{alone}".encode())
    found = [f"-I{prefix}/include", "-fsyntax-only", "-Wshadow", "-Wconversion", *STRICT]
    for compiler in ("gcc", "clang"):
        if missing("terminfo", compiler):
            continue
        for source in ("alone", "beside"):
            subprocess.run([compiler, "-std=gnu99", *found, f"{work}/{source}.c"], check=True)
    if not missing("terminfo", "g++"):
        for source in ("alone", "beside"):
            subprocess.run(["g++", "-std=c++11", "-x", "c++", *found, f"{work}/{source}.c"], check=True)
    declared = set(re.findall(r"\b(ticurses_raw_terminfo_\w+)\(", held_in(HEADER).decode()))
    for words, form in ((["-D"], "so"), (["-g"], "a")):
        words = ["nm", *words, "--defined-only", f"{prefix}/lib/libticurses_terminfo.{form}"]
        listed = subprocess.run(words, stdout=subprocess.PIPE, text=True, check=True).stdout
        exported = {it[2] for it in map(str.split, listed.splitlines()) if len(it) == 3}
        if exported != declared:
            sys.exit(f"terminfo: the library exports {sorted(exported)}, and the header declares {sorted(declared)}")


def check_answers(prefix, work):
    """Every answer, with both libraries in one program and with the sanitizers."""
    source = f"{TOP}/tests/c/terminfo.c"
    archives = [f"{prefix}/lib/libticurses_terminfo.a"]
    for name, words in (("plain", ["-O2"]), ("sanitized", SANITIZED)):
        program = f"{work}/{name}"
        subprocess.run(["cc", "-std=c99", *STRICT, *words, f"-I{prefix}/include", source, *archives, "-o", program], check=True)
        subprocess.run([program], check=True)
    write(f"{work}/both.c", (held_in(source).decode().replace("int main(void) {", "#include <ticurses.h>\n\nint main(void) {"
          "\n    ticurses session = {0};\n    HOLD(ticurses_endwin(&session) == TICURSES_CLOSED);", 1)).encode())
    words = [f"-I{prefix}/include", f"{work}/both.c", *archives, f"{prefix}/lib/libticurses.a", "-o", f"{work}/both"]
    subprocess.run(["cc", "-std=c99", *STRICT, *words], check=True)
    subprocess.run([f"{work}/both"], check=True)
    print("terminfo: every answer is as the header says, with the sanitizers and beside the library of sessions too")


class Ncurses:
    """ncurses' own library: what it knows of an entry."""

    def __init__(self):
        name = ctypes.util.find_library("tinfo") or ctypes.util.find_library("ncursesw")
        self.library = ctypes.CDLL(name) if name else None
        if name:
            self.library.tigetstr.restype = self.library.tparm.restype = ctypes.c_void_p

    def names(self, array, count):
        return [it.decode() for it in (ctypes.c_char_p * count).in_dll(self.library, array)]

    def set_up(self, term):
        error = ctypes.c_int(0)
        with open(os.devnull, "rb") as null:
            return self.library.setupterm(term.encode(), null.fileno(), ctypes.byref(error)) == 0

    def string(self, name):
        found = self.library.tigetstr(name.encode())
        return None if found in (None, ctypes.c_void_p(-1).value) else ctypes.string_at(found)

    def expanded(self, string, numbers):
        found = self.library.tparm(string, *(ctypes.c_long(it) for it in numbers))
        return None if found is None else ctypes.string_at(found)


def check_capabilities(entry, peer):
    """Each capability by its name and by its position."""
    for position, name in enumerate(peer.names("boolnames", 44)):
        if not entry.flag(name) == entry.flag(position) == bool(peer.library.tigetflag(name.encode())):
            sys.exit(f"terminfo: the flag {name}")
    for position, name in enumerate(peer.names("numnames", 39)):
        # setupterm puts a window's size in their place
        if name in ("cols", "lines"):
            continue
        found = peer.library.tigetnum(name.encode())
        if not entry.number(name) == entry.number(position) == (None if found == -1 else found):
            sys.exit(f"terminfo: the number {name}: {entry.number(name)}, {found}")
    for position, name in enumerate(peer.names("strnames", 414)):
        if not entry.string(name) == entry.string(position) == peer.string(name):
            sys.exit(f"terminfo: the string {name}: {entry.string(name)}, {peer.string(name)}")


def check_expansions(ticurses, entry, peer, chance):
    """The entry's strings for random numbers, except where a text is wanted: equal bytes, or a fault that has a name."""
    count = faults = 0
    for position in range(414):
        string = entry.string(position)
        if not string or b"%" not in string or re.search(rb"%[^dux;]?s|%l", string):
            continue
        numbers = [chance.randrange(256) for _ in range(9)]
        try:
            got = entry.expand(string, *numbers)
        except ticurses.EntryError as error:
            if error.code.name not in ("UNDERFLOW", "BAD_NEST", "BAD_CODE", "OVERFLOW", "BAD_CHAR", "WRONG_KIND"):
                raise
            faults += 1
            continue
        if got != peer.expanded(string, numbers):
            sys.exit(f"terminfo: {string} for {numbers}: {got}, {peer.expanded(string, numbers)}")
        count += 1
    return count, faults


def check_python(prefix, codes):
    """The package beside ncurses."""
    os.environ["TICURSES_TERMINFO_LIBRARY"] = f"{prefix}/lib/libticurses_terminfo.so"
    os.environ["TICURSES_LIBRARY"] = f"{prefix}/lib/libticurses.so"
    sys.path.insert(0, f"{TOP}/bindings/python")
    ticurses = importlib.import_module("ticurses")
    if codes != {it.name: it.value for it in ticurses.EntryCode} or set(ticurses.ENTRY_TEXTS) != set(ticurses.EntryCode):
        sys.exit("terminfo: the package has other codes than the header")
    texts = re.findall(r'^        "(.*)",$', held_in(HEADER).decode(), re.M)
    if texts != list(ticurses.ENTRY_TEXTS.values()):
        sys.exit("terminfo: the package has other words than the header")
    check_errors(ticurses)
    peer, chance = Ncurses(), random.Random(93)
    if not peer.library:
        print("terminfo: ncurses' library is not installed, and what needs it is left out")
        return
    tried = count = faults = 0
    for term in TERMS:
        file = ticurses.find_entry(term)
        if not file or not peer.set_up(term):
            continue
        with ticurses.Entry(file) as entry:
            check_capabilities(entry, peer)
            more, wrong = check_expansions(ticurses, entry, peer, chance)
            tried, count, faults = tried + 1, count + more, faults + wrong
    if tried < 5 or count < 100:
        sys.exit(f"terminfo: only {tried} entries and {count} expansions were compared")
    print(f"terminfo: {tried} entries have ncurses' capabilities, and {count} expansions its bytes; {faults} have a fault")


def check_errors(ticurses):
    """An entry without capabilities: errors, variables, texts, long output, and what is closed."""

    def code(call, *words):
        try:
            call(*words)
        except ticurses.EntryError as error:
            return error.code.name
        return "OK"

    with ticurses.Entry() as entry:
        seen = [
            entry.names == [b"unknown"], entry.string("cup") is None, entry.number("cols") is None, not entry.flag("am"),
            code(entry.string, "am") == "BAD_NAME", code(entry.number, -1) == "BAD_NAME", code(entry.flag, 44) == "BAD_NAME",
            entry.expand("%{3}%PB%p1%s", "text") == b"text", entry.expand("%gB%d%p2%s", 0, b"\0") == b"3\0",
            code(entry.expand, "%{4}%PB%d") == "UNDERFLOW", entry.expand("%gB%{1}%+%PB%gB%d%p1%s", "x" * 4095)[:2] == b"4x",
            entry.expand("%gB%d") == b"4", code(entry.expand, "", "x" * 4096) == "BAD_PARAM",
            code(entry.expand, "", *range(10)) == "BAD_PARAM", code(entry.expand, "%p1%d", 1 << 31) == "OVERFLOW",
            code(ticurses.Entry, b"") == "SHORT", str(ticurses.EntryError(1)) == ticurses.ENTRY_TEXTS[1],
        ]
        if not all(seen):
            sys.exit(f"terminfo: answers of the package: {seen}")
    if code(entry.expand, "x") != "CLOSED":
        sys.exit("terminfo: a closed entry answers")


def main():
    codes = check_codes()
    with tempfile.TemporaryDirectory() as work:
        prefix = installed(work)
        check_header(prefix, work)
        check_answers(prefix, work)
        check_python(prefix, codes)


if __name__ == "__main__":
    main()
