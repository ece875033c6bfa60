"""The version of all that is made here, as the program's own source has it.

    python3 -B tools/version.py             prints it
    python3 -B tools/version.py --check     says which pages and sources name another one, with status 1 if there is one"""

import re
import sys

from crates import TOP

SOURCE = f"{TOP}/crates/ti_arguments/src/help.rt"


def written():
    """The version that `ticurses --version` prints."""
    with open(SOURCE, encoding="utf-8") as file:
        found = re.findall(r'^pub const VERSION: &str = "([0-9]+\.[0-9]+\.[0-9]+)";$', file.read(), re.M)
    if len(found) != 1:
        sys.exit(f"version: {SOURCE} has {len(found)} versions")
    return found[0]


VERSION = written()
# a program that was linked with a library finds every later one of the same first number
SONAME = f"libticurses.so.{VERSION.split('.')[0]}"
TERMINFO_SONAME = f"libticurses_terminfo.so.{VERSION.split('.')[0]}"

# what names the version or the library by it: the file, and how
NAMED = [
    ("NEWS.md", r"^## (\d+\.\d+\.\d+)", VERSION),
    ("README.md", r"\bticurses[-_](\d+\.\d+\.\d+)", VERSION),
    ("bindings/python/ticurses/_raw.py", r"\b(libticurses\.so\.\d+)", SONAME),
    ("bindings/python/ticurses/_entry.py", r"\b(libticurses_terminfo\.so\.\d+)", TERMINFO_SONAME),
]


def main():
    if sys.argv[1:] != ["--check"]:
        print(VERSION)
        return 0
    status = 0
    for path, form, wanted in NAMED:
        with open(f"{TOP}/{path}", encoding="utf-8") as file:
            found = re.findall(form, file.read(), re.M)
        # of NEWS the newest is first
        for name in found[:1] if path == "NEWS.md" else found or [None]:
            if name != wanted:
                print(f"version: {path} has {name}, and {wanted} is right")
                status = 1
    return status


if __name__ == "__main__":
    sys.exit(main())
