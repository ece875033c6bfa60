"""The sources of the program and of the libraries for C, and whether the built files were made from the present sources.

Built files have a record beside them: the checksum of each source and of each file that was made, as sha256sum prints
them. Built files are current if their record is the one that would be written now. Times don't show that: a source may
be replaced by an older one, or removed."""

import hashlib
import os

from crates import TOP, below, listed
from version import SONAME, TERMINFO_SONAME


def checksum(path):
    # thousands of small files are read for each run of ./ticurses
    descriptor, held = os.open(path, os.O_RDONLY), hashlib.sha256()
    try:
        while piece := os.read(descriptor, 1 << 20):
            held.update(piece)
    finally:
        os.close(descriptor)
    return held.hexdigest()


def files_below(folder):
    """The files below a folder. One that can't be read is an error, and so is a link to a folder."""
    found = []
    with os.scandir(folder) as entries:
        for entry in entries:
            if entry.is_dir(follow_symlinks=False):
                found += files_below(entry.path)
            elif entry.is_symlink() and entry.is_dir():
                raise OSError(f"{entry.path} is a link to a folder")
            else:
                found.append(entry.path)
    return found


def files_of(crate):
    """The files from which a crate is built."""
    folders = [f"{TOP}/crates/{crate}/{part}" for part in ("src", "specs", "proofs")]
    return [file for it in folders if it.endswith("/src") or os.path.lexists(it) for file in files_below(it)]


def size_of(crate):
    """The bytes of a crate's sources, a measure of how long it takes."""
    return sum(os.path.getsize(file) for file in files_of(crate))


def lines_of(files):
    """The line of each file, by its path in the repository."""
    return "".join(f"{checksum(file)}  {file[len(TOP) + 1 :]}\n" for file in sorted(files))


class Made:
    """Files of a crate's out/, which are made from the crate and those below it."""

    def __init__(self, name, crate, paths):
        self.name, self.crate = name, crate
        self.out = f"{TOP}/crates/{crate}/out"
        self.files = [f"{self.out}/{it}" for it in paths]
        self.record = f"{self.out}/{name}.sums"
        # what the toolchain said of each crate (tools/verdicts.py)
        self.verdicts = f"{self.out}/{name}.verdicts"

    def sources(self):
        """The lines of all that it is made from."""
        files = [file for crate in below([self.crate], listed()) for file in files_of(crate)]
        return lines_of([f"{TOP}/crates.txt", *files])

    def is_current(self):
        """Whether it was made from the present sources; no, if that can't be decided."""
        try:
            with open(self.record, encoding="utf-8", errors="surrogateescape") as file:
                return file.read() == self.sources() + lines_of(self.files)
        except (OSError, KeyError):
            return False

    def note(self, sources):
        """Writes the record of what was just made from these sources."""
        text = sources + lines_of(self.files)
        with open(f"{self.record}.new", "w", encoding="utf-8", errors="surrogateescape") as file:
            file.write(text)
        os.replace(f"{self.record}.new", self.record)

    def forget(self):
        """Takes the record away, before anything is made."""
        if os.path.lexists(self.record):
            os.remove(self.record)


PROVED = Made("program", "ticurses", ["ticurses"])
UNPROVED = Made("unproved", "ticurses", ["unproved"])
# both forms of the library, as they are linked
LIBRARY = Made("library", "curses_c", ["linked/libticurses.a", f"linked/{SONAME}"])
# the library of entries alone
TERMINFO = Made("terminfo", "terminfo_c", ["linked/libticurses_terminfo.a", f"linked/{TERMINFO_SONAME}"])
LIBRARIES = (LIBRARY, TERMINFO)
