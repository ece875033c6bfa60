"""The toolchain's verdict on each crate of a build: the line `logic=proved ..`, and the lines that name what is assumed of
functions in C. They lie beside what is built, and are kept with it."""

import hashlib
import os
import re
import subprocess

from crates import TOP

VERDICT = re.compile(r"^(?:axioms .*|logic=proved .*)$", re.M)


def _own(crate):
    return f"{TOP}/crates/{crate}/out/verdict"


def _said(log):
    """The lines of a verdict in what the toolchain said; none where it has not proved the crate in that run."""
    try:
        with open(log, encoding="utf-8", errors="replace") as file:
            lines = VERDICT.findall(file.read())
    except OSError:
        return []
    return lines if any(it.startswith("logic=") for it in lines) else []


def note(crate):
    """Takes the verdict on a crate from the log of its build. A crate that was built before has the verdict of that
    build."""
    lines = _said(f"{TOP}/crates/{crate}/out/build.log")
    if lines:
        with open(_own(crate), "w", encoding="utf-8") as file:
            file.writelines(f"{it}\n" for it in lines)


def _asked(crate):
    """Has the toolchain say its verdict on a crate that it has proved: it takes what it kept, and proves nothing again."""
    log = f"{TOP}/crates/{crate}/out/check.log"
    try:
        with open(log, "wb") as file:
            subprocess.run(
                ["rt", "check", "--jobs", "1"],
                cwd=f"{TOP}/crates/{crate}",
                stdin=subprocess.DEVNULL,
                stdout=file,
                stderr=file,
                check=True,
            )
    except (OSError, subprocess.CalledProcessError):
        return []
    return _said(log)


def _of(crate):
    try:
        with open(_own(crate), encoding="utf-8") as file:
            return file.read().splitlines()
    except OSError:
        return _asked(crate)


def heading(sources):
    """The line that ties verdicts to their sources."""
    return f"sources {hashlib.sha256(sources.encode('utf-8', 'surrogateescape')).hexdigest()}\n"


def write(made, sources, crates, kit):
    """Writes the verdicts on all crates of a build, the toolchain's name first."""
    lines = [f"toolchain {os.fsdecode(kit or b'unknown').strip()}\n"]
    lines += [f"{crate}: {it}\n" for crate in crates for it in _of(crate) or ["no verdict is known"]]
    with open(f"{made.verdicts}.new", "w", encoding="utf-8") as file:
        file.writelines([heading(sources), *lines])
    os.replace(f"{made.verdicts}.new", made.verdicts)


def read(made, sources):
    """The verdicts on what is built from these sources, as lines; None where they aren't known."""
    try:
        with open(made.verdicts, encoding="utf-8") as file:
            lines = file.read().splitlines(keepends=True)
    except OSError:
        return None
    return lines[1:] if lines[:1] == [heading(sources)] else None
