#!/usr/bin/env python3
"""Wrong bodies: those of plants/, which the gate doesn't try, and those of crates/*/must-fail, which it does.

    python3 -B tools/plants.py --check      without any proof: each still applies to its file; which crates have edits
    python3 -B tools/plants.py [CRATE..]    tries those of plants/, of all crates or of these: the prover must refuse each

It tries them in a clone of what is committed, in which only these crates have edits, by `rt ci CRATE..`. Proofs that
`rt ci` has kept on this machine count. Each crate takes the time of a proof, and each wrong body up to a minute."""

import os
import shutil
import subprocess
import sys
import tempfile

from crates import TOP, listed
from ending import Ended, heed, started, stop, why

# the crates whose wrong bodies the gate tries: docs/DECISIONS.md says why these
TRIED = {
    "ti_parm", "ti_resolve", "ti_compiled", "vt_term", "vt_effects", "ti_rows", "ti_cert", "ti_checker", "ti_faults", "ti_fixes", "cur_screens", "cur_windows", "cur_steps",
    "cur_moves", "cur_paint", "cur_play", "curses_c",
}
MOST = 70


class Unfit(Exception):
    """A wrong body that can't be tried as it is written."""


def edits_in(folder):
    """The paths of the wrong bodies right in a folder; there may be none."""
    names = sorted(os.listdir(folder)) if os.path.isdir(folder) else []
    return [f"{folder}/{it}" for it in names]


def parts_of(path):
    """The pairs of a line's word and its text: `file`, `old` or `new`."""
    with open(path, encoding="utf-8") as file:
        lines = file.read().splitlines()
    return [(word, text) for word, colon, text in (it.partition(": ") for it in lines) if colon and word in ("file", "old", "new")]


def apply(path, crate):
    """Applies a wrong body to a copy of its file. `Unfit` if a text to replace isn't there exactly once, or if nothing changes."""
    parts = parts_of(path)
    words = [word for word, _ in parts]
    if words != ["file"] + ["old", "new"] * (len(words) // 2) or len(words) < 3:
        raise Unfit("it isn't a line `file:` and then pairs of lines `old:` and `new:`")
    try:
        with open(f"{TOP}/crates/{crate}/{parts[0][1]}", encoding="utf-8") as file:
            before = text = file.read()
    except FileNotFoundError:
        raise Unfit(f"crates/{crate} has no {parts[0][1]}") from None
    for (_, old), (_, new) in zip(parts[1::2], parts[2::2]):
        if text.count(old) != 1:
            raise Unfit(f"{parts[0][1]} has this {text.count(old)} times: {old.strip()}")
        text = text.replace(old, new)
    if text == before:
        raise Unfit("it changes nothing")


def faults():
    """The faults of the wrong bodies, a line each, and how many there are: of plants/, and of the crates."""
    crates = listed()
    planted = [(crate, it) for crate in sorted(os.listdir(f"{TOP}/plants")) if crate != "README.md" for it in edits_in(f"{TOP}/plants/{crate}")]
    edits = [(crate, it) for crate in crates for it in edits_in(f"{TOP}/crates/{crate}/must-fail")]
    found = [f"crates/{crate} may have no must-fail edit: plants/{crate} is their place" for crate in sorted({it for it, _ in edits} - TRIED)]
    if len(edits) > MOST:
        found.append(f"{len(edits)} must-fail edits, of which there may be {MOST}")
    for crate, path in planted + edits:
        try:
            if crate not in crates or not path.endswith(".edit"):
                raise Unfit("no crate of crates.txt has this name, or the file's name doesn't end in .edit")
            apply(path, crate)
        except Unfit as fault:
            found.append(f"{os.path.relpath(path, TOP)}: {fault}")
    return found, len(planted), len(edits)


def check():
    found, planted, edits = faults()
    for it in found:
        print(f"plants: {it}", file=sys.stderr)
    if not found:
        print(f"plants: {planted} wrong bodies of plants/ and {edits} must-fail edits still apply")
    return 1 if found else 0


def clone_with(names, folder):
    """Clones the checkout, and gives these crates the wrong bodies of plants/ as their only edits."""
    subprocess.run(["git", "clone", "-q", "--no-hardlinks", TOP, folder], check=True)
    for crate in listed(folder):
        shutil.rmtree(f"{folder}/crates/{crate}/must-fail", ignore_errors=True)
    for crate in names:
        shutil.copytree(f"{folder}/plants/{crate}", f"{folder}/crates/{crate}/must-fail")


def try_all(names):
    """Tries the wrong bodies of plants/ of these crates; returns the status of `rt ci`."""
    with tempfile.TemporaryDirectory() as work:
        clone_with(names, f"{work}/clone")
        runs = [started(["rt", "ci", *names], cwd=f"{work}/clone")]
        try:
            return runs[0].wait()
        except Ended:
            stop(runs)
            raise


def main():
    if sys.argv[1:] == ["--check"]:
        return check()
    known = {it for it in os.listdir(f"{TOP}/plants") if os.path.isdir(f"{TOP}/plants/{it}")}
    if not set(sys.argv[1:]) <= known:
        print(f"plants: no wrong bodies of {', '.join(sorted(set(sys.argv[1:]) - known))}", file=sys.stderr)
        return 2
    heed()
    try:
        return try_all(sys.argv[1:] or sorted(known & set(listed())))
    except Ended as ended:
        return ended.status
    except (OSError, subprocess.CalledProcessError) as error:
        print(f"plants: {why(error)}", file=sys.stderr)
        return 1


if __name__ == "__main__":
    sys.exit(main())
