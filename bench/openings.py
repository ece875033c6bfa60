"""How many of the system's compiled entries a session opens on, whole and without some of their strings, and how long
that takes.

    python3 -B bench/openings.py [ROWSxCOLS]

The size is 24x80 if none is given. The entries are the files below the folders that `infocmp -D` lists, each once.
Python must find the package (PYTHONPATH), and the package its library (TICURSES_LIBRARY)."""

import collections
import os
import subprocess
import sys
import time

import ticurses


def files():
    """The paths of the files, none of them twice."""
    folders = subprocess.run(["infocmp", "-D"], stdout=subprocess.PIPE, check=True, text=True).stdout.split()
    return sorted({os.path.realpath(f"{at}/{name}") for it in folders for at, _, names in os.walk(it) for name in names})


def main():
    rows, cols = map(int, (sys.argv[1] if len(sys.argv) > 1 else "24x80").split("x"))
    counts, names, spent = collections.Counter(), collections.Counter(), collections.Counter()
    refused = 0
    for path in files():
        with open(path, "rb") as file:
            entry = file.read()
        begin = time.process_time()
        try:
            session = ticurses.Session(entry, rows, cols, leaving_out=True)
        except ticurses.Error as error:
            refused += error.code == ticurses.Code.NO_CERTIFICATE
            continue
        spent[bool(session.left_out)] += time.process_time() - begin
        counts[len(session.left_out)] += 1
        names.update(it.name for it in session.left_out)
        session.close()
    opened = sum(counts.values())
    print(f"entries {opened + refused}, open {opened}, whole {counts[0]}, refused {refused}")
    print("without", " ".join(f"{count}:{counts[count]}" for count in sorted(counts) if count))
    print("left out", " ".join(f"{name}:{count}" for name, count in names.most_common(12)))
    for is_part, word in ((False, "whole"), (True, "without some")):
        total = counts[0] if not is_part else opened - counts[0]
        print(f"milliseconds for each, {word}: {1000 * spent[is_part] / max(total, 1):.1f}")


if __name__ == "__main__":
    main()
