"""Writes alone.txt, the cases in which T stands alone, from full runs of tools/conform.   vectors/alone.py FOUND.json DATE

FOUND.json is what --json wrote. The emulators that count are those that report looks and were given as many cases as any.
T stands alone in a case if at most one of them shows what T shows. Random sessions are no such cases: there each emulator
may differ for another reason."""

import json
import sys
from pathlib import Path

from make import FILES

HERE = Path(__file__).resolve().parent


def counting(found):
    """The emulators that count: the files and names of their cases that differ, and their versions."""
    most = max(told["cases"] for told in found.values())
    return {name: told for name, told in found.items() if told["reads"] and told["cases"] == most}


def in_order():
    """The names of all cases, in the order of the files."""
    for stem in (f"{name}-{rows}x{cols}" for name, (rows, cols, _) in FILES.items() if name != "sessions"):
        for line in (HERE / f"{stem}.cases").read_text(encoding="ascii").splitlines():
            yield stem, line.split(" ")[0]


def main():
    emulators, date = counting(json.loads(Path(sys.argv[1]).read_text(encoding="utf-8"))), sys.argv[2]
    differing = [{(one["file"], one["case"]) for one in told["differ"]} for told in emulators.values()]
    counts = {(stem, name): sum((f"{stem}.cases", name) in cases for cases in differing) for stem, name in in_order()}
    lines = [f"{stem} {name} {count}" for (stem, name), count in counts.items() if count >= len(emulators) - 1]
    versions = ", ".join(f"{name} {told['version']}" for name, told in emulators.items())
    head = [
        f"# The cases in which T stands alone: a file, a name, and how many of {len(emulators)} emulators differ there.",
        f"# {date}: {versions}.",
    ]
    (HERE / "alone.txt").write_text("".join(f"{line}\n" for line in [*head, *lines]), encoding="ascii")
    print(f"vectors: T stands alone in {len(lines)} cases")


if __name__ == "__main__":
    main()
