#!/usr/bin/env python3
"""Prints a table: each crate's lines without blanks, comments and imports, those of code with and
without its clauses, and its must-fail edits."""

import os
import re

from crates import TOP, listed

NOT_COUNTED = re.compile(r"\s*($|//|--|(pub )?use |ghost use |#!\[)")
CLAUSE = re.compile(r"\s*(requires|ensures)\b")


def counted_in(path):
    """The counted lines of a file."""
    with open(path, encoding="utf-8") as file:
        return [line for line in file if not NOT_COUNTED.match(line)]


def clause_lines(lines):
    """How many of these lines belong to clauses: each begins with its word and ends where its braces close."""
    count = depth = 0
    for line in lines:
        if depth or CLAUSE.match(line):
            count += 1
            depth += line.count("{") - line.count("}")
    return count


def below(folder, ending):
    """The counted lines of all files below a folder whose names end so, file by file."""
    found = [f"{at}/{name}" for at, _, names in os.walk(folder) for name in names if name.endswith(ending)]
    return [counted_in(path) for path in found]


def sizes():
    """For each crate its lines of code, without and with clauses, of definitions and of proofs, and its must-fail edits."""
    for crate in listed():
        folder = f"{TOP}/crates/{crate}"
        code = below(f"{folder}/src", ".rt")
        whole = sum(map(len, code))
        parts = (sum(map(len, below(f"{folder}/{it}", ".antt"))) for it in ("specs", "proofs"))
        edits = sum(it.endswith(".edit") for it in os.listdir(f"{folder}/must-fail")) if os.path.isdir(f"{folder}/must-fail") else 0
        yield crate, whole - sum(map(clause_lines, code)), whole, *parts, edits


def main():
    print("| crate | code | with clauses | specs | proofs | must-fail edits |\n|---|---|---|---|---|---|")
    for row in sizes():
        print(f"| {' | '.join(map(str, row))} |")


if __name__ == "__main__":
    main()
