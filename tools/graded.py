#!/usr/bin/env python3
"""Draws places of the first two grades, which docs/DATABASE.md judges by hand.

    ticurses survey --join --json --all ROWS COLS FILE.. | python3 -B tools/graded.py [COUNT [NUMBER]]

A place is a field of a file (its line and column) with its capability. Faults of parts and of entries of another kind don't
count. Of the places with the grades `broken` and `contradicts`, COUNT (else 60) are drawn at random from NUMBER (else
20261201), or all if there aren't more. It prints how many there are, and then a line for each that is drawn, in the order
of the files, with tabs between: line, entry, capability, grade, cause, field, number of users. The fields are read from
the files, so it must run where their paths lead to them."""

import json
import random
import sys
from collections import Counter

GRADES = ("broken", "contradicts")
COUNT, NUMBER = 60, 20261201


def places_of(lines):
    """The faults of each place of the first two grades, in the order of the files."""
    places = {}
    for line in lines:
        found = json.loads(line)
        if found["grade"] in GRADES and not found["another_kind"] and not found["part"]:
            place = (found["source_file"], found["line"], found["column"], found["capability"])
            places.setdefault(place, []).append(found)
    return [places[place] for place in sorted(places)]


def lines_of(path):
    """The lines of a file; a byte is a character, as in the columns of a fault."""
    with open(path, encoding="latin-1") as file:
        return file.read().split("\n")


def field_of(found, lines):
    """The field of a fault as its file has it, in one line."""
    own = lines[found["line"] - 1 : found["end_line"]]
    own[-1] = own[-1][: found["end_column"] - 1]
    own[0] = own[0][found["column"] - 1 :]
    return "".join(line.strip() for line in own)


def row_of(faults, lines):
    """A place in one line."""
    first = faults[0]
    users = len({found["entry"] for found in faults})
    words = [first[name] for name in ("line", "source_entry", "capability", "grade", "cause")]
    return "\t".join(map(str, [*words, field_of(first, lines), users]))


def main():
    given = [int(word) for word in sys.argv[1:]]
    count, number = given + [COUNT, NUMBER][len(given) :]
    places = places_of(sys.stdin)
    grades = Counter(faults[0]["grade"] for faults in places)
    print(f"{len(places)} places: " + ", ".join(f"{grades[grade]} {grade}" for grade in GRADES))
    files = {path: lines_of(path) for path in {faults[0]["source_file"] for faults in places}}
    for at in sorted(random.Random(number).sample(range(len(places)), min(count, len(places)))):
        print(row_of(places[at], files[places[at][0]["source_file"]]))


if __name__ == "__main__":
    main()
