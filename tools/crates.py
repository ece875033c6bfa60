"""The content of crates.txt: the crates of this repository, and those that each depends on.

    python3 -B tools/crates.py NAME..     prints these crates and those that they depend on, each after those below it"""

import os
import sys

TOP = os.path.dirname(os.path.dirname(os.path.abspath(__file__)))


def rows(top):
    """For each line the text before the colon, and the text after it."""
    with open(f"{top}/crates.txt", encoding="utf-8") as file:
        lines = [line.partition("#")[0] for line in file]
    return [line.partition(":")[::2] for line in lines if line.strip()]


def listed(top=TOP):
    """The libraries that each crate's line names, by the crate's name."""
    return {head.split()[0]: uses.replace(",", " ").split() for head, uses in rows(top)}


def heads(top=TOP):
    """The text before the colon of each crate's line: its name, and perhaps its kind."""
    return {head.split()[0]: head.strip() for head, _ in rows(top)}


def below(names, uses=None):
    """The crates of the repository that `names` depend on, and `names`, each after those that it depends on."""
    uses, found = uses or listed(), []

    def visit(name):
        for it in uses[name]:
            if it in uses:
                visit(it)
        if name not in found:
            found.append(name)

    for name in names:
        visit(name)
    return found


if __name__ == "__main__":
    print(*below(sys.argv[1:]), sep="\n")
