#!/usr/bin/env python3
"""The pages of docs/ that are made from the sources.

pages.py          writes docs/MAP.md, docs/CAPABILITIES.md, the lists of docs/AUDIT.md, the statement in docs/THEOREM.md,
                  the sizes in docs/TRUST.md, the members in docs/KEEPING.md and the tables of docs/LIBRARY.md
pages.py --check  says which of them differ from the sources, which pages name or link a file that isn't there, and
                  which words or sentences docs/THEOREM.md leaves out; status 1 if there is one"""

import os
import sys

import audit
import capabilities
import copies
import links
import map_page
import members
import theorem
import trust
from crates import TOP
from made import between, wrapped
from specs import read


def page_at(name):
    """The path of a page of docs/."""
    return os.path.join(TOP, "docs", name)


def audit_page():
    """docs/AUDIT.md, with its lists made anew."""
    lists = audit.Lists(map_page.PARTS, wrapped)
    text = between(read(page_at("AUDIT.md")), "what to read", audit.reading(lists))
    return between(text, "the other words", audit.others(lists))


def trust_page():
    """docs/TRUST.md, with the sizes of this repository made anew."""
    lists = audit.Lists(map_page.PARTS, wrapped)
    audit.reading(lists)
    audit.others(lists)
    text = between(read(page_at("TRUST.md")), "what you read", trust.what_is_read(lists.totals))
    text = between(text, "what is proved", trust.what_is_proved())
    return between(text, "what runs it", trust.what_runs())


def theorem_page():
    """docs/THEOREM.md, with the statement made anew."""
    return between(read(page_at("THEOREM.md")), "the statement", theorem.statement())


def keeping_page():
    """docs/KEEPING.md, with the members of a report made anew."""
    return between(read(page_at("KEEPING.md")), "members", members.table())


def library_page():
    """docs/LIBRARY.md, with the exported names and the crates to copy made anew."""
    text = between(read(page_at("LIBRARY.md")), "exported names", wrapped(copies.exported()))
    return between(text, "crates to copy", copies.table())


PAGES = {
    "MAP.md": map_page.page,
    "AUDIT.md": audit_page,
    "THEOREM.md": theorem_page,
    "TRUST.md": trust_page,
    "CAPABILITIES.md": capabilities.page,
    "KEEPING.md": keeping_page,
    "LIBRARY.md": library_page,
}


def faults():
    """The faults of the pages, each in a sentence."""
    for name, page in PAGES.items():
        if not os.path.exists(page_at(name)) or read(page_at(name)) != page():
            yield f"docs/{name} isn't what the sources say: run tools/pages.py"
    yield from links.faults()
    yield from theorem.faults(read(page_at("THEOREM.md")))


def check():
    """Prints what is wrong with the pages; returns the status."""
    found = list(faults())
    for fault in found or [f"{len(PAGES)} pages of docs/ are what the sources say"]:
        print(f"pages: {fault}")
    return 1 if found else 0


def write():
    """Writes the pages; returns the status."""
    for name, page in PAGES.items():
        text = page()
        with open(page_at(name), "w", encoding="utf-8") as file:
            file.write(text)
    return 0


if __name__ == "__main__":
    sys.exit(check() if sys.argv[1:] == ["--check"] else write())
