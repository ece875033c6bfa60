"""The names and links of pages: the files of crates, other pages and headings must exist."""

import os
import re

from crates import TOP
from specs import CRATES, crates_listed, read

NAMED = re.compile(r"\b(\w+)/(specs|src)/(\w+)(?:\.rt|\.antt)?\b")
LISTED = re.compile(r"\b(\w+)/(specs|src)`? \((`[^)]*)\)")


def lacking(path):
    """The files of crates that a page names and that aren't there."""
    text = read(path)
    named = set(NAMED.findall(text))
    for crate, folder, names in LISTED.findall(text):
        named |= {(crate, folder, name) for name in re.findall(r"`(\w+)(?:\.rt|\.antt)?`", names)}
    for crate, folder, name in sorted(named):
        ending = ".antt" if folder == "specs" else ".rt"
        there = os.path.join(CRATES, crate, folder, name + ending)
        if os.path.isdir(os.path.join(CRATES, crate)) and not os.path.exists(there):
            yield f"{crate}/{folder}/{name}"


LINK = re.compile(r"\]\((?!\w+:)([^)#\s]*)(?:#([^)\s]*))?\)")


def anchors(path):
    """The names by which a page's headings are linked."""
    headings = re.findall(r"^#+ (.*)$", read(path), re.M)
    return {re.sub(r"[^\w\- ]", "", name.lower()).replace(" ", "-") for name in headings}


def dead_links(path):
    """The files and headings to which a page links and that aren't there."""
    for there, heading in LINK.findall(read(path)):
        target = os.path.normpath(os.path.join(os.path.dirname(path), there)) if there else path
        if not os.path.exists(target):
            yield there
        elif heading and target.endswith(".md") and heading not in anchors(target):
            yield f"{there}#{heading}"


def written_pages():
    """The pages of the repository that name files of crates."""
    folders = [TOP, os.path.join(TOP, "docs"), *(os.path.join(CRATES, crate) for crate in crates_listed())]
    names = [(folder, name) for folder in folders for name in sorted(os.listdir(folder)) if name.endswith(".md")]
    return [os.path.join(folder, name) for folder, name in names if name != "NEWS.md"]


def faults():
    """The missing files and headings that pages of the repository name or link, each in a sentence."""
    for path in written_pages():
        for name in [*lacking(path), *dead_links(path)]:
            yield f"{os.path.relpath(path, TOP)} names {name}, which isn't there"
