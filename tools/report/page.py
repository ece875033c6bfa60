"""The page: one HTML file of what was found, with its styles and its script inside."""

import collections
import os

import screens
from causes import MEANING
from found import ACCEPTED, GRADES, KINDS, UNGRADED
from places import PRINTED, Shared, place, why
from spelling import code_spans, counted, shown

HERE = os.path.dirname(os.path.abspath(__file__))
WORDS = {"yes": "with a certificate", "no": "with faults", "refused": "that can't be read"}
GROUPS = {
    "broken": "wrong for any terminal",
    "contradicts": "the entry's own other strings speak against it",
    "wrong": "T, the standard's terminal, does something else",
    "unknown": "T hasn't the function, or the string wasn't judged: it may be right",
    UNGRADED: "the report has no grade for these",
    ACCEPTED: "a comment of the source accepts these",
}
TITLES = {UNGRADED: "without a grade"}
OF_KINDS = {"whole": "in entries of T's kind", "other": "in entries of another kind", "part": "in parts alone"}


def held(name):
    with open(f"{HERE}/{name}", encoding="utf-8") as file:
        return file.read()


# ---- the top: counts, which are filters


def tile(group, name, number, words):
    """A count, which shows those alone if it is checked."""
    return (
        f'<label class="tile {name}"><input type="checkbox" form="tools" id="{group}-{name}" name="{group}" value="{name}">'
        f"<b>{number:,}</b> {words}</label>"
    )


def tiles(found, groups):
    """How many places there are of each grade and kind, and how many have a suggestion."""
    counts = [(name, len(faults)) for name, faults in groups]
    grades = [tile("grade", name, count, TITLES.get(name, name)) for name, count in counts if count or is_due(found, name)]
    kinds = collections.Counter(fault.kind() for fault in found.faults)
    others = [tile("kind", it, kinds[it], OF_KINDS[it]) for it in KINDS if kinds[it]] if set(kinds) - {"whole"} else []
    suggested = sum(bool(fault.suggestions) for fault in found.faults)
    others += [tile("fix", "suggested", suggested, "with a suggestion")] if suggested else []
    return f'<div class="tiles">{"".join(grades)}</div>\n<div class="tiles">{"".join(others)}</div>\n'


def is_due(found, name):
    """Whether a group is counted even if it has no place."""
    return name == ACCEPTED or name in GRADES and found.has_grades()


def bar(groups):
    """A bar with a part for each grade; it checks the tile of the grade."""
    parts = "".join(
        f'<label for="grade-{name}" class="{name}" style="flex-grow:{len(faults)}" '
        f'title="{TITLES.get(name, name)}: {len(faults):,}"></label>'
        for name, faults in groups
        if faults
    )
    return f'<div class="bar" aria-hidden="true">{parts}</div>\n'


def top(found, groups):
    """The counts of the page."""
    counts = [f'<b class="{it}">{found.count(it):,}</b> {WORDS[it]}' for it in WORDS if found.count(it)]
    return f'<p class="sum">{", ".join(counts)}</p>\n' + (f"{bar(groups)}{tiles(found, groups)}" if found.faults else "")


def causes(found):
    """The causes and what they mean, folded."""
    rows = "".join(
        f'<tr><th scope="row">{shown(name)}</th><td>{len(faults):,}</td><td>{count:,}</td>'
        f"<td>{code_spans(MEANING.get(name, ''))}</td></tr>"
        for name, faults, count in found.causes()
    )
    heads = "".join(f'<th scope="col">{it}</th>' for it in ("cause", "places", "entries", "meaning"))
    table = f"<table><thead><tr>{heads}</tr></thead><tbody>{rows}</tbody></table>"
    return f'<details id="causes"><summary><h2>Causes</h2></summary>{table}</details>\n' if rows else ""


# ---- the places


def section(name, faults, is_one_file, whys, shared):
    """The places of a grade."""
    lines = "".join(place(it, is_one_file, whys[it.number], shared) for it in faults)
    heads = "".join(f"<span>{it}</span>" for it in ("capability", "string", "place", "cause", "entries"))
    return (
        f'<section id="{name}" class="places {name}"><h2>{TITLES.get(name, name)}: {counted(len(faults), "place", "places")}</h2>'
        f'<p>{GROUPS[name]}</p>\n<div class="heads">{heads}</div>\n{lines}</section>\n'
    )


def places(found, groups, symbols):
    """The places by grade; among them those that concern most entries come first. Behind them what they share."""
    whys, files = {it.number: why(it, symbols) for it in found.faults}, found.files()
    shared = Shared(whys.values())
    parts = "".join(section(name, faults, len(files) == 1, whys, shared) for name, faults in groups if faults)
    of = f"<p>The places are lines and columns of <code>{shown(next(iter(files)))}</code>.</p>\n" if len(files) == 1 else ""
    none = '<p id="none">There is no place of the grades broken and contradicts.</p>\n'
    is_empty = found.has_grades() and not any(faults for name, faults in groups if name in PRINTED)
    end = f'<section id="shared"><h2>What places share</h2>\n{shared.written()}</section>\n' if shared.numbers else ""
    return f"{of}{none * is_empty}{parts}", end


# ---- what isn't a fault


def refused(found):
    """The entries and files that can't be read."""
    rows = "".join(
        f"<tr><th>{shown(it.shown())}</th><td><code>{shown(it.place)}</code></td><td>{shown(it.reason or '')}</td></tr>\n"
        for it in found.entries
        if it.verdict == "refused"
    )
    return f'<section id="refused"><h2>Can\'t be read</h2><table>{rows}</table></section>\n' if rows else ""


def saying(capability, words, said):
    """An advice or a hint, and folded below it whom it concerns."""
    lead = f"<b>{shown(capability)}</b> " if capability else ""
    to = ", ".join(f"{shown(place)} {shown(entry.shown())}" if place else shown(entry.shown()) for place, entry in said)
    return f"<details><summary>{lead}<span>{shown(words)}</span><span>{len(said):,}</span></summary><footer>{to}</footer></details>\n"


def sayings(name, title, them):
    """The advice or the hints, the most frequent first."""
    rows = sorted(them.items(), key=lambda it: (-len(it[1]), it[0]))
    lines = "".join(saying(capability, words, said) for (capability, words), said in rows)
    return f'<section id="{name}" class="sayings"><h2>{title}: {len(rows):,}</h2>\n{lines}</section>\n' if lines else ""


def answer(entry):
    """An entry's verdict, and of which kind it is."""
    kind = {"whole": "", "other": ", of another kind", "part": ", a part"}[entry.kind]
    return f"<td>{entry.verdict}{kind}</td>"


def at_fault(entry):
    """An entry's capabilities that are at fault, by grade."""
    return " ".join(dict.fromkeys(shown(it.capability) for it in sorted(entry.faults, key=lambda it: it.rank())))


def entries(found):
    """A row for each entry, folded."""
    rows = "".join(
        f'<tr class="{it.verdict}"><th>{shown(it.shown())}</th>{answer(it)}'
        f"<td>{len(it.faults) or ''}</td><td>{at_fault(it)}</td></tr>\n"
        for it in found.entries
    )
    heads = "".join(f'<th scope="col">{it}</th>' for it in ("entry", "verdict", "faults", "at fault"))
    return (
        f'<details id="entries"><summary><h2>Entries: {len(found.entries):,}</h2></summary>\n{held("sorting.html")}'
        f"<table><thead><tr>{heads}</tr></thead><tbody>\n{rows}</tbody></table></details>\n"
    )


def page(found):
    """The HTML file, as text."""
    symbols, groups = screens.Symbols(), found.groups()
    body, shared = places(found, groups, symbols)
    title = f"{counted(len(found.entries), 'entry', 'entries')} at {found.size['rows']} by {found.size['cols']}"
    return (
        '<!DOCTYPE html>\n<html lang="en">\n<head>\n<meta charset="utf-8">\n'
        '<meta name="viewport" content="width=device-width, initial-scale=1">\n'
        f"<title>ticurses: {title}</title>\n<style>\n{held('page.css')}</style>\n</head>\n"
        f'<body{" class=graded" * found.has_grades()}>\n'
        f"<header><h1>{title}, {counted(len(found.faults), 'fault', 'faults')}</h1>{top(found, groups)}</header>\n"
        f"{held('tools.html')}{refused(found)}{body}{sayings('advice', 'Advice', found.advice)}"
        f"{sayings('hints', 'Hints', found.hints)}{causes(found)}{entries(found)}{shared}"
        f'<svg width="0" height="0" aria-hidden="true"><defs>{screens.glass()}{symbols.written()}</defs></svg>\n'
        f"<script>\n{held('page.js')}</script>\n</body>\n</html>\n"
    )
