"""A place as HTML: a line with what is at fault there, and folded below it what the fault is and whom it concerns."""

import collections

import screens
import states
from found import GRADES
from spelling import counted, cut, shown, source_form

# of these grades a place has its screens itself, so that it can be printed
PRINTED = GRADES[:2]
# the places of other grades share what more of them have in common, if a link to it is shorter
FEW, SHORT = 4, 60


class Shared:
    """Screens and reasons that many places have in common: each is kept once, at the end of the page."""

    def __init__(self, wholes):
        self.counts, self.numbers = collections.Counter(wholes), {}

    def shown(self, whole):
        """It, or a link to it."""
        if self.counts[whole] < FEW or len(whole) < SHORT:
            return whole
        return f'<a href="#t{self.numbers.setdefault(whole, len(self.numbers))}">why</a>'

    def written(self):
        return "".join(f'<div id="t{at}">{whole}</div>\n' for whole, at in self.numbers.items())


# ---- the screens


def screen(symbols, given, size, wrong=()):
    """A drawn state, or nothing where it isn't known."""
    if given is None:
        return ""
    return f'<svg><use href="#s{symbols.number(screens.Screen(given, size, wrong).drawn())}"/></svg>'


def states_of(fault):
    """The start, what was wanted and what was seen, each None where the report doesn't say it, or in other words than are
    known here."""
    start = fault.start and states.state(fault.start, fault.size)
    if fault.start is None and (fault.seen or "").startswith("sent after a reset"):
        start = states.at_rest()
    if start is None:
        return None, None, None
    return (
        start,
        fault.wanted and states.wanted(fault.wanted, start, fault.size),
        fault.seen and states.seen(fault.seen, start, fault.size),
    )


def in_words(fault, drawn):
    """The states that aren't drawn, in the words of the report: what is wanted also where no start is known."""
    given = [("start", fault.start, drawn[0]), ("wanted", drawn[0] and fault.wanted, drawn[1]), ("seen", fault.seen, drawn[2])]
    words = "".join(
        f'<p class="words"><b>{name}</b> {shown(words)}</p>' for name, words, state in given if words and state is None
    )
    return words + (f"<p>wanted: {shown(fault.wanted)}</p>" if fault.wanted and drawn[0] is None else "")


def fact_row(label, words, is_wrong):
    """A row with one respect of the three states."""
    cells = "".join(f"<td>{it or ''}</td>" for it in words)
    return f'<tr{" class=x" * is_wrong}><th>{label}</th>{cells}</tr>'


def states_table(fault, drawn, symbols):
    """The three screens, and below them what differs."""
    start, wanted, seen = drawn
    if start is None:
        return ""
    wrong = states.differ(wanted, seen) if wanted and seen else []
    heads = "<tr><td></td><th>start</th><th>wanted</th><th>seen</th></tr>"
    shows = [(start, ()), (wanted, ()), (seen, wrong)]
    pictures = "".join(f"<td>{screen(symbols, given, fault.size, marked)}</td>" for given, marked in shows)
    rows = "".join(
        fact_row(label, words, key in wrong) for key, label, words in screens.facts(start, wanted, seen, fault.size)
    )
    return f"<table>{heads}<tr><td></td>{pictures}</tr>{rows}</table>"


# ---- the words


def is_told(line):
    """Whether a line of the explanation says what the page shows otherwise: the bytes and the states."""
    return " sends '" in line or line.startswith(("grade: ", "start: ", "wanted: ", "seen: "))


def explained(fault):
    return [shown(str(it)) for it in fault.explanation if not is_told(str(it))]


def is_string(fault):
    return isinstance(fault.string, str)


def strings(fault):
    """The bytes that its string sends, if these are others, and the strings that would be right."""
    parts = []
    sent = None if fault.bytes is None else source_form(fault.bytes)
    if sent is not None and sent != fault.string:
        parts.append(f'sends <samp>{shown(cut(sent)) or "nothing"}</samp>')
    parts += [f"<kbd>{shown(f'{fault.capability}={cut(it)}')}</kbd> would be right on T" for it in fault.suggestions]
    return "".join(f"<p>{it}</p>" for it in parts)


def why(fault, symbols):
    """The reason for a fault, in words and screens."""
    # the first line stands for the string where there is none
    lines = explained(fault)[not is_string(fault) :]
    if fault.judged is False and not lines:
        lines = ["not judged: the string may be right"]
    drawn = states_of(fault)
    return f"{''.join(f'<p>{it}</p>' for it in lines)}{in_words(fault, drawn)}{states_table(fault, drawn, symbols)}"


def names(entries):
    return ", ".join(shown(it.shown()) for it in entries)


def who(fault):
    """The entries that a fault concerns, by their grades if these differ."""
    users = fault.users()
    return "".join(f"<p>{grade}</p>" * (len(users) > 1) + f"<footer>{names(them)}</footer>" for grade, them in users)


def where(fault, is_one_file):
    """Where it stands: at one place of a source, or in the compiled files of its entries."""
    if fault.line:
        place = f"{fault.line}" + (f":{fault.column}" if fault.column else "") if is_one_file else fault.places[0]
        holder = f" {shown(fault.source_entry)}" if isinstance(fault.source_entry, str) else ""
        return shown(place) + holder
    if len(fault.places) == 1:
        return shown(fault.places[0])
    return f"{len(fault.places):,} files"


def summary(fault, is_one_file):
    """The line of a place."""
    what = f"<code>{shown(cut(fault.string))}</code>" if is_string(fault) else f"<em>{(explained(fault) or [''])[0]}</em>"
    return (
        f"<summary><b>{shown(fault.title())}</b>{what}<span>{where(fault, is_one_file)}</span>"
        f"<span>{shown(fault.cause)}</span><span>{len(fault.entries):,}</span></summary>"
    )


def classes(fault):
    """The classes of a place, for filters: its kind, and whether a string is suggested."""
    found = [fault.kind()] * (fault.kind() != "whole") + ["suggested"] * bool(fault.suggestions)
    return f' class="{" ".join(found)}"' if found else ""


def place(fault, is_one_file, whole, shared):
    """A place of the page, folded, with why it is at fault."""
    told = whole if fault.group() in PRINTED else shared.shown(whole)
    return (
        f'<details id="p{fault.number}"{classes(fault)}>{summary(fault, is_one_file)}{strings(fault)}{told}{who(fault)}</details>\n'
    )
