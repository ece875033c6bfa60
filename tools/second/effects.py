"""The promises of a certificate's lines, and whether their bytes keep it from every start.

A line is shown in this way: its bytes run on `terminal`, which splits the starts of its capability into cases by what the
run asks of edges, margins and columns, and in each case every part of the state at the end has to be the one that the
line's effect says, as a formula over the start. A wrap is pending in no start or only in the last column, which are runs
of their own. Sets, renditions and colors are letters, with one for "as it was". The cells come last: the effect's words
are carried out from the same case, and the changes of cells have to be the same places, as formulas, with the same
blanks; what comes before an erasure of the whole screen doesn't count."""

import functools
import itertools
import re

import terminal

NUMBER = r"(?:0|[1-9]\d{0,4})"
# the words of an effect, in their order
WORDS = {
    "row": rf"row(?:={NUMBER}|[+-](?!0){NUMBER})", "col": rf"col(?:={NUMBER}|[+-](?!0){NUMBER})",
    "nopend": "nopend", "area": rf"all|tail|head|rest|next=(?!0){NUMBER}", "scroll": "up|down",
    "look": r"look:(?!\.{6})[01.]{6}", "ink": r"ink:(?!\.\.)[0-7d.]{2}",
    "sets": r"set:(?!\.\.\.)[B0.]{2}[IO.]", "rows": f"rows:{NUMBER},{NUMBER}", "cursor": "show|hide",
}  # fmt: skip
EFFECT = re.compile("".join(f"(?: (?P<{name}>{word}))?" for name, word in WORDS.items()))
# functions for which no effect has a word, whatever the starts
WORDLESS = re.compile(rb"[ -~]|\x1b\[0*2K|\x1b\[0*1J|\x1b\[\d*[@PLMST]")
# single attributes and the places of their looks, in the order of the parameters of sgr; standout may be any
ATTRIBUTES = ("smso", "smul", "rev", "blink", "dim", "bold", "invis")
OWN = dict(zip(ATTRIBUTES[1:], (2, 4, 3, 1, 0, 5)))
# each capability: its starts (free, calm: no wrap is pending, any margins, on the top or the bottom one), the ranges of its
# parameters (r row, c column, R and C distances, n cells, or how many), the words of its effect, and what is free there
ROWS = """
    bel free -|blink free - look:...1.. ?sets|bold free - look:1..... ?sets|civis free - hide|clear free - row=0 col=0 nopend all|cnorm free - show
    cr free - col=0 nopend|csr any rr rows:{0},{1} ?row ?col ?nopend|cub calm C col-{0}|cub1 calm - col-1|cud calm R row+{0}|cud1 calm - row+1
    cuf calm C col+{0}|cuf1 calm - col+1|cup any rc row={0} col={1} nopend|cuu calm R row-{0}|cuu1 calm - row-1|cvvis free - ?cursor
    dim free - look:.1.... ?sets|ech calm n next={0}|ed calm - rest|el calm - tail|el1 calm - head|enacs free - ?sets|home free - row=0 col=0 nopend
    hpa free c col={0} nopend|ind bottom - up|invis free - look:.....1 ?sets|op free - ink:dd|rev free - look:....1. ?sets|ri top - down
    rmacs free - ?sets|rmcup free - ?row ?col ?nopend ?area ?look ?ink ?sets|setab free 8 ink:.{0}|setaf free 8 ink:{0}.
    sgr free 222222211 ?look ?ink ?sets|sgr0 free - look:000000 ink:dd ?sets|smacs free - ?sets|smcup free - ?row ?col ?nopend ?area ?look ?ink ?sets
    smso free - ?look ?sets|smul free - look:..1... ?sets|vpa free r row={0} nopend
"""
CHECKED = {it.split()[0]: (*it.split()[1:3], " ".join(it.split()[3:])) for line in ROWS.split("\n") for it in line.split("|") if it.split()}
AREAS = {"all": (True, 2), "tail": (False, 0), "head": (False, 1), "rest": (True, 0)}
REQUIRED = ("clear", "cup", "sgr0")


def ranges(name, rows, cols):
    """The range of each parameter of a capability."""
    by_letter = {"c": range(cols), "r": range(rows), "C": range(1, cols), "R": range(1, rows), "n": range(1, cols + 1)}
    return [by_letter.get(it) or range(int(it)) for it in CHECKED[name][1].strip("-")]


def is_list(name, params, rows, cols):
    spans = ranges(name, rows, cols)
    is_in = len(params) == len(spans) and all(it in span for it, span in zip(params, spans))
    return is_in and (name != "csr" or params[0] < params[1])


def lists(name, rows, cols):
    """All lists of parameters, in ascending order."""
    return (it for it in itertools.product(*ranges(name, rows, cols)) if is_list(name, it, rows, cols))


def effect_of(text):
    """The words of an effect by what they are about, or None where the text is no effect."""
    found = EFFECT.fullmatch("" if text == "-" else f" {text}")
    if not text or not found or any(int(it) > terminal.MOST for it in re.findall(r"\d{5}", text.partition("look:")[0])):
        return None
    return {name: word for name, word in found.groupdict().items() if word is not None}


class Line:
    """A line's bytes, as functions, with the row of its capability: its starts, the words it asks for, and what is free."""

    def __init__(self, name, params, tokens, rows, cols):
        self.name, self.tokens, self.rows, self.cols, self.may_move_margins = name, tokens, rows, cols, name == "csr"
        self.kind, _, words = CHECKED[name]
        self.free = {it[1:] for it in words.split() if it[0] == "?"}
        self.wanted = effect_of(" ".join(it for it in words.format(*params).split() if it[0] != "?") or "-")
        # the background of the blanks that an effect names
        self.back, self.is_calm = ".", self.kind not in ("free", "any")

    def limits(self):
        """The starts, as bounds on their numbers."""
        found = [("row", self.kind, 0), (self.kind, "row", 0)] if self.kind in ("top", "bottom") else []
        found += [("top", "", 0), ("", "bottom", 1 - self.rows)] if self.kind in ("free", "calm") else []
        for about, size in (("row", self.rows), ("col", self.cols)):
            count = self.wanted.get(about, "")[3:]
            found += [("", about, int(count))] if count[:1] == "-" else []
            found += [(about, "", size - 1 - int(count))] if count[:1] == "+" else []
        return found

    def cases(self, seen):
        """The view of the state that the bytes leave, for each case."""
        for pending in [False] if self.is_calm else [False, True]:
            last = [("", "col", 1 - self.cols)] if pending else []
            most = terminal.limits(self.rows, self.cols, *self.limits(), *last)
            yield from terminal.every(most, functools.partial(self.case, seen, pending))

    def case(self, seen, pending, case):
        ending = terminal.Terminal(self.rows, self.cols, case)
        ending.pending = pending
        return seen(ending.run(self.tokens), pending)

    def asks(self, effect):
        """Whether these words are ones that the capability asks for."""
        free = self.free | ({"nopend"} if self.is_calm else set())
        look, ink = effect.get("look", ".")[5:], effect.get("ink", "ink:dd")
        is_look_right = {"smso": "0" not in look, "sgr": look and "." not in look and ink == "ink:dd"}.get(self.name, True)
        if not is_look_right or (self.name, effect.get("cursor")) == ("cvvis", "hide"):
            return False
        return {it: word for it, word in effect.items() if it not in free} == self.wanted

    def does(self, effect):
        """Whether the bytes do what an effect says, from every start, and nothing beside it on the way."""
        return all(self.cases(lambda ending, pending: self.is_as(ending, effect, pending)))

    def is_as(self, ending, effect, pending):
        """Whether the state in which a case ends is the one that an effect says."""
        if ending.has_changed_modes or (ending.has_moved_margins and not self.may_move_margins):
            return False
        look, ink, sets = effect.get("look", "look:......")[5:], effect.get("ink", "ink:..")[4:], effect.get("sets", "set:...")[4:]
        told = (pending and "nopend" not in effect, look, ink, sets, effect.get("cursor", ""))
        if told != (ending.pending, ending.look, ending.ink, ending.sets, ending.cursor):
            return False
        rows = [("", int(it)) for it in effect["rows"][5:].split(",")] if "rows" in effect else [("top", 0), ("bottom", 0)]
        words = [effect.get(it, f"{it}+0") for it in ("row", "col")]
        places = [*(("" if it[3] == "=" else it[:3], int(it[3:].strip("="))) for it in words), *rows]
        if not all(map(ending.case.same, (ending.row, ending.col, ending.top, ending.bottom), places)):
            return False
        start = terminal.Terminal(self.rows, self.cols, ending.case)
        start.ink = f".{self.back}"
        return essence(ending) == essence(named(effect, start))

    def has_record(self):
        """Whether there is any effect that the bytes have from every start."""
        if any(WORDLESS.fullmatch(it) for it in self.tokens):
            return False
        self.may_move_margins, endings = True, list(self.cases(lambda ending, _: ending))
        # a move that an edge cuts short from some starts alone has no word, even where it ends in one row or column
        if len({(it.row[0], it.col[0]) for it in endings}) > 1 or any(it.has_no_word for it in endings):
            return False
        guesses = itertools.product(*(guess(endings[0], name) for name in WORDS))
        return any(self.does({name: word for name, word in zip(WORDS, words) if word}) for words in guesses)


def guess(ending, about):
    """The words that may be right where the first case ends like this; an empty one is none."""
    if about in ("row", "col"):
        (name, count), (constant, value) = getattr(ending, about), ending.case.plain(getattr(ending, about))
        moved = [f"{about}{count:+d}" if count else ""] if name == about else []
        return moved + ([f"{about}={value}"] if not constant else [])
    erased = [it for it in ending.changes if it[0] == "erase"]
    counts = sorted({it[4][1] - it[2][1] + 1 for it in erased} | {ending.last_col[1] + 1})
    return {
        "nopend": ["", "nopend"],
        "area": ["", "all", "tail", "head", "rest", *(f"next={it}" for it in counts if it > 0)] if erased else [""],
        "scroll": ["", "up", "down"] if ending.changes else [""],
        "look": ["" if ending.look == "......" else f"look:{ending.look}"],
        "ink": ["" if ending.ink == ".." else f"ink:{ending.ink}"],
        "sets": ["" if ending.sets == "..." else f"set:{ending.sets}"],
        "rows": ["" if ending.top[0] or ending.bottom[0] else f"rows:{ending.top[1]},{ending.bottom[1]}"],
        "cursor": [ending.cursor],
    }[about]


def named(effect, state):
    """A state at its start, with the changes of cells that an effect names."""
    area = effect.get("area")
    if area in AREAS:
        state.erase(*AREAS[area])
    elif area:
        state.ech(int(area[5:]))
    if "scroll" in effect:
        state.scroll(1 if effect["scroll"] == "up" else -1)
    return state


def essence(state):
    """The changes of a state with constants where they are known, from its last erasure of the whole screen on."""
    plain, screen = state.case.plain, (terminal.ZERO, terminal.ZERO, state.last_row, state.last_col)
    known = [tuple(plain(it) if isinstance(it, tuple) and len(it) == 2 else it for it in change) for change in state.changes]
    whole = [at for at, change in enumerate(known) if change[0] == "erase" and change[1:5] == screen]
    if not whole:
        return known
    first, *others = known[whole[-1] :]
    return [first, *itertools.dropwhile(lambda it: it[0] != "put" and it[-1] == first[-1], others)]
