#!/usr/bin/env python3
"""A second verifier of certificates, which shares nothing with the first: `verify.py ENTRY ROWS COLS CERTIFICATE`.

ENTRY is a compiled entry, or a text with just one entry that uses no other, as `ticurses infocmp` prints it; `-` is
standard input. It prints `yes`, and the status is 0; or it names the first line at fault as `ticurses verify` does, and
the status is 1. The status is 2 where files or size can't be judged. docs/CERTIFICATE.md has the rules. The heads of
`effects.py` and `terminal.py` say how a line is shown from every start. It needs Python 3.8 alone."""

import re
import sys

import effects
import entry
import terminal

LIMIT, BYTES = 67_108_864, re.compile("-|(?:[0-9a-f]{2})+")
# the letters of acsc that have a fallback; what stands for another one isn't used
LETTERS = b"`+,-.0afghijklmnoqstuvwx~"
TOGETHER = [("setaf", "setab", "op"), ("smacs", "rmacs", "acsc")]
BEGINNING, UNUSED = ("smcup", "enacs", "sgr0", "rmacs", "csr", "clear"), ("xmc", "hc", "gn", "os")


class Refused(Exception):
    """The first fault, in the words of `ticurses verify`."""


def fault_of(name, params, data, effect, size):
    """The fault of one line by itself, if it has one; the effect is given as text."""
    tokens, end = terminal.split(data)
    if end < len(data):
        return "NotWhole"
    line, words = effects.Line(name, params, tokens, *size), effects.effect_of(effect)
    if line.asks(words) and line.does(words):
        return None
    return "NotShown" if line.has_record() else "NotTame"


class Judge:
    """A certificate that is read line by line. `held` has the bytes of each line."""

    def __init__(self, rows, cols):
        self.size, self.held, self.acsc, self.number = (rows, cols), {}, None, 0
        self.last, self.left, self.looks = ("", ()), iter(()), {}

    def refuse(self, *words):
        raise Refused(f"line {self.number}: {' '.join(map(str, words))}")

    def judge(self, data):
        """Judges a whole text."""
        line, end = "", 0
        while line != "end":
            self.number += 1
            begin, end = end, data.find(b"\n", end) + 1
            if not 0 < end <= LIMIT:
                self.refuse("BadLine")
            line = data[begin : end - 1].decode("latin-1")
            self.line(line)
        self.together()
        if end < len(data):
            self.number += 1
            self.refuse("BadLine")

    def line(self, text):
        words = text.split(" ")
        if self.number == 1:
            if text != "ticert 2 {} {}".format(*self.size):
                self.refuse("BadLine")
        elif text == "end":
            self.complete("~")
        elif words[0] == "acsc" and len(words) == 2 and BYTES.fullmatch(words[1]):
            if self.number != 2:
                self.refuse("OutOfOrder")
            self.acsc = bytes.fromhex(words[1].strip("-"))
        elif words[0] not in effects.CHECKED:
            self.refuse("BadLine")
        else:
            self.checked(words[0], words[1:])

    def checked(self, name, words):
        """Judges the line of a checked string."""
        count = len(effects.ranges(name, *self.size))
        params = tuple(int(it) if re.fullmatch(effects.NUMBER, it) else -1 for it in words[:count])
        data, effect = "".join(words[count : count + 1]), " ".join(words[count + 1 :])
        if not effects.is_list(name, params, *self.size) or not BYTES.fullmatch(data) or effects.effect_of(effect) is None:
            self.refuse("BadLine")
        self.order(name, params)
        self.held[name, params] = bytes.fromhex(data.strip("-"))
        fault = fault_of(name, params, self.held[name, params], effect, self.size)
        fault = fault or (self.look_fault(params, effects.effect_of(effect)["look"][5:]) if name == "sgr" else None)
        if fault:
            self.refuse(fault)

    def order(self, name, params):
        """Sees that this line is the next one."""
        if (name, params) <= self.last:
            self.refuse("OutOfOrder")
        if name != self.last[0]:
            self.complete(name)
            self.left = effects.lists(name, *self.size)
        wanted = next(self.left)
        if wanted != params:
            self.refuse("Missing", name, *wanted)
        self.last = name, params

    def complete(self, name):
        """Sees that no line is left out before this capability: of the last one, or of a required one between them."""
        lacking = [self.last[0], *(it for it in effects.REQUIRED if self.last[0] < it < name)]
        lists = (self.left if it == self.last[0] else effects.lists(it, *self.size) for it in lacking)
        for it, params in zip(lacking, (next(those, None) for those in lists)):
            if params is not None:
                self.refuse("Missing", it, *params)

    def look_fault(self, params, look):
        """The fault of the look that `sgr` gives to attributes together, or to one of them."""
        on = [it for it, is_on in zip(effects.ATTRIBUTES, params) if is_on]
        if len(on) == 1:
            own = terminal.put("000000", effects.OWN[on[0]], "1") if on[0] in effects.OWN else look
            self.looks[on[0]] = look
            return None if look in (own, "000000") else "BadLook"
        union = "".join(max(["0", *(self.looks[it][at] for it in on)]) for at in range(6))
        return None if look == union else "NotShown"

    def together(self):
        """Judges the strings together."""
        begins = [it for it in ((name, (0, self.size[0] - 1) if name == "csr" else ()) for name in BEGINNING) if it in self.held]
        lines = {key: tuple(it for it in terminal.split(data)[0] if it in terminal.SWITCHES) for key, data in self.held.items()}
        reached = closure({"BBI"}, {(it,) for switches in lines.values() for it in switches})
        first = {switched(sets, sum((lines[key] for key in begins), ())) for sets in reached}
        settled = closure(first, {it for key, it in lines.items() if key[0] not in ("smcup", "rmcup")})
        shown = {name: {active(switched(it, lines[name, ()])) for it in settled} for name in ("smacs", "rmacs") if (name, ()) in lines}
        if shown.get("smacs", {"0"}) != {"0"} or shown.get("rmacs", {"B"}) != {"B"}:
            self.refuse("NotShown")
        if (self.acsc is None or len(shown) < 2) and {active(it) for it in settled} != {"B"}:
            self.refuse("BadLook")
        data = b"".join(self.held[key] for key in begins)
        if data[:1] != b"\33" or {active(it) for it in first} != {"B"} or not self.leads_to_rest(terminal.split(data)[0]):
            self.refuse("NoResync")

    def leads_to_rest(self, tokens):
        """Whether these functions lead to a blank screen at rest, from every cursor and wrap and from the margins that there may be."""
        line = effects.Line("csr" if ("csr", (0, 1)) in self.held else "clear", (0, 1), tokens, *self.size)
        line.back, line.may_move_margins = "d", True
        effect = effects.effect_of(f"row=0 col=0 nopend all look:000000 ink:dd rows:0,{self.size[0] - 1}")
        # the sets change only what is printed, and so nothing that is blank in the end
        return line.does({**effect, "sets": "set:" + switched("...", [it for it in tokens if it in terminal.SWITCHES])})


def switched(sets, tokens):
    """The sets after these functions."""
    for it in tokens:
        sets = terminal.put(sets, *terminal.SWITCHES[it])
    return sets


def active(sets):
    return sets[0] if sets[2] == "I" else sets[1]


def closure(sets, strings):
    """These sets and all to which the strings lead from them."""
    grown = sets | {switched(it, string) for it in sets for string in strings}
    return sets if grown == sets else closure(grown, strings)


def disagreements(given, judge):
    """Where an entry and the lines of a certificate are not the same: a capability and its parameters."""
    yield from ((it,) for it in UNUSED if it in given)
    pairs = given.get("acsc", b"")
    partners = dict(reversed(list(zip(pairs[::2], pairs[1::2]))))
    if given.get("acsc") != judge.acsc or any(not 32 <= partners.get(it, 32) <= 126 for it in LETTERS):
        yield ("acsc",)
    for name in effects.CHECKED:
        is_there, first = is_checked(name, given), next(effects.lists(name, *judge.size))
        if is_there != ((name, first) in judge.held):
            yield name, *first
        elif is_there:
            yield from ((name, *it) for it in effects.lists(name, *judge.size) if entry.sent(given[name], it) != judge.held[name, it])


def is_checked(name, given):
    """Whether the entry's string of this name is checked."""
    is_part = name in effects.ATTRIBUTES and "sgr" in given
    return name in given and not is_part and all(it in given for those in TOGETHER if name in those for it in those)


def verify(given, size, data):
    """Judges a certificate and compares it with an entry; raises Refused."""
    judge = Judge(*size)
    judge.judge(data)
    for it in disagreements(given, judge):
        raise Refused(" ".join(map(str, ("Disagree", *it))))


def held_in(path):
    """The bytes of a file, up to the limit and one more."""
    with open(0 if path == "-" else path, "rb") as file:
        return file.read(LIMIT + 1)


def main(words):
    # strings may have conditionals within conditionals
    sys.setrecursionlimit(10000)
    try:
        if len(words) != 4:
            raise entry.BadInput("usage: verify.py ENTRY ROWS COLS CERTIFICATE")
        for word, what, most in zip(words[1:3], ("rows", "columns"), (200, 500)):
            if not re.fullmatch("[0-9]{1,10}", word) or not 2 <= int(word) <= most:
                raise entry.BadInput(f"{word!r} isn't a number of {what} from 2 to {most}")
        verify(entry.read(held_in(words[0])), (int(words[1]), int(words[2])), held_in(words[3]))
        print("yes", flush=True)
        return 0
    except (Refused, entry.BadInput, OSError) as fault:
        is_refused = isinstance(fault, Refused)
        print("refused:" if is_refused else "verify.py:", fault, file=sys.stderr)
        return 1 if is_refused else 2


if __name__ == "__main__":
    sys.exit(main(sys.argv[1:]))
