"""The findings of a survey, from its JSON: the entries, each fault once, with the entries that it concerns, and apart from
these the advice and the hints."""

import json

VERDICTS = ("yes", "no", "refused", "advice", "hint")
TEXTS = ("bytes", "capability", "cause", "entry", "seen", "source_entry", "start", "string", "suggestion", "wanted")
# what is said of a fault
OF_FAULT = ("capability", "parameters", "cause", "bytes", "start", "wanted", "seen")
# what matters most comes first; older reports have no grades
GRADES = ("broken", "contradicts", "wrong", "unknown")
UNGRADED, ACCEPTED = "ungraded", "accepted"
# whose fault it is: of an entry for a terminal like T, of one for another kind, or of a part that others use
KINDS = ("whole", "other", "part")


class NoReport(Exception):
    """The input isn't what `survey --json --all` prints."""


class Fault:
    """A fault at its place, and the entries that have it. If they have it by different grades, the words are those of the
    first grade."""

    def __init__(self, number, one):
        self.number = number
        self.line, self.column, self.file = one["line"] or 0, one.get("column") or 0, file_of(one)
        self.places, self.suggestions, self.entries, self.grades = [], [], [], []
        self.kinds, self.is_accepted = set(), True
        self.tell(one)

    def tell(self, one):
        """Takes the words of an object."""
        self.capability, self.parameters, self.cause = one["capability"], one["parameters"], one["cause"]
        self.bytes, self.size, self.explanation = one["bytes"], one["size"], one["explanation"]
        self.start, self.wanted, self.seen = one["start"], one["wanted"], one["seen"]
        self.string, self.source_entry, self.judged = one["string"], one["source_entry"], one["judged"]

    def add(self, one, entry):
        """One more object that reports it."""
        place, grade = place_of(one), one.get("grade") or UNGRADED
        if place and place not in self.places:
            self.places.append(place)
        if one["suggestion"] is not None and one["suggestion"] not in self.suggestions:
            self.suggestions.append(one["suggestion"])
        if self.grades and rank(grade) < rank(self.grade()):
            self.tell(one)
        self.kinds.add(kind_of(one))
        self.is_accepted = self.is_accepted and one.get("accepted") is True
        self.entries.append(entry)
        self.grades.append(grade)
        entry.faults.append(self)

    def title(self):
        """The words of `check` for it, without its cause."""
        return " ".join([self.capability, *map(str, self.parameters)])

    def grade(self):
        """The first grade by which an entry has it."""
        return min(self.grades, key=rank)

    def rank(self):
        return rank(self.grade())

    def group(self):
        """Its part of the page."""
        return ACCEPTED if self.is_accepted else self.grade()

    def kind(self):
        """The first kind of its entries."""
        return next(it for it in KINDS if it in self.kinds)

    def users(self):
        """Its entries by their grades."""
        pairs = list(zip(self.entries, self.grades))
        return [(grade, [entry for entry, of in pairs if of == grade]) for grade in sorted(set(self.grades), key=rank)]


class Entry:
    """An entry of a file; without a name it is the file itself."""

    def __init__(self, one):
        self.name, self.file, self.verdict = one["entry"], one["file"], one["verdict"]
        self.reason = one["cause"] if self.verdict == "refused" else None
        self.place, self.kind, self.faults = place_of(one), kind_of(one), []

    def shown(self):
        return self.file if self.name is None else self.name

    def goes_on(self, one, fault):
        """Whether an object is the next fault of this entry: a survey reports them one after another, and none twice. An entry
        of the same name may follow."""
        return self.verdict == one["verdict"] == "no" and self.is_of(one) and fault not in self.faults

    def is_of(self, one):
        """Whether an object names this entry."""
        return (self.file, self.name) == (one["file"], one["entry"])


class Found:
    """All that was found, in the order of the input. Advice and hints are the words, and who they are said to: for each a
    place or nothing, and an entry."""

    def __init__(self):
        self.entries, self.faults, self.size = [], [], None
        self.advice, self.hints = {}, {}
        self.has_accepted = False

    def causes(self):
        """The causes, the most frequent first, each with its faults and with how many entries have one."""
        causes = {}
        for fault in self.faults:
            causes.setdefault(fault.cause, []).append(fault)
        rows = [(name, faults, len({id(it) for one in faults for it in one.entries})) for name, faults in causes.items()]
        return sorted(rows, key=lambda row: (-row[2], row[0]))

    def groups(self):
        """The parts of the page in their order, each with its faults: those that concern most entries come first."""
        names = [*GRADES, UNGRADED, *[ACCEPTED] * self.has_accepted]
        faults = {name: [] for name in names}
        for fault in self.faults:
            faults[fault.group()].append(fault)
        return [(name, sorted(them, key=order)) for name, them in faults.items()]

    def has_grades(self):
        return any(grade != UNGRADED for fault in self.faults for grade in fault.grades)

    def files(self):
        """The sources that have places."""
        return {fault.file for fault in self.faults if fault.line}

    def count(self, verdict):
        return sum(entry.verdict == verdict for entry in self.entries)


def rank(grade):
    return [*GRADES, UNGRADED].index(grade)


def order(fault):
    """Faults of many entries come first, then those that stand first."""
    return -len(fault.entries), fault.file, fault.line, fault.column, fault.title(), fault.cause


def kind_of(one):
    """Of which kind the entry of an object is; a part is one whatever else it seems to be."""
    return "part" if one.get("part") else "other" if one.get("another_kind") else "whole"


def file_of(one):
    """The file that has the field, or else that of the entry."""
    return one.get("source_file") or one["file"]


def place_of(one):
    """Where the value stands, as compilers write it; of a compiled file there is only the file."""
    if one["line"] is None:
        return one["file"]
    column = one.get("column")
    return f"{file_of(one)}:{one['line']}" + (f":{column}" if column else "")


def is_report(one):
    """Whether a value of JSON is an object of the survey."""
    if not isinstance(one, dict) or one.get("verdict") not in VERDICTS or not isinstance(one.get("file"), str):
        return False
    texts = all(one.get(name, 0) is None or isinstance(one.get(name), str) for name in TEXTS)
    lists = all(isinstance(one.get(name), list) for name in ("explanation", "parameters"))
    size = one.get("size")
    sizes = isinstance(size, dict) and all(type(size.get(name)) is int and size[name] > 0 for name in ("rows", "cols"))
    line = one.get("line", 0) is None or type(one["line"]) is int and one["line"] > 0
    truths = all(one.get(name, 0) is None or isinstance(one.get(name), bool) for name in ("another_kind", "judged"))
    needed = {"no": ("capability", "cause", "entry"), "advice": ("capability", "entry"), "hint": ("entry", "line")}.get(one["verdict"], ())
    named = all(one.get(name) is not None for name in needed)
    return texts and truths and lists and sizes and line and named and has_later(one) and is_hexadecimal(one["bytes"])


def has_later(one):
    """Whether the members that older reports lack are as they are to be, where they are."""
    column = one.get("column")
    return (
        all(one.get(name) is None or isinstance(one[name], bool) for name in ("accepted", "part"))
        and (one.get("source_file") is None or isinstance(one["source_file"], str))
        and (column is None or type(column) is int and column > 0)
        and (one.get("grade") is None or one["grade"] in GRADES)
    )


def is_hexadecimal(text):
    try:
        return text is None or len(bytes.fromhex(text)) >= 0
    except ValueError:
        return False


def key_of(one):
    """The key that all reports of one fault share: in a source its place, whichever entry uses it; otherwise, as in
    compiled files, all that the reports say."""
    if one["line"] is not None:
        return place_of(one), one["capability"], one["cause"]
    return json.dumps([one[name] for name in OF_FAULT])


def objects(data):
    """The objects of the input, each on a line of its own."""
    for number, line in enumerate(data.split(b"\n"), 1):
        if not line.strip():
            continue
        try:
            one = json.loads(line)
        except (ValueError, RecursionError):
            raise NoReport(f"line {number} isn't JSON") from None
        if not is_report(one):
            raise NoReport(f"line {number} is no object of ticurses survey --json --all")
        yield number, one


def add_words(found, one, number):
    """Advice on the entry whose objects came before, or a hint about one of its fields."""
    is_advice = one["verdict"] == "advice"
    if not (found.entries and found.entries[-1].is_of(one)):
        what = "advice on" if is_advice else "a hint about"
        raise NoReport(f"line {number} is {what} another entry than the object before it")
    words, place = " ".join(map(str, one["explanation"])), one["line"] and place_of(one)
    said = found.advice.setdefault((one["capability"], words), []) if is_advice else found.hints.setdefault(("", words), [])
    said.append((place, found.entries[-1]))


def found_in(data):
    """The findings that the bytes of the input list."""
    found, faults = Found(), {}
    for number, one in objects(data):
        if found.size not in (None, one["size"]):
            raise NoReport(f"line {number} is of another size than those before it")
        found.size = one["size"]
        found.has_accepted = found.has_accepted or "accepted" in one
        if one["verdict"] in ("advice", "hint"):
            add_words(found, one, number)
            continue
        key = key_of(one)
        if not (found.entries and found.entries[-1].goes_on(one, faults.get(key))):
            found.entries.append(Entry(one))
        if one["verdict"] == "no":
            faults.setdefault(key, Fault(len(faults), one)).add(one, found.entries[-1])
    found.faults = list(faults.values())
    if not found.entries:
        raise NoReport("there is no object of ticurses survey --json --all")
    return found
