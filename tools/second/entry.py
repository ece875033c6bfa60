"""Terminfo entries: a compiled file of term(5), or an entry's text as `infocmp` prints it, and what its strings send."""

import functools
import operator
import re
import struct

# the places of term(5) that count here
FLAGS, NUMBERS = {"gn": 6, "hc": 7, "os": 15}, {"xmc": 4}
STRINGS = {
    "bel": 1, "cr": 2, "csr": 3, "clear": 5, "el": 6, "ed": 7, "hpa": 8, "cup": 10, "cud1": 11, "home": 12, "civis": 13, "cub1": 14, "cnorm": 16, "cuf1": 17,
    "cuu1": 19, "cvvis": 20, "smacs": 25, "blink": 26, "bold": 27, "smcup": 28, "dim": 30, "invis": 32, "rev": 34, "smso": 35, "smul": 36, "ech": 37,
    "rmacs": 38, "sgr0": 39, "rmcup": 40, "cud": 107, "cub": 111, "cuf": 112, "cuu": 114, "vpa": 127, "ind": 129, "ri": 130, "sgr": 131, "acsc": 146,
    "enacs": 155, "el1": 269, "op": 297, "setaf": 359, "setab": 360,
}  # fmt: skip
LARGEST = 2147483647
FORMS = {b"\x1a\x01": "h", b"\x1e\x02": "i"}
ESCAPED = dict(zip("Eenlrtbfas", (27, 27, 10, 10, 13, 9, 8, 12, 7, 32)))
FIELD = re.compile(r"[ \t]*((?:\\.|[^\\,])*),", re.S)
ESCAPE = re.compile(r"\\([0-7]{1,3})|\\(.)|\^(.)", re.S)
DELAY = re.compile(rb"\$<\d+(\.\d)?[*/]*>")
# a part of a parameter string; of a format the number is its width and precision
PART = re.compile(
    rb"(?P<text>[^%]+)|%(?:(?P<plain>[%cl+\-*/m&|^=><AO!~i?te;])|p(?P<param>[1-9])|(?P<set>[Pg])(?P<name>[a-zA-Z])|'(?P<quoted>.)'"
    rb"|\{(?P<number>\d+)\}|(?P<format>(?::[-+# 0]*|[# 0][-+# 0]*)?\d*(?:\.\d*)?[doxXs]))",
    re.S,
)


class BadInput(Exception):
    """Why nothing can be judged."""


def read(data):
    """The entry in a file: its capabilities by name."""
    if data[:2] in FORMS:
        try:
            return compiled(data, FORMS[data[:2]])
        except (struct.error, IndexError, ValueError):
            raise BadInput("the compiled entry is cut off or damaged") from None
    if not data.isascii() or 0 in data:
        raise BadInput("the entry is neither a compiled one nor ASCII text")
    return printed(data.decode())


def compiled(data, form):
    """The entry of a compiled file. Bytes after its table of strings aren't read."""
    names, flags, numbers, strings, size = struct.unpack_from("<5H", data, 2)
    at = 12 + names
    entry = {name: True for name, place in FLAGS.items() if place < flags and data[at + place] == 1}
    at += flags + (names + flags) % 2
    values = struct.unpack_from(f"<{numbers}{form}", data, at)
    at += struct.calcsize(f"<{numbers}{form}")
    entry.update((name, True) for name, place in NUMBERS.items() if place < numbers and values[place] >= 0)
    offsets = struct.unpack_from(f"<{strings}h", data, at)
    (table,) = struct.unpack_from(f"{size}s", data, at + 2 * strings)
    for name, place in STRINGS.items():
        if place < strings and offsets[place] >= 0:
            entry[name] = table[offsets[place] : table.index(b"\0", offsets[place])]
    return entry


def printed(text):
    """The entry in a text that has just one."""
    lines = [it for it in text.split("\n") if it.strip() and not it.startswith("#")]
    heads = [it for it in lines if not it[0].isspace()]
    if len(heads) != 1 or lines[0] != heads[0]:
        raise BadInput(f"the text has {len(heads)} entries, and not one")
    if any(FIELD.sub("", it).strip() for it in lines):
        raise BadInput("a field of the entry has no comma after it on its line")
    entry = {}
    for field in [it for line in lines for it in FIELD.findall(line)][1:]:
        name, mark, value = re.match(r"([^@#=]*)([@#=]?)(.*)", field, re.S).groups()
        entry.setdefault(name, value_of(name, mark, value))
    return {name: value for name, value in entry.items() if value is not None}


def value_of(name, mark, value):
    """A field's value, which is None where it has none, or where its name doesn't count."""
    if (name, mark) == ("use", "="):
        raise BadInput(f"the entry uses {value!r}; give the text that `ticurses infocmp` prints, in which nothing is used")
    wanted = {**dict.fromkeys(STRINGS, "="), **dict.fromkeys(NUMBERS, "#"), **dict.fromkeys(FLAGS, "")}.get(name)
    if wanted is None or mark == "@":
        return None
    if mark != wanted:
        raise BadInput(f"{name} of the entry is of another kind")
    return re.sub(ESCAPE, escaped, value).encode("latin-1") if mark == "=" else True


def escaped(found):
    """The character of an escape; a value of 0 is 128, as no string has a byte 0."""
    octal, letter, control = found.groups()
    value = int(octal, 8) & 255 if octal else ESCAPED.get(letter, ord(letter)) if letter else 127 if control == "?" else ord(control) & 31
    return chr(value or 128)


@functools.lru_cache(maxsize=4)
def program(string):
    """A parameter string as a list of parts, of which a conditional is its branches and what is done otherwise."""
    parts, at = [], 0
    while at < len(string):
        found = PART.match(string, at)
        counts = re.findall(rb"\d+", found["format"] or b"") if found else []
        if not found or any(int(it) > 255 for it in counts) or int(found["number"] or 0) > LARGEST:
            raise ValueError("no code")
        parts.append(found)
        at = found.end()
    tree, end = sequence(iter(parts))
    if end:
        raise ValueError("a conditional isn't whole")
    return tree


def sequence(parts):
    """The parts up to the end, or to a %t, %e or %; whose letter is returned too."""
    found = []
    for part in parts:
        if part["plain"] in (b"t", b"e", b";"):
            return found, part["plain"]
        found.append(conditional(parts) if part["plain"] == b"?" else part)
    return found, None


def conditional(parts):
    branches, (condition, end) = [], sequence(parts)
    while end == b"t":
        done, end = sequence(parts)
        branches.append((condition, done))
        condition = []
        if end != b"e":
            break
        condition, end = sequence(parts)
    if not branches or end != b";":
        raise ValueError("a conditional isn't whole")
    return branches, condition


def sent(string, params):
    """The bytes that a string sends: its expansion without the delays; None where it is at fault."""
    run = Run(params)
    try:
        run.go(program(string))
    except (ValueError, LookupError):
        return None
    return DELAY.sub(b"", bytes(run.out))


class Run:
    """A run of a program: its parameters, stack and variables, and what it has written."""

    def __init__(self, params):
        self.params, self.stack, self.variables, self.out = [*params, *[0] * 9][:9], [], {}, bytearray()

    def go(self, tree):
        for part in tree:
            if isinstance(part, tuple):
                self.go(next((done for condition, done in part[0] if self.go(condition).pop()), part[1]))
            elif part["plain"]:
                self.plain(part["plain"].decode())
            else:
                self.other(part)
        return self.stack

    def push(self, value):
        if not -LARGEST - 1 <= value <= LARGEST:
            raise ValueError("a number is too large")
        self.stack.append(value)

    def other(self, part):
        """A text, or a code of more than one letter."""
        name = part["name"]
        if part["text"]:
            self.out += part["text"]
        elif part["param"]:
            self.push(self.params[int(part["param"]) - 1])
        elif part["set"] == b"P":
            self.variables[name] = self.stack.pop()
        elif name:
            # a static variable that this string didn't set may hold anything
            self.push(self.variables[name] if name.isupper() else self.variables.get(name, 0))
        elif part["format"]:
            self.out += formatted(part["format"].decode(), self.stack.pop())
        else:
            self.push(part["quoted"][0] if part["quoted"] else int(part["number"]))

    def plain(self, letter):
        if letter == "%":
            self.out += b"%"
        elif letter == "i":
            self.params[:2] = [it + 1 for it in self.params[:2]]
        elif letter == "c":
            self.out += bytes([self.stack.pop() or 128])
        elif letter in "!~":
            value = self.stack.pop()
            self.push(~value if letter == "~" else int(not value))
        elif letter in BINARY:
            right, left = self.stack.pop(), self.stack.pop()
            self.push(int(BINARY[letter](left, right)))
        else:
            raise ValueError("there is no text whose length could be taken")


# quotients are cut towards zero, and 0 where the divisor is
BINARY = {
    **{"+": operator.add, "-": operator.sub, "*": operator.mul, "=": operator.eq, ">": operator.gt, "<": operator.lt},
    **{"&": operator.and_, "|": operator.or_, "^": operator.xor, "/": lambda left, right: right and int(left / right)},
    **{"m": lambda left, right: right and left - right * int(left / right)},
    **{"A": lambda left, right: left != 0 and right != 0, "O": lambda left, right: left != 0 or right != 0},
}


def formatted(form, value):
    """A number as C's printf writes an int."""
    flags, width, dot, precision, kind = re.fullmatch(r":?([-+# 0]*)(\d*)(\.?)(\d*)([doxXs])", form).groups()
    if kind == "s":
        raise ValueError("a number where a text is wanted")
    digits = f"{abs(value)}" if kind == "d" else f"{value & 0xFFFFFFFF:{kind}}"
    digits = digits.rjust(int(precision or 0), "0") if value or not dot or int(precision or 0) else ""
    sign = "-" if value < 0 else "+" if "+" in flags else " " if " " in flags else ""
    if kind != "d":
        prefix = {"o": "" if digits[:1] == "0" else "0"}.get(kind, f"0{kind}" if value else "")
        sign = prefix if "#" in flags else ""
    if "0" in flags and "-" not in flags and not dot:
        digits = digits.rjust(int(width or 0) - len(sign), "0")
    text = sign + digits
    return (text.ljust if "-" in flags else text.rjust)(int(width or 0)).encode()
