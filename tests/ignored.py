"""The sequences of a stream that T ignores, by docs/TERMINAL.md and not by the program: of what kinds they are, and how often
they come."""

import re

SEQUENCE = re.compile(rb"\033(?:\[([0-?]*)([ -/]*)([@-~])|([ -/]*)([0-OQ-WYZ\\`-~]))")
ONE_NUMBER = b"@ABCDGLMPSTXd"
RENDITIONS = {0, 1, 2, 4, 5, 7, 8, 22, 24, 25, 27, 28, *range(30, 38), 39, *range(40, 48), 49}


def numbers_of(parameters):
    """The numbers between the semicolons, of which an empty one is 0 here."""
    return [min(int(number or b"0"), 65535) for number in parameters.split(b";")]


def lacking(numbers, known):
    """The first number that T doesn't have, or None."""
    return next((number for number in numbers if number not in known), None)


def kind(match):
    """The kind of a sequence that T ignores, as it is spelled for people; None if T ignores nothing of it."""
    parameters, intermediates, final, escape, last = match.groups()
    if last is not None:
        known = escape + last in (b"D", b"E", b"M", b"(0", b"(B", b")0", b")B")
        return None if known else spelled("ESC", escape + last)
    marks = re.sub(rb"[0-9;]", b"", parameters) + intermediates
    plain, private = not marks, marks == b"?" and parameters.startswith(b"?")
    if (plain and final in b"mhl") or (private and final in b"hl"):
        known = RENDITIONS if final == b"m" else {4} if plain else {7, 25}
        number = lacking(numbers_of(parameters.lstrip(b"?")), known)
        return None if number is None else spelled("CSI", marks + b"%d" % number + final)
    if plain and (final in b"Hfr" and parameters.count(b";") < 2 or final in ONE_NUMBER and b";" not in parameters):
        return None
    if plain and final in b"JK" and b";" not in parameters and numbers_of(parameters)[0] <= 2:
        return None
    return spelled("CSI", marks + final)


def spelled(introducer, sequence):
    """`CSI ? 25 h`: a space before each byte but within numbers."""
    parts = re.findall(rb"[0-9]+|.", sequence) if introducer == "CSI" else [bytes([byte]) for byte in sequence]
    return " ".join([introducer, *("SP" if part == b" " else part.decode() for part in parts)])


def kinds(data):
    """Each kind, in the order of first appearance, and how often it comes."""
    found = {}
    for match in SEQUENCE.finditer(data):
        name = kind(match)
        if name is not None:
            found[name] = found.get(name, 0) + 1
    return found


def told(data):
    """At most 50 kinds, and how often others come."""
    found = list(kinds(data).items())
    return found[:50], sum(times for _, times in found[50:])
