"""Small compiled files cut at each length, and with each byte set to each other value, beside a plain reader."""

import re
import struct
import tempfile

from trying import Case, probe, run_cases


class Fault(Exception):
    """Why bytes are no compiled file, or why there is no entry of one."""


def read(file):
    """The names and the values of a compiled file, term(5): a reader by places, in the order of the file."""
    if len(file) < 2:
        raise Fault("Short")
    (magic,) = struct.unpack_from("<H", file)
    if magic not in (0o432, 0o1036):
        raise Fault("BadMagic")
    if len(file) < 12:
        raise Fault("Short")
    sizes = struct.unpack_from("<5h", file, 2)
    if min(sizes) < 0 or sizes[1] > 44 or sizes[2] > 39 or sizes[3] > 414:
        raise Fault("BadCount")
    width = 4 if magic == 0o1036 else 2
    flags_at = 12 + sizes[0]
    numbers_at = flags_at + sizes[1] + (sizes[0] + sizes[1]) % 2
    offsets_at = numbers_at + width * sizes[2]
    table_at = offsets_at + 2 * sizes[3]
    if len(file) < table_at + sizes[4]:
        raise Fault("Short")
    if sizes[0] == 0 or file[flags_at - 1] != 0:
        raise Fault("NoNul")
    table = file[table_at : table_at + sizes[4]]
    flags = [flag_of(byte) for byte in file[flags_at : flags_at + sizes[1]]]
    numbers = [number_of(it) for it in struct.unpack_from(f"<{sizes[2]}{'i' if width == 4 else 'h'}", file, numbers_at)]
    strings = [string_of(table, it) for it in struct.unpack_from(f"<{sizes[3]}h", file, offsets_at)]
    return file[12:flags_at].split(b"\0")[0], flags, numbers, strings


def flag_of(byte):
    if byte not in (0, 1, 254):
        raise Fault("BadFlag")
    return byte == 1


def number_of(number):
    if number < -2:
        raise Fault("BadNumber")
    return None if number < 0 else number


def string_of(table, offset):
    if offset in (-1, -2):
        return None
    if offset < 0 or offset >= len(table):
        raise Fault("BadOffset")
    if 0 not in table[offset:]:
        raise Fault("NoNul")
    return table[offset:].split(b"\0")[0]


def are_names(names):
    """Whether a source text can have these names in column one: terminfo(5), and what a comma ends."""
    field = rb"(?:[^\\^,]|\\.|\^[^,])*\^?"
    return bool(re.fullmatch(field, names, re.S)) and names[:1] not in (b"", b" ", b"#", b"|") and min(names) >= 32


def line_of(file):
    """The line that the program has to print for a file."""
    try:
        names, flags, numbers, strings = read(file)
    except Fault as fault:
        return str(fault)
    words = [names.hex()]
    words += [f"flag{at}" for at, flag in enumerate(flags) if flag]
    words += [f"number{at}={number}" for at, number in enumerate(numbers) if number is not None]
    words += [f"string{at}={string.hex()}" for at, string in enumerate(strings) if string is not None]
    return " ".join(words + ([] if are_names(names) else ["BadNames"]))


def mini():
    """An entry with `clear`, `cup` and `sgr0`, by the rules of term(5): 133 bytes."""
    strings = {5: b"\x1b[H\x1b[2J", 10: b"\x1b[%i%p1%d;%p2%dH", 39: b"\x1b[m"}
    table, offsets = b"", []
    for position in range(40):
        offsets.append(len(table) if position in strings else -1)
        table += strings[position] + b"\0" if position in strings else b""
    names = b"mini|sample\0"
    return struct.pack("<6h", 0o432, len(names), 0, 0, 40, len(table)) + names + struct.pack("<40h", *offsets) + table


FILES = {
    "three strings": mini(),
    "numbers of 32 bits": bytes.fromhex("1e02 0400 0200 0100 0000 0000 617c6200 0001 409c0000"),
    "even names": bytes.fromhex("1a01 0400 0200 0100 0000 0000 617c6200 0001 5000"),
    "odd names": bytes.fromhex("1a01 0300 0200 0100 0000 0000 616200 0001 00 5000"),
    "a string": bytes.fromhex("1a01 0200 0000 0000 0700 0400 6d00 ffffffffffffffffffffffff 0000 1b5b4b00"),
}


def variants(file):
    """The file, each front of it, and the file with each byte set to each other value."""
    yield file
    for size in range(len(file)):
        yield file[:size]
    for at, old in enumerate(file):
        for value in range(256):
            if value != old:
                yield file[:at] + bytes([value]) + file[at + 1 :]


def main():
    files = [it for file in FILES.values() for it in variants(file)]
    cases = []
    for at in range(0, len(files), 4000):
        given = b"".join(struct.pack("<H", len(it)) + it for it in files[at : at + 4000])
        wanted = "".join(f"{line_of(it)}\n" for it in files[at : at + 4000])
        cases.append(Case(given=given, wanted=wanted.encode()))
    with tempfile.TemporaryDirectory() as work:
        run_cases(probe(work, "compiled_altered_probe.txt"), cases)
    read_well = sum(re.match("[A-Z]", line_of(it)) is None for it in files)
    print(f"compiled_altered: {len(files)} files, cut or altered at each byte of {len(FILES)} small ones, have the answers of a")
    print(f"compiled_altered: plain reader, {read_well} of them an entry and the others a fault")


main()
