"""The findings: counts for tables, each difference, and how both are printed."""

# longer bytes are in vectors/, and in the file of --json
SHORT = 80


class Told:
    """The cases that an emulator was given, each with its differences in words; its version, and the marks that it tells."""

    def __init__(self):
        self.found, self.version, self.reads = [], "", ""

    def add(self, case, found):
        self.found.append((case, found))

    def differ(self):
        """The cases that differ, in the order of files."""
        return sorted(((case, found) for case, found in self.found if found), key=lambda it: (it[0].file, natural(it[0].name)))


def natural(name):
    """A name as words and numbers, so that 10 comes after 9."""
    return [(word.isdigit(), int(word) if word.isdigit() else 0, word) for word in name.replace("-", "/").split("/")]


def row_of(case, by_situation):
    """The row that a case counts in."""
    if case.alone:
        return (1, "T stands alone", "")
    return (0, case.group, case.situation if by_situation else "")


def counted(told, by_situation):
    """For each row how many cases differ, and of how many."""
    counts = {}
    for case, found in told.found:
        wrong, total = counts.get(row_of(case, by_situation), (0, 0))
        counts[row_of(case, by_situation)] = (wrong + bool(found), total + 1)
    return counts


def table(results, by_situation):
    """A row for each function or capability that differs somewhere, and a column for each emulator."""
    counts = [counted(told, by_situation) for told in results.values()]
    rows = []
    for key in sorted({key for count in counts for key in count}):
        row = [cell(*count.get(key, (0, 0))) for count in counts]
        if any(word not in ("", "-") for word in row):
            rows.append([f"{key[1]} {key[2]}".strip(), *row])
    return rows


def cell(wrong, total):
    return "" if not total else "-" if not wrong else f"{wrong}/{total}"


def print_table(results, rows, markdown):
    heads = ["", *results]
    if rows:
        print_rows([heads, *rows], markdown)
    for name, told in results.items():
        alone = [bool(found) for case, found in told.found if case.alone]
        among = f"; T stands alone in {len(alone)} of the cases, and {sum(alone)} of them differ" if alone else ""
        print(f"{name} {told.version}: {len(told.differ())} of {len(told.found)} cases differ{among}")


def print_rows(rows, markdown):
    widths = [max(len(row[at]) for row in rows) for at in range(len(rows[0]))]
    for row in [rows[0], *([["-" * width for width in widths]] if markdown else []), *rows[1:]]:
        cells = [cell.ljust(width) for cell, width in zip(row, widths)]
        print("| " + " | ".join(cells) + " |" if markdown else "  ".join(cells).rstrip())
    print()


def shortest(told):
    """For each function and situation that differ the shortest case, with how many there are; for each function the
    shortest first."""
    kinds = {}
    for case, found in sorted(told.differ(), key=lambda it: len(it[0].data)):
        kinds.setdefault((case.group, case.situation), []).append((case, found))
    return sorted(((group[0], len(group)) for group in kinds.values()), key=lambda it: (it[0][0].group, len(it[0][0].data)))


def print_shortest(results):
    if not any(told.differ() for told in results.values()):
        return
    print("\nThe shortest case of each kind that differs (FILE/CASE of vectors/; `feed` takes its bytes with xxd -r -p):")
    for name, told in results.items():
        for (case, found), count in shortest(told):
            more = f" (and {len(found) - 1} more)" if len(found) > 1 else ""
            data = case.data.hex() if len(case.data) <= SHORT else f"{len(case.data)} bytes"
            others = f", {count} cases" if count > 1 else ""
            print(f"  {name} {case.group} ({case.situation}{others}): {found[0]}{more}: {case.file}/{case.name}: {data}")


# what a session sends while a wrap is pending (counted over the sessions of four entries: 3,900 strings): for the other
# capabilities, what a terminal does with a pending wrap never reaches a session
SENT_PENDING = {"cr", "cup", "hpa", "home", "sgr", "sgr0", "setaf", "setab", "op", "smacs", "rmacs", "enacs", "bel", "civis", "cnorm", "cvvis", "clear", "smcup", "rmcup", "csr"}  # fmt: skip
ERASES = {"clear", "el", "el1", "ed", "ech", "ind", "ri"}


def reach(name, start):
    """Whether a session of the curses library ever sends the string from such a start."""
    if name == "smcup":
        return "sent, and the screen is cleared after it"
    if name == "rmcup":
        return "sent when the session is over"
    if start == "wrap pending":
        return "sent" if name in SENT_PENDING else "never sent with a wrap pending"
    if start in ("background", "negative") and name in ERASES:
        return "sessions erase and scroll in the default rendition"
    return "sent"


def print_meanings(results):
    print("\nWhat that means for the certificate:")
    for name, told in results.items():
        for (case, found), _ in shortest(told):
            print(f"  {name}: {case.name}: not so ({found[0]}); {reach(case.group, case.situation)}")
        if not told.differ():
            print(f"  {name}: each line that was tried is so")


def objects(name, told):
    """All differences, as --json writes them."""
    differ = [
        {
            "file": case.file, "case": case.name, "function": case.group, "situation": case.situation, "alone": case.alone,
            "bytes": case.data.hex(), "differences": found,
        }
        for case, found in told.differ()
    ]  # fmt: skip
    return {name: {"version": told.version, "reads": told.reads, "cases": len(told.found), "differ": differ}}
