"""`hello` over entries of examples/terminals.ti: what it sends is fed to the terminal, whose screen was worked out by hand."""

import sys

from trying import PROGRAM, TOP, Case, held_in, run_cases

HELLO = f"{TOP}/crates/hello"
SOURCE = held_in(f"{TOP}/examples/terminals.ti")

# the entry, rows and columns, and the screen: the cursor is where the end of the program's screen puts it
SHOWN = [
    (
        "vt",
        6,
        24,
        "                        \n"
        "    lqqqqqqqqqqqqqqqk   \n"
        "    x Hello, world! x   \n"
        "    mqqqqqqqqqqqqqqqj   \n"
        "                        \n"
        "                        \n"
        "cursor 5 0\n"
        "look 1 4-20 G\n"
        "look 2 4-4 G\n"
        "look 2 20-20 G\n"
        "look 3 4-20 G\n",
    ),
    (
        "mini",
        4,
        21,
        "                     \n"
        "    +---------------+\n"
        "    | Hello, world! |\n"
        "    +---------------+\n"
        "cursor 3 0\n",
    ),
]

# the screen of the run that is stored beside the program's sources
STORED = (
    "                        \n"
    "    +---------------+   \n"
    "    | Hello, world! |   \n"
    "    +---------------+   \n"
    "                        \n"
    "cursor 4 0\n"
)


def certificate(entry, rows, cols):
    """The certificate that `check` writes for an entry of the examples."""
    words = ["check", f"terminals.ti:{entry}", str(rows), str(cols)]
    [told] = run_cases(PROGRAM, [Case(words)], {"terminals.ti": SOURCE})
    if told.status:
        sys.exit(f"check refused {entry}: {told.err!r}")
    return told.out


def cases_and_data():
    """Runs that show the greeting, and runs that are refused and send nothing."""
    cases, data = [], {"terminals.ti": SOURCE}
    for entry, rows, cols, _ in SHOWN:
        data[f"{entry}.cert"] = certificate(entry, rows, cols)
        cases.append(Case(["terminals.ti", entry, str(rows), str(cols), f"{entry}.cert"], b"\n"))
    data["narrow.cert"] = certificate("mini", 4, 20)
    refused = [
        # the window isn't on the screen; the certificate is of another entry, of another size, is none; the words
        ["terminals.ti", "mini", "4", "20", "narrow.cert"],
        ["terminals.ti", "vt", "4", "21", "mini.cert"],
        ["terminals.ti", "mini", "4", "22", "mini.cert"],
        ["terminals.ti", "mini", "4", "21", "terminals.ti"],
        ["terminals.ti", "none", "4", "21", "mini.cert"],
        ["terminals.ti", "mini", "1", "21", "mini.cert"],
        ["terminals.ti", "mini"],
    ]
    return cases + [Case(words, wanted=b"") for words in refused], data


def fed(rows, cols, sent):
    [told] = run_cases(PROGRAM, [Case(["feed", str(rows), str(cols), "{}"], sent)])
    return told.out.decode("latin-1")


def main():
    cases, data = cases_and_data()
    told = run_cases(HELLO, cases, data)
    bad = []
    for (entry, rows, cols, wanted), it in zip(SHOWN, told):
        # `rt try` ends what it prints of a run with a newline, and the last byte that is sent is none
        screen = fed(rows, cols, it.out[:-1] if it.out.endswith(b"\n") else it.out)
        if it.status or screen != wanted:
            bad.append(f"{entry}: status {it.status}, {it.err!r}, and the screen\n{screen}")
    for case, it in list(zip(cases, told))[len(SHOWN) :]:
        if it.status != 1:
            bad.append(f"{' '.join(case.words)}: the status is {it.status}, and 1 was wanted")
    stored = fed(5, 24, held_in(f"{HELLO}/stdout"))
    if stored != STORED:
        bad.append(f"what is stored in crates/hello/stdout leaves the screen\n{stored}")
    if bad:
        sys.exit("hello: " + "\n".join(bad))
    print(f"hello: {len(SHOWN) + 1} screens and {len(cases) - len(SHOWN)} refusals are as worked out")


if __name__ == "__main__":
    main()
