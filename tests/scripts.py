"""Scripts of curses calls: `play` and `show`, on the entries of examples/terminals.ti."""

import os
import resource
import subprocess
import sys
import tempfile

import scrolling
from trying import PROGRAM, TOP, Case, run_cases

EXAMPLES = f"{TOP}/examples"

# the examples: the entry, and the rows and columns for which their screens are stored
STORED = {
    "box": ("xc", 7, 28),
    "clock": ("vt", 5, 24),
    "pad": ("vt", 5, 16),
    "table": ("vt", 7, 24),
    "repair": ("xt", 4, 16),
}

FULL = ["addstr 0 abcdefgh", "refresh 0"]
OVERLAP = [
    "newwin 1 1 4 0 0",
    "newwin 2 1 4 0 0",
    "addstr 1 aaa",
    "addstr 2 bbb",
    "refresh 1",
    "refresh 2",
    "refresh 1",
]
# as long as a script may be
LONGEST = ["#" * 1048554, "addstr 0 a", "refresh 0"]
COLORS = ["init_pair 1 1 4", "color_set 0 1", "addstr 0 ab", "refresh 0"]
# the attributes change while colors are on
BRIGHTER = [*COLORS[:3], "attron 0 B", "addstr 0 cd", "attroff 0 B", "addstr 0 ef", "refresh 0"]


def scrolled():
    """24 lines of 79 letters each, shown, and then scrolled up by one."""
    lines = []
    for row in range(24):
        lines += [f"move 0 {row} 0", "addstr 0 " + chr(ord("a") + row) * 79]
    return [*lines, "refresh 0", "scrollok 0 1", "scroll 0 1", "refresh 0"]


# how many random scripts of windows that scroll are played for each entry
RANDOM = 500
# the fewest of them, with as many of pages, that scroll twice in one refresh
FEWEST_TWICE = 50

# the entry, rows and columns, the script's lines, and what `show` prints; without a line for the cursor it may be anywhere
SHOWN = [
    ("mini", 2, 4, OVERLAP, "aaa \n    \ncursor 0 3\n"),
    (
        "mini",
        2,
        4,
        [*OVERLAP, "newwin 2 1 1 0 0", "newwin 64 1 1 0 0", "delwin 0", "dupwin 3 1", "refresh 3"],
        "call 8: NumberUsed\ncall 9: Full\ncall 10: IsScreen\naaa \n    \ncursor 0 3\n",
    ),
    (
        "mini",
        4,
        8,
        ["newwin 1 3 6 0 0", "subwin 2 1 2 4 1 1", "derwin 3 2 1 2 1 1", "addch 3 78", "refresh 1", "delwin 1"],
        "call 6: HasChildren\n        \n        \n  x     \n        \ncursor 0 0\n",
    ),
    (
        "mini",
        2,
        4,
        ["newpad 1 1000 1000", "addstr 1 hello", "prefresh 1 -1 -1 0 2 1 3", "prefresh 1 0 0 0 2 1 4", "refresh 1"],
        "call 4: OutOfScreen\ncall 5: PadKind\n  he\n    \n",
    ),
    (
        "mini",
        3,
        4,
        ["scrollok 0 1", "setscrreg 0 1 2", "move 0 2 0", "addstr 0 abcde", "refresh 0"],
        "    \nabcd\ne   \ncursor 2 1\n",
    ),
    ("vt", 2, 4, ["addstr 0 ab", "bkgd 0 2e/U", "refresh 0"], "ab..\n....\ncursor 0 2\nlook 0 0-3 U\nlook 1 0-3 U\n"),
    ("mini", 2, 4, ["init_pair 0 1 1", "color_set 0 64"], "call 1: BadPair\ncall 2: BadPair\n    \n    \ncursor 0 0\n"),
    ("mini", 2, 4, FULL, "call 1: NoScroll\nabcd\nefgh\ncursor 1 3\n"),
    (
        "mini",
        2,
        4,
        [*FULL, "addch 0 58", "refresh 0"],
        "call 1: NoScroll\ncall 3: NoScroll\nabcd\nefgX\ncursor 1 3\n",
    ),
    ("mini", 2, 4, [*FULL, "refresh 0"], "call 1: NoScroll\nabcd\nefgh\ncursor 1 3\n"),
    ("mini", 2, 4, [], "    \n    \ncursor 0 0\n"),
    (
        "vt",
        2,
        4,
        ["attron 0 U", "addstr 0 ab  ", "refresh 0"],
        "ab  \n    \ncursor 1 0\nlook 0 0-3 U\n",
    ),
    ("mini", 3, 4, ["box 0 - -", "refresh 0"], "+--+\n|  |\n+--+\ncursor 0 0\n"),
    (
        "vt",
        3,
        4,
        ["box 0 - -", "refresh 0"],
        "lqqk\nx  x\nmqqj\ncursor 0 0\nlook 0 0-3 G\nlook 1 0-0 G\nlook 1 3-3 G\nlook 2 0-3 G\n",
    ),
    ("xt", 2, 4, ["curs_set 0", "refresh 0"], "    \n    \ncursor 0 0 hidden\n"),
    ("mini", 2, 4, ["curs_set 0", "beep 0"], "call 1: NoCap\ncall 2: NoCap\n    \n    \ncursor 0 0\n"),
    ("vt", 2, 4, ["refresh 0", "endwin"], "    \n    \ncursor 1 0\n"),
    (
        "mini",
        2,
        4,
        ["newwin 1 1 4 0 0", "addstr 1 aa", "refresh 1", "delwin 1", "newwin 1 1 4 0 0", "refresh 1"],
        "    \n    \ncursor 0 0\n",
    ),
    (
        "mini",
        2,
        4,
        ["newwin 1 1 2 0 0", "addch 1 61", "refresh 1", "mvwin 1 1 2", "refresh 1"],
        "a   \n  a \ncursor 1 3\n",
    ),
    (
        "vt",
        24,
        80,
        scrolled(),
        "".join(chr(ord("a") + row) * 79 + " \n" for row in range(1, 24)) + " " * 80 + "\ncursor 23 79\n",
    ),
    ("xc", 2, 4, COLORS, "ab  \n    \ncursor 0 2\nlook 0 0-1 f1b4\n"),
    ("xc", 2, 4, [*COLORS, "init_pair 1 2 4", "refresh 0"], "ab  \n    \ncursor 0 2\nlook 0 0-1 f2b4\n"),
    ("xc", 2, 8, BRIGHTER, "abcdef  \n        \ncursor 0 6\nlook 0 0-1 f1b4\nlook 0 2-3 Bf1b4\nlook 0 4-5 f1b4\n"),
    ("vt", 2, 4, COLORS, "ab  \n    \ncursor 0 2\n"),
    (
        "xc",
        2,
        4,
        ["init_pair 1 7 4", "bkgd 0 20:1", "refresh 0"],
        "    \n    \ncursor 0 0\nlook 0 0-3 f7b4\nlook 1 0-3 f7b4\n",
    ),
    ("mini", 2, 4, LONGEST, "a   \n    \ncursor 0 1\n"),
    ("mini", 2, 4, ["# a comment", "", "addstr 0 a", "move 0 2 0", "refresh 0"], "call 2: OutOfWindow\na   \n    \ncursor 0 1\n"),
]

# words, the status, and the line of standard error
REFUSED = [
    (["show", "terminals:mini", "1", "4", "none", "none"], 1, "refused: BadSize"),
    (["play", "terminals:mini", "1", "4", "none", "none"], 1, "refused: BadSize"),
    (["show", "none:mini", "2", "4", "none", "none"], 3, "file: none"),
    (["show", "terminals:none", "2", "4", "none", "none"], 1, "refused: NoSuchEntry none"),
    (["show", "terminals:mini", "2", "4", "none", "none"], 3, "file: none"),
    (["show", "terminals:mini", "2", "4", "short.cert", "none"], 1, "refused: line 4: BadLine"),
    (["show", "terminals:mini", "2", "4", "mini-2-4.cert", "none"], 3, "file: none"),
    (["show", "terminals:mini", "2", "4", "mini-2-4.cert", "wrong"], 1, "refused: line 3: BadLine"),
    (["play", "terminals:mini", "2", "4", "mini-2-4.cert", "wrong"], 1, "refused: line 3: BadLine"),
    (["show", "terminals:mini", "2", "4", "mini-2-4.cert", "long"], 3, "file: long"),
    (["play", "terminals:mini", "2", "4", "mini-2-4.cert"], 2, None),
    (["show", "terminals:mini", "2", "x", "none", "none"], 2, None),
]


def read(name):
    with open(f"{EXAMPLES}/{name}", "rb") as file:
        return file.read()


def basic(rows, cols):
    """The certificate of `mini`, as its form says."""
    moves = []
    for row in range(rows):
        for col in range(cols):
            sent = b"\x1b[%d;%dH" % (row + 1, col + 1)
            moves.append(f"cup {row} {col} {sent.hex()} row={row} col={col} nopend")
    lines = [f"ticert 2 {rows} {cols}", "clear 1b5b481b5b324a row=0 col=0 nopend all", *moves]
    return "".join(f"{line}\n" for line in [*lines, "sgr0 1b5b6d look:000000 ink:dd", "end"]).encode()


def certificates(needed, files):
    """A certificate of each entry for each size: that of `mini` as it is known, the others as `check` writes them."""
    others = sorted(it for it in needed if it[0] != "mini")
    told = run_cases(PROGRAM, [Case(["check", f"terminals:{entry}", str(rows), str(cols)]) for entry, rows, cols in others], files)
    made = {it: answer.out for it, answer in zip(others, told)}
    for it, answer in zip(others, told):
        if answer.status != 0:
            sys.exit(f"scripts: check of {it}: status {answer.status}, {answer.err}")
    return made | {it: basic(*it[1:]) for it in needed if it[0] == "mini"}


def words(command, entry, rows, cols, script):
    return [command, f"terminals:{entry}", str(rows), str(cols), f"{entry}-{rows}-{cols}.cert", script]


def judge_shown(runs, files):
    """`show` prints the wanted text for each script, and the output of `play`, fed to the terminal, leaves its screen.
    Returns the outputs."""
    shown = run_cases(PROGRAM, [Case(words("show", *run[:4])) for run in runs], files)
    played = run_cases(PROGRAM, [Case(words("play", *run[:4])) for run in runs], files)
    streams = {f"stream{at:03}": answer.out for at, answer in enumerate(played)}
    fed = run_cases(PROGRAM, [Case(["feed", str(run[1]), str(run[2]), name]) for run, name in zip(runs, streams)], files | streams)
    for run, show, play, feed in zip(runs, shown, played, fed):
        screen = b"".join(it for it in show.out.splitlines(keepends=True) if not it.startswith(b"call "))
        if (show.status, play.status, feed.status) != (0, 0, 0) or show.err or play.err:
            sys.exit(f"scripts: {run[:4]}: {show.status} {show.err} {play.status} {play.err} {feed.err}")
        right = show.out == run[4] if b"\ncursor " in run[4] else show.out.startswith(run[4])
        if not right or feed.out != screen:
            sys.exit(f"scripts: {run[:4]}: it showed\n{show.out.decode()}and was to show\n{run[4].decode()}fed:\n{feed.out.decode()}")
    return [answer.out for answer in played]


def judge_lengths(played):
    """The output of single refreshes: nothing where all is shown, and no more than the bound; no `op` where `sgr` resets
    colors; and that of a screen's end."""
    full, more, again = (played[[run[3] for run in SHOWN].index(it)] for it in (FULL, [*FULL, "addch 0 58", "refresh 0"], [*FULL, "refresh 0"]))
    left = played[[run[3] for run in SHOWN].index(["refresh 0", "endwin"])]
    if not 0 < len(full) <= 100 or not more.startswith(full) or not 0 < len(more) - len(full) <= 20 or again != full:
        sys.exit(f"scripts: the refreshes of a full screen sent {full}, {more}, {again}")
    brighter = played[[run[3] for run in SHOWN].index(BRIGHTER)]
    if b"\x1b[39;49m" in brighter:
        sys.exit(f"scripts: attributes that change while colors are on sent {brighter}")
    if not left.endswith(bytes.fromhex("1b5b6d0f0f1b5b323b3148")):
        sys.exit(f"scripts: endwin of vt sent {left}")


def judge_refused(files):
    told = run_cases(PROGRAM, [Case(line) for line, _, _ in REFUSED], files)
    for (line, status, first), answer in zip(REFUSED, told):
        lines = answer.err.decode().splitlines()
        if answer.status != status or answer.out or not lines or first is not None and lines[0] != first:
            sys.exit(f"scripts: {line}: status {answer.status}, {answer.out}, {answer.err}")


def laid(room, files):
    """Puts the files into a folder, and returns what runs the program there with its output to a file."""
    for name, held in files.items():
        with open(f"{room}/{name}", "wb") as file:
            file.write(held)

    def run(line, out, **how):
        return subprocess.run([f"{PROGRAM}/out/ticurses", *line], cwd=room, env={}, stdout=out, stderr=subprocess.PIPE, **how)

    return run


def judge_closed(files):
    """A full disk and a closed pipe: status 3, reported after the run."""
    line = words("play", "mini", 2, 4, "script000")
    with tempfile.TemporaryDirectory() as room:
        run = laid(room, files)
        reading, writing = os.pipe()
        os.close(reading)
        with open("/dev/full", "wb") as full:
            for out in (full, writing):
                ran = run(line, out)
                if ran.returncode != 3 or not ran.stderr.startswith(b"output\n"):
                    sys.exit(f"scripts: play on a closed output: status {ran.returncode}, {ran.stderr}")
        os.close(writing)


def judge_full(name, whole, files):
    """A disk that is full after each number of bytes: they are the first of what the example sends, and the status is 3."""
    line = words("play", *STORED[name], f"{name}.script")
    with tempfile.TemporaryDirectory() as room:
        run = laid(room, files)
        for most in range(len(whole) + 1):
            # the signal of a file that is too long stays ignored, as Python has it
            how = {"preexec_fn": lambda: resource.setrlimit(resource.RLIMIT_FSIZE, (most, most)), "restore_signals": False}
            with open(f"{room}/out", "w+b") as out:
                ran = run(line, out, **how)
                out.seek(0)
                got = out.read()
            wanted = (3, b"output\n") if most < len(whole) else (0, b"")
            if got != whole[:most] or ran.returncode != wanted[0] or not ran.stderr.startswith(wanted[1]):
                sys.exit(f"scripts: play of {name} to a disk with room for {most}: status {ran.returncode}, {ran.stderr}, {got}")


def judge_scrolled(files):
    """Scripts of windows that scroll, and of pages that move: the screen that the model has, and margins that are the whole
    screen. Of the pages `show` prints that screen too. On a terminal with margins some scroll twice in one refresh. Returns
    how many scroll once."""
    single, pages = scrolling.each_way(), scrolling.turned(RANDOM)
    scripts = single + scrolling.randomly(RANDOM) + pages
    for entry in ("vt", "xt"):
        judge_pages(files, entry, pages)
        sent = sent_by(files, entry, scripts)
        if entry == "vt" and sum(map(scrolling.scrolls_twice, sent)) < FEWEST_TWICE:
            sys.exit("scripts: few random scripts scroll twice in one refresh")
        for seed, (script, seen) in enumerate(zip(scripts, fed_screens(sent))):
            wanted = (script.shown, scrolling.next_screen(script.shown))
            if seen != wanted:
                sys.exit(f"scripts: the script {seed} of scrolls on {entry}, {script.lines}, leaves\n{seen}\nand was to leave\n{wanted}")
    return len(single)


def judge_pages(files, entry, pages):
    """`show` prints the screens of these scripts."""
    size = [str(scrolling.ROWS), str(scrolling.COLS)]
    held = files | {f"random{seed:04}": scrolling.stored(script.lines) for seed, script in enumerate(pages)}
    shown = run_cases(PROGRAM, [Case(words("show", entry, *size, f"random{seed:04}")) for seed in range(len(pages))], held)
    for seed, (script, answer) in enumerate(zip(pages, shown)):
        if answer.status or answer.out.decode().splitlines()[: scrolling.ROWS] != script.shown:
            sys.exit(f"scripts: show of the pages {seed} on {entry}, {script.lines}: {answer}, and was to be\n{script.shown}")


def sent_by(files, entry, scripts):
    """The bytes that `play` sends for each script."""
    size = [str(scrolling.ROWS), str(scrolling.COLS)]
    held = files | {f"random{seed:04}": scrolling.stored(script.lines) for seed, script in enumerate(scripts)}
    sent = run_cases(PROGRAM, [Case(words("play", entry, *size, f"random{seed:04}")) for seed in range(len(scripts))], held)
    wrong = [(seed, answer.err) for seed, answer in enumerate(sent) if answer.status or answer.err]
    if wrong:
        sys.exit(f"scripts: random scripts on {entry}: {wrong}")
    return [answer.out for answer in sent]


def fed_screens(sent):
    """For the bytes of each script what a terminal shows that is fed with them, and what after a scroll by one line."""
    size = [str(scrolling.ROWS), str(scrolling.COLS)]
    streams = [it for out in sent for it in (out, scrolling.scrolled_once(out))]
    fed = run_cases(PROGRAM, [Case(["feed", *size, "{}"], given=stream) for stream in streams])
    screens = [answer.out.decode().splitlines()[: scrolling.ROWS] for answer in fed]
    return list(zip(screens[::2], screens[1::2]))


def main():
    files = {"terminals": read("terminals.ti")}
    runs = []
    for at, (entry, rows, cols, lines, wanted) in enumerate(SHOWN):
        files[f"script{at:03}"] = "".join(f"{line}\n" for line in lines).encode()
        runs.append((entry, rows, cols, f"script{at:03}", wanted.encode()))
    for name, (entry, rows, cols) in STORED.items():
        files[f"{name}.script"] = read(f"{name}.script")
        runs.append((entry, rows, cols, f"{name}.script", read(f"{name}.shown")))
    sizes = {run[:3] for run in runs} | {(entry, scrolling.ROWS, scrolling.COLS) for entry in ("vt", "xt")}
    for (entry, rows, cols), text in certificates(sizes, files).items():
        files[f"{entry}-{rows}-{cols}.cert"] = text
    files["short.cert"] = b"".join(basic(2, 4).splitlines(keepends=True)[:3])
    files["wrong"] = b"addstr 0 a\n\naddstr 0\nrefresh 0\n"
    files["long"] = "".join(f"{line}\n" for line in ["#" + LONGEST[0], *LONGEST[1:]]).encode()
    played = judge_shown(runs, files)
    judge_lengths(played)
    judge_refused(files)
    judge_closed(files)
    single = judge_scrolled(files)
    for name, whole in zip(STORED, played[-len(STORED) :]):
        judge_full(name, whole, files)
    print(f"scripts: {len(runs)} scripts show the screens that are known, {len(STORED)} of them examples; played and fed they show the same")
    print(f"scripts: {2 * single} scrolls, {2 * RANDOM} random scripts of windows that scroll and as many of pages that move, leave the screen that a model has, and whole margins")
    print(f"scripts: {len(REFUSED)} lines are refused, and a closed output is told after the run, as is a disk that is full after each byte of an example")


if __name__ == "__main__":
    main()
