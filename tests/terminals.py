"""Random sessions in terminals that really run: each shows what T shows, with its looks and its cursor.

    python3 -B tests/terminals.py [COUNT [TERMINAL..]]

Of the COUNT sessions (25) of each terminal every other one scrolls. In 20 more, pages move that are drawn anew. Then ten
sessions, five of each kind, are cut with the library for C, where it is built: each loses output at up to three places,
and its last refresh repairs the screen."""

import json
import os
import random
import re
import subprocess
import sys
import tempfile
from pathlib import Path

import drawing
import scrolling
from linked import compiled, installed_at, is_built
from trying import PROGRAM, TOP, Case, held_in, run_cases

sys.path.append(f"{TOP}/tools/conform")

from emulator import Missing  # noqa: E402
from emulators import ALL  # noqa: E402
from screens import differences, of_state  # noqa: E402
from windows import Display, Windowed  # noqa: E402

TERMINALS = ["xterm", "vte", "libvterm", "tmux"]
# an entry of the examples, so that what the system describes plays no part
SOURCE, ENTRY, ROWS, COLS = f"{TOP}/examples/terminals.ti", "xc", 24, 80
COUNT, PAGES, CUT = 25, 20, 5
ATTRIBUTES = ["R", "U", "B", "RB", "D", "-", "-"]
# what leads out of a cut inside a sequence is tried most
SEQUENCE = re.compile(rb"\033(\[[0-9;?]*[A-Za-z]|[()].|.)")


def fail(text):
    sys.exit(f"terminals: {text}")


def scrolling_script(seed):
    """Windows that scroll, with attributes and colors among the calls."""
    made, pick = scrolling.Script(seed, ROWS, COLS), random.Random(seed)
    made.add_all()
    lines = [f"init_pair {n} {pick.randrange(8)} {pick.randrange(8)}" for n in range(1, 6)]
    for line in made.lines:
        if pick.random() < 0.15:
            looks = [f"attrset 0 {pick.choice(ATTRIBUTES)}", f"color_set 0 {pick.randrange(6)}", f"bkgdset 0 20:{pick.randrange(6)}"]
            lines.append(pick.choice(looks))
        lines.append(line)
    return lines


def stored(lines):
    return "".join(f"{line}\n" for line in [*lines, "refresh 0"]).encode()


def script(seed):
    return stored(scrolling_script(seed) if seed % 2 else drawing.Script(seed, True, ROWS, COLS).lines)


def pages(seed):
    return stored(scrolling.Pages(seed, ROWS, COLS).lines)


def ticurses(words, given):
    """The output of the program for each of these files."""
    data = {"terminals.ti": held_in(SOURCE)}
    told = run_cases(PROGRAM, [Case([str(word) for word in words], it) for it in given], data)
    for it in told:
        if it.status:
            fail(f"ticurses {' '.join(map(str, words))}: status {it.status}, {it.err!r}")
    return [it.out for it in told]


class Session:
    """The bytes of a session, and T's screen after them, in the form in which the emulators' screens are read."""

    def __init__(self, name, data, state):
        self.name, self.data, self.screen = name, data, of_state(json.loads(state))


def sessions_of(names, sent):
    states = ticurses(["feed", "--json", ROWS, COLS, "{}"], sent)
    return [Session(*it) for it in zip(names, sent, states)]


def whole_sessions(name, scripts, certificate):
    sent = ticurses(["play", f"terminals.ti:{ENTRY}", ROWS, COLS, certificate, "{}"], scripts)
    return sessions_of([f"{name} {seed}" for seed in range(len(scripts))], sent)


def places_of(data, seed):
    """After how many bytes the output is cut."""
    pick = random.Random(seed)
    inside = [at for it in SEQUENCE.finditer(data) for at in range(it.start() + 1, it.end())]
    return sorted({pick.choice(inside) if inside and pick.random() < 0.7 else pick.randrange(1, len(data)) for _ in range(pick.randrange(1, 4))})


def cut_at(loser, places, lines, work):
    """The output of a session that loses bytes at these places."""
    Path(f"{work}/script").write_bytes(lines)
    words = [loser, SOURCE, ENTRY, ROWS, COLS, f"{work}/script", *places]
    ran = subprocess.run([str(word) for word in words], stdout=subprocess.PIPE)
    if ran.returncode:
        fail(f"{loser} ended with status {ran.returncode}")
    return ran.stdout


def cut_sessions(loser, whole, scripts, work):
    """The first sessions, each cut. T shows what it shows without the cuts."""
    places = [places_of(session.data, seed) for seed, session in enumerate(whole[:CUT])]
    # refreshes after one that is cut
    sent = [cut_at(loser, it, lines + b"refresh 0\n" * 3, work) for it, lines in zip(places, scripts)]
    names = [f"{session.name}, cut after {', '.join(map(str, it))} bytes" for session, it in zip(whole, places)]
    cut = sessions_of(names, sent)
    for session, repaired in zip(whole, cut):
        wrong = differences(session.screen, repaired.screen, "BDUKRIfb")
        if wrong:
            fail(f"{repaired.name}: it isn't repaired on T: {wrong[0]}")
    return cut


def compare(kind, sessions):
    """The sessions in one terminal."""
    emulator = kind(ROWS, COLS)
    try:
        for session in sessions:
            wrong = differences(session.screen, emulator.show(session.data), kind.reads)
            if wrong:
                keep = tempfile.NamedTemporaryFile(prefix="terminals-", suffix=".bytes", delete=False)
                with keep:
                    keep.write(session.data)
                fail(f"{kind.name} {kind.version()}: {session.name}: {'; '.join(wrong[:3])} (its bytes are in {keep.name})")
    finally:
        emulator.close()


def run(names, sessions):
    """Which terminals were compared."""
    display, compared = None, []
    try:
        for name in names:
            try:
                if issubclass(ALL[name], Windowed) and not display:
                    display = Windowed.display = Display()
                    os.environ["DISPLAY"] = display.name
                compare(ALL[name], sessions)
                compared.append(f"{name} {ALL[name].version()}")
            except Missing as missing:
                print(f"terminals: {name} is left out: {missing}")
    finally:
        if display:
            display.close()
    return compared


def main():
    count, names = int(sys.argv[1]) if len(sys.argv) > 1 else COUNT, sys.argv[2:] or TERMINALS
    with tempfile.TemporaryDirectory() as work:
        certificate = f"{work}/certificate"
        Path(certificate).write_bytes(ticurses(["check", f"terminals.ti:{ENTRY}", ROWS, COLS], [b""])[0])
        kinds = [("session", [script(seed) for seed in range(count)]), ("pages", [pages(seed) for seed in range(PAGES)])]
        whole = [whole_sessions(name, scripts, certificate) for name, scripts in kinds]
        cut = []
        if is_built("terminals", "sessions that are cut are left out"):
            loser = compiled(installed_at(work), f"{TOP}/tests/c/loser.c", f"{work}/loser")
            cut = [it for sessions, (_, scripts) in zip(whole, kinds) for it in cut_sessions(loser, sessions, scripts, work)]
    played = [it for sessions in whole for it in sessions]
    compared = run(names, played + cut)
    if compared:
        print(f"terminals: {len(played)} sessions and {len(cut)} that were cut and repaired show the virtual screen on {', '.join(compared)}")


if __name__ == "__main__":
    main()
