"""The bound of each refresh beside what it sends: the scenes of scripts.awk with the entries of samples.ti.

    python3 -B bench/bounds.py [ROWSxCOLS..]

The size is 24x80 if none is given. A refresh is played as a copy to the virtual screen and `doupdate`, and the program
asks for `most` in between. A line of figures has for each entry the bytes that the refreshes of the scene sent, as far
as refresh.sh counts them, and the sum of their bounds. If a refresh sends more than its bound, a line says so and the
status is 1. Python must find the package (PYTHONPATH), and the package its library (TICURSES_LIBRARY)."""

import os
import subprocess
import sys

import ticurses

HERE = os.path.dirname(os.path.abspath(__file__))
ENTRIES = ["mini", "vt", "xt", "xc"]
SCENES = (
    "full blank cell word cursor typed box status colours scroll region pad lines window nothing on back title both"
    " half panes split insert"
).split()
COPIES = {"refresh": "noutrefresh", "prefresh": "pnoutrefresh"}


def script(scene, rows, cols):
    """The lines of a scene."""
    words = ["awk", "-v", f"kind={scene}", "-v", f"rows={rows}", "-v", f"cols={cols}", "-f", f"{HERE}/scripts.awk"]
    return subprocess.run(words, stdout=subprocess.PIPE, check=True, text=True).stdout.splitlines()


def pieces(lines):
    """The calls before each refresh, with whether the refresh counts."""
    counts, calls = False, []
    for line in lines:
        call, _, rest = line.partition(" ")
        if line.startswith("# from here"):
            counts = True
        elif line.startswith("#"):
            continue
        elif call in COPIES or call == "doupdate":
            if call in COPIES:
                calls.append(f"{COPIES[call]} {rest}")
            yield calls, counts
            calls = []
        else:
            calls.append(line)


def make(session, call):
    """Makes a call, which may write up to the last cell of a window that doesn't scroll."""
    try:
        session.call(call)
    except ticurses.Error as error:
        if error.code != ticurses.Code.NO_SCROLL:
            raise


def played(session, lines):
    """The bytes that the refreshes of a scene sent, the sum of their bounds, and whether each kept its own. Without a
    `# from here` all of them count."""
    counted = any(line.startswith("# from here") for line in lines)
    sent = bounds = 0
    keeps = True
    for calls, counts in pieces(lines):
        for call in calls:
            make(session, call)
        most = session.most
        session.call("doupdate")
        count = session.waiting
        while session.output():
            pass
        keeps = keeps and count <= most
        if counts or not counted:
            sent, bounds = sent + count, bounds + most
    return sent, bounds, keeps


def main():
    with open(f"{HERE}/samples.ti", "rb") as file:
        source = file.read()
    status = 0
    for size in sys.argv[1:] or ["24x80"]:
        rows, cols = map(int, size.split("x"))
        print(f"bytes, at most: {rows} by {cols} {' '.join(ENTRIES)}")
        for scene in SCENES:
            lines = script(scene, rows, cols)
            found = [played(ticurses.Session(source, rows, cols, name=entry), lines) for entry in ENTRIES]
            print(f"{scene:10}" + "".join(f" {sent:9} {bounds:9}" for sent, bounds, _ in found))
            for entry, (_, _, keeps) in zip(ENTRIES, found):
                if not keeps:
                    print(f"bounds: {scene}: a refresh of {entry} sends more than its bound", file=sys.stderr)
                    status = 1
    return status


if __name__ == "__main__":
    sys.exit(main())
