"""Recordings of full-screen programs, and random scripts of curses calls: the screens of T beside those of emulators."""

import glob
import os
import shutil
import subprocess
import sys
import tempfile

from drawing import Script
from trying import TOP

HERE = f"{TOP}/tests/reality"
sys.path.append(HERE)

from screens import Tmux

ROWS, COLS, SCRIPTS = 12, 40, 50


def ticurses(*words):
    """The output of the program, which has to be its whole answer."""
    ran = subprocess.run([f"{TOP}/ticurses", *words], stdout=subprocess.PIPE, stderr=subprocess.PIPE)
    if ran.returncode != 0:
        sys.exit(f"reality: ticurses {' '.join(words)}: status {ran.returncode}\n{ran.stderr.decode()}")
    return ran.stdout


def text_of(path):
    with open(path, encoding="ascii") as file:
        return file.read()


def recordings():
    """Each recording leaves the screen that both emulators show, or else the one that its file for T has."""
    alike = unlike = 0
    for path in sorted(glob.glob(f"{HERE}/*.bytes")):
        base = path[: -len(".bytes")]
        differs = os.path.exists(f"{base}.t")
        shown = ticurses("feed", "24", "80", path).decode()
        wanted = text_of(f"{base}.t" if differs else f"{base}.screen")
        if shown != wanted:
            sys.exit(f"reality: feed of {os.path.basename(path)} shows\n{shown}and was to show\n{wanted}")
        alike, unlike = alike + (not differs), unlike + differs
    print(f"reality: {alike} recordings leave the screen that tmux and pyte show; {unlike} the one that T is to show there")


def scripts():
    """Random scripts, played into tmux: its screen and cursor are those that `show` prints."""
    if not shutil.which("tmux"):
        print("reality: tmux is not installed, and the scripts that are played into it are left out")
        return
    tmux = Tmux(ROWS, COLS)
    try:
        with tempfile.TemporaryDirectory() as room:
            for seed in range(SCRIPTS):
                beside(tmux, room, seed)
    finally:
        tmux.close()
    print(f"reality: {SCRIPTS} random scripts leave the screen and the cursor in tmux that `show` prints")


def beside(tmux, room, seed):
    """One script: played into tmux, and shown."""
    name = "xc" if seed % 2 else "vt"
    entry, cert, size = f"{TOP}/examples/terminals.ti:{name}", f"{room}/{name}.cert", (str(ROWS), str(COLS))
    if not os.path.exists(cert):
        ticurses("check", entry, *size, "--out", cert)
    with open(f"{room}/script", "w", encoding="ascii") as file:
        file.write("".join(f"{line}\n" for line in Script(seed, name == "xc", ROWS, COLS).lines))
    shown = ticurses("show", entry, *size, cert, f"{room}/script").decode()
    wanted = "".join(f"{line}\n" for line in shown.splitlines() if not line.startswith("call "))
    with open(f"{room}/bytes", "wb") as file:
        file.write(ticurses("play", entry, *size, cert, f"{room}/script"))
    seen = tmux.printed(f"{room}/bytes")
    if seen != wanted:
        sys.exit(f"reality: script {seed} ({name}) leaves in tmux\n{seen}and `show` prints\n{wanted}the script:\n{text_of(f'{room}/script')}")


def main():
    recordings()
    scripts()


if __name__ == "__main__":
    main()
