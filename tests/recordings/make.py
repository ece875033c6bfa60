"""Records programs on a pseudo-terminal of 24 rows and 80 columns under TERM=xterm, in the C locale:

    python3 -B tests/recordings/make.py [NAME..]

Each of the programs below (Debian's packages of their names) writes its recording beside this file: what it sends from
its start until some keys have ended it. The entry `xterm` of ncurses has `rep`, so they send REP (CSI b)."""

import os
import pty
import select
import shutil
import signal
import sys
import tempfile
import time

HERE = os.path.dirname(os.path.abspath(__file__))
ROWS, COLS = 24, 80
# the words that start a program, and the keys that end it
PROGRAMS = {
    "dialog": (["dialog", "--title", "A title", "--yesno", "Is this a question?", "9", "50"], b"\r"),
    "htop": (["htop", "--no-mouse", "-u", "nobody"], b"q"),
    "nano": (["nano", "--ignorercfiles", "text"], b"\x18"),
    "aptitude": (["aptitude"], b"qy"),
}


def read_for(terminal, seconds):
    """The bytes that come from the terminal until none has come for some seconds."""
    data = b""
    while select.select([terminal], [], [], seconds)[0]:
        try:
            data += os.read(terminal, 65536)
        except OSError:
            break
    return data


def recorded(words, keys, room):
    """The bytes that a program sends until the keys have ended it."""
    pid, terminal = pty.fork()
    if pid == 0:
        os.chdir(room)
        places = {"HOME": room, "PATH": os.environ["PATH"], "LD_LIBRARY_PATH": os.environ.get("LD_LIBRARY_PATH", "")}
        size = {"LINES": str(ROWS), "COLUMNS": str(COLS)}
        os.execvpe(words[0], words, {**places, **size, "TERM": "xterm", "LC_ALL": "C"})
    data = read_for(terminal, 1)
    for key in keys:
        os.write(terminal, bytes([key]))
        data += read_for(terminal, 0.5)
    os.kill(pid, signal.SIGKILL)
    os.waitpid(pid, 0)
    os.close(terminal)
    return data


def main():
    for name in sys.argv[1:] or PROGRAMS:
        words, keys = PROGRAMS[name]
        if shutil.which(words[0]) is None:
            print(f"recordings: {name} isn't installed", file=sys.stderr)
            continue
        with tempfile.TemporaryDirectory() as room:
            with open(f"{room}/text", "w", encoding="ascii") as text:
                text.write("".join(f"line {line} of a text\n" for line in range(40)))
            data = recorded(words, keys, room)
        with open(f"{HERE}/{name}.bytes", "wb") as file:
            file.write(data)
        print(f"recordings: {name}, {len(data)} bytes")


if __name__ == "__main__":
    main()
