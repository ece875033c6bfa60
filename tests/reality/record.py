#!/usr/bin/env python3
"""Records what full-screen programs write to a terminal of 24 by 80 under TERM=vt100.

record.py NAME..   makes NAME.bytes for each name below, by the keys in SESSIONS, which are sent one after another, each
                   once the program has been quiet for a while; the recording ends before the program is left

The recordings in this folder were made once, on Debian 12 (less 590, vim 9.0, nano 7.2, dialog 1.3, whiptail 0.52, mc 4.8,
lynx 2.9, w3m 0.5, htop 3.2, top of procps 4.0), as root, since `unshare` keeps other processes out of htop and top.
screens.py makes the screens that emulators show for them."""

import fcntl
import os
import pty
import select
import shutil
import struct
import sys
import tempfile
import termios
import time

ROWS, COLS = 24, 80

TEXT = "".join(
    f"{n:3} {'The quick brown fox jumps over the lazy dog. ' * (1 + n % 2)}{'=' * (n % 7)}\n" for n in range(1, 61)
)
PROGRAM = '#include <stdio.h>\n\nint main(void)\n{\n\tfor (int i = 0; i < 10; i++)\n\t\tprintf("%d\\n", i * i);\n\treturn 0;\n}\n'
PAGE = (
    "<html><head><title>A page</title></head><body><h1>Terminals</h1><p>A <b>bold</b> word, an <i>emphasized</i> one, "
    "a <a href='other.html'>link</a> and <a href='third.html'>another</a>.</p><table border=1><tr><th>name</th><th>year"
    "</th></tr><tr><td>VT52</td><td>1975</td></tr><tr><td>VT100</td><td>1978</td></tr><tr><td>VT220</td><td>1983</td></tr>"
    "</table><hr><ul><li>one<li>two<li>three</ul></body></html>"
)
# the folder in which the programs run, and its name in the recordings, which is as long
HOME, SHOWN = os.path.join(tempfile.gettempdir(), "demo"), "/srv/demo"
CONFIG = "syntax off\nset nomodeline ruler hlsearch t_u7= t_RV=\n"

# each program with its command and its keys
SESSIONS = {
    "less": ("less -M -N text.txt", [" ", "j", "j", "/lazy\r", "n", "b", "k"]),
    "vim": ("vim -N -u vimrc -i NONE -n program.c", ["jjjj", "O", "\tint sum = 0;\x1b", "dd", "p", ":split\r", "Gx", "/return\r", "v$", ":vsplit\r", "\x1b", "yyP"]),
    "nano": ("nano --ignorercfiles text.txt", ["Hello, world!\r", "\x0b", "\x0b", "\x16", "\x17fox\r", "\x15", "\x1b[B" * 3, "\x07", "\x18"]),
    "dialog": ("dialog --menu 'Which one?' 14 50 6 1 first 2 second 3 third 4 fourth 5 fifth 6 sixth 7 seventh", ["\x1bOB", "\x1bOB", "\x1bOB", "\t", "\x1bOA", "6"]),
    "whiptail": ("sh -c 'for i in 0 20 45 70; do sleep 0.4; echo $i; done | cat - hold | whiptail --gauge Working 8 60 0'", [""]),
    "mc": ("mc -u", ["\x1b9", "\x1bOB", "\x1bOB", "\x1b\x1b", "\t", "\x1bOB", "\x1bOB", "\x1b3", " ", "q"]),
    "lynx": ("lynx -nopause -noreferer -cfg=lynx.cfg page.html", ["\x1bOB", "\x1bOB", "=", "\x1bOD", "/VT220\r"]),
    "w3m": ("w3m -config w3mconfig page.html", ["\t", "\t", "j", "j", "/VT\r", "="]),
    "htop": ("unshare -fp --mount-proc sh -c 'sleep 99 & htop -d 99'", ["\x1bOB", "\x1bOB", "/sl\r", "t", "\x1bOA", "h", " ", "\x1bOB"]),
    "top": ("unshare -fp --mount-proc sh -c 'sleep 99 & top -d 60'", ["c", "V"]),
}


def prepare(room):
    """The files that the programs are shown."""
    files = {"text.txt": TEXT, "program.c": PROGRAM, "page.html": PAGE, "vimrc": CONFIG, "w3mconfig": "", "lynx.cfg": "", "notes.md": "# notes\n"}
    for name, text in files.items():
        with open(os.path.join(room, name), "w", encoding="ascii") as file:
            file.write(text)
    os.mkfifo(os.path.join(room, "hold"))
    os.mkdir(os.path.join(room, "folder"))


def settle(master, taken, quiet, most):
    """Takes what the program writes until it has been quiet for so long, or for the longest time."""
    until = time.monotonic() + most
    while time.monotonic() < until:
        ready, _, _ = select.select([master], [], [], quiet)
        if not ready:
            return
        try:
            taken += os.read(master, 65536)
        except OSError:
            return


def record(name):
    command, keys = SESSIONS[name]
    shutil.rmtree(HOME, ignore_errors=True)
    os.mkdir(HOME)
    prepare(HOME)
    pid, master = pty.fork()
    if pid == 0:
        fcntl.ioctl(0, termios.TIOCSWINSZ, struct.pack("HHHH", ROWS, COLS, 0, 0))
        os.chdir(HOME)
        os.execvpe("sh", ["sh", "-c", f"exec {command}"], {
            "TERM": "vt100", "LC_ALL": "C", "HOME": HOME, "PATH": os.environ["PATH"], "SHELL": "/bin/sh", "USER": "demo", "NCURSES_NO_UTF8_ACS": "1"})
    taken = bytearray()
    settle(master, taken, 2.5, 9)
    for key in keys:
        os.write(master, key.encode())
        settle(master, taken, 1.2, 3)
    os.kill(pid, 9)
    os.close(master)
    os.waitpid(pid, 0)
    return bytes(taken).replace(HOME.encode(), SHOWN.encode())


def main():
    here = os.path.dirname(os.path.abspath(__file__))
    if len(HOME) != len(SHOWN):
        sys.exit(f"record: {HOME} is not as long as {SHOWN}, which stands for it: set TMPDIR")
    for name in sys.argv[1:] or SESSIONS:
        taken = record(name)
        with open(os.path.join(here, f"{name}.bytes"), "wb") as file:
            file.write(taken)
        print(f"record: {name}: {len(taken)} bytes")


if __name__ == "__main__":
    main()
