"""The library for C as ./install installs it, programs that are linked with it, and terminals for them."""

import contextlib
import fcntl
import os
import pty
import select
import shutil
import signal
import struct
import subprocess
import sys
import tempfile
import termios
import time

from trying import PATIENCE, PROGRAM, TOP, Case, held_in, run_cases

sys.path.append(f"{TOP}/tools")

from build import is_there
from sources import LIBRARIES

STRICT = ["-Wall", "-Wextra", "-pedantic", "-Werror"]
SANITIZED = ["-g", "-fsanitize=address,undefined", "-fno-sanitize-recover=all"]
# an entry with a wrong string
WRONG = (
    "w|w,\n\tclear=\\E[H\\E[2J, cup=\\E[%i%p1%d;%p2%dH, sgr0=\\E[m,\n"
    "\tsetaf=\\E[3%p1%dm, setab=\\E[4%p1%dm, op=\\E[m,\n"
)


# A test in the background, or under nohup, ignores signals, and so would each program that it starts and sends them to.
for number, usual in ((signal.SIGHUP, signal.SIG_DFL), (signal.SIGINT, signal.default_int_handler), (signal.SIGQUIT, signal.SIG_DFL)):
    if signal.getsignal(number) == signal.SIG_IGN:
        signal.signal(number, usual)


def missing(script, *tools):
    """Says which of the tools aren't there; whether one isn't."""
    lacking = [it for it in tools if not shutil.which(it)]
    for it in lacking:
        print(f"{script}: {it} is not installed, and what needs it is left out")
    return bool(lacking)


def is_built(script, left_out="nothing of this is tried"):
    """Whether the libraries for C are there, or else a line that says it isn't, and what is left out. The gate leaves it unbuilt, and to build it
    proves the crates below it once more, so that where it is neither built nor kept nothing is tried."""
    built = all(map(is_there, LIBRARIES))
    if not built:
        print(f"{script}: the libraries for C aren't built: `./install` or `./test --library` builds it; {left_out}")
    return built


def installed_at(work):
    """Installs the library, which is built, in the folder and gives its prefix."""
    run = subprocess.run([f"{TOP}/install", f"PREFIX={work}/prefix"], stdout=subprocess.PIPE)
    if run.returncode:
        sys.exit(f"./install ended with status {run.returncode}")
    return f"{work}/prefix"


def installed(work):
    """The prefix of the installed library, for a script that tries nothing without it."""
    if not is_built(os.path.basename(sys.argv[0]).partition(".")[0]):
        sys.exit(0)
    return installed_at(work)


def compiled(prefix, source, program, *words, language="c"):
    """Compiles a file and links it with the library; warnings are faults."""
    compiler = {"c": "cc", "c++": "c++"}[language]
    found = [f"-I{prefix}/include", "-x", language, source, "-x", "none", f"{prefix}/lib/libticurses.a"]
    run = subprocess.run([compiler, "-O1", *STRICT, *words, *found, "-o", program])
    if run.returncode:
        sys.exit(f"{compiler} refused {source} {' '.join(words)}")
    return program


def ticurses(words, given=b""):
    """The output of the program, which has to succeed."""
    [told] = run_cases(PROGRAM, [Case(words, given)], {"terminals.ti": held_in(f"{TOP}/examples/terminals.ti")})
    if told.status:
        sys.exit(f"ticurses {' '.join(map(str, words))}: status {told.status}, {told.err!r}")
    return told.out


def terminfo(work, *names):
    """A folder of compiled entries of the examples, for TERMINFO."""
    for name in names:
        os.makedirs(f"{work}/terminfo/{name[0]}", exist_ok=True)
        at = f"{work}/terminfo/{name[0]}/{name}"
        ticurses(["tic", f"terminals.ti:{name}", "--out", at])
    return f"{work}/terminfo"


def fed(rows, cols, sent):
    """The screen that bytes leave."""
    return ticurses(["feed", str(rows), str(cols), "{}"], sent).decode("latin-1")


def all_fed(rows, cols, sent):
    """The screens that each of these leaves."""
    told = run_cases(PROGRAM, [Case(["feed", str(rows), str(cols), "{}"], it) for it in sent])
    return [it.out.decode("latin-1") for it in told]


class Terminal:
    """A program on a terminal of this size; its output is kept."""

    def __init__(self, rows, cols, words, environment):
        self.sent = b""
        self.fd, inner = pty.openpty()
        self.resize(rows, cols)
        how = {"stdin": inner, "stdout": inner, "stderr": inner, "start_new_session": True}
        self.program = subprocess.Popen(
            words, env={**os.environ, **environment}, preexec_fn=lambda: fcntl.ioctl(0, termios.TIOCSCTTY, 0), **how
        )
        os.close(inner)

    def resize(self, rows, cols):
        """Changes the size; the screen is then made of the bytes from now on."""
        self.rows, self.cols, self.begun = rows, cols, len(self.sent)
        fcntl.ioctl(self.fd, termios.TIOCSWINSZ, struct.pack("HHHH", rows, cols, 0, 0))

    def read(self, seconds):
        """Reads the bytes that come within `seconds`. Returns whether any did."""
        if not select.select([self.fd], [], [], seconds)[0]:
            return False
        with contextlib.suppress(OSError):
            piece = os.read(self.fd, 65536)
            self.sent += piece
            return bool(piece)
        return False

    def press(self, keys):
        os.write(self.fd, keys)

    def shows(self, screen):
        """Waits until the screen is this one."""
        end, seen = time.monotonic() + PATIENCE, None
        while time.monotonic() < end:
            while self.read(0.1):
                pass
            seen = fed(self.rows, self.cols, self.sent[self.begun :])
            if seen == screen:
                return
        sys.exit(f"the screen is\n{seen}\nand was to be\n{screen}\nafter {self.sent[self.begun:]!r}")

    def stops(self):
        """Waits until the program is stopped."""
        end = time.monotonic() + PATIENCE
        while time.monotonic() < end:
            while self.read(0.05):
                pass
            state = held_in(f"/proc/{self.program.pid}/stat").rpartition(b")")[2].split()[0]
            if state == b"T":
                return
        self.program.kill()
        sys.exit("the program does not stop")

    def ends(self):
        """Waits for the end, and gives the status as the shell tells it."""
        end = time.monotonic() + PATIENCE
        while time.monotonic() < end:
            while self.read(0.05):
                pass
            if self.program.poll() is not None:
                os.close(self.fd)
                status = self.program.returncode
                return 128 - status if status < 0 else status
        self.program.kill()
        sys.exit(f"the program does not end; it sent {self.sent!r}")


class Multiplexer:
    """A program in a pane of tmux. Each has a server of its own, since one that ends takes a while."""

    count = 0

    def __init__(self, work, rows, cols, words, environment):
        Multiplexer.count += 1
        self.socket = f"{work}/tmux{Multiplexer.count}"
        line = ["env", *[f"{key}={value}" for key, value in environment.items()], *words]
        quoted = " ".join("'" + it.replace("'", "'\\''") + "'" for it in line)
        size = ["-x", str(cols), "-y", str(rows)]
        self.run("-f", "/dev/null", "new-session", "-d", *size, f"{quoted}; echo ended $?; sleep 60")

    def run(self, *words):
        environment = {**os.environ, "LC_ALL": "C.UTF-8", "TERM": "screen"}
        ran = subprocess.run(["tmux", "-u", "-S", self.socket, *words], env=environment, stdout=subprocess.PIPE)
        if ran.returncode:
            sys.exit(f"tmux {words} ended with status {ran.returncode}")
        return ran.stdout.decode("utf-8", "replace")

    def press(self, *keys):
        self.run("send-keys", *keys)

    def resize(self, rows, cols):
        self.run("resize-window", "-x", str(cols), "-y", str(rows))

    def shows(self, lines):
        """Waits until the pane has these lines; blanks at their ends don't count."""
        wanted, end, seen = [it.rstrip() for it in lines], time.monotonic() + PATIENCE, []
        while time.monotonic() < end:
            seen = [it.rstrip() for it in self.run("capture-pane", "-p").split("\n")[: len(wanted)]]
            if seen == wanted:
                return
            time.sleep(0.1)
        self.close()
        sys.exit("the pane shows\n" + "\n".join(seen) + "\nand was to show\n" + "\n".join(wanted))

    def close(self):
        self.run("kill-server")


@contextlib.contextmanager
def rooms():
    with tempfile.TemporaryDirectory() as work:
        yield work


# -- what the monitor shows, by what its calls draw --

HELP = [
    "up, down, k, j     a line",
    "b, space           a page",
    "left, right, h, l  eight columns",
    "g, G               the ends",
    "^L                 draw anew",
    "q                  quit",
]


class Screen:
    """Cells with looks, as `ticurses feed` prints them."""

    def __init__(self, rows, cols):
        self.cells = [[(" ", "")] * cols for _ in range(rows)]
        self.cursor, self.is_hidden = (0, 0), True

    def write(self, row, col, text, look=""):
        for at, byte in enumerate(text):
            self.cells[row][col + at] = (byte, look)

    def box(self, top, left, rows, cols, look):
        self.write(top, left, "l" + "q" * (cols - 2) + "k", "G" + look)
        for row in range(top + 1, top + rows - 1):
            self.write(row, left, "x", "G" + look)
            self.write(row, left + 1, " " * (cols - 2), look)
            self.write(row, left + cols - 1, "x", "G" + look)
        self.write(top + rows - 1, left, "m" + "q" * (cols - 2) + "j", "G" + look)

    def lines(self):
        return ["".join(byte for byte, _ in row) for row in self.cells]

    def looks(self):
        for number, row in enumerate(self.cells):
            start = 0
            for at in range(1, len(row) + 1):
                if at == len(row) or row[at][1] != row[start][1]:
                    if row[start][1]:
                        yield f"look {number} {start}-{at - 1} {row[start][1]}"
                    start = at

    def text(self):
        cursor = "cursor {} {}".format(*self.cursor) + " hidden" * self.is_hidden
        lines = [*self.lines(), cursor, *self.looks()]
        return "".join(f"{it}\n" for it in lines)


def greeted(rows, cols):
    """The screen of `hello`: a window of 5 by 24 in the middle, white on blue, with a box and a text."""
    screen, top, left = Screen(rows, cols), (rows - 5) // 2, (cols - 24) // 2
    screen.box(top, left, 5, 24, "f7b4")
    screen.write(top + 2, left + 6, "Hello from C", "Bf7b4")
    screen.cursor, screen.is_hidden = (top + 2, left + 18), False
    return screen


def monitored(rows, cols, name, held, logged, top=0, left=0, helps=False):
    """The screen of the monitor: a frame with the part of the text that begins at this line and column, the last lines
    of the log, and the status."""
    screen, log_rows = Screen(rows, cols), (rows - 4) // 3
    frame_rows = rows - 2 - log_rows
    page_rows, page_cols = frame_rows - 2, cols - 2
    screen.box(0, 0, frame_rows, cols, "")
    screen.write(0, 2, f" {name} "[: cols - 2], "B")
    for row, line in enumerate(held[top : top + page_rows]):
        screen.write(row + 1, 1, line[left : left + page_cols])
    screen.write(frame_rows, 0, "q" * cols, "G")
    screen.write(frame_rows, 2, " log ")
    last = logged[-log_rows:]
    for row, line in enumerate(last, rows - 1 - len(last)):
        screen.write(row, 0, line[: cols - 1], "f7b1" if "error" in line else "f0b3" if "warning" in line else "")
    shown = min(len(held), top + page_rows)
    part = f" lines {min(top + 1, shown)}-{shown} of {len(held)}, column {left}"
    status = f"{part}, {rows} by {cols}; ? for help"[: cols - 1]
    screen.write(rows - 1, 0, status.ljust(cols), "f7b4")
    screen.cursor = (rows - 1, len(status))
    if helps:
        corner = (cols - 36) // 2
        screen.box(1, corner, 8, 36, "f7b4")
        for row, line in enumerate(HELP):
            screen.write(2 + row, corner + 2, line, "f7b4")
        screen.cursor = (7, corner + 2 + len(HELP[-1]))
    return screen
