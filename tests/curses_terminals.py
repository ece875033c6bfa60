"""The state in which programs of <ticurses/curses.h> leave a terminal whose size changes, which loses output, or which
they leave without endwin. tests/curses.py runs this."""

import os
import subprocess
import sys
import termios
import time

from linked import PATIENCE, Terminal
from trying import PROGRAM, TOP, Case, held_in, run_cases

HERE = f"{TOP}/tests/curses"
# an entry whose cup is wrong below line 31, so that larger screens have no certificate
PARTIAL = b"p|p,\n\tclear=\\E[H\\E[2J, cup=\\E[%i%p1%d;%p2%dH%?%p1%{31}%>%t\\E[H%;, sgr0=\\E[m,\n"
# an entry whose setaf, rev and rmcup are wrong, and its csr below line 31, so that sessions go without them
FAULTY = (
    b"o|o,\n\tcolors#8, clear=\\E[H\\E[2J, cup=\\E[%i%p1%d;%p2%dH, sgr0=\\E[m, rev=\\E[4m, op=\\E[39;49m,\n"
    b"\tsetaf=\\E[4%p1%dm, setab=\\E[4%p1%dm, smcup=\\E[?1049h, rmcup=x,\n"
    b"\tcsr=\\E[%i%p1%d;%p2%dr%?%p2%{31}%>%tx%;,\n"
)
# sizes that no session can have
UNFIT = ((1, 1), (300, 600), (40, 80), (24, 501))


def hold(holds, what, *seen):
    if not holds:
        sys.exit(f"curses: {what}: {seen}")


class Run(Terminal):
    """A program on a terminal."""

    def waits_for(self, text, begin=0):
        """Waits until the text was sent, at or after byte `begin` of the output."""
        end = time.monotonic() + PATIENCE
        while text not in self.sent[begin:]:
            hold(time.monotonic() < end, f"{text} doesn't come", self.sent[begin:])
            self.read(0.05)

    def is_silent(self, seconds):
        """Reads for so long. Returns whether nothing comes."""
        begin, end = len(self.sent), time.monotonic() + seconds
        while time.monotonic() < end:
            self.read(0.05)
        return len(self.sent) == begin

    def alters_output(self):
        return bool(termios.tcgetattr(self.fd)[1] & termios.OPOST)


class Libvterm:
    """The terminal of vim and Neovim."""

    def __init__(self, program, rows, cols):
        how = {"stdin": subprocess.PIPE, "stdout": subprocess.PIPE}
        self.rows, self.process = rows, subprocess.Popen([program, str(rows), str(cols)], **how)

    def put(self, data):
        self.process.stdin.write(b"put %d\n" % len(data) + data)

    def resize(self, rows, cols):
        self.rows = rows
        self.process.stdin.write(b"size %d %d\n" % (rows, cols))

    def cursor(self):
        """Its row, its column, and whether it is visible."""
        self.process.stdin.write(b"dump\n")
        self.process.stdin.flush()
        lines = [self.process.stdout.readline() for _ in range(self.rows + 1)]
        return tuple(map(int, lines[0].split()))

    def close(self):
        self.process.stdin.close()
        self.process.wait()


def judge_sizes(work, program):
    """KEY_RESIZE comes once a session of the new size stands. Where there is none, the size and the windows stay, and the
    screen is drawn anew once the terminal has a size that fits, even the one before."""
    os.makedirs(f"{work}/partial/p", exist_ok=True)
    words = ["tic", "partial.ti:p", "--out", f"{work}/partial/p/p"]
    hold(run_cases(PROGRAM, [Case(words)], {"partial.ti": PARTIAL})[0].status == 0, "the entry isn't compiled")
    run = Run(24, 80, [program], {"TERM": "p", "TERMINFO": f"{work}/partial"})
    run.waits_for(b"<24 by 80, window 24 by 80, 0>")
    run.is_silent(0.3)
    for rows, cols in UNFIT:
        run.resize(rows, cols)
        hold(run.is_silent(0.4), "a size that no session can have is told", rows, cols, run.sent)
    for news, (rows, cols) in enumerate(((24, 80), (20, 60)), 1):
        begin = len(run.sent)
        run.resize(rows, cols)
        run.waits_for(b"<%d by %d, window %d by %d, %d>" % (rows, cols, rows, cols, news), begin)
    run.press(b"q")
    hold(run.ends() == 0, "a program that was resized ends otherwise", run.sent)
    print(f"curses: {len(UNFIT)} sizes that no session can have are no news to a program, and sizes after them are")


def judge_left_out(work, program):
    """A session goes without strings that are wrong, has_colors and the like answer for the others, and a new size is
    judged anew. With TICURSES_STRICT=1 there is no session."""
    os.makedirs(f"{work}/faulty/o", exist_ok=True)
    words = ["tic", "faulty.ti:o", "--out", f"{work}/faulty/o/o"]
    hold(run_cases(PROGRAM, [Case(words)], {"faulty.ti": FAULTY})[0].status == 0, "the entry isn't compiled")
    given = {"TERM": "o", "TERMINFO": f"{work}/faulty"}
    run = Run(24, 80, [program], {**given, "TICURSES_STRICT": "0"})
    run.waits_for(b"<24 by 80: colors 0, reverse 0, lines 1, setaf 1>")
    for rows, lines in ((40, 0), (30, 1)):
        begin = len(run.sent)
        run.resize(rows, 80)
        run.waits_for(b"<%d by 80: colors 0, reverse 0, lines %d, setaf 1>" % (rows, lines), begin)
    run.press(b"q")
    hold(run.ends() == 0, "a program with a faulty entry ends otherwise", run.sent)
    hold(not any(it in run.sent for it in (b"\033[?1049", b"\033[4m", b"x")), "what was left out is sent", run.sent)
    run = Run(24, 80, [program], {**given, "TICURSES_STRICT": "1"})
    hold(run.ends() == 1, "a strict program ends otherwise", run.sent)
    told = b"Error opening terminal: a string of the entry is wrong: no "
    hold(told in run.sent, "a strict program says something else", run.sent)
    print("curses: a session goes without strings that are wrong, which a new size judges anew, and not if it is strict")


def judge_libvterm(work, program):
    """After a change of size, and after lost output, the shell's cursor is where it was and visible, on a terminal that
    keeps one saved cursor."""
    words = ["cc", "-O1", f"{TOP}/tools/conform/libvterm_host.c", "-lvterm", "-o", f"{work}/libvterm"]
    if subprocess.run(words, stderr=subprocess.DEVNULL).returncode:
        print("curses: libvterm's header is not installed, and its terminal is left out")
        return
    for more, sizes in (([], [(20, 70)]), ([], [(20, 70), (30, 90)]), (["cut"], []), (["cut"], [(20, 70)])):
        emulator = Libvterm(f"{work}/libvterm", 24, 80)
        emulator.put(b"a shell\r\nits prompt $ ")
        before = emulator.cursor()
        run = Run(24, 80, [program, *more], {"TERM": "xterm-256color"})
        run.waits_for(b"<24 by 80")
        run.is_silent(0.3)
        taken = len(run.sent)
        emulator.put(run.sent)
        hold(emulator.cursor()[2] == 0, "the program's cursor is visible", more)
        for rows, cols in sizes:
            emulator.resize(rows, cols)
            run.resize(rows, cols)
            run.waits_for(b"<%d by %d" % (rows, cols))
            run.is_silent(0.2)
        run.press(b"q")
        hold(run.ends() == 0, "the program ends otherwise", more, run.sent)
        emulator.put(run.sent[taken:])
        hold(before == (1, 13, 1) and emulator.cursor() == before, "the shell's cursor", more, sizes, emulator.cursor(), run.sent)
        emulator.close()
    print("curses: in libvterm the shell's cursor is as before a program that was resized or lost output")


def judge_ends(work, program):
    """A program that ends without endwin has the system alter output as before; a child of it changes nothing. Large
    widths are refused at once."""
    for more in ([], ["fork"]):
        run = Run(24, 80, [program, f"{work}/ends.log", *more], {"TERM": "xterm-256color"})
        run.waits_for(b"the child has ended" if more else b"drawn")
        hold(not run.alters_output(), "while a program draws, its output is altered", more)
        run.press(b"x")
        hold(run.program.wait(PATIENCE) == 0, "a program without endwin ends otherwise", run.program.returncode)
        hold(run.alters_output(), "a program that ends without endwin leaves output as it is", more)
        os.close(run.fd)
        told = held_in(f"{work}/ends.log").decode()
        hold(told in ("-1 -1 -1 0 0 seconds\n", "-1 -1 -1 0 1 seconds\n"), "formats with large widths answer", told)
    print("curses: a program without endwin leaves output as it was; formats with large widths are refused at once")


def judge(made):
    """All of this, with programs that are compiled for the library."""
    for name in ("resized", "ends", "left_out"):
        refused = made.make(name, [f"{HERE}/{name}.c"], "-std=gnu99")
        hold(not refused, f"{name}.c doesn't compile", refused)
    judge_sizes(made.work, f"{made.work}/ticurses/resized")
    judge_left_out(made.work, f"{made.work}/ticurses/left_out")
    judge_libvterm(made.work, f"{made.work}/ticurses/resized")
    judge_ends(made.work, f"{made.work}/ticurses/ends")
