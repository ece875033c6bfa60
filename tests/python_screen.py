"""The Python package's `ticurses.curses` on a terminal: answers and errors beside the standard module; keys,
signals, threads and processes; the ends of the demo."""

import os
import re
import signal
import sys
import termios
import time

from linked import fed
from trying import PATIENCE, TOP, held_in, write

CALLS = f"{TOP}/tests/python_calls.txt"
# a program reports to a file, since the terminal is the screen
BEGINNING = """
import copy, os, pickle, signal, sys, threading, time
log = open(sys.argv[1], "a", buffering=1)

def say(*words):
    print(*words, file=log)

def raised(call, *words):
    try:
        return call(*words)
    except BaseException as refused:
        return type(refused).__name__
"""

# the calls of a file, with both modules: the answer of each, or the type of its error
ANSWERS = """
def answer(line):
    try:
        found = eval(line)
    except Exception as refused:
        return type(refused).__name__
    return "a class" if isinstance(found, type) else repr(found)

# before there is a screen
for it in ("doupdate()", "endwin()", "isendwin()", "beep()", "start_color()", "cbreak()", "newwin(5, 5)", "ungetch(5)",
           "keyname(5)", "napms(5)", "color_pair(1)"):
    say(it, answer(f"curses.{it}"))
curses.setupterm()
screen = curses.initscr()
with open(sys.argv[2]) as file:
    for line in file:
        if line.strip() and not line.startswith("#"):
            say(line.strip(), answer(line))
"""

# waits for a key: with signals whose handlers raise or don't, other threads, new sizes, timeouts
KEYS = """
def later(call, *words):
    thread = threading.Timer(0.3, call, words)
    thread.start()
    return thread

def main(screen):
    ran = []
    signal.signal(signal.SIGUSR1, lambda *_: ran.append(1))
    later(os.kill, os.getpid(), signal.SIGUSR1)
    say("ready 1")
    say("key", screen.getch(), "handled", ran)

    def late(*_):
        raise TimeoutError
    signal.signal(signal.SIGALRM, late)
    signal.setitimer(signal.ITIMER_REAL, 0.3)
    say(raised(screen.getch), raised(curses.napms, 0), threading.active_count())
    signal.setitimer(signal.ITIMER_REAL, 0.3)
    say(raised(screen.getstr))
    signal.setitimer(signal.ITIMER_REAL, 0.3)
    say(raised(curses.napms, 5000))
    say("mask", signal.pthread_sigmask(signal.SIG_BLOCK, []) == set())
    say("ready 2")
    say("resized", screen.getch() == curses.KEY_RESIZE, curses.LINES, curses.COLS, screen.getmaxyx())

    answers = []
    thread = threading.Thread(target=lambda: answers.append(screen.getch()))
    thread.start()
    say("ready 3")
    thread.join()
    say("thread", answers)
    begun = time.monotonic()
    screen.timeout(200)
    say("none", screen.getch(), 0.15 < time.monotonic() - begun < 5, raised(screen.getkey))
    screen.timeout(-1)
    begun = time.monotonic()
    curses.halfdelay(2)
    say("none", screen.getch(), 0.15 < time.monotonic() - begun < 5)
    curses.cbreak()
    curses.echo()
    say("ready 4")
    say("line", screen.getstr(2, 3, 10), screen.instr(2, 0, 12))
    curses.nocbreak()
    say("ready 5")
    say("line by line", [screen.getch() for _ in range(4)])
    curses.cbreak()
    curses.noecho()

    # the rest of a function key is awaited without the lock: another thread counts meanwhile, and a handler runs
    counted = []

    def count():
        while len(counted) < 100:
            time.sleep(0.01)
            counted.append(time.monotonic())

    curses.set_escdelay(1500)
    thread = threading.Thread(target=count)
    say("ready 6")
    thread.start()
    say("escape", screen.getch(), len(counted) > 20)
    thread.join()
    curses.set_escdelay(5000)
    say("ready 7")
    begun = time.monotonic()
    say("arrow", screen.getch() == curses.KEY_UP, time.monotonic() - begun < 4)
    screen.nodelay(True)
    say("ready 8")
    time.sleep(1)
    say("arrow", screen.getch() == curses.KEY_UP, screen.getch())
    screen.nodelay(False)
    signal.setitimer(signal.ITIMER_REAL, 2)
    say("ready 9")
    say(raised(screen.getch), screen.getch() == curses.KEY_DOWN)
    curses.set_escdelay(10)
    screen.notimeout(True)
    say("ready 10")
    say("arrow", screen.getch() == curses.KEY_LEFT)
    say("pickled", raised(pickle.dumps, screen), raised(copy.copy, screen))
    say("pickled", repr(pickle.loads(pickle.dumps(curses.error("x")))))

curses.wrapper(main)
say("over")
"""
KEYS_WANTED = """ready 1
key 97 handled [1]
TimeoutError 0 1
TimeoutError
TimeoutError
mask True
ready 2
resized True 30 100 (30, 100)
ready 3
thread [98]
none -1 True error
none -1 True
ready 4
line b'hullo' b'   hullo    '
ready 5
line by line [120, 121, 122, 10]
ready 6
escape 27 True
ready 7
arrow True True
ready 8
arrow True -1
ready 9
TimeoutError True
ready 10
arrow True
pickled TypeError TypeError
pickled error('x')
over
"""

# a forked process can make no call, and no signal that ends it touches the terminal
FORKED = """
def text(call, *words):
    try:
        return call(*words)
    except Exception as refused:
        return str(refused)

def main(screen):
    screen.refresh()
    window = curses.newwin(3, 20, 5, 5)
    window.addstr(1, 1, "of the parent")
    window.refresh()
    child = os.fork()
    if child == 0:
        for call in (screen.getch, screen.refresh, curses.doupdate, curses.initscr, curses.endwin, window.erase):
            say(text(call))
        del window
        say("ready 1")
        signal.pause()
    os.waitpid(child, 0)
    say("ended")
    screen.addstr(0, 0, "still here")
    screen.refresh()
    say("key", screen.getch())

curses.wrapper(main)
"""


# a shell stops the demo and continues it, and prints the terminal's modes
STOPPED = """set -m
modes() { stty -a | tr ' ;' '\\n\\n' | grep -xe '-*icanon' -e '-*echo' -e '-*opost' | sort -r | tr '\\n' ' '; echo; }
sh "$0"; echo stopped $?; modes; read key; fg >/dev/null; echo over $?; modes
"""


def hold(holds, what, *seen):
    if not holds:
        sys.exit(f"python: ticurses.curses: {what}: {seen}")


class Run:
    """A program on a terminal that reports to a file."""

    def __init__(self, package, work, name, program, module="ticurses.curses"):
        self.log = f"{work}/{name}.log"
        write(f"{work}/{name}.py", f"import {module} as curses\n{BEGINNING}{program}".encode())
        write(self.log, b"")
        words = [sys.executable, f"{work}/{name}.py", self.log, CALLS]
        self.terminal = package.terminal(words, TERM="xterm")

    def told(self):
        return held_in(self.log).decode()

    def waits_for(self, text):
        """Reads the program's output until it has reported `text`."""
        end = time.monotonic() + PATIENCE
        while text not in self.told():
            self.terminal.read(0.05)
            hold(time.monotonic() < end, f"{text} isn't said", self.told(), self.terminal.sent[-500:])

    def ends(self):
        return self.terminal.ends()


def check_answers(package, work):
    """Calls answer, or are refused, like those of the standard module."""
    told = []
    for name, module in (("answers", "ticurses.curses"), ("standard", "curses")):
        run = Run(package, work, name, ANSWERS, module)
        hold(run.ends() == 0, "the calls don't come to an end", run.told()[-300:], run.terminal.sent[-500:])
        told.append(run.told().splitlines())
    differing = [f"{one} | {other}" for one, other in zip(*told) if one != other]
    counts = [len(it) for it in told]
    hold(counts[0] == counts[1] > 200 and not differing, "calls answer otherwise than the standard module's", differing)
    print(f"python: {len(told[0])} calls of ticurses.curses answer, or are refused, as those of the standard module")


def check_keys(package, work):
    """Keys as they come, and signals, sizes and threads during a wait."""
    run = Run(package, work, "keys", KEYS)
    run.waits_for("ready 1")
    time.sleep(0.8)
    run.terminal.press(b"a")
    run.waits_for("ready 2")
    time.sleep(0.3)
    run.terminal.resize(30, 100)
    run.waits_for("ready 3")
    time.sleep(0.3)
    run.terminal.press(b"b")
    run.waits_for("ready 4")
    run.terminal.press(b"hello\x7f\x7f\x7f\x7fullo\r")
    run.waits_for("ready 5")
    run.terminal.press(b"xyz\r")
    run.waits_for("ready 6")
    run.terminal.press(b"\033")
    for number, pause, rest in ((7, 0.5, b"OA"), (8, 1.5, b"OA"), (9, 3, b"OB"), (10, 0.5, b"OD")):
        run.waits_for(f"ready {number}")
        run.terminal.press(b"\033")
        time.sleep(pause)
        run.terminal.press(rest)
    hold(run.ends() == 0 and run.told() == KEYS_WANTED, "keys are read otherwise", run.told(), run.terminal.sent[-500:])
    print("python: a wait for a key ends with signals, sizes and times, lets threads run, also within a function key; "
          "lines are read")


def check_forked(package, work):
    """Only the process that has called initscr can make calls."""
    run = Run(package, work, "forked", FORKED)
    run.waits_for("ready 1")
    while run.terminal.read(0.2):
        pass
    sent = len(run.terminal.sent)
    [child] = held_in(f"/proc/{run.terminal.program.pid}/task/{run.terminal.program.pid}/children").split()
    os.kill(int(child), signal.SIGTERM)
    run.waits_for("ended")
    while run.terminal.read(0.2):
        pass
    after = run.terminal.sent[sent:]
    seen = fed(24, 80, run.terminal.sent)
    hold("of the parent" in seen and "still here" in seen, "the child's end changes the screen", after)
    run.terminal.press(b"c")
    status = run.ends()
    wanted = 6 * ["the screen belongs to the process that called initscr()"] + ["ready 1", "ended", "key 99"]
    hold(status == 0 and run.told().splitlines() == wanted, "a forked process makes calls", status, run.told())
    print("python: a forked process makes no call, and leaves its parent's terminal alone")


# -- the demo --


def modes(terminal):
    return termios.tcgetattr(terminal.fd)


def demo(package):
    """The demo once it shows its window, and the terminal's modes before."""
    terminal = package.terminal([sys.executable, "-c", "import time; time.sleep(1)"], TERM="xterm")
    before = modes(terminal)
    terminal.program.kill()
    terminal.ends()
    terminal = package.terminal([sys.executable, "-m", "ticurses.demo"], TERM="xterm")
    waits_for(terminal, "24 lines, 80 columns")
    return terminal, before


def waits_for(terminal, text):
    end = time.monotonic() + PATIENCE
    while text not in fed(terminal.rows, terminal.cols, terminal.sent[terminal.begun :]):
        terminal.read(0.1)
        hold(time.monotonic() < end, f"the demo doesn't show {text}", terminal.sent[-500:])


def check_demo(package):
    """The demo shows keys and sizes; however it ends, the terminal is then as it was before."""
    terminal, before = demo(package)
    terminal.press(b"a\x1bOA")
    waits_for(terminal, "a up")
    terminal.resize(30, 100)
    waits_for(terminal, "30 lines, 100 columns")
    terminal.press(b"q")
    over(terminal, before, 0, "q")
    ends = [(b"\x03", 130), (signal.SIGINT, 130), (signal.SIGTERM, 143), (signal.SIGHUP, 129), (b"\x1c", 131)]
    for end, status in ends:
        terminal, before = demo(package)
        if isinstance(end, bytes):
            terminal.press(end)
        else:
            terminal.program.send_signal(end)
        over(terminal, before, status, end)
    print(f"python: the demo shows keys and sizes, and {len(ends) + 1} ends leave the terminal as it was before")


def check_stopped(package, work):
    """^Z stops the demo with the terminal as the shell needs it; when it continues, it draws anew."""
    write(f"{work}/demo.sh", f"exec '{sys.executable}' -m ticurses.demo\n".encode())
    pane = package.pane(work, "stopped", ["sh", "-c", STOPPED, f"{work}/demo.sh"])
    pane.until(lambda it: "24 lines" in it)
    # on a busy machine the interpreter takes a while to end
    shots = [re.sub(r"\x1b\[[\d;]*m", "", text) for text, _ in pane.shots(["C-z", "Enter", "x", "q", "@3000"])]
    shows = ["24 lines, 80 columns" in it for it in shots]
    hold(shows == [True, False, True, True, False, False], "stopped, the demo shows", shots)
    left = ["stopped 148\nopost icanon echo" in shots[1], "over 0\nopost icanon echo" in shots[5]]
    hold(all(left), "the demo leaves the shell", shots)
    print("python: ^Z stops the demo with the terminal as it was before, and it goes on")


def over(terminal, before, status, end):
    """The demo has ended with this status, and the terminal is as before."""
    limit = time.monotonic() + PATIENCE
    while terminal.program.poll() is None:
        terminal.read(0.05)
        hold(time.monotonic() < limit, "the demo doesn't end", end)
    now = modes(terminal)
    seen = terminal.ends()
    hold(seen == status and now == before, "the demo ends otherwise", end, seen, now == before)
    screen = fed(terminal.rows, terminal.cols, terminal.sent[terminal.begun :])
    hold("hidden" not in screen, "the cursor is hidden", end)


def check(package, work):
    check_answers(package, work)
    check_keys(package, work)
    check_forked(package, work)
    check_demo(package)
    check_stopped(package, work)
