"""The Python package over a library that only pretends: errors, imports, interrupted output, blocks that are left."""

import os
import shutil
import subprocess
import sys
import sysconfig

from trying import PATIENCE, TOP, held_in, write

sys.path.append(f"{TOP}/tools")

from version import SONAME, VERSION

# what each program here begins with
BEGINNING = """
import contextlib, copy, io, os, pickle, signal, sys
import ticurses
from ticurses import Code, Error, Session

def found():
    try:
        return len(ticurses.find_entry())
    except FileNotFoundError:
        return 0

def raises(kind, call, *words):
    try:
        call(*words)
    except kind as error:
        return error
    sys.exit(f"{call} {words} raises nothing")

def same(one, other):
    if one != other:
        sys.exit(f"{one!r} is not {other!r}")
"""

ERRORS = """
from concurrent.futures import ProcessPoolExecutor

def fail():
    raise Error(Code.NO_CERTIFICATE, "no op: WrongEffect")

if __name__ == "__main__":
    for error in (Error(24, "no op: WrongEffect"), Error(18, "", 2, "boks 1 - -")):
        for made in (copy.copy(error), copy.deepcopy(error), pickle.loads(pickle.dumps(error))):
            same((made.code, made.reason, str(made)), (error.code, error.reason, str(error)))
            same((made.line, made.text), (error.line, error.text))
    same(str(Error(18, "", 2, "boks 1 - -")), "a line is no call: line 2, 'boks 1 - -'")
    same(str(Error(24, "no op: WrongEffect")), "a string of the entry is wrong: no op: WrongEffect")
    with ProcessPoolExecutor(1) as pool:
        same(raises(Error, pool.submit(fail).result).code, Code.NO_CERTIFICATE)
    same(set(Code), set(ticurses.TEXTS))
    same([it for it in ticurses.__all__ if not hasattr(ticurses, it)], [])
"""

TEXTS = """
session = Session(b"entry", 24, 80)
same(ticurses.string(b"entry", "kcuu1"), b"\\033<string>")
same(raises(Error, ticurses.string, b"", "kcuu1").code, Code.BAD_ENTRY)
for given in (5, [1, 2], None, 2.5, object()):
    raises(TypeError, session.addstr, 0, given)
    raises(TypeError, session.call, given)
    raises(TypeError, Session, given, 24, 80)
for given in ("text", b"text", bytearray(b"text"), memoryview(b"text"), "\\ud800", "\\udcff", "\\u00e9", ""):
    session.addstr(0, given)
raises(Error, session.open, b"entry wrong", 40, 80)
raises(Error, session.open, b"entry", 24, 501)
session.call("refresh 3")
same(session.output(), b"<24x80>xxx")
session.open(b"entry", 14, 50)
session.call("refresh 3")
same(session.output(), b"<14x50>xxx")
error = raises(Error, session.call, "box 1", "bad \\u00e9\\nmove 1 2 3", "refresh 1")
same((error.code, error.line, error.text), (Code.BAD_LINE, 2, "bad \\u00e9"))
session.close()
error = raises(Error, session.call, "refresh 1")
same((error.code, error.line, error.text), (Code.CLOSED, None, ""))
"""

# what ends `send` is an exception from a handler; each throws away what waits
SENT = """
import fcntl, resource, select, struct, termios, threading, time

resource.setrlimit(resource.RLIMIT_NOFILE, (4096, 4096))
reading, high, ended_by = -1, -1, []

def held():
    return struct.unpack("i", fcntl.ioctl(reading, termios.FIONREAD, bytes(4)))[0]

def is_full():
    room = select.poll()
    room.register(high, select.POLLOUT)
    return not room.poll(0)

# a signal is heeded once, and not before the pipe is full; it comes again and again, since one may come between two calls
def heed(number, _):
    if ended_by and is_full():
        raise ended_by.pop()

def signals(number):
    while ended_by:
        time.sleep(0.02)
        os.kill(os.getpid(), number)

def cut(session, fd, kind, number):
    os.read(reading, held() or 1)
    session.call("refresh 300000")
    ended_by.append(kind)
    signal.signal(number, heed)
    sender = threading.Thread(target=signals, args=[number])
    sender.start()
    raises(kind, session.send, fd)
    sender.join()
    same(session.waiting, 0)
    session.call("refresh 1")
    same(session.output(), b"<again>x")

for blocking in (True, False):
    reading, writing = os.pipe()
    os.write(writing, b"not sent")
    high = fcntl.fcntl(writing, fcntl.F_DUPFD, 2000)
    os.set_blocking(high, blocking)
    session = Session(b"entry", 24, 80)
    session.call("refresh 1")
    session.output()
    cut(session, high, TimeoutError, signal.SIGALRM)
    cut(session, high, KeyboardInterrupt, signal.SIGINT)
    os.read(reading, held())
    pieces = []
    reader = threading.Thread(target=lambda: pieces.extend(iter(lambda: os.read(reading, 65536), b"")), daemon=True)
    reader.start()
    session.call("refresh 200000")
    session.send(high)
    os.close(writing)
    os.close(high)
    reader.join()
    # a terminal that has got one smcup gets rmcup before the next
    same(b"".join(pieces), b"\033<string>" + b"x" * 200000)
    os.close(reading)
reading, writing = os.pipe()
os.close(reading)
session.call("refresh 9")
raises(BrokenPipeError, session.send, writing)
same(session.waiting, 0)
"""

# keys as they come; a signal whose handler raises nothing doesn't end the wait; a terminal that goes away
READ = """
import pty, threading, time

def pressed(fd, keys, seconds=0.0):
    def press():
        time.sleep(seconds)
        os.kill(os.getpid(), signal.SIGUSR1)
        os.write(fd, keys)
    presser = threading.Thread(target=press)
    presser.start()
    return presser

seen = []
signal.signal(signal.SIGUSR1, lambda *_: seen.append(1))
outer, inner = pty.openpty()
session = Session(b"entry", 24, 80)
session.set_raw(inner)
for blocking in (True, False):
    os.set_blocking(inner, blocking)
    presser = pressed(outer, b"keys", 0.1)
    same(session.read(), b"keys")
    presser.join()
    presser = pressed(outer, b"abc")
    same((session.read(1), session.read(), signal.set_wakeup_fd(-1)), (b"a", b"bc", -1))
    presser.join()
same(len(seen), 4)
answers = []
presser = pressed(outer, b"other", 0.1)
reader = threading.Thread(target=lambda: answers.append(session.read()))
reader.start()
reader.join()
presser.join()
same(answers, [b"other"])
os.close(outer)
same(session.read(), b"")
os.close(inner)
raises(OSError, session.read)
"""

# what a block sends at its end, to a pipe
BLOCKS = """
def sent(block, kind=None):
    reading, writing = os.pipe()
    left = None
    try:
        with Session(b"entry", 24, 80) as session:
            block(session, writing)
    except BaseException as error:
        left = type(error)
    same(left, kind)
    same(raises(Error, session.call, "refresh 1").code, Code.CLOSED)
    os.close(writing)
    with open(reading, "rb") as file:
        return file.read()

def draw(session, fd):
    session.call("refresh 2")
    session.send(fd)

def draw_and_fail(session, fd):
    draw(session, fd)
    raise ZeroDivisionError

def cut_and_fail(session, fd):
    session.call("refresh 2")
    session.send(fd)
    session.lost()
    raise ZeroDivisionError

def open_anew(session, fd):
    draw(session, fd)
    session.end()
    session.open(b"entry", 14, 50)
    session.lost()
    draw(session, fd)

def draw_and_end(session, fd):
    draw(session, fd)
    session.call("endwin")
    session.send(fd)

def draw_badly(session, fd):
    draw(session, fd)
    session.call("refresh 1", "bad")

same(sent(draw), b"<24x80>xx<endwin>")
same(sent(draw_and_fail, ZeroDivisionError), b"<24x80>xx<endwin>")
same(sent(cut_and_fail, ZeroDivisionError), b"<24x80>xx\033<string><again><endwin>")
same(sent(open_anew), b"<24x80>xx<endwin><again><14x50>xx<endwin>")
same(sent(draw_and_end), b"<24x80>xx<endwin>")
same(sent(draw_badly, Error), b"<24x80>xxx<endwin>")
same(sent(lambda session, fd: session.call("refresh 1")), b"")
"""


# what tests/c/sends.c does
SENDER = """
signal.signal(signal.SIGALRM, lambda *_: None)
signal.signal(signal.SIGHUP, signal.SIG_IGN)
ticurses.set_raw(1)
os.set_blocking(1, len(sys.argv) > 2)
session = Session(b"entry", 24, 80)
signal.setitimer(signal.ITIMER_REAL, 0.0005, 0.0005)
try:
    while True:
        session.call("refresh 200000", "endwin")
        session.send()
except OSError as error:
    print(error.errno, session.waiting, end=" ", file=sys.stderr)
signal.setitimer(signal.ITIMER_REAL, 0)
session.call("refresh 1")
print(session.output(7).decode(), file=sys.stderr)
"""


def sender(work):
    """The words that run it."""
    write(f"{work}/sender.py", (BEGINNING + SENDER).encode())
    return [sys.executable, f"{work}/sender.py", "200000"]


def variables(work):
    """The variables by which a program finds the package, and the library that only pretends."""
    package = f"{TOP}/bindings/python"
    return {"TICURSES_LIBRARY": f"{work}/libstub.so", "PYTHONPATH": package, "PYTHONDONTWRITEBYTECODE": "1"}


def run(work, program, environment):
    """The output of a program, which has to end well."""
    write(f"{work}/program.py", (BEGINNING + program).encode())
    how = {"env": {**environment, **variables(work)}, "stdin": subprocess.DEVNULL, "timeout": PATIENCE}
    words = [sys.executable, "-X", "dev", f"{work}/program.py"]
    ran = subprocess.run(words, stdout=subprocess.PIPE, stderr=subprocess.STDOUT, **how)
    if ran.returncode:
        sys.exit(f"edge: of Python: {ran.stdout.decode()}{program[:200]}")
    return ran.stdout.decode()


def page():
    """The program of docs/LIBRARY.md."""
    section = held_in(f"{TOP}/docs/LIBRARY.md").decode().partition("\n## In Python\n")[2]
    lines = [it for it in section.split("\n## ")[0].split("\n") if it.startswith("    ") or not it]
    text = "\n".join(it[4:] for it in lines).strip()
    return text.partition("\n\n\n")[0] + "\n"


def check_import(work):
    """Without the library, or with another file in its place, it is an ImportError that says what to do."""
    shutil.copytree(f"{TOP}/bindings/python/ticurses", f"{work}/a/b/ticurses")
    write(f"{work}/empty.so", b"no library")
    # a library that lies two folders above is nobody's
    shutil.copy(f"{work}/libstub.so", f"{work}/a/{SONAME}")
    shutil.copy(f"{work}/libstub.so", f"{work}/{SONAME}")
    line = "try:\n    import ticurses\nexcept ImportError as error:\n    print(error)"
    for library in ("", f"{work}/none.so", f"{work}/empty.so", "libm.so.6"):
        out = printed(work, line, library)
        if "./install" not in out or "TICURSES_LIBRARY" not in out or (library or SONAME).split("/")[-1] not in out:
            sys.exit(f"edge: of Python: without its library it says {out!r}")
    write(f"{work}/a/b/ticurses/_installed.py", f"LIBRARY: str = {work + '/libstub.so'!r}\nTERMINFO: str = ''\n".encode())
    out = printed(work, "import ticurses\nprint(ticurses.__version__)", "")
    if out != f"{VERSION}\n":
        sys.exit(f"edge: of Python: the version is {out}, and {VERSION} was wanted")


def check_curses_import(work):
    """`ticurses.curses` without its library, with another file in its place, or with one that lacks functions, is an
    ImportError that says what to do; so says the demo."""
    write(f"{work}/older.c", b'const char *curses_version(void) { return "ticurses-curses 0.9.0"; }\n')
    subprocess.run(["cc", "-shared", "-fPIC", f"{work}/older.c", "-o", f"{work}/older.so"], check=True)
    line = "try:\n    import ticurses.curses\nexcept ImportError as error:\n    print(error)"
    demo = "import runpy\ntry:\n    runpy.run_module('ticurses.demo')\nexcept SystemExit as end:\n    print(end)"
    name = SONAME.replace("libticurses", "libticurses_curses")
    for library in ("", f"{work}/none.so", f"{work}/empty.so", f"{work}/older.so", "libm.so.6"):
        for program in (line, demo):
            out = printed(work, program, f"{work}/libstub.so", TICURSES_CURSES_LIBRARY=library)
            wanted = ("./install", "TICURSES_CURSES_LIBRARY", (library or name).split("/")[-1])
            if any(it not in out for it in wanted) or out.count("\n") != 1:
                sys.exit(f"edge: of Python: without the library of curses.h it says {out!r}")


def printed(work, line, library, **more):
    """The output of a line that imports the copy of the package."""
    environment = {"PYTHONPATH": f"{work}/a/b", "PYTHONDONTWRITEBYTECODE": "1", "TICURSES_LIBRARY": library, **more}
    ran = subprocess.run([sys.executable, "-c", line], env=environment, stdout=subprocess.PIPE, check=True)
    return ran.stdout.decode()


def check_types(work):
    """Type checkers find nothing."""
    if not shutil.which("mypy"):
        print("edge: mypy is not installed, and what needs it is left out")
        return
    words = ["mypy", "--strict", "--cache-dir", f"{work}/types", f"{TOP}/bindings/python/ticurses"]
    # not in tests/, whose curses.py mypy would take for the module `curses`
    ran = subprocess.run(words, cwd=work, stdout=subprocess.PIPE, stderr=subprocess.STDOUT, text=True)
    if ran.returncode:
        sys.exit(f"edge: of Python: {ran.stdout}")


def check(work):
    for program in (ERRORS, TEXTS, SENT, READ, BLOCKS):
        run(work, program, {"PATH": os.environ["PATH"]})
    check_import(work)
    check_curses_import(work)
    check_types(work)
    which = sysconfig.get_python_version()
    print(f"edge: the Python package ({which}): errors, imports, interrupted output, keys, blocks that are left")
