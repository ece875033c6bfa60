"""The Python module over the library for C: its output, answers and errors beside the program and the header; the
monitor of examples/python, which sends the bytes of that in examples/c; `ticurses.curses` (python_curses.py)."""

import os
import re
import subprocess
import sys

import c as c_tests
import curses_library
from linked import WRONG, compiled, installed, missing, rooms, terminfo, ticurses
from scripts import STORED
from trying import TOP, held_in, write

TERMINALS = f"{TOP}/examples/terminals.ti"


def module(prefix):
    """The module, as it is installed."""
    [folder] = [os.path.dirname(at) for at, _, names in os.walk(f"{prefix}/lib") if "py.typed" in names]
    sys.path.insert(0, folder)
    import ticurses as made

    if os.path.dirname(made.__file__) != f"{folder}/ticurses":
        sys.exit(f"python: the module is {made.__file__}")
    return made, folder


def hold(holds, what, *seen):
    if not holds:
        sys.exit(f"python: {what}: {seen}")


def raises(made, code, call, *words):
    """The call raises the error of this code. Returns its text."""
    try:
        call(*words)
    except made.Error as error:
        hold(error.code == code, "another code", error.code, code, words)
        return str(error)
    return sys.exit(f"python: {words} raises nothing, and {code!r} was wanted")


def check_names(made, prefix, work):
    """The codes, their words and the attributes are those of the header."""
    header = held_in(f"{prefix}/include/ticurses.h").decode()
    enums = dict(re.findall(r"^enum ticurses_(\w+) \{(.*?)^\}", header, re.M | re.S))
    codes, attrs = (
        {name: int(number) for name, number in re.findall(r"^    TICURSES_(\w+) = (\d+)", enums[it], re.M)}
        for it in ("code", "attrs")
    )
    hold(attrs == {it.name: it.value for it in made.Attrs}, "the attributes differ", attrs)
    hold(codes == {it.name: it.value for it in made.Code}, "the codes differ", codes)
    loop = f"for (int i = 0; i < {len(codes)}; i++) puts(ticurses_text(i));"
    write(f"{work}/texts.c", f"#include <ticurses.h>\nint main(void) {{ {loop} }}\n".encode())
    texts = subprocess.run([compiled(prefix, f"{work}/texts.c", f"{work}/texts")], stdout=subprocess.PIPE, text=True)
    hold(texts.stdout.splitlines() == [made.TEXTS[it] for it in made.Code], "the words differ", texts.stdout)


def check_bound(session):
    # of `xc` at 6 by 24, by its source: cup 7, sgr 19, setaf and setab 5, op 8, smacs and rmacs 3, el and ech 5,
    # civis 6, cnorm 12, cvvis 9, and the character; the way out of an unknown state has 37 bytes
    hold(session.cell_limit == 80 and session.most == 80, "the limit differs", session.cell_limit, session.most)
    session.addstr(0, "c")
    hold(session.most == 80, "a window counts before it is copied", session.most)
    session.call("noutrefresh 0")
    hold(session.most == 160, "one cell differs", session.most)
    session.call("doupdate")
    hold(0 < session.waiting <= 160 and session.most == 80, "the bound is passed", session.waiting)
    session.lost()
    hold(session.most == 145 * 80 + 37, "a whole screen differs", session.most)
    session.call("refresh 0")
    session.output()


def check_left_out(made):
    """A session goes without wrong strings where it may, and says which they are."""
    # rev underlines, and rmcup writes a letter; smcup goes with it
    entry = b"w|w,\n\tclear=\\E[H\\E[2J, cup=\\E[%i%p1%d;%p2%dH, sgr0=\\E[m, rev=\\E[4m,\n\tsmcup=\\E[?1049h, rmcup=x,\n"
    seen = raises(made, made.Code.NO_CERTIFICATE, made.Session, entry, 6, 24, "w")
    hold("no rev: BadLook" in seen, "the error says something else", seen)
    session = made.Session(entry, 6, 24, "w", leaving_out=True)
    hold([it.name for it in session.left_out] == ["rev", "rmcup", "smcup"], "others are left out", session.left_out)
    hold(session.left_out[2].faulty == "rmcup", "smcup goes by itself", session.left_out)
    session.call("attrset 0 R", "addstr 0 a", "refresh 0")
    hold(b"\033[4m" not in session.output(), "what was left out is sent")
    certificate = made.check(held_in(TERMINALS), 6, 24, "vt")
    try:
        session.open(held_in(TERMINALS), 6, 24, "vt", certificate, leaving_out=True)
        sys.exit("python: a certificate and leaving_out go together")
    except ValueError:
        pass
    session.open(held_in(TERMINALS), 6, 24, "vt", leaving_out=True)
    hold(session.left_out == [], "a right entry loses something", session.left_out)
    wrong = b"w|w,\n\tclear=\\E[H\\E[2J, cup=\\E[%p1%d;%p2%dH, sgr0=\\E[m,\n"
    raises(made, made.Code.NO_CERTIFICATE, lambda: session.open(wrong, 6, 24, "w", leaving_out=True))
    hold(session.left_out == [], "a refused entry is left in its place", session.left_out)
    session.close()
    raises(made, made.Code.CLOSED, lambda: session.left_out)


def check_calls(made):
    source = held_in(TERMINALS)
    session = made.Session(source, 6, 24, name="xc")
    session.call("init_pair 5 1 2", "newwin 1 3 10 2 4", "color_set 1 5", "attrset 1 BU", "move 1 1 2", "addch 1 41/R")
    hold(session.cursor(1) == (1, 3) and session.window_size(1) == (3, 10), "the window differs", session.cursor(1))
    cell = session.cell(1, 1, 2)
    look = made.Attrs.BOLD | made.Attrs.UNDERLINE | made.Attrs.REVERSE
    hold(cell == ("A", look, 5), "the cell differs", cell)
    session.addstr(0, "a\nb")
    hold(session.cell(0, 1, 0).byte == "b", "no newline")
    hold(session.waiting == 0, "something waits")
    session.call("refresh 0")
    waits = session.waiting
    hold(waits > 5 and len(session.output(3)) == 3 and session.waiting == waits - 3, "the count differs", waits)
    hold(len(session.output()) == waits - 3 and session.output() == b"" and session.output(0) == b"", "more waits")
    check_bound(session)
    raises(made, made.Code.NO_CAP, session.call, "beep 0")
    other = made.Session(source, 6, 24, name="vt")
    other.lost()
    raises(made, made.Code.IS_LOST, other.call, "beep 0")
    raises(made, made.Code.NO_WINDOW, session.cell, 9, 0, 0)
    raises(made, made.Code.OUT_OF_WINDOW, session.cell, 0, 70000, 0)
    raises(made, made.Code.BAD_LINE, session.call, "move 0")
    raises(made, made.Code.BAD_CELL, session.addstr, 0, b"\xff")
    raises(made, made.Code.BAD_CELL, session.addstr, 0, "\u00e9")
    raises(made, made.Code.FULL, session.addstr, 2**64, "a")
    raises(made, made.Code.FULL, session.cursor, -1)
    # an open session stays open if no new one opens
    raises(made, made.Code.BAD_SIZE, session.open, source, 6, 70000)
    hold(session.window_size(0) == (6, 24), "the session that was open is another", session.window_size(0))
    session.open(source, 7, 30, name="xc")
    hold(session.window_size(0) == (7, 30), "another session is open", session.window_size(0))
    session.close()
    raises(made, made.Code.CLOSED, session.call, "doupdate")
    session.close()
    raises(made, made.Code.BAD_ENTRY, made.Session, b"", 6, 24)


def check_certificates(made, work):
    """Certificates and reasons are those of the program."""
    source = held_in(TERMINALS)
    wanted = ticurses(["check", "terminals.ti:vt", "6", "24"])
    hold(made.check(source, 6, 24, "vt") == wanted, "the certificate differs")
    made.verify(source, 6, 24, wanted, "vt")
    raises(made, made.Code.BAD_CERTIFICATE, made.verify, source, 6, 24, wanted[:-1], "vt")
    hold(made.reason(source, 6, 24, "vt") == "", "a reason without a fault")
    write(f"{work}/wrong.ti", WRONG.encode())
    words = [f"{TOP}/crates/ticurses/out/ticurses", "check", f"{work}/wrong.ti:w", "6", "24"]
    told = subprocess.run(words, stdout=subprocess.PIPE, stderr=subprocess.PIPE).stderr.decode()
    [line] = re.findall(r"^refused: (.*)$", told, re.M)
    hold(made.reason(WRONG, 6, 24, "w") == line, "the reason differs", made.reason(WRONG, 6, 24, "w"), line)
    text = raises(made, made.Code.NO_CERTIFICATE, made.check, WRONG, 6, 24, "w")
    hold(text.endswith(line), "the error lacks the reason", text)
    text = raises(made, made.Code.NO_CERTIFICATE, made.Session, WRONG, 6, 24, "w")
    hold(text.endswith(line), "the error lacks the reason", text)


def check_scripts(made, work):
    """The examples' scripts: the module sends the bytes that `play` sends."""
    for name, (entry, rows, cols) in STORED.items():
        certificate = ticurses(["check", f"terminals.ti:{entry}", str(rows), str(cols)])
        write(f"{work}/certificate", certificate)
        script = held_in(f"{TOP}/examples/{name}.script")
        wanted = ticurses(["play", f"terminals.ti:{entry}", str(rows), str(cols), f"{work}/certificate", "{}"], script)
        sent = b""
        with made.Session(held_in(TERMINALS), rows, cols, entry, certificate) as session:
            for line in script.decode().splitlines():
                try:
                    session.call(line)
                except made.Error as error:
                    hold(error.code <= made.Code.BAD_PAIR, "a line is no call", line)
                while piece := session.output(100):
                    sent += piece
        hold(sent == wanted, "the library sends something else than `play`", name, sent)


def check_monitor(prefix, folder, work):
    """The monitor in Python shows and sends the same as the one in C."""
    environment = {"TERMINFO": terminfo(work, "xc"), "TERM": "xc", "PYTHONPATH": folder, "PYTHONDONTWRITEBYTECODE": "1"}
    words = [sys.executable, f"{TOP}/examples/python/monitor.py"]
    monitor = compiled(prefix, f"{TOP}/examples/c/monitor.c", f"{work}/monitor", "-std=c99")
    sent = []
    for run in (words, [monitor]):
        files = c_tests.written(work)
        sent.append(c_tests.watch([*run, *files], environment, c_tests.growing(files[1])))
    hold(sent[0] == sent[1], "the two monitors send something else", *sent)
    c_tests.check_blocked([*words, *c_tests.written(work)], environment)
    c_tests.check_ends([*words, *c_tests.written(work)], environment, 130)
    if not missing("python", "tmux"):
        c_tests.check_panes(work, [*words, *c_tests.written(work)], {"PYTHONPATH": folder})
        print("python: the monitor shows in tmux what its calls draw")


def check_curses(prefix, folder):
    """`ticurses.curses`, by a script of its own: in this process other modules have the name `curses`."""
    if not os.path.exists(f"{prefix}/lib/{curses_library.SONAME}"):
        print("python: the library of curses.h isn't installed without a compiler; ticurses.curses is left out")
        return
    sys.stdout.flush()
    if subprocess.run([sys.executable, "-B", f"{TOP}/tests/python_curses.py", folder]).returncode:
        sys.exit(1)


def main():
    if missing("python", "cc"):
        return
    with rooms() as work:
        prefix = installed(work)
        made, folder = module(prefix)
        check_names(made, prefix, work)
        check_calls(made)
        check_left_out(made)
        check_certificates(made, work)
        check_scripts(made, work)
        print("python: codes, answers, certificates, reasons and scripts are those of the header and of the program")
        check_monitor(prefix, folder, work)
        print("python: the monitor shows what its calls draw, and sends what the one in C sends")
        check_curses(prefix, folder)


if __name__ == "__main__":
    main()
