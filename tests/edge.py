"""Tests of code that isn't proved. Many run over a library that only pretends (c/stub.c), so that they also run where
the library isn't built; random calls need the real one."""

import errno
import os
import pty
import re
import select
import shutil
import signal
import struct
import subprocess
import sys
import termios
import time

import edge_python
from linked import SANITIZED, STRICT, Terminal, installed, missing, rooms
from trying import PATIENCE, TOP, write

WARNED = ["-Wall", "-Wextra", "-Wconversion", "-Wshadow", "-pedantic", "-Werror"]
# how much of what is random is tried
FORMATS, CALLS, SLOW_CALLS = 150_000, 150_000, 4_000
IS_ROOT = os.geteuid() == 0
NOBODY = 65534
# sizes of terminals that no session fits
OTHER_SIZES = ((1, 80), (24, 501), (201, 80), (24, 600), (24, 1))
TOO_LARGE = b"a terminal has 2 to 200 rows and 2 to 500 columns"
ENDINGS = (signal.SIGHUP, signal.SIGINT, signal.SIGQUIT, signal.SIGTERM)


def hold(holds, what, *seen):
    if not holds:
        sys.exit(f"edge: {what}: {seen}")


def build(words):
    if subprocess.run(words).returncode:
        sys.exit(f"edge: {' '.join(words)}")


def stub(work):
    """The library that only pretends; what a program is linked with."""
    build(["cc", "-D_GNU_SOURCE", "-shared", "-fPIC", *STRICT, f"{TOP}/tests/c/stub.c", "-o", f"{work}/libstub.so"])
    return [f"-I{TOP}/include", f"-L{work}", "-lstub", f"-Wl,-rpath,{work}"]


def check_headers(work):
    """Each of the compilers takes the headers as C99 and as C++11, without a warning."""
    text = "#include <ticurses.h>\n#include <ticurses_terminal.h>\nint main(void) { return !*ticurses_text(0); }\n"
    write(f"{work}/header.c", text.encode())
    tried = []
    for compiler, standard in (("gcc", "c99"), ("clang", "c99"), ("g++", "c++11"), ("clang++", "c++11")):
        if not missing("edge", compiler):
            language, more = ("c++", ["-Wold-style-cast"]) if "++" in standard else ("c", [])
            words = [compiler, f"-std={standard}", "-x", language, *WARNED, *more, f"-I{TOP}/include"]
            build([*words, "-c", f"{work}/header.c", "-o", f"{work}/header.o"])
            tried.append(f"{compiler} as {standard}")
    for example in ("hello", "monitor"):
        words = ["cc", "-std=c99", *WARNED, f"-I{TOP}/include", "-c", f"{TOP}/examples/c/{example}.c"]
        build([*words, "-o", f"{work}/example.o"])
    print(f"edge: the headers compile without a warning by {', '.join(tried)}")


def entry(names=4, table=3):
    """A compiled entry of the form of 16 bits."""
    return struct.pack("<6H", 0x11A, names, 0, 0, 1, table) + b"x" * names + b"\0\0" + b"t" * table


def check_entries(work, linked):
    """A file that is no entry, can't be read or is too long doesn't end the search, in C and in Python."""
    program = f"{work}/entries"
    build(["cc", "-std=c99", *WARNED, f"{TOP}/tests/c/entries.c", *linked, "-o", program])
    good, home = entry(), f"{work}/home"
    write_at(f"{home}/.terminfo/x/xx", good)
    environment = {"HOME": home, "TERMINFO": f"{work}/own", "TERMINFO_DIRS": f"{work}/none::{work}/dirs", "TERM": "xx"}
    broken = {"seven bytes": good[:7], "cut": good[:-1], "text": b"xx|a,\n\tam,\n", "long": entry(4, 32768)}
    for what, held in broken.items():
        write_at(f"{work}/own/x/xx", held)
        hold(found(program, work, environment) == len(good), f"an entry that is {what} ends the search")
    os.remove(f"{work}/own/x/xx")
    os.mkfifo(f"{work}/own/x/xx")
    hold(found(program, work, environment) == len(good), "a FIFO ends the search")
    os.remove(f"{work}/own/x/xx")
    write_at(f"{work}/own/78/xx", entry(6))
    hold(found(program, work, environment) == len(entry(6)), "a folder that is named by the code isn't read")
    os.remove(f"{work}/own/78/xx")
    # as long as an entry may be, and of the form of 32 bits
    longest = entry(4, 32768 - 12 - 4 - 2)
    write_at(f"{work}/own/x/xx", longest)
    hold(len(longest) == 32768 and found(program, work, environment) == 32768, "the longest entry isn't taken")
    write_at(f"{work}/own/x/xx", struct.pack("<6H", 0x21E, 2, 1, 1, 0, 0) + b"x\0" + b"\1" + b"\0" + b"\0" * 4)
    hold(found(program, work, environment) == 20, "an entry with numbers of 32 bits isn't taken")
    for term in ("", "a/b", "..", "nothing"):
        hold(found(program, work, {**environment, "TERM": term}) == 0, "an entry is found", term)
    os.remove(f"{home}/.terminfo/x/xx")
    os.remove(f"{work}/own/x/xx")
    write_at(f"{work}/dirs/x/xx", good)
    hold(found(program, work, environment) == len(good), "TERMINFO_DIRS isn't read")
    check_rights(program, work, environment)
    for rows, cols in ((2, 2), (200, 500), *OTHER_SIZES):
        run, code = Run(rows, cols, [program], environment), 21 if (rows, cols) in OTHER_SIZES else 0
        run.waits_for(b"\n")
        run.ends()
        hold(run.sent.split()[1:4] == [b"%d" % it for it in (code, rows, cols)], "a size is told otherwise", run.sent)
    print("edge: broken, cut, long and unreadable entries don't end the search; variables don't count with more rights")


def write_at(path, held):
    os.makedirs(os.path.dirname(path), exist_ok=True)
    write(path, held)


def found(program, work, environment):
    """The length of the entry that the program finds, which is that which Python finds."""
    ran = subprocess.run([program], env=environment, stdout=subprocess.PIPE, stdin=subprocess.DEVNULL, timeout=PATIENCE)
    length, *others = map(int, ran.stdout.split())
    hold(ran.returncode == 0 and others == [0, 24, 80, 26, -1, 0], "sizes and answers without a terminal", ran)
    by_python = edge_python.run(work, "print(found())", environment)
    hold(int(by_python) == length, "Python finds another entry", by_python, length)
    return length


def check_rights(program, work, environment):
    """With rights that its user lacks, a program doesn't read what variables name."""
    if not IS_ROOT:
        print("edge: not root, so that programs with more rights are left out")
        return
    os.chmod(work, 0o755)
    has_capabilities = not missing("edge", "setcap")
    for owner, group, bit in ((0, 0, 0o4755), (NOBODY, 0, 0o2755), *([(0, 0, 0o755)] if has_capabilities else [])):
        shutil.copy(program, f"{work}/rights")
        os.chown(f"{work}/rights", owner, group)
        os.chmod(f"{work}/rights", bit)
        if bit == 0o755 and subprocess.run(["setcap", "cap_net_raw+ep", f"{work}/rights"], stderr=subprocess.DEVNULL).returncode:
            print("edge: a file can't have capabilities here, and they are left out")
            continue
        # the loader takes no path of the user's either
        how = {"env": environment, "stdout": subprocess.PIPE, "user": NOBODY, "group": NOBODY, "extra_groups": []}
        ran = subprocess.run([f"{work}/rights"], **how)
        with_rights = os.statvfs(work).f_flag & os.ST_NOSUID == 0
        if with_rights:
            hold(ran.stdout.split()[:1] == [b"0"], "with more rights it reads what a variable names", bit, ran)
    by_python = edge_python.run(work, f"os.setresuid({NOBODY}, 0, 0)\nprint(found())", environment)
    hold(int(by_python) == 0, "with more rights Python reads what a variable names", by_python)


class Run(Terminal):
    """A program on a terminal, which has to be left as it was found."""

    def waits_for(self, text):
        end = time.monotonic() + PATIENCE
        while text not in self.sent:
            hold(time.monotonic() < end, f"{text} doesn't come", self.sent)
            self.read(0.05)

    def modes(self):
        """The terminal's modes, as its other end tells them."""
        return termios.tcgetattr(self.fd)[:4]

    def is_left(self, before, status, wanted=b"<endwin>"):
        """Waits for the end: the modes are those of before, and the last that it sent ends with this."""
        end = time.monotonic() + PATIENCE
        while self.program.poll() is None:
            hold(time.monotonic() < end, "the program does not end", self.sent)
            self.read(0.05)
        while self.read(0.05):
            pass
        code = self.program.returncode
        code = 128 - code if code < 0 else code
        after = self.modes()
        os.close(self.fd)
        hold(code == status, "another status", code, status, self.sent)
        hold(after == before, "the terminal is not as it was", before, after, self.sent)
        hold(wanted in self.sent[-400:], "what is sent last is another", wanted, self.sent)


def on_terminal(words, environment, began=b"x", size=(24, 80)):
    """Starts a program on a terminal, and waits until it draws. Gives it, and the modes before."""
    run = Run(*size, [sys.executable, "-c", WAITING, *words], environment)
    run.waits_for(b"ready")
    before = run.modes()
    os.write(run.fd, b"\n")
    run.waits_for(began)
    return run, before


# runs a program once a line has come, so that the modes before are known
WAITING = """
import os, sys
print("ready", flush=True)
sys.stdin.buffer.raw.readline()
os.execv(sys.argv[1], sys.argv[1:])
"""


def check_programs(work, linked):
    """hello and both monitors, whatever ends them."""
    write_at(f"{work}/terminfo/w/w", entry(6)[:12] + b"wrong\0" + entry(6)[18:])
    write(f"{work}/file", b"a file\n")
    environment = {"TERMINFO": f"{work}/terminfo", "TERM": "w", **edge_python.variables(work)}
    for name in ("hello", "monitor"):
        build(["cc", "-std=c99", *WARNED, f"{TOP}/examples/c/{name}.c", *linked, "-o", f"{work}/{name}"])
    hello, page = [f"{work}/hello"], [sys.executable, "-c", edge_python.page()]
    python = [sys.executable, f"{TOP}/examples/python/monitor.py"]
    monitors = [[*run, f"{work}/file"] for run in ([f"{work}/monitor"], python)]
    build(["cc", "-shared", "-fPIC", *STRICT, f"{TOP}/tests/c/late.c", "-o", f"{work}/late.so", "-ldl"])
    for words in (hello, *monitors, page):
        for number in ENDINGS if words is not page else (signal.SIGHUP, signal.SIGINT, signal.SIGTERM):
            last = b"KeyboardInterrupt" if words is page and number == signal.SIGINT else b"<endwin>"
            run, before = on_terminal(words, environment)
            run.program.send_signal(number)
            run.is_left(before, 128 + number, last)
            # a signal that comes when the program has begun to wait, but for the system's call
            late = [shutil.which("env"), f"LD_PRELOAD={work}/late.so", f"LATE={int(number)}"]
            run, before = on_terminal([*late, *words], environment)
            run.is_left(before, 128 + number, last)
        check_sizes(words, environment)
    for words in monitors:
        check_resized(words, environment)
        check_stopped(words, environment)
        check_gone(words, environment)
        check_fifo(work, words, environment)
    check_said(work, hello, environment)
    print("edge: hello, both monitors and the page's program restore the terminal after each signal, and refuse sizes")


def check_cuts(work, linked):
    """Output to a slow terminal arrives whole while signals interrupt it. A terminal that goes away in the middle,
    after any number of bytes, is an error, and the next refresh begins anew. So in Python."""
    build(["cc", "-std=c99", *WARNED, *SANITIZED, f"{TOP}/tests/c/sends.c", *linked, "-o", f"{work}/sends"])
    for taken in (0, 1, 4095, 4096, 4097, 70_000, 200_009, 200_017, 333_333):
        senders = [[f"{work}/sends", "200000"], edge_python.sender(work)]
        for words in [*senders, *([*it, "blocking"] for it in senders)]:
            outer, inner = pty.openpty()
            # nobody knows modes of this terminal but the program
            how = {"stdin": inner, "stdout": inner, "stderr": subprocess.PIPE, "start_new_session": True}
            run = subprocess.Popen(words, env={**os.environ, **edge_python.variables(work)}, **how)
            os.close(inner)
            sent = taken_slowly(outer, taken)
            os.close(outer)
            told = run.communicate(timeout=PATIENCE)[1]
            hold(run.returncode == 0 and told == b"%d 0 <again>\n" % errno.EIO, "a cut is told otherwise", taken, run, told)
            whole = (b"<24x80>" + b"x" * 200_000 + b"<endwin>") + (b"x" * 200_000 + b"<endwin>")
            hold(sent == whole[:taken], "something else arrives", taken, sent[:40], sent[-40:])
    print("edge: output to a slow terminal arrives whole while signals come; one that is cut at any byte begins anew")


def taken_slowly(outer, most):
    """The first bytes that are sent to a terminal, `most` of them, taken in pieces once some are there."""
    sent = b""
    select.select([outer], [], [], 60)
    while len(sent) < most:
        sent += os.read(outer, min(most - len(sent), 1 + len(sent) % 3000))
        if len(sent) % 7 == 0:
            time.sleep(0.0005)
    return sent


def check_sizes(words, environment):
    """A terminal that no session fits is refused, and left as it was."""
    for rows, cols in OTHER_SIZES:
        run, before = on_terminal(words, environment, TOO_LARGE, (rows, cols))
        run.is_left(before, 1, b"columns")
        hold(b"<endwin>" not in run.sent and b"xx" not in run.sent, "something is drawn", run.sent)


# what a shell does with a job: the terminal is its own while the job is stopped, and so are the signals of the terminal
JOB = """
import os, signal, sys
signal.signal(signal.SIGTTOU, signal.SIG_IGN)
signal.pthread_sigmask(signal.SIG_BLOCK, [signal.SIGUSR1])
job = os.fork()
if not job:
    os.setpgid(0, 0)
    os.tcsetpgrp(0, os.getpid())
    signal.signal(signal.SIGTTOU, signal.SIG_DFL)
    os.execv(sys.argv[1], sys.argv[1:])
os.write(1, b"job %d begins" % job)
while os.WIFSTOPPED(status := os.waitpid(job, os.WUNTRACED)[1]):
    os.tcsetpgrp(0, os.getpgrp())
    os.write(1, b"stopped")
    signal.sigwait([signal.SIGUSR1])
    os.tcsetpgrp(0, job)
    os.killpg(job, signal.SIGCONT)
sys.exit(os.waitstatus_to_exitcode(status))
"""


def check_stopped(words, environment):
    """A size that changes while the monitor is a stopped job, by its key or by a signal that it doesn't see."""
    for is_key in (True, False):
        run, before = on_terminal([sys.executable, "-c", JOB, *words], environment)
        run.waits_for(b"begins")
        told = re.search(rb"job (\d+) begins", run.sent)
        hold(told, "the job doesn't begin", run.sent)
        job = int(told[1])
        os.write(run.fd, b"\x1a") if is_key else os.kill(job, signal.SIGSTOP)
        run.waits_for(b"stopped")
        if is_key:
            hold(b"<endwin>" in run.sent and run.modes() == before, "stopped, it leaves the terminal", run.sent)
        run.resize(14, 50)
        run.program.send_signal(signal.SIGUSR1)
        run.waits_for(b"<14x50>")
        os.write(run.fd, b"q")
        run.is_left(before, 0)


def check_resized(words, environment):
    """At a change of size the old session ends, once, before the next one begins. Drawn anew by ^L, the monitor leaves the
    screen before the session begins anew."""
    run, before = on_terminal(words, environment)
    run.resize(30, 90)
    run.waits_for(b"<30x90>")
    hold(b"<endwin><again><30x90>" in run.sent and run.sent.count(b"<endwin>") == 1, "the old session ends otherwise", run.sent)
    os.write(run.fd, b"\f")
    run.waits_for(b"<again>x")
    hold(re.search(rb"(<endwin>|\033<string>)<again>x", run.sent), "a session begins anew on the old screen", run.sent)
    os.write(run.fd, b"q")
    run.is_left(before, 0)


def check_gone(words, environment):
    """A size without a certificate: the monitor says so, and leaves the terminal as it was."""
    run, before = on_terminal(words, environment)
    run.resize(40, 80)
    run.is_left(before, 1, b"a string of the entry is wrong: no op: WrongEffect")
    hold(b"<endwin>" in run.sent, "the screen isn't ended", run.sent)
    run, before = on_terminal(words, environment)
    run.resize(24, 600)
    run.is_left(before, 1, TOO_LARGE)
    hold(b"<endwin>" in run.sent, "the screen isn't ended", run.sent)
    # a terminal that goes away ends it as it ends other programs
    run, _ = on_terminal(words, environment)
    os.close(run.fd)
    hold(run.program.wait(60) == -signal.SIGHUP, "after a hangup it ends otherwise", run.program.returncode)


def check_fifo(work, words, environment):
    """A log that is a FIFO, to which nobody writes yet."""
    log = f"{work}/fifo of {os.path.basename(words[0])}"
    os.mkfifo(log)
    run, before = on_terminal([*words, log], environment)
    os.write(run.fd, b"q")
    run.is_left(before, 0)


# runs a program whose output is a pipe that nobody reads any more
UNREAD = """
import os, signal, sys
signal.signal(signal.SIGPIPE, signal.SIG_DFL)
reading, writing = os.pipe()
os.close(reading)
os.dup2(writing, 1)
os.execv(sys.argv[1], sys.argv[1:])
"""


def check_said(work, hello, environment):
    """hello says what is wrong."""
    how = {"env": {**os.environ, **environment}, "stdin": subprocess.DEVNULL, "capture_output": True}
    ran, text = subprocess.run(hello, **how), b"hello: standard input: Inappropriate ioctl for device\n"
    hold(ran.returncode == 1 and ran.stderr == text, "hello says", ran)
    run, before = on_terminal(hello, {**environment, "TERM": "none"}, b"hello: ")
    run.is_left(before, 1, b"hello: TERM names no entry of terminfo\r\n")
    run, before = on_terminal(hello, environment, b"hello: ", (40, 80))
    run.is_left(before, 1, b"hello: a string of the entry is wrong: no op: WrongEffect\r\n")
    run, before = on_terminal([sys.executable, "-c", UNREAD, *hello], environment, b"Broken pipe")
    run.is_left(before, 1, b"hello: Broken pipe\r\n")


def check_formats(work):
    """ticurses_callf makes of random formats what snprintf does."""
    words = ["-O1", "-std=c99", *STRICT, f"-I{TOP}/include", f"{TOP}/tests/c/random_formats.c"]
    build(["cc", *words, *SANITIZED, "-o", f"{work}/formats"])
    build(["cc", *words, "-g", "-o", f"{work}/formats_plain"])
    seed = str(int.from_bytes(os.urandom(4), "little"))
    tries = [[f"{work}/formats", seed, str(FORMATS)]]
    if not missing("edge", "valgrind"):
        tries.append(["valgrind", "-q", "--error-exitcode=9", f"{work}/formats_plain", seed, str(SLOW_CALLS)])
    run_all("formats", tries)
    print(f"edge: {FORMATS} random formats (seed {seed}) make what snprintf makes, with the sanitizers")


def run_all(what, tries):
    for words in tries:
        ran = subprocess.run(words, stdout=subprocess.PIPE, stderr=subprocess.STDOUT, text=True, errors="replace")
        hold(ran.returncode == 0 and not ran.stdout, f"random {what}", words, ran.returncode, ran.stdout[-3000:])


def check_calls(work):
    """Random calls of the real library: each answer is a code, and no other memory is read or written."""
    prefix = installed(work)
    found_at = [f"-I{prefix}/include", f"{TOP}/tests/c/random_calls.c", f"{prefix}/lib/libticurses.a"]
    words = ["-O1", "-std=c99", *STRICT, *found_at]
    build(["cc", *words, *SANITIZED, "-o", f"{work}/calls"])
    build(["cc", *words, "-g", "-o", f"{work}/calls_plain"])
    seed = str(int.from_bytes(os.urandom(4), "little"))
    source = f"{TOP}/examples/terminals.ti"
    tries = [[f"{work}/calls", source, seed, str(CALLS)], [f"{work}/calls_plain", source, seed, str(CALLS)]]
    if not missing("edge", "valgrind"):
        valgrind = ["valgrind", "-q", "--error-exitcode=9", "--leak-check=full", "--show-leak-kinds=all"]
        tries.append([*valgrind, f"{work}/calls_plain", source, seed, str(SLOW_CALLS)])
    run_all("calls", tries)
    print(f"edge: {CALLS} random calls (seed {seed}) are answered, with the sanitizers, alone and under valgrind")


def main():
    with rooms() as work:
        linked = stub(work)
        check_headers(work)
        check_formats(work)
        edge_python.check(work)
        check_entries(work, linked)
        check_programs(work, linked)
        check_cuts(work, linked)
        check_calls(work)


if __name__ == "__main__":
    main()
