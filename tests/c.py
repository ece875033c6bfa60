"""The library for C: what programs that are linked with it send, beside `play` and `show`; the monitor of examples/c on
terminals; each answer, cut outputs, many sessions and calls; with valgrind and the sanitizers of the compiler."""

import os
import re
import shutil
import signal
import subprocess
import sys
import time

from linked import (
    SANITIZED,
    STRICT,
    WRONG,
    Multiplexer,
    Terminal,
    all_fed,
    compiled,
    fed,
    greeted,
    installed,
    missing,
    monitored,
    rooms,
    terminfo,
    ticurses,
)
from scripts import SHOWN, STORED
from trying import TOP, held_in, write

TERMINALS = f"{TOP}/examples/terminals.ti"
WRAPPED = ["-Wl,--wrap=malloc", "-Wl,--wrap=realloc", "-Wl,--wrap=free"]
# three refreshes, of a box with colors, of a text that changes in it, and of a window over it
REFRESHES = (
    "init_pair 1 7 4\nnewwin 1 5 20 1 2\nbkgd 1 20:1\nbox 1 - -\nmove 1 2 3\nattron 1 B\naddstr 1 first\nrefresh 1\n"
    "move 1 2 3\nattrset 1 U\naddstr 1 second\nmove 1 3 10\naddstr 1 more\nrefresh 1\n"
    "newwin 2 3 9 2 10\nbox 2 - -\nattron 2 R\nmove 2 1 1\naddstr 2 over\nrefresh 2\n"
)
HEADER = f"{TOP}/include/ticurses.h"
HEADERS = ("ticurses.h", "ticurses_calls.h", "ticurses_terminal.h")


def names_of_codes():
    """The names of the header's codes, by number, as the language of scripts writes them."""
    codes = re.search(r"^enum ticurses_code \{(.*?)^\}", held_in(HEADER).decode(), re.M | re.S)[1]
    found = re.findall(r"^    TICURSES_(\w+) = (\d+)", codes, re.M)
    return {int(number): name.title().replace("_", "") for name, number in found}


def check_formats(work):
    """ticurses_callf makes of formats what printf does. The library isn't needed for it."""
    words = ["cc", "-O1", "-std=c99", *STRICT, *SANITIZED, f"-I{TOP}/include", f"{TOP}/tests/c/formats.c"]
    if subprocess.run([*words, "-o", f"{work}/formats"]).returncode or subprocess.run([f"{work}/formats"]).returncode:
        sys.exit("ticurses_callf makes something else of a format than printf")
    print("c: ticurses_callf makes of formats what printf does, by itself or by it, at every length up to 1,200")


def check_header(prefix, work):
    """Both compilers take the headers, in each of these standards; the library exports what the header declares."""
    text = "#include <ticurses.h>\n#include <ticurses_terminal.h>\nint main(void) { return ticurses_text(0) == 0; }\n"
    write(f"{work}/header.c", text.encode())
    for standard in ("c99", "c11", "gnu17"):
        compiled(prefix, f"{work}/header.c", f"{work}/header", f"-std={standard}", "-Wshadow", "-Wconversion")
    if not missing("c", "c++"):
        for standard in ("c++11", "c++17"):
            compiled(prefix, f"{work}/header.c", f"{work}/header", f"-std={standard}", language="c++")
        compiled(prefix, f"{TOP}/tests/c/player.c", f"{work}/player_cc", language="c++")
    declared = set(re.findall(r"\b(ticurses_raw_\w+)\(", held_in(HEADER).decode()))
    if not missing("c", "nm"):
        words = ["nm", "-D", "--defined-only", f"{prefix}/lib/libticurses.so"]
        listed = subprocess.run(words, stdout=subprocess.PIPE, text=True, check=True).stdout
        exported = {line.split()[2] for line in listed.splitlines()}
        if exported != declared:
            sys.exit(f"libticurses.so exports {sorted(exported)}, and the header declares {sorted(declared)}")
        words = ["nm", "-g", "--defined-only", f"{prefix}/lib/libticurses.a"]
        listed = subprocess.run(words, stdout=subprocess.PIPE, text=True, check=True).stdout
        defined = {it[2] for it in map(str.split, listed.splitlines()) if len(it) == 3}
        if defined != declared:
            sys.exit(f"libticurses.a defines {sorted(defined)}, and the header declares {sorted(declared)}")
    print("c: the headers compile as C and as C++ without a warning; the shared library exports what they declare")


def check_manual(prefix, work):
    """The manual pages have the calls of the headers with their arguments, and programs that compile."""
    pages = [held_in(f"{TOP}/man/{it}").decode() for it in ("ticurses.3", "ticurses-calls.3")]
    headers = [held_in(f"{TOP}/include/{it}").decode() for it in HEADERS]
    found = r"^static inline ([^()=]*?)(ticurses_\w+)\(([^)]*)\)[^;{]*\{"
    declared = [it for header in headers for it in re.findall(found, header, re.M)]
    declared = {name: (kind.strip(), re.sub(r"\s+", " ", words)) for kind, name, words in declared}
    # what the others are made of
    parts = "bytes is_bad unmade digits format short_at is_entry read entry_in variable set is_full"
    made = "plain numbers window pair flag cell shown"
    for name in [*parts.split(), *(f"make_{it}" for it in made.split())]:
        del declared[f"ticurses_{name}"]
    written = {}
    for kind, first, rest in re.findall(r"^\.Ft (.*)\n\.F[no] (\w+)(.*(?:\n\.Fa .*)*)", "".join(pages), re.M):
        written[first] = (kind.strip('"').strip(), ", ".join(re.findall(r'"([^"]*)"', rest)))
    if declared != written:
        both = [(it, declared.get(it), written.get(it)) for it in sorted({*declared, *written})]
        differ = "\n".join(str(it) for it in both if it[1] != it[2])
        sys.exit(f"the manual pages and the headers differ: {differ}")
    for page in pages:
        example = page.partition(".Bd -literal\n")[2].partition(".Ed\n")[0].replace("\\e", "\\")
        write(f"{work}/example.c", example.encode())
        compiled(prefix, f"{work}/example.c", f"{work}/example", "-std=c99")
    print(f"c: the pages in man/ have the {len(written)} calls of the headers, and their programs compile")


def play(player, work, entry, rows, cols, script, piece):
    """The bytes that the player sends for a script, and the calls that it reports as refused."""
    write(f"{work}/script", script)
    words = [player, TERMINALS, entry, str(rows), str(cols), "-", f"{work}/script", str(piece)]
    ran = subprocess.run(words, stdout=subprocess.PIPE, stderr=subprocess.PIPE)
    names = names_of_codes()
    refused = re.sub(rb"(\d+)$", lambda code: names[int(code[1])].encode(), ran.stderr, flags=re.M)
    return ran.stdout, refused.decode()


def check_scripts(player, work):
    """Calls by the library and by the program send the same bytes, and have the same refusals."""
    cases = [(*given, held_in(f"{TOP}/examples/{name}.script")) for name, given in STORED.items()]
    cases += [(entry, rows, cols, "".join(f"{it}\n" for it in lines).encode()) for entry, rows, cols, lines, _ in SHOWN]
    if shutil.which("awk"):
        awk = ["awk", "-v", "kind=texts", "-v", "rows=24", "-v", "cols=80", "-f", f"{TOP}/bench/scripts.awk"]
        cases.append(("xt", 24, 80, subprocess.run(awk, stdout=subprocess.PIPE, check=True).stdout))
    else:
        print("c: awk is not installed, and its script of texts is left out")
    for number, (entry, rows, cols, script) in enumerate(cases):
        size = [str(rows), str(cols)]
        write(f"{work}/certificate", ticurses(["check", f"terminals.ti:{entry}", *size]))
        words = [f"terminals.ti:{entry}", *size, f"{work}/certificate", "{}"]
        sent, refused = play(player, work, entry, rows, cols, script, 1 + 997 * (number % 3))
        if sent != ticurses(["play", *words], script):
            sys.exit(f"of script {number} the library sends {sent!r}, and `play` something else")
        shown = ticurses(["show", *words], script).decode("latin-1")
        if refused != "".join(re.findall(r"^call \d+: .*\n", shown, re.M)):
            sys.exit(f"of script {number} the library refuses\n{refused}and `show` says\n{shown}")
    print(f"c: {len(cases)} scripts: the library sends what `play` sends, and refuses what `show` says is refused")


def check_cuts(prefix, work):
    """Three refreshes cut at each byte, and repaired: the terminal shows what the calls up to the cut refresh draw."""
    cutter = compiled(prefix, f"{TOP}/tests/c/cutter.c", f"{work}/cutter", *SANITIZED)
    write(f"{work}/refreshes", REFRESHES.encode())
    parts = re.findall(r".*?^refresh .*?\n", REFRESHES, re.M | re.S)
    for entry in ("mini", "vt", "xc"):
        write(f"{work}/certificate", ticurses(["check", f"terminals.ti:{entry}", "6", "24"]))
        words = ["show", f"terminals.ti:{entry}", "6", "24", f"{work}/certificate", "{}"]
        wanted = [ticurses(words, "".join(parts[: n + 1]).encode()).decode() for n in range(len(parts))]
        ran = subprocess.run([cutter, TERMINALS, entry, "6", "24", f"{work}/refreshes"], stdout=subprocess.PIPE)
        if ran.returncode:
            sys.exit(f"the cutter ended with status {ran.returncode} for {entry}")
        cuts, rest = [], ran.stdout
        while rest:
            head, _, rest = rest.partition(b"\n")
            _, place, refresh, length = head.split()
            cuts.append((int(place), int(refresh), rest[: int(length)]))
            rest = rest[int(length) + 1 :]
        if [it[0] for it in cuts] != list(range(len(cuts))) or {it[1] for it in cuts} != {1, 2, 3}:
            sys.exit(f"the cuts of {entry} are {[it[:2] for it in cuts]}")
        screens = all_fed(6, 24, [it[2] for it in cuts])
        for (place, refresh, sent), screen in zip(cuts, screens):
            if screen != wanted[refresh - 1]:
                sys.exit(f"{entry}: after a cut at byte {place} and a repair, {sent!r}, the screen is\n{screen}")
        print(f"c: {entry}: three refreshes cut at each of {len(cuts)} bytes, and the next one repairs the screen")


def check_numbers(prefix, work):
    """Each call by its function and as a line: the same answers, output, cells and cursors."""
    words = [compiled(prefix, f"{TOP}/tests/c/numbers.c", f"{work}/numbers", *SANITIZED), TERMINALS, "400"]
    ran = subprocess.run(words, stdout=subprocess.PIPE, stderr=subprocess.STDOUT, text=True, errors="replace")
    if ran.returncode or ran.stdout:
        sys.exit(f"numbers: status {ran.returncode}\n{ran.stdout}")
    print("c: 19,200 random calls of 48 kinds do by their functions what they do as lines of text")


def check_answers(prefix, work):
    """Each answer of the calls, also with what looks for wrong uses of memory."""
    source = f"{TOP}/tests/c/answers.c"
    plain = compiled(prefix, source, f"{work}/answers", "-g", *WRAPPED)
    tries = [("alone", [plain, TERMINALS])]
    sanitized = compiled(prefix, source, f"{work}/answers_sanitized", *SANITIZED, *WRAPPED)
    tries.append(("with the address sanitizer", [sanitized, TERMINALS]))
    if not missing("c", "valgrind"):
        valgrind = ["valgrind", "-q", "--error-exitcode=9", "--leak-check=full", "--show-leak-kinds=all"]
        tries.append(("under valgrind", [*valgrind, plain, TERMINALS, "50"]))
    for how, words in tries:
        ran = subprocess.run(words, stdout=subprocess.PIPE, stderr=subprocess.STDOUT, text=True, errors="replace")
        if ran.returncode or ran.stdout:
            sys.exit(f"answers {how}: status {ran.returncode}\n{ran.stdout}")
        print(f"c: every answer, 50 sessions, 100,000 calls, requests for memory that fail: as wanted {how}")


TEXT = [f"line {number} of the text, " + "abcdefghij" * (number % 9) for number in range(1, 41)]
LOGGED = [f"event {number}" for number in range(8)] + ["error: the disk is full", "warning: hot"]


def written(work):
    """The files that the monitor shows."""
    write(f"{work}/poem.txt", "".join(f"{it}\n" for it in TEXT).encode())
    write(f"{work}/log", "".join(f"{it}\n" for it in LOGGED).encode())
    return [f"{work}/poem.txt", f"{work}/log"]


def watch(words, environment, grow):
    """A whole run of the monitor on a terminal that keeps every byte. Returns all bytes."""
    terminal = Terminal(20, 60, words, environment)
    terminal.shows(monitored(20, 60, "poem.txt", TEXT, LOGGED).text())
    terminal.press(b"j\x1b[B\x1b[6~")
    terminal.shows(monitored(20, 60, "poem.txt", TEXT, LOGGED, top=13).text())
    terminal.press(b"l?")
    terminal.shows(monitored(20, 60, "poem.txt", TEXT, LOGGED, 13, 8, True).text())
    added = [*LOGGED, "an error again", "the last event"]
    grow("an error again\nthe last event\n")
    terminal.shows(monitored(20, 60, "poem.txt", TEXT, added, 13, 8, True).text())
    terminal.resize(14, 50)
    terminal.shows(monitored(14, 50, "poem.txt", TEXT, added, 13, 8, True).text())
    terminal.press(b"?G")
    terminal.shows(monitored(14, 50, "poem.txt", TEXT, added, 33, 8).text())
    # the terminal loses what it shows, and ^L draws it anew
    terminal.begun = len(terminal.sent)
    terminal.press(b"\f")
    terminal.shows(monitored(14, 50, "poem.txt", TEXT, added, 33, 8).text())
    terminal.press(b"q")
    if terminal.ends():
        sys.exit(f"{words[0]} did not end as it should")
    if "hidden" in fed(14, 50, terminal.sent[terminal.begun :]):
        sys.exit("the cursor stays hidden at the end")
    return terminal.sent


def growing(path):
    def grow(text):
        with open(path, "a", encoding="ascii") as file:
            file.write(text)

    return grow


def check_blocked(words, environment):
    """A terminal that takes nothing for a while: keys still count, and what comes later is the last state."""
    terminal = Terminal(50, 132, words, environment)
    terminal.shows(monitored(50, 132, "poem.txt", TEXT, LOGGED).text())
    # each ^L has the whole screen sent, which is more than what lies between the two ends of a terminal
    for _ in range(300):
        terminal.press(b"jkl\fhGg?")
    time.sleep(1)
    terminal.press(b"j")
    terminal.shows(monitored(50, 132, "poem.txt", TEXT, LOGGED, 1 if len(TEXT) > 31 else 0).text())
    terminal.press(b"q")
    terminal.ends()


def check_ends(words, environment, status):
    """It can be stopped, and a signal ends it; both leave the terminal as other programs want it."""
    terminal = Terminal(20, 60, words, environment)
    terminal.shows(monitored(20, 60, "poem.txt", TEXT, LOGGED).text())
    # the key that stops it
    terminal.press(b"\x1a")
    terminal.stops()
    if "hidden" in fed(20, 60, terminal.sent):
        sys.exit(f"stopped, the monitor left {terminal.sent[-99:]!r}")
    terminal.program.send_signal(signal.SIGCONT)
    terminal.shows(monitored(20, 60, "poem.txt", TEXT, LOGGED).text())
    # the key of the terminal's interrupt
    terminal.press(b"\x03")
    if terminal.ends() != status or "hidden" in fed(20, 60, terminal.sent):
        sys.exit(f"after an interrupt the monitor left {terminal.sent[-99:]!r}")


def check_refused(words, work):
    """A terminal with a wrong string: the monitor names the string, and sends nothing."""
    os.makedirs(f"{work}/wrong/w")
    ticurses(["tic", "--out", f"{work}/wrong/w/w", "--", "-:w"], WRONG.encode())
    terminal = Terminal(20, 60, words, {"TERMINFO": f"{work}/wrong", "TERM": "w"})
    status, text = terminal.ends(), b"monitor: a string of the entry is wrong: no op: WrongEffect\r\n"
    if status != 1 or terminal.sent != text:
        sys.exit(f"the monitor refuses a terminal by {terminal.sent!r}, status {status}")


def check_panes(work, words, variables, hello=None):
    """The monitor in tmux, as the entry of its terminal drives it."""
    pane = Multiplexer(work, 20, 60, words, {**variables, "TERM": "screen-256color"})
    pane.shows(monitored(20, 60, "poem.txt", TEXT, LOGGED).lines())
    pane.press("Down", "Down", "PageDown", "Right", "?")
    pane.shows(monitored(20, 60, "poem.txt", TEXT, LOGGED, 13, 8, True).lines())
    pane.resize(14, 50)
    pane.shows(monitored(14, 50, "poem.txt", TEXT, LOGGED, 13, 8, True).lines())
    pane.press("?", "g", "q")
    pane.shows(["ended 0"])
    pane.close()
    if hello:
        pane = Multiplexer(work, 9, 40, [hello], {"TERM": "screen-256color"})
        pane.shows(greeted(9, 40).lines())
        pane.press("x")
        pane.shows(["ended 0"])
        pane.close()


def check_page(prefix, work, environment):
    """The program of docs/LIBRARY.md is that of the examples. Its line compiles it in an empty folder, and it draws."""
    page = held_in(f"{TOP}/docs/LIBRARY.md").decode()
    blocks = [re.sub(r"^    ", "", it, flags=re.M) for it in re.findall(r"(?:^    .*\n|^\n(?=    ))+", page, re.M)]
    [program] = [it.strip("\n") + "\n" for it in blocks if "int main" in it]
    if program.encode() != held_in(f"{TOP}/examples/c/hello.c"):
        sys.exit("the program of docs/LIBRARY.md is not examples/c/hello.c")
    if missing("c", "pkg-config"):
        return
    os.mkdir(f"{work}/empty")
    write(f"{work}/empty/hello.c", program.encode())
    [line] = [it.strip() for it in blocks if it.strip().startswith("cc hello.c")]
    search = {**os.environ, "PKG_CONFIG_PATH": f"{prefix}/lib/pkgconfig"}
    if subprocess.run(["sh", "-c", line], cwd=f"{work}/empty", env=search).returncode:
        sys.exit(f"the line of docs/LIBRARY.md fails: {line}")
    terminal = Terminal(9, 40, [f"{work}/empty/hello"], environment)
    terminal.shows(greeted(9, 40).text())
    terminal.press(b"x")
    if terminal.ends():
        sys.exit("hello did not end as it should")
    print("c: the program of docs/LIBRARY.md compiles by its line in an empty folder, and draws what it calls")


def check_examples(prefix, work):
    """The programs of examples/c."""
    files, environment = written(work), {"TERMINFO": terminfo(work, "xc"), "TERM": "xc"}
    source = f"{TOP}/examples/c/monitor.c"
    monitor = compiled(prefix, source, f"{work}/monitor", "-std=c99", "-g")
    hello = compiled(prefix, f"{TOP}/examples/c/hello.c", f"{work}/hello", "-std=c99")
    check_page(prefix, work, environment)
    watch([monitor, *files], environment, growing(files[1]))
    check_blocked([monitor, *written(work)], environment)
    check_ends([monitor, *files], environment, 130)
    check_refused([monitor, *files], work)
    sanitized = compiled(prefix, source, f"{work}/sanitized", "-std=c99", *SANITIZED)
    watch([sanitized, *files], environment, growing(files[1]))
    tried = "the address sanitizer"
    if not missing("c", "valgrind"):
        valgrind = ["valgrind", "-q", "--error-exitcode=9", "--leak-check=full", f"--log-file={work}/valgrind"]
        watch([*valgrind, monitor, *written(work)], environment, growing(files[1]))
        if held_in(f"{work}/valgrind"):
            sys.exit(held_in(f"{work}/valgrind").decode())
        tried = "valgrind and the address sanitizer"
    print(f"c: the monitor shows what its calls draw, also on a terminal that blocks, and with {tried}")
    if not missing("c", "tmux"):
        check_panes(work, [monitor, *written(work)], {}, hello)
        print("c: the monitor and hello show in tmux what their calls draw")


def main():
    if missing("c", "cc"):
        return
    with rooms() as work:
        check_formats(work)
        prefix = installed(work)
        check_header(prefix, work)
        check_manual(prefix, work)
        player = compiled(prefix, f"{TOP}/tests/c/player.c", f"{work}/player", *SANITIZED)
        check_scripts(player, work)
        check_numbers(prefix, work)
        check_answers(prefix, work)
        check_cuts(prefix, work)
        check_examples(prefix, work)


if __name__ == "__main__":
    main()
