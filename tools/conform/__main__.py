"""Runs terminal emulators on the vectors and says where they differ from T.

    python3 tools/conform                      every emulator that is installed
    python3 tools/conform tmux xterm           these
    python3 tools/conform --only DCH xterm     the cases of one function, one file or one case
    python3 tools/conform --certificate CERT tmux    which lines of a certificate aren't so there
    python3 tools/conform --command 'myterm -e {}'   any program that runs a command in a terminal and answers CPR
    python3 tools/conform --command 'mytest {rows} {cols}'    a program that reads cases and writes screens
    python3 tools/conform --write-expected FILE tmux    writes the differences, and later
    python3 tools/conform --expected FILE tmux          says which are new, and which have vanished

No package is needed; an emulator that isn't installed is named and left out. The status is 0 if each that ran is as T, or
as FILE says; 1 if not; 2 for a command line that can't be understood; 3 if an emulator that was asked for can't be run, or
a file can't be read or written. docs/TERMINAL.md has more."""

import argparse
import json
import os
import signal
import sys
import time

import cases as asked
from emulator import Missing, OtherSize
from emulators import ALL
from expected import Expected, write, write_expected
from given import Answering, Given
from screens import Screen, differences, of_state
from told import Told, objects, print_meanings, print_shortest, print_table, table
from windows import Display, Windowed


def run(kind, sizes, note):
    """The cases of all sizes that the emulator can have."""
    told = Told()
    for (rows, cols), group in sizes.items():
        try:
            for case, seen in kind.played(rows, cols, group):
                told.add(case, compared(kind, case, seen))
        except OtherSize as missing:
            if (rows, cols) == max(sizes):
                raise
            note(f"{rows} by {cols} is left out: {missing}")
    told.version, told.reads = kind.version(), kind.reads
    return told


def compared(kind, case, seen):
    """The differences of a case, in words."""
    return differences(wanted(kind, case.state), seen, kind.reads) if isinstance(seen, Screen) else [f"it fails: {seen!r}"]


def wanted(kind, state):
    screen = of_state(state)
    if getattr(kind, "draws_letters", False):
        screen.cells = [[(char, marks) for char, (_, marks) in zip(line, row)] for line, row in zip(state["rows"], screen.cells)]
    return screen


class Runs:
    """The runs of all emulators: what they found, and which could not be run."""

    def __init__(self):
        self.results, self.missing, self.display = {}, [], None

    def run_all(self, kinds, sizes):
        try:
            for name, kind in kinds.items():
                self.run_one(name, kind, sizes)
        finally:
            if self.display:
                self.display.close()

    def run_one(self, name, kind, sizes):
        began = time.monotonic()
        try:
            if (issubclass(kind, Windowed) or getattr(kind, "wants_display", False)) and not self.display:
                self.display = opened(kind)
            self.results[name] = run(kind, sizes, lambda text: say(f"{name}: {text}"))
            say(f"{name}: {time.monotonic() - began:.0f} s")
        except Missing as missing:
            self.missing.append(name)
            say(f"{name} is left out: {missing}")


def opened(kind):
    """A display for the emulators with a window. A program of one's own may need none."""
    try:
        display = Windowed.display = Display()
    except Missing:
        if kind is Given:
            return None
        raise
    os.environ["DISPLAY"] = display.name
    return display


def say(text):
    print(f"conform: {text}", file=sys.stderr, flush=True)


# ---- the command line


def parser():
    it = argparse.ArgumentParser(prog="tools/conform", description=__doc__, formatter_class=argparse.RawDescriptionHelpFormatter)
    it.add_argument("emulators", nargs="*", metavar="EMULATOR", help=", ".join(ALL))
    it.add_argument("--only", action="append", default=[], metavar="WORD", help="the cases of this function, file (DCH, numbers-6x20) or name (DCH/7); may be given again")
    it.add_argument("--most", type=int, metavar="N", help="at most N cases of each file of vectors, chosen at random")
    it.add_argument("--sessions", type=int, default=50, metavar="N", help="N random sessions beside the vectors (50)")
    it.add_argument("--seed", type=int, default=1, help="of the random sessions (1)")
    it.add_argument("--certificate", metavar="CERT", help="the lines of this certificate in place of the vectors")
    it.add_argument("--command", metavar="LINE", help="a program of your own: a terminal, with {} where the command to run in it belongs; or, without {}, one that reads cases and writes screens. {rows} and {cols} are the size")
    it.add_argument("--situations", action="store_true", help="a row for each function in each situation")
    it.add_argument("--markdown", action="store_true", help="print the table for a page")
    it.add_argument("--json", metavar="FILE", help="also write all differences to this file")
    it.add_argument("--expected", metavar="FILE", help="say only what is new beside this file, and what has vanished")
    it.add_argument("--write-expected", metavar="FILE", help="write such a file")
    return it


def choose(given, usage):
    """The emulators of the command line."""
    for word in given.emulators:
        if word not in ALL:
            usage.error(f"no adapter for {word}: there are {', '.join(ALL)}, and --command")
    kinds = {word: ALL[word] for word in given.emulators}
    if given.command:
        own = Given if "{}" in given.command else Answering
        own.line = given.command
        return {"command": own, **kinds}
    return kinds or dict(ALL)


def chosen_cases(given, usage):
    """All cases that there are, and those that are to be run, by size."""
    if given.certificate:
        sizes = asked.certificate(given.certificate)
    else:
        sizes = asked.joined(asked.vectors(), asked.sessions(given.sessions, given.seed))
    chosen, unknown = asked.narrowed(sizes, given.only, given.most)
    if unknown:
        usage.error(f"--only {unknown[0]}: no function, file or case is named so")
    if not chosen:
        usage.error("there is no case to run")
    return {case.key() for cases in sizes.values() for case in cases}, chosen


def report(given, results):
    print_table(results, table(results, given.situations or given.certificate), given.markdown)
    if given.certificate:
        print_meanings(results)
    elif not given.expected:
        print_shortest(results)


def judged(given, expected, known, results):
    """Whether all is as it should be; with --expected its lines are printed."""
    if expected:
        lines = [line for name, told in results.items() for line in expected.compare(name, told, known)]
        print(f"\nBeside {given.expected}: " + (f"{len(lines)} changes" if lines else "nothing is new, and nothing has vanished"))
        print("".join(f"  {line}\n" for line in lines), end="")
        return not lines
    return bool(given.write_expected) or not any(told.differ() for told in results.values())


def whole(given):
    usage = parser()
    kinds = choose(given, usage)
    known, sizes = chosen_cases(given, usage)
    expected, runs = Expected(given.expected) if given.expected else None, Runs()
    runs.run_all(kinds, sizes)
    if not runs.results:
        raise asked.Wrong("none of these emulators could be run")
    report(given, runs.results)
    as_wanted = judged(given, expected, known, runs.results)
    if given.json:
        told = {name: held for one, found in runs.results.items() for name, held in objects(one, found).items()}
        write(given.json, json.dumps(told, indent=1) + "\n")
    if given.write_expected:
        write_expected(given.write_expected, runs.results)
    needed = {*given.emulators, *(["command"] if given.command else []), *(expected.of if expected else [])}
    if needed & set(runs.missing):
        return 3
    return 0 if as_wanted else 1


def ended(number, _frame):
    """A signal: what was started is ended, and what was written is removed."""
    sys.exit(128 + number)


def main():
    for number in (signal.SIGTERM, signal.SIGHUP):
        signal.signal(number, ended)
    try:
        sys.exit(whole(parser().parse_args()))
    except asked.Wrong as wrong:
        say(str(wrong))
        sys.exit(3)
    except KeyboardInterrupt:
        sys.exit(130)


if __name__ == "__main__":
    main()
