#!/usr/bin/env python3
"""The whole gate: what the toolchain can't check (the scripts of tests/), and the toolchain's own gate, `rt ci`.

    ./test [--library] [--anew]

Scripts that run the program come last, since `rt ci` proves and builds it. Tests of the library for C use the library
that was built or kept from the same sources; with `--library` it is built first where there is none. With `--anew`
nothing that `rt ci` has passed before counts. The gate announces each script and each crate, says afterwards how long
it took, and at the end what was left out. If all passed, the last line is that of `rt ci`."""

import os
import re
import subprocess
import sys
import threading
import time
from concurrent.futures import ThreadPoolExecutor

import build
import kept
from crates import TOP, listed
from ending import Ended, heed, held, started, stop, why
from sources import PROVED

WORDS = {"--library", "--anew"}
# how a script says that it tries less than all
LEFT_OUT = re.compile(r".*(left out|nothing of this is tried|skipped).*")
# the scripts that run the program, which `rt ci` leaves built
OF_PROGRAM = {
    "c.sh", "compiled.sh", "conform.sh", "curses.sh", "edge.sh", "examples.sh", "expansions.sh", "faults.sh", "fixes.sh", "grades.sh", "hello.sh", "infocmp.sh", "joins.sh",
    "manual.sh", "package.sh", "pictures.sh", "python.sh",
    "reality.sh", "report.sh", "reports.sh", "sarif.sh", "screens.sh", "scripts.sh", "second.sh", "sizes.sh", "terminals.sh", "terminfo.sh", "tour.sh", "vectors.sh", "with.sh",
}


def minutes(since):
    return f"{(time.monotonic() - since) / 60:.1f} minutes"


def processor_minutes():
    """The processor time of all programs that ended so far, in minutes."""
    used = os.times()
    return (used.children_user + used.children_system) / 60


def say(text):
    print(f"test: {text}", flush=True)


def subject(script):
    """The subject of a script: the first sentence of its second line."""
    with open(script, encoding="utf-8") as file:
        text = "".join(line[2:].replace("\n", " ") for line in file.readlines()[1:4] if line.startswith("# "))
    return re.split(r"(?<=[^.])[.:](?: |$)", text)[0].strip()


class Scripts:
    """Scripts of tests/, as many side by side as there are processors."""

    def __init__(self, names):
        self.paths = [f"tests/{it}" for it in names]
        self.printing, self.begun, self.left_out = threading.Lock(), 0, []
        self.going, self.is_ended = set(), False

    def run(self, path):
        """Runs one script; returns whether it passed."""
        with self.printing:
            if self.is_ended:
                return False
            self.begun += 1
            say(f"begins {path} ({self.begun} of {len(self.paths)}): {subject(path)}")
            began, pipe = time.monotonic(), subprocess.PIPE
            run = started(["sh", path], stdin=subprocess.DEVNULL, stdout=pipe, stderr=subprocess.STDOUT)
            self.going.add(run)
        out = run.communicate()[0].decode(errors="replace")
        with self.printing:
            self.going.remove(run)
            ending = "passed" if run.returncode == 0 else "FAILED"
            print(f"== {path}: {ending} after {time.monotonic() - began:.0f} s")
            print(out, end="", flush=True)
            self.left_out += [f"{path}: {it[0]}" for it in LEFT_OUT.finditer(out)]
        return run.returncode == 0

    def run_all(self):
        """Runs all of them; returns whether all passed."""
        began = time.monotonic()
        with ThreadPoolExecutor(len(os.sched_getaffinity(0))) as pool:
            try:
                passed = list(pool.map(self.run, self.paths))
            except Ended:
                with self.printing:
                    self.is_ended = True
                    stop(self.going)
                raise
        say(f"{sum(passed)} of {len(passed)} scripts passed, {minutes(began)}")
        return all(passed)


class Crates:
    """The progress of `rt ci`, by its output."""

    def __init__(self):
        self.uses = listed()
        self.proved, self.announced, self.edits = set(), set(), 0
        self.all_edits = sum(it.endswith(".edit") for at, _, names in os.walk(f"{TOP}/crates") for it in names)

    def come(self):
        """The crates whose libraries are all proved, and that were not announced before."""
        own = {name: {it for it in uses if it in self.uses} for name, uses in self.uses.items()}
        names = [it for it in own if own[it] <= self.proved and it not in self.announced]
        self.announced |= set(names)
        return f"; next: {', '.join(names)}" if names else ""

    def after(self, line, began):
        """The words to print after a line of `rt ci`, if any."""
        proved = re.match(r"rt: (\w+) proved$", line)
        edits = re.match(r"rt: (\w+): trying its must-fail edits \((\d+)\)$", line)
        if proved:
            self.proved.add(proved[1])
            say(f"{len(self.proved)} of {len(self.uses)} crates proved, {minutes(began)}{self.come()}")
        if edits:
            self.edits += int(edits[2])
            say(f"{self.edits} of {self.all_edits} edits begun, {minutes(began)}")

    def run(self, words):
        """Runs `rt ci`; returns its status and its last line, which is held back until all else is said."""
        began, used, last, gates = time.monotonic(), processor_minutes(), "", []
        say(f"{' '.join(words)}: {len(self.uses)} crates and {self.all_edits} must-fail edits{self.come()}")
        try:
            with held():
                gates.append(started(words, stdout=subprocess.PIPE, text=True, errors="replace"))
            for line in gates[0].stdout:
                print(last, end="", flush=True)
                self.after(last.rstrip("\n"), began)
                last = line
            gates[0].wait()
        except Ended:
            stop(gates)
            raise
        say(f"rt ci ended after {minutes(began)}, {processor_minutes() - used:.0f} of the processors: {last.strip()}")
        return gates[0].returncode, last


def rt_ci(is_anew):
    """The words of `rt ci`, with --anew if that is wanted and the toolchain knows it."""
    if not is_anew:
        return ["rt", "ci"]
    told = subprocess.run(["rt", "--help"], stdin=subprocess.DEVNULL, capture_output=True, text=True, errors="replace")
    if "--anew" in told.stdout + told.stderr:
        return ["rt", "ci", "--anew"]
    say("rt ci of this toolchain has no --anew")
    return ["rt", "ci"]


def proved(words):
    """Runs `rt ci`, and notes the sources of the program that it leaves. Returns its status and last line."""
    sources = PROVED.sources()
    status, last = Crates().run(words)
    if status == 0 and os.path.isfile(PROVED.files[0]) and PROVED.sources() == sources:
        PROVED.note(sources)
        kept.keep(PROVED)
    return status, last


def run(given):
    """Runs the gate; returns the status."""
    names = sorted(it for it in os.listdir("tests") if it.endswith(".sh"))
    if not OF_PROGRAM <= set(names):
        sys.exit(f"test: tests/ lacks {', '.join(sorted(OF_PROGRAM - set(names)))}")
    if "--library" in given and build.bring_libraries():
        say("FAILED: a library for C isn't built")
        return 1
    first, others = Scripts([it for it in names if it not in OF_PROGRAM]), Scripts(sorted(OF_PROGRAM))
    say(f"{len(first.paths)} scripts come first, then rt ci, and then {len(others.paths)} scripts that run the program")
    if not first.run_all():
        return 1
    status, last = proved(rt_ci("--anew" in given))
    # `rt ci` sets aside what was built; where nothing could be kept, it is built once more
    status = status or ("--library" in given and build.bring_libraries())
    if status or not others.run_all():
        say(f"FAILED; rt ci said: {last.strip()}")
        return 1
    for it in first.left_out + others.left_out:
        say(f"left out: {it}")
    print(last, end="", flush=True)
    return 0


def main():
    given = set(sys.argv[1:])
    if not given <= WORDS:
        print("usage: ./test [--library] [--anew]", file=sys.stderr)
        return 2
    os.chdir(TOP)
    heed()
    say("docs/PROVING.md says how long the whole takes")
    try:
        return run(given)
    except Ended as ended:
        return ended.status
    except OSError as error:
        say(f"FAILED: {why(error)}")
        return 1


if __name__ == "__main__":
    sys.exit(main())
