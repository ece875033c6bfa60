#!/usr/bin/env python3
"""Proves and builds the program and the crates that it depends on, as many side by side as there are processors. With
the word `library` it does so for the libraries for C.

Each crate is built in a room of its own: a folder with links to its files and to the built libraries below it. The
toolchain lets no two runs work in one folder, and most crates depend on the same few. Whenever a run ends, its proofs
go back to the crate's out/, so that an interrupted build can continue. If an earlier build of the same sources is kept,
from any checkout of this user, its files are taken.

It reports on standard error what it builds, how far it is and how long it took. The status is 0, 125 if the toolchain
refused a crate or the checkout can't be written, 127 without the toolchain, and 128 and the number of a signal that
ended it."""

import contextlib
import fcntl
import os
import re
import shutil
import subprocess
import sys
import time

import kept
import verdicts
from crates import TOP, below, heads, listed
from ending import Ended, heed, held, say, started, stop, why
from linking import Failed, link
from sources import LIBRARIES, PROVED, size_of

# the memory that a check of one crate takes, in bytes
NEEDS = 3_000_000_000
SHOWN = 20


def git_folder():
    """The folder that git has for this checkout; None where there is no git, or it doesn't say."""
    if not shutil.which("git"):
        return None
    words = ["git", "-C", TOP, "rev-parse", "--absolute-git-dir"]
    ran = subprocess.run(words, stdin=subprocess.DEVNULL, capture_output=True, check=False)
    return None if ran.returncode else os.fsdecode(ran.stdout)[:-1]


def rooms():
    """The folder of all rooms, of this user alone. It is in the one that git names for this checkout, since `rt ci`
    reads every other; where there is none on this disk, it is in the checkout."""
    at = f"{TOP}/.rooms"
    if os.path.lexists(f"{TOP}/.git"):
        folder = git_folder() or f"{TOP}/.git"
        if os.path.isdir(folder) and os.stat(folder).st_dev == os.stat(TOP).st_dev:
            at = f"{folder}/rooms"
    if not os.path.lexists(at):
        os.mkdir(at, 0o700)
    if not kept.is_own(at):
        raise OSError(f"{at} is no folder of this user alone; remove it")
    return at


def processors():
    """How many crates can be proved at a time: as many as there are processors, and memory for."""
    count = len(os.sched_getaffinity(0))
    with open("/proc/meminfo", encoding="ascii") as file:
        free = [int(line.split()[1]) * 1024 for line in file if line.startswith("MemAvailable:")]
    return max(1, min([count, *(each // NEEDS for each in free)]))


class Room:
    """A folder in which one crate is built: a repository of this crate and of those below it."""

    def __init__(self, where, name, names, uses):
        self.name, self.top = name, f"{where}/{name}"
        self.names, self.uses = names, uses

    def enter(self):
        """Links the crates' files and the built libraries; the crate's own out/ moves here."""
        self.leave()
        for crate in self.names:
            here, there = f"{TOP}/crates/{crate}", f"{self.top}/crates/{crate}"
            for part in os.listdir(here):
                if part != "out" and os.path.isdir(f"{here}/{part}"):
                    shutil.copytree(f"{here}/{part}", f"{there}/{part}", copy_function=os.link)
            if crate != self.name:
                shutil.copytree(f"{here}/out/rlib", f"{there}/out/rlib", copy_function=os.link)
        here, there = f"{TOP}/crates/{self.name}/out", f"{self.top}/crates/{self.name}/out"
        os.makedirs(here, exist_ok=True)
        os.rename(here, there)
        with open(f"{self.top}/crates.txt", "w", encoding="utf-8") as file:
            file.writelines(f"{heads()[crate]}: {' '.join(self.uses[crate])}\n" for crate in self.names)

    def leave(self):
        """Gives the crate its out/ back, also that of a build which was killed."""
        here, there = f"{TOP}/crates/{self.name}/out", f"{self.top}/crates/{self.name}/out"
        if os.path.isdir(there):
            # a program that was built without proof meanwhile stays
            for name in os.listdir(here) if os.path.isdir(here) else []:
                if not os.path.lexists(f"{there}/{name}"):
                    os.rename(f"{here}/{name}", f"{there}/{name}")
            shutil.rmtree(here, ignore_errors=True)
            os.rename(there, here)
        shutil.rmtree(self.top, ignore_errors=True)


class Build:
    """The crates that are built, those that are going, and those that are left."""

    def __init__(self, top):
        self.uses = listed()
        self.names = below([top], self.uses)
        where = rooms()
        self.rooms = {name: Room(where, name, below([name], self.uses), self.uses) for name in self.names}
        above = {name: [other for other in self.names if name in self.uses[other]] for name in self.names}
        self.sizes = {name: size_of(name) for name in self.names}
        self.length = {}
        for name in reversed(self.names):
            self.length[name] = self.sizes[name] + max((self.length[other] for other in above[name]), default=0)
        self.built, self.going, self.began = [], {}, time.monotonic()
        self.lanes = processors()
        self.is_terminal = sys.stderr.isatty()
        for room in self.rooms.values():
            room.leave()

    def ready(self):
        """The crates whose libraries are built, first the one with the longest way to the top."""
        waiting = [name for name in self.names if name not in self.built and name not in self.going]
        free = [name for name in waiting if {*self.uses[name]} & {*self.names} <= {*self.built}]
        return sorted(free, key=self.length.get, reverse=True)

    def start(self, name, jobs):
        """Begins to build a crate; what the toolchain says goes to a file."""
        room = self.rooms[name]
        room.enter()
        folder = f"{room.top}/crates/{name}"
        words = ["rt", "lib", "--jobs", str(jobs)]
        if name == PROVED.crate:
            # the program stays where it was built; --version is the shortest run
            words = ["rt", "run", "--jobs", str(jobs), "--", "--version"]
        with open(f"{folder}/out/build.log", "wb") as log:
            how = {"cwd": folder, "stdin": subprocess.DEVNULL, "stdout": log, "stderr": log}
            with held():
                self.going[name] = started(words, **how)

    def start_ready(self):
        """Begins what is ready while there are processors; those that nothing waits for go to the crates that run."""
        names = self.ready()
        while names and len(self.going) < self.lanes:
            spare = (self.lanes - len(self.going)) // len(names)
            name = names.pop(0)
            self.start(name, max(1, min(spare, 4)))
            self.report(f"begins {name}")

    def collect(self):
        """Takes note of the crates that have ended. Returns the name of one that was refused, if there is one."""
        for name, run in list(self.going.items()):
            if run.poll() is not None:
                del self.going[name]
                self.rooms[name].leave()
                if run.returncode:
                    return name
                verdicts.note(name)
                self.built.append(name)
                self.report(f"{name} is built")
        return None

    def report(self, what):
        """A line of its own where standard error is no terminal."""
        if not self.is_terminal:
            say(f"ticurses: {self.progress()}: {what}")

    def progress(self):
        minutes = (time.monotonic() - self.began) / 60
        return f"{len(self.built)} of {len(self.names)} crates built, {minutes:.1f} minutes{self.estimate(minutes)}"

    def estimate(self, minutes):
        """How long the rest will take at the speed so far, by the sizes of the crates."""
        done = sum(self.sizes[name] for name in self.built)
        left = sum(self.sizes.values()) - done
        # what an earlier run has built takes no time, and says nothing
        if not left or minutes < 1 or done < left / 20:
            return ""
        return f", about {minutes * left / done:.0f} more"

    def show(self, ending=""):
        """Writes the line anew where standard error is a terminal."""
        if self.is_terminal:
            width = shutil.get_terminal_size().columns
            text = f"ticurses: {self.progress()}: {', '.join(self.going)}"[: width - 1]
            say(f"\r\033[K{text}", ending)

    def stop(self):
        """Ends the running builds. Their proofs so far are kept."""
        stop(self.going.values())
        for room in self.rooms.values():
            room.leave()

    def run(self):
        """Builds all; returns the status."""
        while len(self.built) < len(self.names):
            self.start_ready()
            self.show()
            time.sleep(0.2)
            failed = self.collect()
            if failed:
                self.show("\n")
                self.stop()
                return self.refused(failed)
        self.show("\n")
        return 0

    def refused(self, name):
        log = f"{TOP}/crates/{name}/out/build.log"
        with open(log, encoding="utf-8", errors="replace") as file:
            lines = file.read().splitlines()
        told = [line for line in lines if not re.match("statements |library |logic /|fn .*: proved$", line)]
        say("\n".join(told[-SHOWN:]))
        say(f"ticurses: the toolchain refused {name}; all that it said is in {log}")
        return 125


def built(made):
    """Builds it from the sources as they are; returns the status."""
    if not shutil.which("rt"):
        say(f"ticurses: the Rattle toolchain, which proves and builds the {made.name}, is missing")
        say("ticurses: its command rt is expected on the PATH")
        return 127
    say(f"ticurses: proving and building the {made.name}, which takes a while from nothing")
    sources = made.sources()
    made.forget()
    build = Build(made.crate)
    try:
        status = build.run()
        if status:
            return status
        if made in LIBRARIES:
            link(made)
        if made.sources() != sources:
            say("ticurses: a source changed during the build, which is to be run again")
            return 125
        verdicts.write(made, sources, build.names, kept.kit())
        made.note(sources)
        return 0
    except Ended:
        build.stop()
        build.show("\n")
        raise


@contextlib.contextmanager
def alone():
    """No other build of this checkout runs meanwhile."""
    with open(f"{TOP}/crates.txt", encoding="utf-8") as lock:
        fcntl.flock(lock, fcntl.LOCK_EX)
        yield


def is_there(made):
    """Whether it is current, in its place or among the kept files, so that nothing has to be built."""
    if made.is_current():
        return True
    with alone():
        return made.is_current() or kept.fetch(made)


def bring(made):
    """Has it current: as it is, as it was kept, or built now. Returns the status."""
    if made.is_current():
        return 0
    with alone():
        # another build may have ended meanwhile
        if made.is_current() or kept.fetch(made):
            return 0
        status = built(made)
        if not status:
            kept.keep(made)
        return status


def bring_libraries():
    """Has the libraries for C current, as `bring` does. Returns the status of the first that isn't."""
    return next((status for status in map(bring, LIBRARIES) if status), 0)


def main():
    heed()
    try:
        return bring_libraries() if sys.argv[1:] == ["library"] else bring(PROVED)
    except Ended as ended:
        say("ticurses: stopped; ./build goes on from here")
        return ended.status
    except Failed as failed:
        say(f"ticurses: {failed}")
        return failed.status
    except OSError as error:
        say(f"ticurses: {why(error)}")
        return 125


if __name__ == "__main__":
    sys.exit(main())
