"""Programs of one's own, by --command: terminals that run a command, of which the cursor alone is known, and programs
that read cases and write screens."""

import json
import os
import select
import signal
import subprocess
import tempfile
import threading
import time

from emulator import STARTS, Emulator, Missing
from screens import Screen, alike, drawn, marks_in
from windows import Windowed

# seconds that an answer may take
PATIENCE = 60
MARKS = "BDUKRIfb"


class Given(Windowed):
    """Any program that runs a command in a terminal and answers cursor reports: the cursor alone is compared."""

    name, reads, answers_mode, line = "command", "", False, ""

    @classmethod
    def version(cls):
        return cls.line

    def command(self, words):
        inner = " ".join("'" + word.replace("'", "'\\''") + "'" for word in words)
        line = self.line.replace("{rows}", str(self.rows)).replace("{cols}", str(self.cols)).replace("{}", inner)
        return ["/bin/sh", "-c", line]

    def environment(self):
        return super().environment() if Windowed.display else {}

    def cells(self):
        return []


class Answering:
    """A program that reads cases on standard input, a line for each as vectors/ has them, and writes for each a line as
    `ticurses feed --json` does. It may begin when it has read all."""

    name, reads, line = "command", MARKS, ""

    @classmethod
    def version(cls):
        return cls.line

    @classmethod
    def played(cls, rows, cols, cases):
        """Each case with its screen, or with how the program failed at it; then another process has the cases after it."""
        left, failed, answered = list(cases), 0, 0
        while left:
            told, error = cls.by_one(rows, cols, left)
            yield from zip(left, told)
            answered, failed = answered + len(told), 0 if told else failed + 1
            if failed > (STARTS if answered else 2):
                raise Missing(f"it writes no screen: {error}")
            if error:
                yield left[len(told)], error
            left = left[len(told) + 1 :]

    @classmethod
    def by_one(cls, rows, cols, cases):
        """The screens that one process writes, and how it failed where they aren't all."""
        answers, told = Answers(cls.line.replace("{rows}", str(rows)).replace("{cols}", str(cols)), cases), []
        try:
            for case in cases:
                told.append(screen_of(answers.next(case), rows, cols))
        except (EOFError, TimeoutError) as error:
            return told, error
        finally:
            answers.close()
        return told, None


class Answers:
    """A process of such a program, which is given these cases."""

    def __init__(self, line, cases):
        self.errors, self.got = tempfile.TemporaryFile(), b""
        pipe = subprocess.PIPE
        self.process = subprocess.Popen(["/bin/sh", "-c", line], stdin=pipe, stdout=pipe, stderr=self.errors, start_new_session=True)
        text = "".join(f"{name_of(case)} {case.data.hex() or '-'}\n" for case in cases)
        self.writer = threading.Thread(target=self.write, args=(text.encode("ascii"),), daemon=True)
        self.writer.start()

    def write(self, data):
        try:
            with self.process.stdin as pipe:
                pipe.write(data)
        except BrokenPipeError:
            pass

    def next(self, case):
        """The program's answer to the case, which is the next one."""
        end = time.monotonic() + PATIENCE
        while b"\n" not in self.got:
            if not select.select([self.process.stdout], [], [], max(end - time.monotonic(), 0))[0]:
                raise TimeoutError(f"it doesn't answer for {PATIENCE} seconds")
            data = os.read(self.process.stdout.fileno(), 65536)
            if not data:
                raise EOFError(f"it ends with status {self.process.wait()}{self.last_words()}")
            self.got += data
        line, _, self.got = self.got.partition(b"\n")
        return answer_of(line, name_of(case))

    def last_words(self):
        self.errors.seek(0)
        lines = [line.strip() for line in self.errors.read().decode("utf-8", "replace").split("\n") if line.strip()]
        return f": {lines[-1]}" if lines else ""

    def close(self):
        try:
            # its whole group, since the shell may have started others
            os.killpg(self.process.pid, signal.SIGKILL)
        except ProcessLookupError:
            pass
        self.process.wait()
        self.process.stdout.close()
        self.writer.join(5)
        self.errors.close()


def name_of(case):
    return f"{case.file}/{case.name}".replace(" ", "_")


def answer_of(line, name):
    """The object of a line, which is about the case of this name."""
    try:
        told = json.loads(line)
    except ValueError:
        raise Missing(f"it writes a line that isn't JSON: {line[:60]!r}") from None
    if not isinstance(told, dict):
        raise Missing(f"it writes a line that isn't an object: {line[:60]!r}")
    if told.get("name", name) != name:
        raise Missing(f"it answers {told['name']!r} where {name!r} is asked")
    return told


def screen_of(told, rows, cols):
    """The screen of an answer. The text and what belongs to it, the cursor, and whether it is visible may be missing."""
    try:
        cells = cells_of(told, rows, cols) if "rows" in told else []
        row, col = told.get("cursor", (None, None))
        return Screen(cells, (row, col, told.get("visible")), told.get("reads"))
    except (TypeError, ValueError, AttributeError, IndexError) as error:
        raise Missing(f"it writes an object that is no screen: {error}") from None


def cells_of(told, rows, cols):
    lines = [line.ljust(cols) for line in told["rows"]]
    if len(lines) != rows or any(len(line) != cols for line in lines):
        raise ValueError(f"its rows aren't {rows} of at most {cols} characters")
    # without looks nothing is known of them
    known = "looks" in told
    looks = {(row, col): look for row, first, last, look in told.get("looks", []) for col in range(first, last + 1)}
    return [[cell_of(char, looks.get((row, col), ""), known) for col, char in enumerate(line)] for row, line in enumerate(lines)]


def cell_of(char, look, known):
    """A letter with G is the sign that it stands for; an emulator may as well write the sign."""
    return alike(drawn(char, "G" in look)), marks_in(look) if known else None
