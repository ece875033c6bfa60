"""Emulators that are libraries: libvterm and libtsm in small C programs, which are compiled where their headers are, and
pyte in this process."""

import atexit
import functools
import shutil
import subprocess
import sys
import tempfile

from emulator import HERE, Emulator, Missing, need
from screens import Screen, alike, marks_in


@functools.cache
def built(source, library):
    """The program of a C source, compiled once for this run."""
    need("cc")
    room = tempfile.mkdtemp(prefix="conform-")
    atexit.register(shutil.rmtree, room, ignore_errors=True)
    words = ["cc", "-O2", "-o", f"{room}/host", str(HERE / source), f"-l{library}"]
    ran = subprocess.run(words, capture_output=True, text=True, check=False)
    if ran.returncode:
        raise Missing(f"{source} can't be compiled: is lib{library}-dev installed?")
    return f"{room}/host"


class Hosted(Emulator):
    """A program that is driven by its standard input: "put N" and N bytes, or "dump"."""

    source, library, answers_mode = "", "", False

    def start(self):
        words = [built(self.source, self.library), str(self.rows), str(self.cols)]
        self.process = subprocess.Popen(words, stdin=subprocess.PIPE, stdout=subprocess.PIPE)

    def end(self):
        for pipe in (self.process.stdin, self.process.stdout):
            try:
                pipe.close()
            except BrokenPipeError:
                pass
        self.process.wait()

    def put(self, data):
        try:
            self.process.stdin.write(b"put %d\n" % len(data) + data)
            self.process.stdin.flush()
        except BrokenPipeError:
            raise EOFError(f"{self.name} has ended with status {self.process.wait()}") from None

    def reset(self):
        # a new one: libvterm's RIS keeps the alternate screen
        self.end()
        self.start()

    def screen(self):
        self.put(b"")
        self.process.stdin.write(b"dump\n")
        self.process.stdin.flush()
        line = self.process.stdout.readline()
        if not line:
            raise EOFError(f"{self.name} has ended with status {self.process.wait()}")
        row, col, visible = map(int, line.split())
        cells = [[self.cell_of(word) for word in self.process.stdout.readline().decode("ascii").split()] for _ in range(self.rows)]
        return Screen(cells, (row, min(col, self.cols - 1), None if visible < 0 else bool(visible)))

    def cell_of(self, word):
        code, look = word.split(",")
        return alike(chr(int(code)) if int(code) else " "), marks_in(look)

    def close(self):
        if self.process:
            self.end()
            self.process = None
        super().close()


class Libvterm(Hosted):
    name, package, source, library, reads = "libvterm", "libvterm0", "libvterm_host.c", "vterm", "BUKRfb"


class Libtsm(Hosted):
    name, package, source, library, reads = "libtsm", "libtsm4", "libtsm_host.c", "tsm", "BUKRfb"


class Pyte(Emulator):
    name, package, reads = "pyte", "python3-pyte", "BURfb"
    COLORS = ["black", "red", "green", "brown", "blue", "magenta", "cyan", "white"]

    def start(self):
        try:
            import pyte
        except ImportError:
            # Debian's, for a Python that isn't Debian's
            sys.path.append("/usr/lib/python3/dist-packages")
            try:
                import pyte
            except ImportError:
                raise Missing("python3-pyte isn't installed") from None
        self.pyte = pyte
        self.reset()

    def reset(self):
        self.there = self.pyte.Screen(self.cols, self.rows)
        self.stream = self.pyte.ByteStream(self.there)
        # single bytes, in which line drawing can be selected
        self.stream.select_other_charset("@")

    def put(self, data):
        self.stream.feed(data)

    def screen(self):
        cells = [[self.cell_of(self.there.buffer[row][col]) for col in range(self.cols)] for row in range(self.rows)]
        at = self.there.cursor
        return Screen(cells, (at.y, min(at.x, self.cols - 1), not at.hidden))

    def cell_of(self, cell):
        marks = {mark for mark, on in zip("BUR", (cell.bold, cell.underscore, cell.reverse)) if on}
        for place, name in (("f", cell.fg), ("b", cell.bg)):
            if name != "default":
                marks.add(f"{place}{self.COLORS.index(name) if name in self.COLORS else 999}")
        return alike(cell.data), frozenset(marks)
