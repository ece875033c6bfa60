"""The common part of all adapters: an emulator in which the relay runs, and which is driven over the relay's socket."""

import os
import re
import select
import shutil
import socket
import subprocess
import sys
import tempfile
import time
from pathlib import Path

from screens import Screen

HERE = Path(__file__).resolve().parent
# an emulator that fails is started again so often, one time after another
STARTS = 20


class Missing(Exception):
    """The emulator, or what its adapter needs, isn't installed; the text says what."""


class OtherSize(Missing):
    """It can't be run at this size; perhaps at others."""


def need(*programs):
    for program in programs:
        if not shutil.which(program):
            raise Missing(f"{program} isn't installed")


class Emulator:
    """A subclass has a name, the marks that it can be asked for, a command, and `cells`."""

    name, package, reads = "", "", ""
    # answers DECRQM, by which the cursor's visibility is known
    answers_mode = True
    # CAN drops what is open, RIS resets, and DECSCNM off isn't part of RIS everywhere
    reset_bytes = b"\030\033c\033[?5l"

    def __init__(self, rows, cols):
        self.rows, self.cols = rows, cols
        self.room = tempfile.mkdtemp(prefix="conform-")
        self.got, self.process, self.peer = b"", None, None
        try:
            self.start()
        except BaseException:
            self.close()
            raise

    @classmethod
    def version(cls):
        """The version of its Debian package, or what else there is."""
        ran = subprocess.run(["dpkg-query", "-W", "-f", "${Version}", cls.package], capture_output=True, text=True, check=False) if shutil.which("dpkg-query") else None
        return ran.stdout if ran and ran.returncode == 0 and ran.stdout else "unknown version"

    # -- cases

    @classmethod
    def played(cls, rows, cols, cases):
        """Each case with the screen that it leaves, or with what the emulator fails with, where it fails twice: each
        time it is started again."""
        emulator, failed = cls(rows, cols), 0
        try:
            for case in cases:
                emulator, seen = emulator.twice(case.data)
                failed = 0 if isinstance(seen, Screen) else failed + 1
                if failed > STARTS:
                    raise Missing(f"it failed {failed} times, one after another")
                yield case, seen
        finally:
            emulator.close()

    def twice(self, data, again=True):
        """The emulator that is there afterwards, and the screen, or what it fails with."""
        try:
            return self, self.show(data)
        except Exception as error:  # whatever an emulator fails with is its answer
            self.close()
            new = type(self)(self.rows, self.cols)
            return new.twice(data, False) if again else (new, error)

    # -- starting and ending

    def command(self, words):
        raise NotImplementedError

    def environment(self):
        return {}

    def start(self):
        path = f"{self.room}/socket"
        with socket.socket(socket.AF_UNIX) as listener:
            listener.bind(path)
            listener.listen(1)
            words = self.command([sys.executable, str(HERE / "relay.py"), path])
            env = {**os.environ, "LC_ALL": "C.UTF-8", "LIBGL_ALWAYS_SOFTWARE": "1", **self.environment()}
            with open(f"{self.room}/log", "wb") as log:
                self.process = subprocess.Popen(words, env=env, cwd=self.room, stdin=subprocess.DEVNULL, stdout=log, stderr=log, start_new_session=True)
            self.peer = self.accepted(listener)
        os.remove(path)
        size = tuple(map(int, self.until(rb"\A(\d+) (\d+)\n").groups()))
        if size != (self.rows, self.cols):
            raise OtherSize(f"it has {size[0]} rows and {size[1]} columns where {self.rows} and {self.cols} were asked for")

    def accepted(self, listener):
        """The relay's connection. An emulator that doesn't run it can't be asked here, and its last words may say why."""
        end = time.monotonic() + 60
        listener.settimeout(0.5)
        while time.monotonic() < end:
            try:
                return listener.accept()[0]
            except socket.timeout:
                # status 0 may be that of a client whose server goes on
                if self.process.poll():
                    raise Missing(f"it ends with status {self.process.returncode}{self.last_words()}") from None
        raise Missing(f"it runs no command within a minute{self.last_words()}")

    def last_words(self):
        lines = Path(f"{self.room}/log").read_text(encoding="utf-8", errors="replace").split("\n")
        last = next((line.strip() for line in reversed(lines) if line.strip()), "")
        return f": {last}" if last else ""

    def close(self):
        if self.peer:
            self.peer.close()
        if self.process:
            try:
                self.process.wait(5)
            except subprocess.TimeoutExpired:
                self.process.terminate()
                try:
                    self.process.wait(5)
                except subprocess.TimeoutExpired:
                    self.process.kill()
                    self.process.wait()
        shutil.rmtree(self.room, ignore_errors=True)

    # -- bytes to it, and its answers

    def put(self, data):
        left = memoryview(data)
        while left:
            readable, writable, _ = select.select([self.peer], [self.peer], [], 20)
            if not readable and not writable:
                raise TimeoutError(f"{self.name} takes no bytes")
            if readable:
                self.more()
            if writable:
                left = left[self.peer.send(left[:4096]) :]

    def more(self):
        data = self.peer.recv(65536)
        if not data:
            raise EOFError(f"{self.name} has ended")
        self.got += data

    def until(self, pattern, seconds=20):
        """Waits until the emulator has sent this; what came before its end is forgotten."""
        end = time.monotonic() + seconds
        while True:
            match = re.search(pattern, self.got)
            if match:
                self.got = self.got[match.end() :]
                return match
            left = end - time.monotonic()
            if left <= 0 or not select.select([self.peer], [], [], left)[0]:
                raise TimeoutError(f"{self.name} doesn't answer with {pattern!r}")
            self.more()

    # -- what it shows

    def cursor(self):
        """Where the cursor is, once all bytes are read."""
        self.put(b"\033[6n")
        match = self.until(rb"\033\[(\d+);(\d+)R")
        return int(match.group(1)) - 1, min(int(match.group(2)) - 1, self.cols - 1)

    def visible(self):
        if not self.answers_mode:
            return None
        self.put(b"\033[?25$p")
        return self.until(rb"\033\[\?25;(\d)\$y").group(1) in (b"1", b"3")

    def reset(self):
        self.put(self.reset_bytes)
        self.cursor()

    def cells(self):
        raise NotImplementedError

    def screen(self):
        # what is open would take the report for a part of it
        row, col = self.cursor()
        visible = self.visible()
        return Screen(self.cells(), (row, col, visible))

    def show(self, data):
        """The screen that the bytes leave of a terminal in its reset state."""
        self.reset()
        self.put(data)
        return self.screen()

    def file_of(self, path, seconds=15):
        """The content of a file that the emulator writes, which appears at once as a whole."""
        end = time.monotonic() + seconds
        while not os.path.exists(path):
            if time.monotonic() > end:
                raise TimeoutError(f"{self.name} writes no {path}")
            time.sleep(0.004)
        data = Path(path).read_bytes()
        os.remove(path)
        return data
