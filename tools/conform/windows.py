"""An X server for the emulators that have a window of it."""

import os
import subprocess

from emulator import Emulator, need


class Display:
    """An X server of its own, for the emulators with a window."""

    def __init__(self):
        need("Xvfb")
        read, write = os.pipe()
        words = ["Xvfb", "-displayfd", str(write), "-screen", "0", "1600x1000x24", "-nolisten", "tcp"]
        self.process = subprocess.Popen(words, pass_fds=[write], stdout=subprocess.DEVNULL, stderr=subprocess.DEVNULL, start_new_session=True)
        os.close(write)
        with os.fdopen(read) as file:
            self.name = ":" + file.readline().strip()

    def close(self):
        self.process.terminate()
        self.process.wait()


class Windowed(Emulator):
    """An emulator with a window of X; `display` is set before it starts."""

    display = None

    def environment(self):
        return {"DISPLAY": Windowed.display.name}
