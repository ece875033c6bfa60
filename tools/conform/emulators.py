"""The adapters: each emulator, and how its screen is read back."""

import json
import os
import re
import shutil
import socket
import subprocess
import sys
import time
from pathlib import Path

from alacritty import Alacritty
from emulator import HERE, Emulator, Missing, need
from libraries import Libtsm, Libvterm, Pyte
from screens import Screen, alike, read_sgr
from vte import Vte
from windows import Windowed


# a user without rights
NOBODY = 65534


def text_cells(text, rows, cols):
    """Cells of which the characters alone are known."""
    lines = text.split("\n")[:rows]
    lines += [""] * (rows - len(lines))
    return [[(alike(char), None) for char in line.ljust(cols)[:cols]] for line in lines]


class Xterm(Windowed):
    """xterm's media copy, with attributes and colors."""

    name, package, reads = "xterm", "xterm", "BDUKRfb"

    def command(self, words):
        need("xterm")
        out = f"{self.room}/printed"
        settings = {
            "printAttributes": 2, "printerCommand": f"cat > {out}.new; mv {out}.new {out}", "scrollBar": "false", "cursorBlink": "false",
            "showBlinkAsBold": "true", "saveLines": 0, "printerAutoClose": "true", "utf8": 2, "internalBorder": 0, "boldColors": "false",
        }  # fmt: skip
        flags = [word for key, value in settings.items() for word in ("-xrm", f"XTerm*{key}: {value}")]
        return ["xterm", "-fn", "6x13", "-geometry", f"{self.cols}x{self.rows}+0+0", *flags, "-e", *words]

    def cells(self):
        # the whole screen, and not what is inside of the margins
        self.put(b"\033[?19h\033[i")
        # a cell in default rendition has no sequence, so each sequence is for one cell
        return read_sgr(self.file_of(f"{self.room}/printed").decode("utf-8", "replace"), self.rows, self.cols, once=True)


class Urxvt(Windowed):
    """rxvt-unicode's perl extension, the file `dump` beside this one."""

    name, package, reads = "urxvt", "rxvt-unicode", "BUKRfb"
    # RIS leaves a hidden cursor hidden
    reset_bytes = b"\030\033c\033[?5l\033[?25h"

    def command(self, words):
        need("urxvt")
        place = ["-fn", "6x13", "-geometry", f"{self.cols}x{self.rows}+0+0", "+sb", "-sl", "0", "-b", "0"]
        return ["urxvt", *place, "--perl-lib", str(HERE), "-pe", "dump", "-e", *words]

    def cells(self):
        out = f"{self.room}/dump"
        self.put(f"\033]777;dump;{out}\007".encode())
        return [self.row_of(*row) for row in json.loads(self.file_of(out))["rows"]]

    def row_of(self, text, looks):
        row = []
        for char, (bold, _italic, blink, negative, underline, front, back) in zip(text.ljust(self.cols), looks):
            marks = {mark for mark, on in zip("BKRU", (bold, blink, negative, underline)) if on}
            marks |= {f"{place}{number}" for place, number in (("f", front), ("b", back)) if number >= 0}
            row.append((alike(char), frozenset(marks)))
        return row


class St(Windowed):
    """st's media copy into the file of its option -o: the text alone."""

    name, package, reads, answers_mode = "st", "stterm", "", False

    def command(self, words):
        need("st")
        self.out = f"{self.room}/io"
        font = "DejaVu Sans Mono:pixelsize=10:antialias=false"
        return ["st", "-f", font, "-g", f"{self.cols}x{self.rows}+0+0", "-o", self.out, "-e", *words]

    def cells(self):
        # everything else that is written to the file comes with MC 5, which nobody sends
        before = os.path.getsize(self.out) if os.path.exists(self.out) else 0
        self.put(b"\033[i")
        self.cursor()
        return text_cells(Path(self.out).read_bytes()[before:].decode("utf-8", "replace"), self.rows, self.cols)


class Kitty(Windowed):
    """kitty's remote control: get-text with SGR."""

    name, package, reads = "kitty", "kitty", "BDURfb"

    def command(self, words):
        need("kitty")
        options = {
            "remember_window_size": "no", "initial_window_width": f"{self.cols}c", "initial_window_height": f"{self.rows}c",
            "allow_remote_control": "yes", "window_padding_width": 0, "font_size": 8, "cursor_blink_interval": 0,
            "confirm_os_window_close": 0, "scrollback_lines": 0, "update_check_interval": 0, "shell_integration": "disabled",
        }  # fmt: skip
        flags = [word for key, value in options.items() for word in ("-o", f"{key}={value}")]
        return ["kitty", "--config", "NONE", "--listen-on", f"unix:{self.room}/rc", *flags, *words]

    def asked(self):
        """The window's answer to get-text: the text that is shown, and after it how the cursor is set. A process of
        `kitty @` for each case would take most of the time."""
        payload = {"extent": "screen", "ansi": True, "cursor": True, "wrap_markers": True}
        request = {"cmd": "get-text", "version": [0, 14, 2], "no_response": False, "payload": payload}
        answer = b""
        with socket.socket(socket.AF_UNIX) as peer:
            peer.settimeout(60)
            peer.connect(f"{self.room}/rc")
            peer.sendall(f"\033P@kitty-cmd{json.dumps(request)}\033\\".encode())
            while not answer.endswith(b"\033\\"):
                piece = peer.recv(65536)
                if not piece:
                    raise EOFError("kitty ends its answer")
                answer += piece
        told = json.loads(answer.removeprefix(b"\033P@kitty-cmd").removesuffix(b"\033\\"))
        if not told.get("ok"):
            raise OSError(told.get("error"))
        return told["data"]

    def screen(self):
        # its report of a cursor after the last column is the line below; the answer has it as it is shown
        self.cursor()
        told = self.asked()
        found = re.fullmatch(r"(.*)\033\[\?25([hl])\033\[(\d+);(\d+)H[^H]*", told, re.S)
        if not found:
            raise ValueError(f"kitty's answer has no cursor at its end: {told[-40:]!r}")
        text, visible, row, col = found.groups()
        return Screen(self.cells_of(text), (int(row) - 1, min(int(col), self.cols) - 1, visible == "h"))

    def cells_of(self, text):
        # a line that was wrapped ends with CR; where bold or faint changes, just those of both that are on are written
        fields = [part.split("m", 1) for part in text.split("\033[")]
        parts = [fields[0][0]] + [f"\033[{'22;' if {'1', '2'} & set(code.split(';')) else ''}{code}m{rest}" for code, rest in fields[1:]]
        return read_sgr("".join(parts).replace("\r\n", "\n").replace("\r", "\n"), self.rows, self.cols)


class Tmux(Emulator):
    """tmux's capture-pane; it draws on no terminal."""

    name, package, reads, answers_mode = "tmux", "tmux", "BDUKRIfb", False

    def command(self, words):
        need("tmux")
        self.server = ["tmux", "-S", f"{self.room}/server", "-f", "/dev/null"]
        # the command line of the pane is one word, read by a shell
        line = " ".join("'" + word.replace("'", "'\\''") + "'" for word in words)
        return [*self.server, "set", "-g", "status", "off", ";", "set", "-g", "history-limit", "0", ";", "new-session", "-d", "-x", str(self.cols), "-y", str(self.rows), line]

    def told(self, *words):
        return subprocess.run([*self.server, *words], capture_output=True, check=True).stdout.decode("utf-8", "replace")

    def cells(self):
        return read_sgr(self.told("capture-pane", "-p", "-e", "-N"), self.rows, self.cols)

    def visible(self):
        return self.told("display-message", "-p", "#{cursor_flag}").strip() == "1"

    def close(self):
        if hasattr(self, "server"):
            subprocess.run([*self.server, "kill-server"], capture_output=True, check=False)
        super().close()


class GnuScreen(Emulator):
    """GNU screen's hardcopy: the text alone. Its drawing goes to a pseudo-terminal that discards it."""

    name, package, reads, answers_mode = "screen", "screen", "", False

    def command(self, words):
        need("screen")
        Path(f"{self.room}/rc").write_text("startup_message off\ndefscrollback 0\nvbell off\ndefflow off\naltscreen on\nmaxwin 1\n", encoding="ascii")
        self.session = f"conform-{os.getpid()}-{time.monotonic_ns()}"
        host = [sys.executable, str(HERE / "sink.py"), str(self.rows), str(self.cols)]
        return [*host, "screen", "-c", f"{self.room}/rc", "-S", self.session, "-s", "/bin/sh", *words]

    def environment(self):
        return {"SCREENDIR": self.room, "TERM": "xterm-256color", "LC_ALL": "C"}

    def cells(self):
        out = f"{self.room}/hard"
        subprocess.run(["screen", "-S", self.session, "-X", "hardcopy", out], env={**os.environ, "SCREENDIR": self.room}, check=True)
        end, text = time.monotonic() + 10, ""
        while text.count("\n") < self.rows and time.monotonic() < end:
            time.sleep(0.005)
            if os.path.exists(out):
                text = Path(out).read_text(encoding="utf-8", errors="replace")
        os.remove(out)
        # the letters of the graphic set are written as they are
        return text_cells(text, self.rows, self.cols)

    draws_letters = True


class Foot(Emulator):
    """foot below a sway of its own without a screen: its text, by the key of pipe-visible."""

    name, package, reads = "foot", "foot", ""

    def command(self, words):
        need("foot", "sway", "wtype")
        os.chmod(self.room, 0o700)
        before = []
        if os.getuid() == 0:
            # sway refuses to run as root
            need("setpriv")
            before = ["setpriv", f"--reuid={NOBODY}", f"--regid={NOBODY}", "--clear-groups"]
            words = self.for_nobody(words, before)
        copy = f"cat > {self.room}/text.new; mv {self.room}/text.new {self.room}/text"
        Path(f"{self.room}/foot.ini").write_text(
            f"font=DejaVu Sans Mono:size=6\npad=0x0\ninitial-window-size-chars={self.cols}x{self.rows}\n[scrollback]\nlines=0\n"
            f'[csd]\npreferred=none\n[key-bindings]\npipe-visible=[sh -c "{copy}"] Control+Shift+e\n', encoding="ascii")  # fmt: skip
        line = " ".join(f"'{word}'" for word in words)
        Path(f"{self.room}/sway").write_text(
            'output HEADLESS-1 resolution 1000x720\ndefault_border none\nfor_window [app_id=".*"] floating enable, move position 0 0\n'
            f"xwayland disable\nexec foot -c {self.room}/foot.ini {line}\n", encoding="ascii")  # fmt: skip
        return [*before, "sway", "-c", f"{self.room}/sway"]

    def for_nobody(self, words, before):
        """The command that runs the relay, for a user who may reach neither this Python nor this folder."""
        mine, _, path = words
        relay = shutil.copy(HERE / "relay.py", self.room)
        os.chmod(relay, 0o644)
        os.chmod(path, 0o777)
        os.chown(self.room, NOBODY, NOBODY)
        for python in (mine, "/usr/bin/python3"):
            # setpriv itself still reaches what root does
            tried = [*before, "sh", "-c", 'exec "$@"', "sh", python, "-c", "import sys; open(sys.argv[1])", relay]
            if os.path.exists(python) and subprocess.run(tried, capture_output=True, check=False).returncode == 0:
                return [python, relay, path]
        raise Missing("sway refuses to run as root, and another user can run no python3 here")

    def environment(self):
        return {
            "XDG_RUNTIME_DIR": self.room, "WLR_BACKENDS": "headless", "WLR_LIBINPUT_NO_DEVICES": "1", "WLR_RENDERER": "pixman",
            "WAYLAND_DISPLAY": "wayland-1", "DISPLAY": "",
        }  # fmt: skip

    def cells(self):
        # a key may come too early for a new window
        for seconds in (1, 3, 10):
            subprocess.run(["wtype", "-M", "ctrl", "-M", "shift", "-k", "e"], env={**os.environ, **self.environment()}, check=True)
            try:
                text = self.file_of(f"{self.room}/text", seconds).decode("utf-8", "replace")
                break
            except TimeoutError:
                text = None
        if text is None:
            raise TimeoutError("foot writes no text")
        # a line that was wrapped doesn't end
        lines = [part[at : at + self.cols] for part in text.split("\n") for at in range(0, max(len(part), 1), self.cols)]
        return text_cells("\n".join(lines), self.rows, self.cols)

    def close(self):
        # sway doesn't end with its last window
        if self.process:
            self.process.terminate()
        super().close()


ALL = {kind.name: kind for kind in (Xterm, Tmux, GnuScreen, Vte, Libvterm, Libtsm, Pyte, Kitty, Alacritty, Foot, Urxvt, St)}
