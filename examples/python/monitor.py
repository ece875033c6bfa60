#!/usr/bin/env python3
"""monitor.py FILE [LOG]: shows a part of a file, which keys move, and below it the last lines of a log as they come. It
makes the same calls as examples/c/monitor.c."""

import collections
import errno
import os
import select
import signal
import stat
import sys
import termios

import ticurses

# the windows: PAGE is a pad, the others are parts of the screen
FRAME, PAGE, HEAD, LOG, STATUS, HELP = range(1, 7)
# the color pairs
LIGHT, BAD, WARNING = range(1, 4)
# the most lines or columns of a pad, and the number of lines of the log that are kept
PAD_MAX, KEPT = 1000, 200
# the kind of the last byte of a key
PLAIN, ESCAPE, INTRODUCER = range(3)

HELP_LINES = [
    "up, down, k, j     a line",
    "b, space           a page",
    "left, right, h, l  eight columns",
    "g, G               the ends",
    "^L                 draw anew",
    "q                  quit",
]
# the letters for keys that send a sequence
LETTERS = {"A": "k", "B": "j", "C": "l", "D": "h", "H": "g", "F": "G"}
NUMBERS = {1: "g", 4: "G", 5: "b", 6: " "}
# the signals that don't end it
GOING_ON = (signal.SIGWINCH, signal.SIGCONT, signal.SIGTSTP)


def drawable(line):
    """A line as it is drawn: tabs are spaces, and a character that no cell can hold is a question mark."""
    line = line.expandtabs(8)
    return bytes(it if 32 <= it <= 126 else 63 for it in line)[: PAD_MAX - 1].decode("ascii")


class Log:
    """The last lines of a file that grows."""

    def __init__(self, path):
        # a FIFO that nobody writes to is a log without lines
        self.fd = os.open(path, os.O_RDONLY | os.O_NONBLOCK) if path else None
        self.kept, self.partial = collections.deque(maxlen=KEPT), b""

    def added(self):
        """The lines that were added since the last call. A file that became shorter is read from its start."""
        if self.fd is None:
            return
        now = os.fstat(self.fd)
        if stat.S_ISREG(now.st_mode) and now.st_size < os.lseek(self.fd, 0, os.SEEK_CUR):
            os.lseek(self.fd, 0, os.SEEK_SET)
            self.partial = b""
        while piece := self.read():
            *whole, self.partial = (self.partial + piece).split(b"\n")
            for line in whole:
                self.kept.append(drawable(line[:256])[:255])
                yield self.kept[-1]


    def read(self):
        """The bytes that are there now."""
        try:
            return os.read(self.fd, 4096)
        except BlockingIOError:
            return b""


class Monitor:
    def __init__(self, path, log):
        with open(path, "rb") as file:
            held = file.read()
        self.lines = [drawable(it) for it in (held[:-1] if held.endswith(b"\n") else held).split(b"\n")] if held else []
        self.name, self.log = drawable(os.path.basename(os.fsencode(path))), Log(log)
        self.fd = os.open("/dev/tty", os.O_WRONLY | os.O_NONBLOCK | os.O_NOCTTY)
        self.before = termios.tcgetattr(0)
        self.entry, self.session, self.piece = ticurses.find_entry(), None, b""
        # it must begin with an ESC, which ends whatever was cut off, and have no delay
        rmcup = ticurses.string(self.entry, "rmcup") or b""
        self.rmcup = rmcup if rmcup.startswith(b"\x1b") and b"$" not in rmcup else b""
        self.top = self.left = self.base = self.failures = 0
        self.is_helping = self.is_ending = self.is_changed = self.is_up = False
        self.key, self.number = PLAIN, 0
        self.signals = collections.Counter()
        self.open_session()

    # -- the screen --

    def open_session(self):
        """Opens the session for the size that the terminal has now, also after a change, and draws all windows. The one
        before ends its screen first."""
        self.leave()
        self.rows, self.cols = ticurses.terminal_size(self.fd)
        if self.session is None:
            self.session = ticurses.Session(self.entry, self.rows, self.cols)
        else:
            self.session.open(self.entry, self.rows, self.cols)
        # the terminal may show anything, and may have got only a part of an earlier session's output
        self.lose()
        self.is_small = self.rows < 10 or self.cols < 40
        self.log_rows = (self.rows - 4) // 3
        self.page_rows, self.page_cols = self.rows - 4 - self.log_rows, self.cols - 2
        self.pad_rows = max(self.page_rows, min(len(self.lines), PAD_MAX))
        self.pad_cols = max(self.page_cols, min(max(map(len, self.lines), default=0) + 1, PAD_MAX))
        self.base = 0
        self.session.call(f"init_pair {LIGHT} 7 4", f"init_pair {BAD} 7 1", f"init_pair {WARNING} 0 3")
        try:
            self.session.call("curs_set 0")
        except ticurses.Error as error:
            # without strings for it the cursor stays visible
            if error.code != ticurses.Code.NO_CAP:
                raise
        if self.is_small:
            self.session.call("addstr 0 small")
        else:
            self.make_windows()

    def make_windows(self):
        """Makes the windows of a screen that is large enough."""
        call, cols, frame_rows = self.session.call, self.cols, self.rows - 2 - self.log_rows
        call(f"newwin {FRAME} {frame_rows} {cols} 0 0", f"box {FRAME} - -", f"move {FRAME} 0 2", f"attron {FRAME} B")
        call(f"addstr {FRAME}  {self.name[: cols - 6]} ")
        call(f"newpad {PAGE} {self.pad_rows} {self.pad_cols}")
        call(f"newwin {HEAD} 1 {cols} {frame_rows} 0", f"hline {HEAD} - {cols}")
        call(f"move {HEAD} 0 2", f"addstr {HEAD}  log ")
        call(f"newwin {LOG} {self.log_rows} {cols} {frame_rows + 1} 0", f"scrollok {LOG} 1")
        call(f"newwin {STATUS} 1 {cols} {self.rows - 1} 0", f"bkgd {STATUS} 20:{LIGHT}")
        call(f"newwin {HELP} 8 36 1 {(cols - 36) // 2}", f"bkgd {HELP} 20:{LIGHT}", f"box {HELP} - -")
        for row, line in enumerate(HELP_LINES):
            call(f"move {HELP} {row + 1} 2", f"addstr {HELP} {line}")
        self.fill_page()
        for line in self.log.kept:
            self.show_logged(line)

    def fill_page(self):
        """Writes the lines of the text that are in the pad."""
        self.session.call(f"erase {PAGE}")
        for row, line in enumerate(self.lines[self.base : self.base + self.pad_rows]):
            self.session.call(f"move {PAGE} {row} 0")
            self.session.addstr(PAGE, line)

    def show_logged(self, line):
        """Writes a line of the log below those that are there."""
        if self.is_small:
            return
        pair = BAD if "error" in line else WARNING if "warning" in line else 0
        self.session.call(f"scroll {LOG} 1", f"move {LOG} {self.log_rows - 1} 0", f"color_set {LOG} {pair}")
        self.session.addstr(LOG, line[: self.cols - 1])
        self.session.call(f"color_set {LOG} 0")
        self.is_changed = True

    def place_page(self):
        """Keeps the part that is shown within the text, and the pad around it."""
        count = len(self.lines)
        self.top = max(0, min(self.top, count - self.page_rows))
        self.left = max(0, min(self.left, self.pad_cols - self.page_cols))
        if self.top < self.base or self.top + self.page_rows > self.base + self.pad_rows:
            self.base = max(0, min(self.top - (self.pad_rows - self.page_rows) // 2, count - self.pad_rows))
            self.fill_page()

    def draw_status(self):
        count = len(self.lines)
        last = min(count, self.top + self.page_rows)
        seen = f" lines {min(self.top + 1, last)}-{last} of {count}, column {self.left}"
        line = f"{seen}, {self.rows} by {self.cols}; ? for help"
        self.session.call(f"erase {STATUS}")
        self.session.addstr(STATUS, line[: self.cols - 1])

    def draw(self):
        """Has the session make the terminal show all windows."""
        self.is_changed, self.is_up = False, True
        if self.is_small:
            self.session.call("refresh 0")
            return
        self.place_page()
        self.draw_status()
        part = f"{self.top - self.base} {self.left} 1 1 {self.page_rows} {self.page_cols}"
        self.session.call(f"noutrefresh {FRAME}", f"pnoutrefresh {PAGE} {part}")
        self.session.call(f"noutrefresh {HEAD}", f"noutrefresh {LOG}", f"noutrefresh {STATUS}")
        if self.is_helping:
            self.session.call(f"noutrefresh {HELP}")
        self.session.call("doupdate")

    # -- the terminal --

    def is_pending(self):
        """Whether bytes are still to be written."""
        return bool(self.piece) or self.session.waiting > 0

    def drain(self):
        """Writes as much as the descriptor takes now. After an error the next refresh begins anew."""
        while self.is_pending():
            self.piece = self.piece or self.session.output(4096)
            try:
                self.piece = self.piece[os.write(self.fd, self.piece) :]
                self.failures = 0
            except BlockingIOError:
                return
            except OSError:
                self.lose()
                self.failures += 1
                self.is_ending = self.is_ending or self.failures >= 5
                return

    def lose(self):
        """The terminal may show anything, and the next refresh draws all of it. It begins with smcup, so a terminal that
        has got one gets rmcup before: some keep the cursor of the last smcup alone, which would be this program's."""
        self.session.lost()
        self.piece, self.is_changed = self.rmcup if self.is_up else b"", True

    def leave(self):
        """Ends the screen that the session has on the terminal; waits at most two seconds for one that takes no
        bytes."""
        if not self.is_up:
            return
        self.session.call("endwin")
        for _ in range(20):
            if not self.is_pending() or self.failures >= 5:
                break
            self.waits([(self.fd, select.POLLOUT)])
            self.drain()
        self.is_up = False

    def restore(self):
        """Leaves the terminal as other programs need it."""
        try:
            self.leave()
        finally:
            self.set_cooked()

    def set_cooked(self):
        """Restores the terminal, without a wait for one that takes no bytes."""
        try:
            if self.is_pending():
                termios.tcsetattr(0, termios.TCSANOW, self.before)
            else:
                ticurses.set_cooked(self.before)
        except termios.error as error:
            # the terminal is gone
            if error.args[0] != errno.EIO:
                raise

    def stop(self):
        """Stops the program after ^Z. When it continues, the terminal may show anything."""
        self.restore()
        os.kill(os.getpid(), signal.SIGSTOP)
        self.before = ticurses.set_raw()
        self.lose()

    def take_signals(self):
        """Has each signal counted and end the wait for keys."""
        self.woken, waking = os.pipe()
        os.set_blocking(self.woken, False)
        os.set_blocking(waking, False)
        signal.set_wakeup_fd(waking, warn_on_full_buffer=False)
        for name in ("SIGWINCH", "SIGCONT", "SIGTSTP", "SIGINT", "SIGTERM", "SIGHUP", "SIGQUIT"):
            signal.signal(getattr(signal, name), lambda number, _: self.signals.update([number]))

    # -- the keys --

    def act(self, letter):
        self.is_changed = True
        if letter in "kj":
            self.top += 1 if letter == "j" else -1
        elif letter in "b ":
            self.top += self.page_rows if letter == " " else -self.page_rows
        elif letter in "hl":
            self.left += 8 if letter == "l" else -8
        elif letter in "gG":
            self.top = len(self.lines) if letter == "G" else 0
        elif letter == "?":
            self.is_helping = not self.is_helping
        elif letter == "\f":
            self.leave()
            self.lose()
        elif letter == "q":
            self.is_ending = True
        else:
            self.is_changed = False

    def take_byte(self, byte):
        """Takes a byte of a key; sequences may come in parts."""
        if self.key == ESCAPE:
            self.key, self.number = INTRODUCER if byte in "[O" else PLAIN, 0
        elif self.key == INTRODUCER and byte in "0123456789":
            self.number = self.number * 10 + int(byte) if self.number < 100 else 1000
        elif self.key == INTRODUCER:
            self.key = PLAIN
            self.act((NUMBERS.get(self.number) if byte == "~" else LETTERS.get(byte)) or "\0")
        elif byte == "\x1b":
            self.key = ESCAPE
        else:
            self.act(byte)

    def take_keys(self):
        try:
            keys = os.read(0, 64).decode("latin-1")
        except OSError:
            # the terminal is gone
            keys = ""
        self.is_ending = self.is_ending or not keys
        for byte in keys:
            self.take_byte(byte)

    def waits(self, wanted):
        """Waits a tenth of a second for one of these descriptors, and returns those that are ready."""
        waiting = select.poll()
        for fd, events in wanted:
            waiting.register(fd, events)
        return [fd for fd, _ in waiting.poll(100)]

    def wait(self):
        """Waits a tenth of a second for a key, a signal, or room for what is pending."""
        wanted = [(0, select.POLLIN), (self.woken, select.POLLIN)]
        ready = self.waits(wanted + [(self.fd, select.POLLOUT)] if self.is_pending() else wanted)
        if self.woken in ready:
            os.read(self.woken, 64)
        if 0 in ready:
            self.take_keys()

    def run(self):
        """Draws, writes and waits until a key or a signal ends it, and returns the signal. It draws nothing while the
        terminal takes no more bytes, so that a slow terminal gets the last state and not each one."""
        while not self.is_ending:
            if self.signals.pop(signal.SIGTSTP, 0):
                self.stop()
            # the size may have changed while it was stopped
            if self.signals.pop(signal.SIGWINCH, 0) + self.signals.pop(signal.SIGCONT, 0):
                self.open_session()
            if self.ending():
                break
            for line in self.log.added():
                self.show_logged(line)
            if self.is_changed and not self.is_pending():
                self.draw()
            self.drain()
            self.wait()
        return self.ending()

    def ending(self):
        """The signal that ends it, if one came."""
        return min((it for it in self.signals if it not in GOING_ON), default=None)


def main():
    if len(sys.argv) not in (2, 3):
        sys.exit("usage: monitor.py FILE [LOG]")
    try:
        monitor = Monitor(*sys.argv[1:], *[None] * (3 - len(sys.argv)))
    except (OSError, termios.error, ticurses.Error) as error:
        sys.exit(f"monitor.py: {error}")
    monitor.take_signals()
    told = ended = None
    try:
        monitor.before = ticurses.set_raw()
        ended = monitor.run()
    except ticurses.Error as error:
        told = f"monitor.py: {error}"
    finally:
        monitor.restore()
        monitor.session.close()
    if ended:
        signal.signal(ended, signal.SIG_DFL)
        os.kill(os.getpid(), ended)
    sys.exit(told)


if __name__ == "__main__":
    main()
