"""Debian's own binaries over the drop-in for libtinfo.so.6: each runs twice in tmux, over the system's library and over
this one, with the same keys, and has to show the same screens. bash and less also run under valgrind."""

import os
import re
import shutil
import subprocess
import time
from concurrent.futures import ThreadPoolExecutor

from linked import missing

ROWS, COLS = 24, 80
# seconds after which an unchanged screen is compared, the longest time that a program may go on drawing, and the longest
# that it may take to begin
QUIET, LONGEST, STARTING = 0.4, 8, 60

# The programs, their words, and their keys: names of tmux, or texts after =, in which ~ is a blank. @N waits for N
# milliseconds. They start in a folder of their own, with FILES.
PROGRAMS = {
    "bash": (
        "--norc --noprofile -i",
        """=echo~one~two Left Left =XY Home =# End Enter
        =echo~aaaaaaaaaaaaaaaaaaaaaaaa~bbbbbbbbbbbbbbbbbbbbbbbbbbbbbbb~ccccccccccccccccccccccccc~ddddd Left Left C-a C-e Enter
        C-r =one Enter =cat~te Tab Tab C-c C-l =set~-o~vi Enter =echo~vi Escape =0x =iq Enter =exit Enter""",
    ),
    "less": (
        "text",
        """Space Down Down Up =/word Enter n n N =-S Enter Right Left g G =h Space q =/100 Enter =&word Enter =& Enter
        b u d v =-N Enter =q""",
    ),
    "vim.tiny": (
        "-u NONE -i NONE text",
        """Down Down =i =typed Escape =dd =G =o =last Escape =:set~number Enter =gg =/word Enter =ohello Escape =u C-f C-b
        =:set~list Enter =M =zz =A! Escape C-l =:q! Enter""",
    ),
    "tmux": (
        "-L inner -f conf new-session 'bash --norc --noprofile'",
        """=echo~one Enter C-b % =echo~two Enter C-b " =echo~three Enter C-b Left C-b Space C-b : =rename-window~hello Enter
        C-b c C-b w Down Enter C-b [ Up Up q =printf~'\\033[1mbold\\033[m\\n' Enter =exit Enter""",
    ),
    "zsh": (
        "-f",
        """=PS1='%B%F{green}z%f%b>~' Enter =RPROMPT='[%?]' Enter =echo~one~two Left Left =XY C-a C-e Enter =false Enter
        =ls~ Tab Tab C-u =zmodload~zsh/terminfo;~echo~$terminfo[colors]~${(q)terminfo[cup]} Enter
        =zmodload~zsh/termcap;~echo~${(q)termcap[cm]}~$termcap[am] Enter =echo~${#terminfo}~${#termcap} Enter
        =for~a~in~1~2;~do Enter =echo~$a;~done Enter C-l =exit Enter""",
    ),
    "fish": (
        """--no-config -C "function fish_prompt; echo 'f> '; end" """,
        """=echo~one~two Left Left =XY C-a C-e Enter
        =set_color~red;~echo~red;~set_color~normal Enter =echo~o Right Enter =cat~te Tab Enter =exit Enter""",
    ),
    "top": ("-d 600 -p {pid}", "=z =x =b =h Space =q =q"),
    "joe": (
        "text",
        "=typed Down Down C-k =h C-k =h PageDown PageUp C-e =end C-y C-k =f =word Enter Enter C-x C-c =n",
    ),
    "screen": (
        "-c conf bash --norc --noprofile",
        """=echo~one Enter C-a c =echo~two Enter C-a " Down Enter C-a [ Up Up Escape C-a S C-a Tab C-a c =ls Enter C-a X
        =exit Enter =exit Enter =exit Enter""",
    ),
    "mg": (
        "-n text",
        """=typed Down Down C-x =2 C-v C-x =o C-s =word Enter C-a C-k C-x =1 Escape =x =what-cursor-position Enter
        C-x C-c =n =yes Enter""",
    ),
}
FILES = {
    "text": "".join(f"line {at} has a word and {'longer ' * (at % 17)}text\n" for at in range(1, 131)),
    "conf": "",
}
CONFIGURED = {
    "tmux": "set -g status-right ''\nset -g default-command 'bash --norc --noprofile'\nset -g default-terminal screen-256color\nset -g automatic-rename off\n",
    "screen": "startup_message off\nvbell off\nmsgwait 0\n",
}
# on the screens of these, numbers don't count
BUSY = {"top"}


class Pane:
    """A program in a pane of tmux, over the system's library, or over the drop-in in a folder."""

    def __init__(self, work, name, words, folder):
        # names of one length, since some programs show them
        self.room = f"{work}/{name}-{'drop' if folder else 'base'}"
        os.makedirs(f"{self.room}/home")
        for file, text in FILES.items():
            with open(f"{self.room}/{file}", "w", encoding="ascii") as out:
                out.write(CONFIGURED.get(name, text) if file == "conf" else text)
        given = [f"HOME={self.room}/home", f"SCREENDIR={self.room}/home", f"TMUX_TMPDIR={self.room}", "LC_ALL=C.UTF-8"]
        # an editor that loads ncurses, as nano does, needs more names than the drop-in has
        given += ["TERM=screen-256color", "SHELL=/bin/bash", "PS1=$ ", "ESCDELAY=25", "VISUAL=true"]
        given += [f"LD_LIBRARY_PATH={folder}"] if folder else []
        os.chmod(f"{self.room}/home", 0o700)
        line = f"cd {self.room}; env -u TMUX -u LS_COLORS -u STY {' '.join(quoted(it) for it in given)} {words}"
        size = ["-x", str(COLS), "-y", str(ROWS)]
        self.run("new-session", "-d", *size, f"trap : INT; {line}; echo ended $?; sleep 600")
        self.run("set", "-g", "status", "off")
        self.run("set", "-g", "escape-time", "0")
        self.run("resize-window", *size)

    def run(self, *words):
        given = {**os.environ, "LC_ALL": "C.UTF-8", "TERM": "screen"}
        line = ["tmux", "-f", "/dev/null", "-u", "-S", f"{self.room}.socket", *words]
        return subprocess.run(line, env=given, capture_output=True).stdout.decode("utf-8", "replace")

    def seen(self):
        cursor = self.run("display", "-p", "#{cursor_y} #{cursor_x} #{cursor_flag} #{alternate_on}").strip()
        return self.run("capture-pane", "-p", "-e", "-N").replace(self.room, "ROOM"), cursor

    def press(self, key):
        if key.startswith("@"):
            time.sleep(int(key[1:]) / 1000)
        elif key.startswith("="):
            self.run("send-keys", "-l", key[1:].replace("~", " "))
        else:
            self.run("send-keys", key)

    def close(self):
        self.run("kill-server")


def quoted(text):
    return "'" + text.replace("'", "'\\''") + "'"


def without_numbers(text):
    """The text of a screen in which all runs of digits and blanks are alike; sequences for looks stay."""
    return re.sub(r"(\x1b\[[\d;]*m)|[ \d.,:]*\d[ \d.,:]*", lambda it: it[1] or "#", text)


class Pair:
    """A program over both libraries, which get the same keys."""

    def __init__(self, work, name, words, folder):
        self.name = name
        self.panes = [Pane(work, name, words, it) for it in ("", folder)]

    def seen(self):
        """Both screens."""
        return [it.seen() for it in self.panes]

    def is_same(self, seen):
        if self.name in BUSY:
            seen = [(without_numbers(text), cursor) for text, cursor in seen]
        return seen[0] == seen[1]

    def settled(self, seconds):
        """Both screens once they are the same and no longer change, or after so many seconds."""
        end, last, since = time.monotonic() + seconds, self.seen(), time.monotonic()
        while time.monotonic() < end:
            time.sleep(0.05)
            now = self.seen()
            if now != last:
                last, since = now, time.monotonic()
            # a busy machine may show only one of both to have drawn
            elif time.monotonic() > since + QUIET and self.is_same(now):
                break
        return last

    def screens(self, keys):
        """Both screens at the beginning and after each key."""
        end = time.monotonic() + STARTING
        while not all(text.strip() for text, _ in self.seen()) and time.monotonic() < end:
            time.sleep(0.1)
        found = [self.settled(LONGEST)]
        for key in keys:
            for pane in self.panes:
                pane.press(key)
            found.append(self.settled(LONGEST))
        for pane in self.panes:
            pane.close()
        return found


def compared(work, name, folder):
    """Runs a program over both libraries. Returns how many screens there are, and the first that differ, if any."""
    words, keys = PROGRAMS[name]
    sleeper = subprocess.Popen(["sleep", "3600"]) if "{pid}" in words else None
    words = words.replace("{pid}", str(sleeper.pid) if sleeper else "")
    # a binary with rights of its own would not heed LD_LIBRARY_PATH
    binary = shutil.copy(os.path.realpath(shutil.which(name)), f"{work}/{name}")
    os.chmod(binary, 0o755)
    try:
        pair = Pair(work, name, f"{binary} {words}", folder)
        found = pair.screens(keys.split())
    finally:
        if sleeper:
            sleeper.kill()
            sleeper.wait()
    bad = [(at, seen) for at, seen in enumerate(found) if not pair.is_same(seen)]
    return len(found), bad[:1]


def show(name, at, seen):
    keys = ["the beginning", *PROGRAMS[name][1].split()]
    for library, (text, cursor) in zip(("the system's library", "the drop-in"), seen):
        print(f"--- {name}, screen {at}, after {keys[at]}, over {library}, cursor {cursor}")
        print(text.rstrip().replace("\033", "^"))


def is_loaded(name, folder):
    """Whether the program takes the library from the folder."""
    given = {**os.environ, "LD_LIBRARY_PATH": folder, "LD_TRACE_LOADED_OBJECTS": "1"}
    told = subprocess.run([os.path.realpath(shutil.which(name))], env=given, capture_output=True, text=True).stdout
    return f"{folder}/libtinfo.so.6" in told and "libncurses" not in told


def judge_programs(work, folder, names):
    """Returns the number of programs that show the same, and how many were tried."""
    if missing("tinfo", "tmux"):
        return 0, 0
    chosen = [it for it in names or PROGRAMS if not missing("tinfo", it) and is_loaded(it, folder)]
    same, screens = 0, 0
    with ThreadPoolExecutor(len(os.sched_getaffinity(0))) as pool:
        told = dict(zip(chosen, pool.map(lambda it: compared(work, it, folder), chosen)))
    for name in chosen:
        count, bad = told[name]
        if bad:
            # once more, alone: on a busy machine a program can take too long
            os.makedirs(f"{work}/again", exist_ok=True)
            count, bad = compared(f"{work}/again", name, folder)
        for at, seen in bad:
            print(f"tinfo: {name} shows something else from screen {at} of {count} on")
            show(name, at, seen)
        same += not bad
        screens += count
    if chosen:
        print(f"tinfo: {same} of {len(chosen)} programs show the same over the drop-in, {screens} screens: {' '.join(chosen)}")
    return same, len(chosen)
