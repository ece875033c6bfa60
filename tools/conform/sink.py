"""Runs a program in a pseudo-terminal of a size, and throws away what it writes.   sink.py ROWS COLS PROGRAM.."""

import fcntl
import os
import pty
import struct
import sys
import termios


def main():
    size = struct.pack("HHHH", int(sys.argv[1]), int(sys.argv[2]), 0, 0)
    pid, master = pty.fork()
    if pid == 0:
        fcntl.ioctl(0, termios.TIOCSWINSZ, size)
        os.execvp(sys.argv[3], sys.argv[3:])
    while True:
        try:
            if not os.read(master, 65536):
                break
        except OSError:
            break
    os.waitpid(pid, 0)


if __name__ == "__main__":
    main()
