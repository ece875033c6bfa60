"""The program inside a terminal: passes bytes between the terminal and a Unix socket.   relay.py SOCKET

The first line to the socket is the terminal's size. It ends when the socket does."""

import fcntl
import os
import select
import socket
import struct
import sys
import termios
import tty


def main():
    tty.setraw(0)
    peer = socket.socket(socket.AF_UNIX)
    peer.connect(sys.argv[1])
    rows, cols = struct.unpack("HHHH", fcntl.ioctl(0, termios.TIOCGWINSZ, bytes(8)))[:2]
    peer.sendall(b"%d %d\n" % (rows, cols))
    while True:
        ready = select.select([0, peer], [], [])[0]
        if 0 in ready:
            got = os.read(0, 65536)
            if not got:
                return
            peer.sendall(got)
        if peer in ready:
            got = peer.recv(65536)
            if not got:
                return
            while got:
                got = got[os.write(1, got) :]


if __name__ == "__main__":
    main()
