#!/bin/sh
# ./ticurses, ./build and ./install over a toolchain that only pretends: which build is current; where rooms and kept
# files are, and who owns them; signals; checkouts that can't be written; which files are installed and removed.
set -eu
cd -- "$(dirname -- "$0")"
exec python3 -B tools.py
