#!/bin/sh
# The compiled form beside ncurses' own program: ticurses reads files of the system's database, and ncurses reads files
# that ticurses has written, each with equal capabilities.
set -eu
cd -- "$(dirname -- "$0")"
exec python3 -B compiled.py
