#!/bin/sh
# Scripts of curses calls through the program: `show` prints the screen that the definitions give, and the output of
# `play`, fed to the terminal by `feed`, leaves that screen too. A closed or full output is reported after the run.
set -eu
cd -- "$(dirname -- "$0")"
exec python3 -B scripts.py
