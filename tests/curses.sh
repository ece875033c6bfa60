#!/bin/sh
# Programs written for curses: compares the page's table with the header, and runs one program of calls and programs of
# ncurses' own test directory in tmux, compiled for ncurses and for this library, with the same keys.
set -eu
cd -- "$(dirname -- "$0")"
for tool in cc python3; do
    if ! command -v "$tool" >/dev/null 2>&1; then
        echo "curses: $tool is not installed, and nothing of this is tried"
        exit 0
    fi
done
exec python3 -B curses.py "$@"
