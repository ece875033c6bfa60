#!/bin/sh
# The library of entries alone: its header, every answer, and each capability of the system's entries and the expansions
# of their strings beside ncurses, from Python.
set -eu
cd -- "$(dirname -- "$0")"
for tool in cc python3; do
    if ! command -v "$tool" >/dev/null 2>&1; then
        echo "terminfo: $tool is not installed, and nothing of this is tried"
        exit 0
    fi
done
exec python3 -B terminfo.py
