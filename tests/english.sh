#!/bin/sh
# The English of pages and comments: the stilted kinds that can be counted are rare, area by area. `python3
# tests/english.py --list` shows each with its file and line.
set -eu
cd -- "$(dirname -- "$0")"
exec python3 -B english.py
