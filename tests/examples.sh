#!/bin/sh
# Whole runs of the program over real files: what each prints, what it refuses, and the files that it writes.
# One build serves all of them.
set -eu
cd -- "$(dirname -- "$0")"
exec python3 -B examples.py
