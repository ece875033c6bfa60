#!/bin/sh
# The commands of README.md, docs/TOUR.md and docs/KEEPING.md print what the pages say. They are the indented lines that
# begin with `$`.
set -eu
cd -- "$(dirname -- "$0")"
../build
exec python3 -B tour.py
