#!/bin/sh
# The first command in a fresh copy of the repository: ./ticurses answers without proof and says so. An interrupted
# build, two first runs at once, no toolchain; files, streams and statuses of the program.
set -eu
cd -- "$(dirname -- "$0")/.."
exec python3 -B tests/first.py
