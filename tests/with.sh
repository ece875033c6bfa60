#!/bin/sh
# Entries that use those of other files, by --with: faults planted over two files are mended in one round, each place names
# its file, names lead to the first file that has them, and many levels of use= over files are refused as in one file.
set -eu
cd -- "$(dirname -- "$0")/.."
exec python3 -B tests/with.py
