#!/bin/sh
# The wrong bodies of plants/ still apply to their files, and so do the must-fail edits, of which only some crates have
# any. Nothing is proved here: `python3 -B tools/plants.py` tries those of plants/, and `rt ci` the others.
set -eu
cd -- "$(dirname -- "$0")/.."
exec python3 -B tools/plants.py --check
