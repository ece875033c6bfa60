#!/bin/sh
# Suggestions taken in the source text by --fix: planted faults, and faulty entries of the system's database. No mended
# string is at fault afterwards, and nothing else of the text has changed. And what differs, as patch(1) reads it.
set -eu
cd -- "$(dirname -- "$0")/.."
python3 -B tests/fixes.py
exec python3 -B tests/diffs.py
