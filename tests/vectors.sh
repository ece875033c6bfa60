#!/bin/sh
# `feed --cases`, `--json`, `--state` and `--plain-text` beside the vectors, whose states a model in Python gives. Damaged
# files, recordings, and the time that 100,000 cases take.
set -eu
cd -- "$(dirname -- "$0")/.."
exec python3 -B tests/vectors.py
