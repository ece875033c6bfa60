#!/bin/sh
# `check --sarif` and `survey --sarif`, read by Python's json and compared with --json; `--baseline`.
set -eu
cd -- "$(dirname -- "$0")/.."
exec python3 -B tests/sarif.py
