#!/bin/sh
# `check --json` and `survey --json`, read by Python's json and compared with the plain forms: entries with planted faults, those
# of the examples, names that aren't ASCII, and what is refused.
set -eu
cd -- "$(dirname -- "$0")/.."
exec python3 -B tests/reports.py
