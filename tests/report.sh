#!/bin/sh
# tools/report over surveys of planted faults, of hostile names and of the system's database: its order, its numbers, its
# size, its HTML and what it refuses; in Chromium, where it is installed, its filters, their speed and what it prints.
set -eu
cd -- "$(dirname -- "$0")/.."
exec python3 -B tests/report.py
