#!/bin/sh
# Entries that are right at every size: of 30 of the system's database, `check` says yes at 309 sizes, and entries with a
# fault that only some sizes show are refused. Without such a database only the latter are tried, and the script says so.
set -eu
cd -- "$(dirname -- "$0")/.."
exec python3 -B tests/sizes.py
