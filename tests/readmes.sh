#!/bin/sh
# READMEs and sources: each crate's README has the one form, and names exactly what the crate exports, with the clauses
# of its sources. callers.sh compiles its callers.
set -eu
cd -- "$(dirname -- "$0")"
exec python3 -B readmes.py
