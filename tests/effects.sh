#!/bin/sh
# The effects of strings, as records: a table worked out by hand, texts of effects and back, and the strings of real
# terminals. One build without proof serves all cases. It is proved that a record is right, but not that there is one.
set -eu
cd -- "$(dirname -- "$0")"
exec python3 -B effects.py
