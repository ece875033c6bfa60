#!/bin/sh
# The library for C: headers, scripts by a linked program and by `play`, every answer, cut outputs, many sessions,
# and the programs of examples/c on terminals.
set -eu
cd -- "$(dirname -- "$0")"
for tool in cc python3; do
    if ! command -v "$tool" >/dev/null 2>&1; then
        echo "c: $tool is not installed, and nothing of this is tried"
        exit 0
    fi
done
exec python3 -B c.py
