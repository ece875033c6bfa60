#!/bin/sh
# The Python module over the library for C: answers, certificates and scripts beside the program, and the monitor of
# examples/python on terminals.
set -eu
cd -- "$(dirname -- "$0")"
if ! command -v python3 >/dev/null 2>&1; then
    echo "python: python3 is not installed, and nothing of this is tried"
    exit 0
fi
exec python3 -B python.py
