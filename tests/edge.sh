#!/bin/sh
# Code that isn't proved: headers, examples and the Python package on terminals, with signals, sizes, errors and broken
# entries; random formats beside snprintf, and random calls with the sanitizers of the compiler and valgrind.
set -eu
cd -- "$(dirname -- "$0")"
for tool in cc python3; do
    if ! command -v "$tool" >/dev/null 2>&1; then
        echo "edge: $tool is not installed, and nothing of this is tried"
        exit 0
    fi
done
exec python3 -B edge.py
