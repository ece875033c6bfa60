#!/bin/sh
# The packages: made twice with the same bytes, unpacked into an empty folder, used where the toolchain is out of reach,
# and removed again.
set -eu
cd -- "$(dirname -- "$0")"
if ! command -v python3 >/dev/null 2>&1; then
    echo "package: python3 is not installed, and nothing of this is tried"
    exit 0
fi
exec python3 -B packaged.py
