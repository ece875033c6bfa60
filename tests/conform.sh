#!/bin/sh
# tools/conform on libvterm, tmux and pyte, where they are installed: it finds their known differences, and no others.
set -eu
cd -- "$(dirname -- "$0")/.."
exec python3 -B tests/conform.py
