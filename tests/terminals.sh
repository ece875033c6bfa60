#!/bin/sh
# Random sessions of curses calls in real terminals: xterm, VTE, libvterm and tmux, where they are installed. Each must
# show the virtual screen with its looks and its cursor; some sessions lose output and are repaired.
set -eu
cd -- "$(dirname -- "$0")/.."
exec python3 -B tests/terminals.py "$@"
