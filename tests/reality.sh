#!/bin/sh
# Output of real programs, and random scripts: `ticurses feed` and `show` beside terminal emulators (reality/).
# reality/README.md says how the programs were recorded and where an emulator differs from T; the scripts need tmux.
set -eu
cd -- "$(dirname -- "$0")/.."
./build
exec python3 -B tests/reality.py
