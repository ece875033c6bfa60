#!/bin/sh
# Programs that draw for themselves: compares the calls of <term.h> and <termcap.h> with ncurses', for each entry and
# each string of the system's database, and runs Debian's own binaries over the drop-in for libtinfo.so.6 in tmux.
set -eu
cd -- "$(dirname -- "$0")"
for tool in cc python3; do
    if ! command -v "$tool" >/dev/null 2>&1; then
        echo "tinfo: $tool is not installed, and nothing of this is tried"
        exit 0
    fi
done
exec python3 -B tinfo.py "$@"
