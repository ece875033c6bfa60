#!/bin/sh
# The instructions that a call of <term.h> takes, over ticurses-tinfo and over ncurses: tparm of cup, sgr and setaf of
# xterm-256color, and setupterm with del_curterm. Counted by valgrind's callgrind, less those of a run without calls.
#   bench/tinfo.sh PREFIX      the library from where ./install put it
set -eu
prefix=${1:?usage: bench/tinfo.sh PREFIX}
cd -- "$(dirname -- "$0")"
work=$(mktemp -d)
trap 'rm -rf "$work"' EXIT
trap 'exit 130' HUP INT TERM
cc -O2 tinfo_peer.c -I"$prefix/include/ticurses" "$prefix/lib/libticurses_tinfo.a" "$prefix/lib/libticurses_terminfo.a" \
    -o "$work/here"
cc -O2 tinfo_peer.c -ltinfo -o "$work/ncurses"

# the instructions of a run: its program, count and call
counted() {
    valgrind --tool=callgrind --callgrind-out-file=/dev/null "$work/$1" "$2" "$3" 2>&1 >/dev/null |
        sed -n 's/.*Collected : //p'
}

for call in cup sgr setaf setup; do
    times=2000
    [ "$call" != setup ] || times=100
    here=$((($(counted here $times $call) - $(counted here $times none)) / times))
    there=$((($(counted ncurses $times $call) - $(counted ncurses $times none)) / times))
    [ "$("$work/here" $times $call)" = "$("$work/ncurses" $times $call)" ] || { echo "tinfo: $call differs" >&2; exit 1; }
    echo "$call: $here instructions here, $there in ncurses, ratio $(awk "BEGIN { printf \"%.2f\", $here / $there }")"
done
