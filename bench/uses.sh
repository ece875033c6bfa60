#!/bin/sh
# How the time of resolving grows with the uses and the entries: a source with N lines `use=zz` in one entry, N other
# entries, and `zz` at the end. Processor seconds of `./ticurses tic FILE:last`, the least of three runs.
set -eu
cd -- "$(dirname -- "$0")"
work=$(mktemp -d)
trap 'rm -rf "$work"' EXIT
trap 'exit 130' HUP INT TERM
../build
ours=../crates/ticurses/out/ticurses

# seconds WORD..: the processor time of one run
seconds() {
    { LC_ALL=C bash -c 'TIMEFORMAT="%U %S"; time "$@" >/dev/null 2>&1' bash "$@"; } 2>&1 | awk '{ print $1 + $2 }'
}

for count in 20000 40000 80000 104857 419420; do
    awk -v count="$count" 'BEGIN {
        printf "last|the entry that is asked for,\n"
        for (i = 0; i < count; i++) printf "\tuse=zz,\n"
        for (i = 0; i < count; i++) printf "e%d|an entry,\n\tam,\n", i
        printf "zz|the entry that is used,\n\tam,\n"
    }' >"$work/source"
    for turn in 1 2 3; do
        seconds "$ours" tic "$work/source:last"
    done | sort -n | head -n 1 | awk -v count="$count" -v bytes="$(wc -c <"$work/source")" '{ printf "%7d uses and entries, %9d bytes: %.3f s\n", count, bytes, $1 }'
done
