#!/bin/sh
# How the time of a survey grows with its entries: uses that fail behind chains of 40 entries and behind one chain of
# all (--json), entries with two faults each (--all), and a part at fault that all entries use (--fix). Processor
# seconds of `./ticurses survey`, the least of three runs.
set -eu
cd -- "$(dirname -- "$0")"
work=$(mktemp -d)
trap 'rm -rf "$work"' EXIT
trap 'exit 130' HUP INT TERM
../build
ours=../crates/ticurses/out/ticurses

# seconds WORD..: the processor time of one run
seconds() {
    { LC_ALL=C bash -c 'TIMEFORMAT="%U %S"; time "$@" >/dev/null 2>&1' bash "$@"; } 2>&1 | awk '{ print $1 + $2 }'
}

# source KIND COUNT: a source with this many entries
source() {
    awk -v kind="$1" -v count="$2" 'BEGIN {
        if (kind == "part") printf "part|at fault,\n\tel=\\E[J, ed=\\E[K,\n"
        for (i = 0; i < count; i++) {
            printf "e%d|an entry,\n", i
            ends = kind == "chains" ? i % 40 == 39 || i == count - 1 : i == count - 1
            if (kind == "chains" || kind == "chain") printf "\tuse=%s,\n", ends ? "none" : "e" (i + 1)
            else printf "\tclear=\\E[H\\E[2J, cup=\\E[%%i%%p1%%d;%%p2%%dH, sgr0=\\E[m, %s,\n", kind == "faults" ? "el=\\E[J, ed=\\E[K" : "use=part"
        }
    }'
}

# measured KIND COUNT OPTION..: a line with the time of a survey with these options
measured() {
    kind=$1 count=$2
    shift 2
    source "$kind" "$count" >"$work/source"
    for turn in 1 2 3; do
        seconds "$ours" survey "$@" 2 4 "$work/source"
    done | sort -n | head -n 1 | awk -v kind="$kind" -v count="$count" '{ printf "%-6s %5d entries: %.2f s\n", kind, count, $1 }'
}

for count in 1000 2000 4000 8000 16000; do
    measured chains "$count" --json
    measured chain "$count" --json
    measured faults "$count" --all
    measured part "$count" --fix
done
