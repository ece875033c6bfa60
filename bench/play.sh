#!/bin/sh
# The processor time of `ticurses play`, beside ncurses for the same calls with the same entry in the same run: the long
# scripts of scripts.awk with `xt` and `vt` of samples.ti, the output to a file; calls and texts at 24 by 80, cells,
# typing and log at the sizes given as ROWSxCOLS, or 24x80 50x132 200x500. Times are the best of twenty, in turn, less
# those of an empty script (which includes verifying the certificate; ncurses has none). If the two leave different
# screens, a line says so.
set -eu
cd -- "$(dirname -- "$0")"
work=$(mktemp -d)
trap 'rm -rf "$work"' EXIT
trap 'exit 130' HUP INT TERM

if ! { cc -O2 -o "$work/spent" spent.c && cc -O2 -o "$work/peer" curses_peer.c -lncurses; } 2>"$work/log"; then
    echo "play: a C compiler, ncurses or its headers are missing" >&2
    exit 1
fi
TERMINFO=$work/terminfo
export TERMINFO
tic -x -o "$TERMINFO" samples.ti 2>"$work/log"
# builds it where it has to be, and leaves that out of the time
../build
ours=../crates/ticurses/out/ticurses
: >"$work/empty"

# runs ENTRY ROWS COLS: twenty runs of each program, in turn
runs() {
    turns=20
    while [ "$turns" -gt 0 ]; do
        echo "start $("$work/spent" -o "$work/none" "$ours" play "samples.ti:$1" "$2" "$3" "$work/certificate" "$work/empty")"
        echo "ours $("$work/spent" -o "$work/ours" "$ours" play "samples.ti:$1" "$2" "$3" "$work/certificate" "$work/script")"
        echo "peer-start $("$work/spent" -o "$work/none" "$work/peer" "$1" "$2" "$3" "$work/empty")"
        echo "peer $("$work/spent" -o "$work/theirs" "$work/peer" "$1" "$2" "$3" "$work/script")"
        turns=$((turns - 1))
    done
}

# measure KIND ENTRY ROWS COLS
measure() {
    awk -v kind="$1" -v rows="$3" -v cols="$4" -f scripts.awk >"$work/script"
    "$ours" check "samples.ti:$2" "$3" "$4" --out "$work/certificate" 2>"$work/log"
    runs "$2" "$3" "$4" >"$work/times"
    for program in ours theirs; do
        "$ours" feed "$3" "$4" "$work/$program" >"$work/$program.screen" 2>&1 || :
    done
    # `feed` takes no more than 16 MiB
    [ "$(wc -c <"$work/ours")" -gt 16777216 ] || cmp -s "$work/ours.screen" "$work/theirs.screen" ||
        echo "play: $1: the screens of $2 differ at $3 by $4" >&2
    awk -v name="$1 $2 $3x$4" -v calls="$(wc -l <"$work/script")" -v sent="$(wc -c <"$work/ours")" -v theirs="$(wc -c <"$work/theirs")" '
        $4 != 0 { print "play: " name ": the run `" $1 "` ended with status " $4; wrong = 1; exit }
        !($1 in best) || $2 < best[$1] { best[$1] = $2 }
        END {
            if (wrong) exit 1
            took = best["ours"] - best["start"]
            peer = best["peer"] - best["peer-start"]
            printf "%-18s %6d calls: ticurses %6.1f ms, %8d bytes; ncurses %6.1f ms, %8d bytes; ratio %.2f", name, calls, took / 1000, sent, peer / 1000, theirs, peer / took
            printf "; starts %.1f ms, %.1f ms\n", best["start"] / 1000, best["peer-start"] / 1000
        }' "$work/times"
}

for entry in xt vt; do
    for kind in calls texts; do
        measure "$kind" "$entry" 24 80
    done
done
[ $# -gt 0 ] || set -- 24x80 50x132 200x500
for size in "$@"; do
    for kind in cells typing log; do
        for entry in xt vt; do
            measure "$kind" "$entry" "${size%x*}" "${size#*x}"
        done
    done
done
