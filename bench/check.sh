#!/bin/sh
# The processor time and the memory of `ticurses check`, with `tic -c` of the same entries in the same run as context:
# `tic -c` looks for other faults, at no size, and reads all entries of samples.ti. The script checks the system's
# xterm-256color and `xc` at 24 by 80, `mini` at growing sizes, and, where the program has the command `survey`, all of
# the system's compiled descriptions at 24 by 80. Times are the best of five, in turn (of `survey` the best of two),
# less those of `ticurses --version` and `tic -V`. Memory is the lowest peak of the process, as a multiple of the
# certificate's bytes, with and without the peak of `ticurses --version`.
# check.sh ROWSxCOLS..: only these sizes of `mini`.
set -eu
cd -- "$(dirname -- "$0")"
work=$(mktemp -d)
trap 'rm -rf "$work"' EXIT
trap 'exit 130' HUP INT TERM

if ! cc -O2 -o "$work/spent" spent.c 2>"$work/log"; then
    echo "check: a C compiler is missing" >&2
    exit 1
fi
# builds it where it has to be, and leaves that out of the time
../build
ours=../crates/ticurses/out/ticurses
peer=$(command -v tic || :)
[ -n "$peer" ] || echo "check: tic is left out, since it is missing"

# runs TURNS SOURCE WORD..: that many runs of the program with these words, and of tic -c of the source, in turn
runs() {
    turns=$1
    source=$2
    shift 2
    while [ "$turns" -gt 0 ]; do
        echo "start $("$work/spent" "$ours" --version)"
        echo "ours $("$work/spent" "$ours" "$@")"
        if [ -n "$peer" ]; then
            echo "peer-start $("$work/spent" "$peer" -V)"
            echo "peer $("$work/spent" "$peer" -c -x "$source")"
        fi
        turns=$((turns - 1))
    done
}

# report NAME STATUSES LINES BYTES: reads what `runs` prints; STATUSES are those that the program may end with
report() {
    awk -v name="$1" -v statuses=" $2 " -v lines="$3" -v bytes="$4" '
        $1 == "ours" && !index(statuses, " " $4 " ") { print "check: " name ": the program ended with status " $4; wrong = 1; exit }
        !($1 in best) || $2 < best[$1] { best[$1] = $2 }
        !($1 in peak) || $3 < peak[$1] { peak[$1] = $3 }
        END {
            if (wrong) exit 1
            took = best["ours"] - best["start"]
            printf "%-26s %9.2f ms", name, took / 1000
            if (lines) printf ", %d lines, %d bytes, %.0f ns a line", lines, bytes, took * 1000 / lines
            if ("peer" in best) printf "; tic -c %.2f ms", (best["peer"] - best["peer-start"]) / 1000
            printf "; peak %d KiB", peak["ours"]
            if (bytes) printf ", %.2f times the bytes, %.2f beyond the start", peak["ours"] * 1024 / bytes, (peak["ours"] - peak["start"]) * 1024 / bytes
            printf "\n"
        }'
}

# measure NAME ENTRY SOURCE ROWS COLS: SOURCE has the text that tic -c reads
measure() {
    if ! "$ours" check "$2" "$4" "$5" --out "$work/certificate" 2>"$work/log"; then
        echo "check: $1 has no certificate at $4 by $5: $(grep -m 1 . "$work/log")"
        return
    fi
    runs 5 "$3" check "$2" "$4" "$5" --out "$work/certificate" |
        report "$1 $4 by $5" 0 "$(wc -l <"$work/certificate")" "$(wc -c <"$work/certificate")"
}

if [ $# -gt 0 ]; then
    for size; do
        measure mini samples.ti:mini samples.ti "${size%x*}" "${size#*x}"
    done
    exit
fi

system=$(infocmp -D 2>/dev/null | while read -r folder; do find -L "$folder" -name xterm-256color -type f 2>/dev/null; done | head -n 1)
if [ -n "$system" ]; then
    infocmp -1 -x xterm-256color >"$work/source"
    measure xterm-256color "$system" "$work/source" 24 80
else
    echo "check: xterm-256color is left out, since the system has no description of it"
fi
measure xc samples.ti:xc samples.ti 24 80
for size in 24x80 50x500 100x500 200x500; do
    measure mini samples.ti:mini samples.ti "${size%x*}" "${size#*x}"
done

if ! "$ours" survey --help >/dev/null 2>&1; then
    echo "check: survey is left out, since the program has no such command"
    exit
fi
# each description once, without its other names
infocmp -D 2>/dev/null | while read -r folder; do
    [ ! -d "$folder" ] || find "$folder/" -type f
done | awk -F/ '!seen[$NF]++' >"$work/paths"
sed 's:.*/::' "$work/paths" | while read -r name; do
    infocmp -1 -x "$name" 2>/dev/null || :
done >"$work/source"
# no name of a description has a space
set -- $(cat "$work/paths")
runs 2 "$work/source" survey 24 80 "$@" | report "survey of $# descriptions" "0 1" 0 0
