#!/bin/sh
# The processor time and the memory of `ticurses verify`, beside sha256sum of the same certificate in the same run.
# `./ticurses check` writes the certificates: of `mini` at growing sizes, of `xc`, and of the system's xterm-256color.
# Times are the best of five, in turn, less those of `ticurses --version` and of sha256sum of an empty file. Memory is
# the lowest peak of the process, as a multiple of the certificate's bytes, with and without the peak of `ticurses
# --version`.
# verify.sh ROWSxCOLS..: only these sizes of `mini`.
set -eu
cd -- "$(dirname -- "$0")"
work=$(mktemp -d)
trap 'rm -rf "$work"' EXIT
trap 'exit 130' HUP INT TERM

if ! cc -O2 -o "$work/spent" spent.c 2>"$work/log"; then
    echo "verify: a C compiler is missing" >&2
    exit 1
fi
# builds it where it has to be, and leaves that out of the time
../build
ours=../crates/ticurses/out/ticurses
sum=$(command -v sha256sum)
: >"$work/empty"

# runs ENTRY ROWS COLS: five runs of each program, in turn
runs() {
    for turn in 1 2 3 4 5; do
        echo "start $("$work/spent" "$ours" --version)"
        echo "verify $("$work/spent" "$ours" verify "$1" "$2" "$3" "$work/certificate")"
        echo "empty $("$work/spent" "$sum" "$work/empty")"
        echo "sum $("$work/spent" "$sum" "$work/certificate")"
    done
}

# measure NAME ENTRY ROWS COLS
measure() {
    if ! "$ours" check "$2" "$3" "$4" --out "$work/certificate" 2>"$work/log"; then
        echo "verify: $1 has no certificate at $3 by $4: $(grep -m 1 . "$work/log")"
        return
    fi
    runs "$2" "$3" "$4" | awk -v name="$1" -v rows="$3" -v cols="$4" \
        -v lines="$(wc -l <"$work/certificate")" -v bytes="$(wc -c <"$work/certificate")" '
        $4 != 0 { print "verify: " name " at " rows " by " cols ": the run `" $1 "` ended with status " $4; wrong = 1; exit }
        !($1 in best) || $2 < best[$1] { best[$1] = $2 }
        !($1 in peak) || $3 < peak[$1] { peak[$1] = $3 }
        END {
            if (wrong) exit 1
            took = best["verify"] - best["start"]
            sum = best["sum"] - best["empty"]
            printf "%-14s %3d by %-3d %7d lines, %8d bytes: %9.2f ms, %6.0f ns a line", name, rows, cols, lines, bytes, took / 1000, took * 1000 / lines
            printf "; sha256sum %6.2f ms", sum / 1000
            # a difference of less than 0.1 ms is that of two starts
            if (sum >= 100) printf ", ratio %.1f", took / sum
            printf "; peak %d KiB, %.2f times the bytes, %.2f beyond the start\n", peak["verify"], peak["verify"] * 1024 / bytes, (peak["verify"] - peak["start"]) * 1024 / bytes
        }'
}

if [ $# -gt 0 ]; then
    for size; do
        measure mini samples.ti:mini "${size%x*}" "${size#*x}"
    done
    exit
fi
for size in 24x80 50x500 100x500 200x500; do
    measure mini samples.ti:mini "${size%x*}" "${size#*x}"
done
measure xc samples.ti:xc 24 80
system=$(infocmp -D 2>/dev/null | while read -r folder; do find -L "$folder" -name xterm-256color -type f 2>/dev/null; done | head -n 1)
if [ -n "$system" ]; then
    measure xterm-256color "$system" 24 80
else
    echo "verify: xterm-256color is left out, since the system has no description of it"
fi
