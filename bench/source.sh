#!/bin/sh
# How long reading a terminfo source and printing one of its entries takes, beside ncurses' tic and infocmp
# for the same text on the same machine, and how the time grows with the text.
#
#   bench/source.sh [RUNS]
#
# The text is made of the system's own entries (infocmp -1), copied under other names, and after each copy
# come four short entries that use it, as in the source that ncurses is shipped with: 2,800 entries have
# 1.2 MB. The printed entry is the last one that uses another. ncurses does the same work by `tic -I -1 -e NAME`, which
# prints that entry with its `use=`, and with `-r`, which resolves them. The table also has the time that it takes to
# compile the whole text.
# Each time is the least of RUNS runs (5), in milliseconds of wall clock.
set -eu
cd -- "$(dirname -- "$0")/.."
runs=${1:-5}

work=$(mktemp -d)
trap 'rm -rf "$work"' EXIT
trap 'exit 130' HUP INT TERM

# the entries of the system, each once
infocmp -D 2>/dev/null | while read -r folder; do
    [ -d "$folder" ] && find "$folder" -type f -printf '%f\n'
done | sort -u >"$work/names"
: >"$work/base"
while read -r name; do
    infocmp -1 "$name" 2>/dev/null | grep -v '^#' >>"$work/base" || :
done <"$work/names"

# make BYTES: entries under other names until they have this many bytes
make() {
    awk -v most="$1" '
        /^[^ \t]/ { count++; names[count] = $0; next }
        { body[count] = body[count] $0 "\n" }
        END {
            for (copy = 1; bytes < most; copy++) {
                for (i = 1; i <= count && bytes < most; i++) {
                    name = "t" copy "-" i
                    text = name "|copy of entry " i ",\n" body[i]
                    for (k = 1; k <= 4; k++)
                        text = text name "-" k "|entry that uses a copy of entry " i ",\n\tcols#" (80 + k) ",\n\tkf1=\\E[" k "~,\n\tsetab=\\E[4%p1%dm,\n\tsetaf=\\E[3%p1%dm,\n\tuse=" name ",\n"
                    printf "%s", text
                    bytes += length(text)
                }
            }
        }' "$work/base"
}

# least COMMAND..: the least time of the runs, in milliseconds
least() {
    best=
    n=0
    while [ "$n" -lt "$runs" ]; do
        before=$(date +%s%N)
        "$@" >/dev/null 2>&1
        after=$(date +%s%N)
        took=$(((after - before) / 10000))
        if [ -z "$best" ] || [ "$took" -lt "$best" ]; then best=$took; fi
        n=$((n + 1))
    done
    echo "$best" | awk '{ printf "%.2f", $1 / 100 }'
}

ratio() {
    echo "$1 $2" | awk '{ printf "%.3f", $1 / $2 }'
}

# last FILE: the name of the last entry that uses another
last() {
    sed -n 's/^\(t[0-9]*-[0-9]*-4\)|.*/\1/p' "$1" | tail -n 1
}

for program in tic infocmp; do
    command -v "$program" >/dev/null 2>&1 || {
        echo "source: $program is missing" >&2
        exit 1
    }
done
make 1200000 >"$work/source"
mkdir "$work/compiled"
name=$(last "$work/source")
entries=$(grep -c '^[^ 	#]' "$work/source")
echo "text: $(wc -c <"$work/source") bytes, $entries entries, made of $(wc -l <"$work/names") of the system's; printed: $name"

crates/ticurses/out/ticurses infocmp "$work/source:$name" >"$work/printed"
echo "printed: $(wc -l <"$work/printed") lines"

start=$(least crates/ticurses/out/ticurses --version)
ours=$(least crates/ticurses/out/ticurses infocmp "$work/source:$name")
one=$(least tic -I -1 -x -e "$name" "$work/source")
resolved=$(least tic -I -1 -x -r -e "$name" "$work/source")
check=$(least tic -c -x "$work/source")
compile=$(least tic -x -o "$work/compiled" "$work/source")
echo "ticurses infocmp FILE:NAME: $ours ms (ticurses --version: $start ms)"
echo "ncurses, one entry, tic -I -1 -e NAME: $one ms; ratio $(ratio "$ours" "$one")"
echo "ncurses, one entry resolved, tic -I -1 -r -e NAME: $resolved ms; ratio $(ratio "$ours" "$resolved")"
echo "ncurses, the whole text checked, tic -c: $check ms; ratio $(ratio "$ours" "$check")"
echo "ncurses, the whole text compiled, tic -o: $compile ms; ratio $(ratio "$ours" "$compile")"

# a source has at most 16777216 bytes
for size in 1000000 4000000 16000000; do
    make "$size" >"$work/long"
    size=$(wc -c <"$work/long")
    took=$(least crates/ticurses/out/ticurses infocmp "$work/long:$(last "$work/long")")
    echo "$size bytes: $took ms, $(echo "$took $start $size" | awk '{ printf "%.2f", ($1 - $2) * 1000000 / $3 }') ns a byte beyond the start"
done
