#!/bin/sh
# `ticurses infocmp` beside ncurses, on the system's own descriptions: ncurses' tic makes one and the same file from the
# printed entry and from the source text.
set -eu
cd -- "$(dirname -- "$0")/.."
. tests/probing

needs infocmp tic infocmp
work=$(mktemp -d)
trap 'rm -rf "$work"' EXIT
# some shells leave out that where a signal ends them
trap 'exit 130' HUP INT TERM
mkdir "$work/cases" "$work/theirs" "$work/ours" "$work/texts"

# a share of the descriptions, evenly spread, if there are many
most=120
for folder in $(infocmp -D 2>/dev/null); do
    [ -d "$folder" ] || continue
    find "$folder" -type f | sort
done >"$work/files"
step=$(($(wc -l <"$work/files") / most + 1))
awk -v step="$step" 'NR % step == 0' "$work/files" >"$work/chosen"

# source texts of 40 entries, since each run reads its own to the end, and a case for each entry
count=0
while read -r file; do
    # ncurses prints the caret of `%^` bare, and in standard text it would begin a control character
    infocmp -1 "${file##*/}" 2>/dev/null | grep -v '^#' | sed 's/%%/%%\n/g; s/%^/%\\^/g; s/%%\n/%%/g' >"$work/text"
    # a file may bear a name that its entry does not have
    name=$(sed -n '1s/[|,].*//p' "$work/text")
    [ -n "$name" ] && [ ! -e "$work/cases/$name.args" ] || continue
    source=source$((count / 40))
    [ $((count % 40)) -ne 0 ] || set -- "$@" "$source=$work/$source"
    cat "$work/text" >>"$work/$source"
    # a compiled file of ncurses may have a cancellation; here that is an absent capability
    grep -v '^	[A-Za-z0-9]*@,$' "$work/text" >"$work/texts/$name"
    : >"$work/cases/$name"
    printf '%s\n' infocmp "$source:$name" >"$work/cases/$name.args"
    count=$((count + 1))
done <"$work/chosen"
if [ "$count" -eq 0 ]; then
    echo "infocmp: skipped, since the system has no descriptions"
    exit 0
fi
if ! python3 -B tests/trying.py "$work/cases" "$@" >"$work/log" 2>"$work/said"; then
    cat "$work/said" >&2
    echo "infocmp: an entry could not be printed" >&2
    exit 1
fi
# the file of a case has the printed entry
awk -v folder="$work/ours/" '/^== / { file = folder $2; next } file != "" { print > file }' "$work/log"

same=0
for text in "$work/texts"/*; do
    name=${text##*/}
    mkdir "$work/a" "$work/b"
    tic -o "$work/a" "$text" 2>"$work/said" || continue
    if ! tic -o "$work/b" "$work/ours/$name" 2>"$work/said" || ! diff -r "$work/a" "$work/b" >"$work/said" 2>&1; then
        cat "$work/said" >&2
        echo "infocmp: tic makes another file of $name as ticurses prints it" >&2
        exit 1
    fi
    rm -r "$work/a" "$work/b"
    same=$((same + 1))
done
if [ "$same" -eq 0 ]; then
    echo "infocmp: none of the descriptions could be compared" >&2
    exit 1
fi
echo "infocmp: $same of the system's descriptions are the same as ticurses prints them"
