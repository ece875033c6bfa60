#!/bin/sh
# How many bytes a refresh of `ticurses play` sends, beside ncurses for the same calls with the same entry: the scenes
# of scripts.awk with the entries of samples.ti. The count is the number of bytes that the calls of a scene add to those
# of the calls before them, without padding; in the first two scenes these are all bytes. ncurses sends colors only
# where an entry has their number, so its `xc` has colors#8 and pairs#64. If the two leave different screens, a line says
# so.
# refresh.sh [ROWSxCOLS..]: 24x80 50x132 if none is given. SCENES are the scenes, all if it isn't set. With
# INSTRUCTIONS=1 the script counts the instructions that the calls of a scene add, by callgrind, with `vt` and `xt`.
set -eu
cd -- "$(dirname -- "$0")"
. ./instructions.sh
work=$(mktemp -d)
trap 'rm -rf "$work"' EXIT
trap 'exit 130' HUP INT TERM

if ! cc -O2 -o "$work/peer" curses_peer.c -lncurses 2>"$work/log"; then
    echo "refresh: a C compiler, ncurses or its headers are missing" >&2
    exit 1
fi
TERMINFO=$work/terminfo
export TERMINFO
sed 's/^\tsetaf=/\tcolors#8, pairs#64,\n&/' samples.ti >"$work/source"
tic -x -o "$TERMINFO" "$work/source" 2>"$work/log"
# builds it where it has to be
../build
ours=../crates/ticurses/out/ticurses
entries="mini vt xt xc" unit=bytes
if [ "${INSTRUCTIONS:-}" ]; then
    can_count || { echo "refresh: valgrind is missing, which counts instructions" >&2; exit 1; }
    entries="vt xt" unit=instructions
fi

# run WORD..: plays $work/$part by a program into $work/$program.$part, or counts its instructions into that file
run() {
    if [ "$unit" = bytes ]; then
        "$@" "$work/$part" >"$work/$program.$part"
    else
        instructions "$@" "$work/$part" >"$work/$program.$part"
    fi
}

# amount FILE: the instructions that it names, or else the number of its bytes
amount() {
    if [ "$unit" = bytes ]; then wc -c <"$1"; else cat "$1"; fi
}

# count ENTRY ROWS COLS: `ours peer`, what the scene in $work/script adds
count() {
    sed '/^# from here/,$d' "$work/script" >"$work/before"
    for part in before script; do
        program=ours run "$ours" play "samples.ti:$1" "$2" "$3" "$work/$1"
        program=peer run "$work/peer" "$1" "$2" "$3"
    done
    for program in ours peer; do
        echo $(($(amount "$work/$program.script") - $(amount "$work/$program.before")))
    done | paste -s -d ' ' -
    [ "$unit" = bytes ] || return 0
    for program in ours peer; do
        "$ours" feed "$2" "$3" "$work/$program.script" >"$work/$program.screen" 2>&1 || :
    done
    # a pad whose cursor isn't shown leaves it anywhere
    [ "$kind" != pad ] || sed -i '/^cursor/d' "$work/ours.screen" "$work/peer.screen"
    cmp -s "$work/ours.screen" "$work/peer.screen" || echo "refresh: $kind: the screens of $1 differ at $2 by $3" >&2
}

# table ROWS COLS
table() {
    for entry in $entries; do
        "$ours" check "samples.ti:$entry" "$1" "$2" --out "$work/$entry" 2>"$work/log"
    done
    echo "$1 by $2 $entries" | awk '{ printf "%-10s", $1 " by " $3; for (at = 4; at <= NF; at++) printf " %19s", $at; print "" }'
    for kind in ${SCENES:-full blank cell word cursor typed box status colours scroll region pad lines window nothing \
        on back title both half panes split insert}; do
        awk -v kind="$kind" -v rows="$1" -v cols="$2" -f scripts.awk >"$work/script"
        for entry in $entries; do
            count "$entry" "$1" "$2"
        done | awk -v kind="$kind" '{ line = line sprintf(" %9d %9d", $1, $2) } END { printf "%-10s%s\n", kind, line }'
    done
}

echo "$unit: ticurses, ncurses"
[ $# -gt 0 ] || set -- 24x80 50x132
for size in "$@"; do
    table "${size%x*}" "${size#*x}"
done
