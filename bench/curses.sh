#!/bin/sh
# The processor time of a refresh, and how many bytes it sends, for a C program (curses_scenes.c) over three libraries:
# ncurses, the library of ticurses for programs that were written for curses ("curses.h"), and the sessions of ticurses.
# Each makes the same calls with one entry, into a file, in turn, and the best of five runs counts. The time of a
# refresh includes the calls that draw. The line `open` is opening a session, with the check of the entry. `chars` and
# `lines` write each cell by a call of its own. A session's calls are functions of numbers, as those of its peers; only
# those of `lines` are lines of text. The entry has no `rep`, which ticurses doesn't use. If ticurses and ncurses leave
# different characters on the screen, a line says so; colors of blanks and the cursor of a pad aren't compared.
# curses.sh [ROWSxCOLS..]: 24x80 50x132 200x500 if none is given. ENTRY is the terminal, one of samples.ti or of the system,
# xterm-256color if it isn't set. SCENES are the scenes, all if it isn't set.
# In the scenes from `on` to `edit` a page moves: a line on or back with a line of status below, a title above, or both;
# half a page; two panes that scroll; two panes that are drawn anew, one on and one back; a list whose chosen entry leaves
# the view; a line that comes into the middle, or goes. `wrap` is a text in place of blanks, and blanks in its place.
# S-Lang, termbox and libtickit (Debian: libslang2-dev libtermbox-dev libtickit-dev), if they are installed, draw the
# same scenes, each with a line below. If such a library lacks windows or scrolling, its program does that work, which
# counts too. A scene has at most 2,000 refreshes, since a library that compares all cells takes milliseconds for one.
# With INSTRUCTIONS=1 the script counts the instructions of a refresh by callgrind, not its time, over at most 100, or 20
# where a screen has more than 20,000 cells. A library that can't use the entry is left out.
set -eu
cd -- "$(dirname -- "$0")"
work=$(mktemp -d)
trap 'rm -rf "$work"' EXIT
trap 'exit 130' HUP INT TERM
entry=${ENTRY:-xterm-256color}
count=${INSTRUCTIONS:-}

../install PREFIX="$work/prefix" >"$work/log"
lib=$work/prefix/lib include=$work/prefix/include
if ! cc -O2 -DCURSES -o "$work/ncurses" curses_scenes.c -lncurses 2>"$work/log"; then
    echo "curses: a C compiler, ncurses or its headers are missing" >&2
    exit 1
fi
if [ "$count" ] && ! command -v valgrind >/dev/null; then
    echo "curses: valgrind is missing, which counts instructions" >&2
    exit 1
fi
cc -O2 -DCURSES -I"$include/ticurses" -o "$work/curses" curses_scenes.c "$lib/libticurses_curses.a" \
    "$lib/libticurses_tinfo.a" "$lib/libticurses_terminfo.a" "$lib/libticurses.a"
cc -O2 -I"$include" -o "$work/session" curses_scenes.c "$lib/libticurses.a"
mkdir "$work/terminfo"
# the terminal of `feed` has no `rep`
if grep -q "^$entry|" samples.ti; then cat samples.ti; else infocmp -1 -x "$entry" | grep -v '^.rep='; fi >"$work/source"
tic -x -o "$work/terminfo" "$work/source" 2>"$work/log"
TERMINFO=$work/terminfo
export TERMINFO
# other screen libraries: slang_peer.h, termbox_peer.h, tickit_peer.h
peers=
for peer in slang termbox tickit; do
    if ! cc -O2 "-DPEER=\"${peer}_peer.h\"" -o "$work/$peer" curses_scenes.c "-l$peer" 2>"$work/log"; then
        echo "curses: $peer is left out, since its library is missing"
    elif ! "$work/$peer" "$entry" 24 80 cell "$work/$peer.out" 1 >"$work/log" 2>&1; then
        echo "curses: $peer is left out, since it can't use $entry: $(tail -n 1 "$work/log")"
    else
        peers="$peers $peer"
    fi
done
compiled=$(find "$work/terminfo" -name "$entry" -type f)
program=../crates/ticurses/out/ticurses

# draws LIBRARY ROWS COLS SCENE [WORDS BEFORE THE PROGRAM]
draws() {
    library=$1 rows=$2 cols=$3 scene=$4
    shift 4
    most=2000
    [ -z "$count" ] || most=$((rows * cols > 20000 ? 20 : 100))
    named=$entry
    [ "$library" != session ] || named=$compiled
    "$@" "$work/$library" "$named" "$rows" "$cols" "$scene" "$work/$library.out" "$most"
}

# timed ROWS COLS SCENE: a line for each run, with its nanoseconds and bytes
timed() {
    for turn in 1 2 3 4 5; do
        for one in ncurses curses session $peers; do
            echo "$one $(draws "$one" "$@") $turn"
        done
    done
}

# instructions ROWS COLS SCENE: a line for each library, with 1,000 times the instructions of a refresh, and its bytes
instructions() {
    for one in ncurses curses session $peers; do
        counted=$(draws "$one" "$@" valgrind --tool=callgrind --callgrind-out-file=/dev/null \
            --toggle-collect=repeat 2>"$work/log")
        sed -n 's/.*Collected : //p' "$work/log" |
            awk -v one="$one" -v sent="$counted" '{ split(sent, at); print one, $1 / at[3] * 1000, at[2] }'
    done
}

# table ROWS COLS
table() {
    printf '%-10s %12s %12s %7s %12s %7s %9s %9s %9s\n' "$1 by $2" "ncurses" "curses.h" "ratio" "session" "ratio" \
        "ncurses" "curses.h" "session"
    [ -z "$peers" ] || echo "           others: time, the session's to it, bytes"
    for scene in ${SCENES:-full chars lines cell typing log windows pad colours \
        on back title titleback both half panes split list edit wrap open}; do
        if [ "$count" ]; then instructions "$1" "$2" "$scene"; else timed "$1" "$2" "$scene"; fi >"$work/runs"
        awk -v scene="$scene" -v peers="$peers" '
            !($1 in best) || $2 < best[$1] { best[$1] = $2; sent[$1] = $3 }
            END {
                peer = best["ncurses"]
                printf "%-10s %12.1f %12.1f", scene, peer / 1000, best["curses"] / 1000
                printf " %7.2f %12.1f %7.2f", best["curses"] / peer, best["session"] / 1000, best["session"] / peer
                printf " %9d %9d %9d\n", sent["ncurses"], sent["curses"], sent["session"]
                for (at = 1; at <= split(peers, names, " "); at++) {
                    one = names[at]
                    printf "           %-10s %12.1f", one, best[one] / 1000
                    printf " %7.2f %9d\n", best["session"] / best[one], sent[one]
                }
            }' "$work/runs"
        [ "$scene" != open ] && [ -x "$program" ] || continue
        for one in ncurses curses session; do
            "$program" feed "$1" "$2" "$work/$one.out" 2>&1 | head -n "$1" >"$work/$one.screen"
            cmp -s "$work/$one.screen" "$work/ncurses.screen" ||
                echo "curses: $scene: the screens of ncurses and $one differ at $1 by $2" >&2
        done
    done
}

unit=microseconds
[ -z "$count" ] || unit=instructions
echo "$unit of a refresh, and its bytes"
[ $# -gt 0 ] || set -- 24x80 50x132 200x500
for size in "$@"; do
    table "${size%x*}" "${size#*x}"
done
