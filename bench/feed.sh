#!/bin/sh
# The speed of `ticurses feed` beside libvterm (Debian: libvterm-dev), libtsm (libtsm-dev), GNOME's libvte
# (libvte-2.91-dev) and the crates vt100 and alacritty_terminal (librust-vt100-dev, librust-alacritty-terminal-dev,
# cargo). Each gets 16 MiB of each kind of stream that stream.awk writes, at 24 by 80 and at 200 by 500. The figures are
# megabytes a second of processor time over the whole run of each program, the best of five, in turn. A ratio is the
# peer's time to that of ticurses. All read the file and print the screen, and libvterm's screen must be that of
# ticurses. At 200 by 500 libvterm and libtsm, which move every cell to scroll, get one of the 16 MiB. libvte needs a
# display (xvfb-run -a sh bench/feed.sh); the time that GTK takes to start doesn't count. A second line has the
# instructions for a byte and their ratios, by valgrind's callgrind, which doesn't depend on the machine's load: what the
# bytes after the first 64 KiB (at 200 by 500 after the first MiB) add, up to four times (twice) as many. So starting and
# printing the screen don't count. libvte isn't among them, nor libvterm at 200 by 500.
# feed.sh KIND..: only these kinds. The script says which peers it can't build, and leaves them out.
set -eu
cd -- "$(dirname -- "$0")"
here=$PWD
work=$(mktemp -d)
trap 'rm -rf "$work"' EXIT
trap 'exit 130' HUP INT TERM
[ $# -gt 0 ] || set -- text mixed scrolling painting sequences colours
. ./instructions.sh
# the programs that could be built, each in $work
peers=ticurses

# left_out NAME
left_out() {
    echo "feed: $1 is left out, since it or what builds it is missing"
}

# has NAME WORD..: compiles a peer in C
has() {
    name=$1
    shift
    if cc -O2 -o "$work/$name" "$@" 2>"$work/log"; then
        peers="$peers $name"
    else
        left_out "$name"
    fi
}

# has_crate NAME CRATE VERSION: compiles a peer over a crate; Debian's are folders that cargo reads without a network
has_crate() {
    crate=$work/crate_$1
    mkdir -p "$crate/src" "$crate/.cargo"
    cp "$1_peer.rs" "$crate/src/main.rs"
    printf '[package]\nname = "peer"\nversion = "0.0.0"\nedition = "2021"\n[dependencies]\n%s = "%s"\n' "$2" "$3" >"$crate/Cargo.toml"
    printf '[source.crates-io]\nreplace-with = "debian"\n[source.debian]\ndirectory = "/usr/share/cargo/registry"\n' >"$crate/.cargo/config.toml"
    if (cd "$crate" && cargo build --release --offline) >"$work/log" 2>&1; then
        mv "$crate/target/release/peer" "$work/$1"
        peers="$peers $1"
    else
        left_out "the crate $2"
    fi
}

has libvterm peer.c -lvterm
has libtsm tsm_peer.c -ltsm
if [ -z "${DISPLAY:-}" ]; then
    echo "feed: libvte is left out, since there is no display: xvfb-run -a sh bench/feed.sh has one"
elif flags=$(pkg-config --cflags --libs vte-2.91 2>"$work/log"); then
    # shellcheck disable=SC2086 # these are words
    has libvte vte_peer.c $flags
else
    left_out libvte
fi
has_crate vt100 vt100 0.15
has_crate alacritty alacritty_terminal 0.17
can_count || echo "feed: instructions are left out, since valgrind is missing"
# builds it where it has to be, and leaves that out of the time
../build
ln -s "$here/../crates/ticurses/out/ticurses" "$work/ticurses"
cd "$work"
printf x >one

# words PEER: the words of its run before the size
words() {
    case $1 in
    ticurses) echo "./ticurses feed" ;;
    *) echo "./$1" ;;
    esac
}

# seconds WORD..: the processor time of one run
seconds() {
    { LC_ALL=C bash -c 'TIMEFORMAT="%U %S"; time "$@" >/dev/null 2>&1' bash "$@"; } 2>&1 | awk '{ print $1 + $2 }'
}

# share PEER ROWS: the file that the peer gets
share() {
    case $1-$2 in
    libvterm-200 | libtsm-200) echo part ;;
    *) echo stream ;;
    esac
}

# timed ROWS COLS: a line for each peer, with the mebibytes that it got, its seconds, and those of its start
timed() {
    for peer in $peers; do
        file=$(share "$peer" "$1")
        mebibytes=$([ "$file" = part ] && echo 1 || echo 16)
        took=$(seconds $(words "$peer") "$1" "$2" "$file")
        start=0
        [ "$peer" != libvte ] || start=$(seconds $(words "$peer") "$1" "$2" one)
        echo "$peer $mebibytes $took $start"
    done
}

# counted ROWS COLS: a line for each peer, with its instructions for each byte
counted() {
    for peer in $peers; do
        case $peer-$1 in libvte-* | libvterm-200) continue ;; esac
        few=$(instructions $(words "$peer") "$1" "$2" little)
        many=$(instructions $(words "$peer") "$1" "$2" more)
        echo "$peer $few $many $(($(wc -c <more) - $(wc -c <little)))"
    done | awk '{ printf "%s %.1f\n", $1, ($3 - $2) / $4 }'
}

# same KIND ROWS COLS: libvterm's screen is that of ticurses
same() {
    case " $peers " in *" libvterm "*) ;; *) return ;; esac
    for peer in ticurses libvterm; do
        $(words "$peer") "$2" "$3" "$(share libvterm "$2")" >"$peer.screen"
    done
    cmp -s ticurses.screen libvterm.screen || {
        echo "feed: the screens of the stream $1 differ at $2 by $3" >&2
        exit 1
    }
}

# measure KIND ROWS COLS
measure() {
    awk -v kind="$1" -v rows="$2" -v cols="$3" -v bytes=1048576 -f "$here/stream.awk" >part
    for _ in 1 2 3 4 5 6 7 8 9 10 11 12 13 14 15 16; do cat part; done >stream
    head -c $(($2 < 200 ? 65536 : 1048576)) stream >little
    head -c $(($2 < 200 ? 262144 : 2097152)) stream >more
    same "$@"
    for _ in 1 2 3 4 5; do timed "$2" "$3"; done | awk -v what="$(printf '%-10s %3d by %-4d' "$@")" '
        {
            speed = $2 * 1.048576 / ($3 > $4 ? $3 - $4 : 0.001)
            if (!($1 in best)) order[++count] = $1
            if (speed > best[$1]) best[$1] = speed
        }
        END {
            printf "%s ticurses %4.0f MB/s", what, best["ticurses"]
            for (at = 2; at <= count; at++)
                printf ", %s %5.1f MB/s, ratio %.2f", order[at], best[order[at]], best["ticurses"] / best[order[at]]
            printf "\n"
        }'
    can_count || return 0
    counted "$2" "$3" | awk -v what="$(printf '%-10s %3d by %-4d' "$@")" '
        NR == 1 { ours = $2; printf "%s ticurses %s instructions a byte", what, $2 }
        NR > 1 { printf ", %s %s, ratio %.2f", $1, $2, $2 / ours }
        END { printf "\n" }'
}

for kind; do
    measure "$kind" 24 80
    measure "$kind" 200 500
done
