#!/bin/sh
# The number of expansions a second by `expand`, and by ncurses' tparm and unibilium (Debian: libunibilium-dev) in the
# same run; and how the time grows with a string's length. Each figure is of the least processor time of seven runs, in
# turn. A ratio is the peer's time to that of ticurses. The instructions of one expansion follow, by valgrind's
# callgrind, which doesn't depend on the machine's load. The program over `expand` (parm_main.txt) is proved first, with
# ti_parm. The script needs bash; it says which peers it can't build, and leaves them out.
set -eu
cd -- "$(dirname -- "$0")/.."

work=$(mktemp -d)
trap 'rm -rf "$work"' EXIT
trap 'exit 130' HUP INT TERM
. tests/probing
lay "$work/repository" ti_parm
cp bench/parm_main.txt "$work/repository/crates/probe/src/main.rt"
if ! (cd "$work/repository/crates/probe" && rt run -- 0 '' >"$work/log" 2>&1); then
    cat "$work/log" >&2
    exit 1
fi
ours=$work/repository/crates/probe/out/probe
. bench/instructions.sh
# the programs that there are
peers=
if cc -O2 -o "$work/tparm" bench/parm_peer.c -ltinfo 2>"$work/log" || cc -O2 -o "$work/tparm" bench/parm_peer.c -lncurses 2>"$work/log"; then
    peers="$peers tparm"
else
    echo "bench: tparm is left out, since cc or ncurses' headers are missing"
fi
if cc -O2 -o "$work/unibilium" bench/unibilium_peer.c -lunibilium 2>"$work/log"; then
    peers="$peers unibilium"
else
    echo "bench: unibilium is left out, since it or cc is missing"
fi
can_count || echo "bench: instructions are left out, since valgrind is missing"

# spent PROGRAM WORD..: the processor time of a run, in nanoseconds
spent() {
    { LC_ALL=C bash -c 'TIMEFORMAT="%U %S"; time "$@" >/dev/null' bash "$@"; } 2>&1 |
        awk '{ printf "%d\n", ($1 + $2) * 1000000000 }'
}

# least: the least of the numbers that come in
least() {
    sort -n | head -n 1
}

# of_one PROGRAM COUNT STRING PARAM..: the instructions of one expansion
of_one() {
    program=$1
    shift 2
    few=$(instructions "$program" 1000 "$@")
    many=$(instructions "$program" 3000 "$@")
    echo $(((many - few) / 2000))
}

# ratio A B
ratio() {
    awk -v a="$1" -v b="$2" 'BEGIN { printf "%.2f", a / b }'
}

# beside NAME COUNT STRING PARAM..
beside() {
    name=$1
    shift
    "$ours" "$@" >"$work/ours"
    for peer in $peers; do
        "$work/$peer" "$@" >"$work/theirs"
        cmp -s "$work/ours" "$work/theirs" || {
            echo "bench: $name: not as many bytes as $peer" >&2
            exit 1
        }
    done
    for _ in 1 2 3 4 5 6 7; do
        echo "ours $(spent "$ours" "$@")"
        for peer in $peers; do
            echo "$peer $(spent "$work/$peer" "$@")"
        done
    done >"$work/times"
    mine=$(sed -n 's/^ours //p' "$work/times" | least)
    printf '%-22s ticurses %9d a second' "$name" $(($1 * 1000000000 / mine))
    for peer in $peers; do
        other=$(sed -n "s/^$peer //p" "$work/times" | least)
        printf ', %s %9d, ratio %s' "$peer" $(($1 * 1000000000 / other)) "$(ratio "$other" "$mine")"
    done
    printf '\n'
    can_count || return 0
    mine=$(of_one "$ours" "$@")
    printf '%-22s ticurses %9d instructions' "$name" "$mine"
    for peer in $peers; do
        other=$(of_one "$work/$peer" "$@")
        printf ', %s %9d, ratio %s' "$peer" "$other" "$(ratio "$other" "$mine")"
    done
    printf '\n'
}

# grows NAME STRING HALF PARAM: nanoseconds a byte, of the whole string and of one half as long
grows() {
    name=$1
    whole=$2
    half=$3
    shift 3
    for string in "$half" "$whole"; do
        took=$(for _ in 1 2 3 4 5; do spent "$ours" 2000 "$string" "$@"; done | least)
        awk "BEGIN { printf \"%-22s %6d bytes %10.1f us %8.2f ns a byte\n\", \"$name\", ${#string}, $took / 2000 / 1000, $took / 2000 / ${#string} }"
    done
}

# nested DEPTH: a letter within that many nested conditionals
nested() {
    awk "BEGIN { for (i = 0; i < $1; i++) printf \"%%?%%p1%%t\"; printf \"x\"; for (i = 0; i < $1; i++) printf \"%%;\" }"
}

# others DEPTH: that many conditionals, each in the `%e` of the one before
others() {
    awk "BEGIN { for (i = 0; i < $1; i++) printf \"%%?%%p2%%te%%e\"; printf \"x\"; for (i = 0; i < $1; i++) printf \"%%;\" }"
}

escape=$(printf '\033')
in=$(printf '\016')
out=$(printf '\017')
beside 'cup 23 79' 1000000 "${escape}[%i%p1%d;%p2%dH" 23 79
beside 'sgr, nine parameters' 500000 "${escape}[0;10%?%p1%t;7%;%?%p2%t;4%;%?%p3%t;7%;%?%p4%t;5%;%?%p5%t;2%;%?%p6%t;1%;m%?%p9%t$in%e$out%;" 0 1 0 1 0 1 0 0 1
beside 'setaf 200' 1000000 "${escape}[%?%p1%{8}%<%t3%p1%d%e%p1%{16}%<%t9%p1%{8}%-%d%e38;5;%p1%d%;m" 200
grows 'nest, each run' "$(nested 454)" "$(nested 227)" 1
grows 'nest, passed over' "$(nested 454)" "$(nested 227)" 0
grows 'nest in %e' "$(others 372)" "$(others 186)" 1 0
