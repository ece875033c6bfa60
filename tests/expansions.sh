#!/bin/sh
# `ticurses expand` beside other programs: formats beside printf(1), arithmetic beside the shell's own, conditionals, variables
# and the system's cursor and color strings beside ncurses' tput; and conditionals 454 deep, which no other program judges.
set -eu
cd -- "$(dirname -- "$0")/.."
. tests/probing

needs expansions od tr cut awk
work=$(mktemp -d)
trap 'rm -rf "$work"' EXIT
# some shells leave out that where a signal ends them
trap 'exit 130' HUP INT TERM
mkdir "$work/cases"
count=0

# wanted COLUMN STRING PARAM..: a case whose bytes, in the file `bytes`, leave the cursor in that column;
# `length`: in the one behind as many printed bytes, 500 a row
wanted() {
    column=$1
    shift
    count=$((count + 1))
    case=$work/cases/$(printf %04d "$count")
    : >"$case"
    string=$1
    shift
    printf '%s\n' expand "$string" 200 500 "$@" >"$case.args"
    hex=$(od -An -v -tx1 "$work/bytes" | tr -d ' \n')
    row=0
    if [ "$column" = length ]; then
        row=$((${#hex} / 2 / 500))
        column=$((${#hex} / 2 % 500))
    fi
    printf '%s\ncursor %s %s\n' "$hex" "$row" "$column" >"$case.stdout"
}

# formats: each number in each flag, width and precision, beside printf's of the same format. A number
# below 0 is made by a subtraction, and `o x X` show it as the two's complement of 32 bits.
formats() {
    for flags in '' '-' '+' ' ' '#' '0' '-#' '+0' ' 0' '#0' '-0' '- '; do
        for kind in d o x X; do
            case $flags$kind in *'#'*d) continue ;; esac
            ours=
            theirs=
            for size in '' 1 7 12 .0 .3 9.4 7.0 .; do
                ours="$ours%ga%:$flags$size$kind|"
                theirs="$theirs%$flags$size$kind|"
            done
            string="%p1%Pa$ours%p2%Pa$ours%p3%Pa$ours%{0}%p2%-%Pa$ours%{0}%p3%-%{1}%-%Pa$ours"
            : >"$work/bytes"
            for number in 0 42 2147483647 -42 -2147483648; do
                case $kind$number in ?-*) if [ "$kind" != d ]; then number=$((4294967296 + number)); fi ;; esac
                # shellcheck disable=SC2059
                printf "$theirs" $number $number $number $number $number $number $number $number $number >>"$work/bytes"
            done
            wanted length "$string" 0 42 2147483647
        done
    done
    for text in '' a abc 'a longer text'; do
        string='%p1%s|%p1%5s|%p1%:-5s|%p1%.2s|%p1%9.4s|%p1%:-9.4s|%p1%.0s|%p1%20s|'
        printf '%s|%5s|%-5s|%.2s|%9.4s|%-9.4s|%.0s|%20s|' "$text" "$text" "$text" "$text" "$text" "$text" "$text" "$text" >"$work/bytes"
        wanted length "$string" "s:$text"
    done
}

# operators beside the shell's arithmetic, which is C's
arithmetic() {
    operators='%ga%gb%+%d|%ga%gb%-%d|%ga%gb%*%d|%ga%gb%/%d|%ga%gb%m%d|%ga%gb%&%d|%ga%gb%|%d|%ga%gb%\^%d|'
    operators="$operators%ga%gb%=%d|%ga%gb%>%d|%ga%gb%<%d|%ga%gb%A%d|%ga%gb%O%d|%ga%!%d|%ga%~%d|"
    for pair in '7 2' '-7 2' '7 -2' '-7 -2' '0 5' '5 3' '12 10' '255 -16' '46340 46340' '-1 1' '6 6'; do
        a=${pair% *}
        b=${pair#* }
        set --
        for number in "$a" "$b"; do
            case $number in
            -*) set -- "$@" "%{0}%{${number#-}}%-" ;;
            *) set -- "$@" "%{$number}" ;;
            esac
        done
        printf '%d|%d|%d|%d|%d|%d|%d|%d|%d|%d|%d|%d|%d|%d|%d|' $((a + b)) $((a - b)) $((a * b)) $((a / b)) \
            $((a % b)) $((a & b)) $((a | b)) $((a ^ b)) $((a == b)) $((a > b)) $((a < b)) $((a && b)) \
            $((a || b)) $((!a)) $((~a)) >"$work/bytes"
        wanted length "$1%Pa$2%Pb$operators"
    done
}

# strings of our own as `sgr` of a small description by tput, which wants as many parameters as they use
by_tput() {
    for peer in tput tic; do
        if ! command -v "$peer" >/dev/null 2>&1; then
            echo "expansions: conditionals and variables beside tput skipped, since $peer is missing"
            return
        fi
    done
    number=0
    while read -r used string; do
        number=$((number + 1))
        printf 'parm%s|strings,\n\tcols#80, lines#24, sgr=%s,\n' "$number" "$string" >"$work/source"
        tic -o "$work/terminfo" "$work/source" 2>/dev/null
        for params in '0 0 0 0 0 0 0 0 0' '1 0 0 0 0 0 0 0 7' '2 3 0 1 0 1 0 1 8' '60 40 7 8 9 1 2 3 4'; do
            params=$(echo "$params" | cut -d' ' -f"1-$used")
            # shellcheck disable=SC2086
            TERMINFO=$work/terminfo tput -T "parm$number" sgr $params >"$work/bytes"
            # shellcheck disable=SC2086
            wanted length "$string" $params
        done
    done <<'STRINGS'
1 %?%p1%t1%e2%;
1 %?%p1%{1}%=%ta%e%p1%{2}%=%tb%e%p1%{3}%=%tc%ed%;.
2 %?%p1%t%?%p2%tboth%eone%;%e%?%p2%ttwo%enone%;%;
3 %i%p1%d;%p2%d;%p3%d
1 %p1%{0}%/%d;%p1%{0}%m%d
1 %p1%'!'%+%c
1 %p1%!%d;%p1%~%d
2 %p1%p2%A%d;%p1%p2%O%d
1 %p1%{7}%&%d;%p1%{8}%|%d;%p1%{5}%\^%d
2 %p1%Pa%p2%Pz%ga%gz%+%d;%gb%d
9 %p9%d;%p1%02d;%p2%x;%%
3 %p1%:-4d|%p2%4d|%p3%3d
9 a%?%p1%{5}%>%p2%{2}%>%O%tb%?%p9%{6}%>%tc%;d%e%p4%te%ef%;g
3 %?%?%p1%t%p2%e%p3%;%tx%ey%;
STRINGS
}

# the system's color strings by tput, as far as they are one SGR sequence, which leaves the cursor
system() {
    command -v tput >/dev/null 2>&1 && command -v infocmp >/dev/null 2>&1 || {
        echo "expansions: the system's colors skipped, since tput or infocmp is missing"
        return
    }
    for name in ansi linux screen screen-256color tmux-256color xterm xterm-256color vt220 rxvt putty; do
        for cap in setaf setab sgr; do
            string=$(infocmp -1 "$name" 2>/dev/null | sed -n "s/^\t$cap=\(.*\),\$/\1/p")
            case $string in '' | *'$<'*) continue ;; esac
            case $cap in
            sgr) lists='0,1,0,1,0,1,0,0,0 1,0,1,0,1,0,0,0,1' ;;
            *) lists='1 15 200' ;;
            esac
            for list in $lists; do
                params=$(echo "$list" | tr , ' ')
                # shellcheck disable=SC2086
                tput -T "$name" "$cap" $params >"$work/bytes" 2>/dev/null || continue
                if od -An -v -tx1 "$work/bytes" | tr -d ' \n' | grep -Eq '^1b5b(3[0-9b])*6d(0e|0f)?$'; then
                    # shellcheck disable=SC2086
                    wanted 0 "$string" $params
                fi
            done
        done
    done
}

# the cursor addresses of the system's terminals by tput, at a few places
addresses() {
    command -v tput >/dev/null 2>&1 && command -v infocmp >/dev/null 2>&1 || return 0
    for name in ansi linux screen tmux vt220 xterm; do
        string=$(infocmp -1 "$name" 2>/dev/null | sed -n 's/^\tcup=\(.*\),$/\1/p')
        # tput sends delays as padding
        case $string in '' | *'$<'*) continue ;; esac
        for place in '0 0' '1 3' '9 99' '23 79'; do
            # shellcheck disable=SC2086
            tput -T "$name" cup $place >"$work/bytes"
            # shellcheck disable=SC2086
            wanted 0 "$string" $place
            printf '%s\ncursor %s\n' "$hex" "$place" >"$case.stdout"
        done
    done
}

# conditionals 454 deep round a letter, 4,087 bytes
deep() {
    nest=$(awk 'BEGIN { for (i = 0; i < 454; i++) printf "%%?%%p1%%t"; printf "x"; for (i = 0; i < 454; i++) printf "%%;" }')
    printf x >"$work/bytes"
    wanted length "$nest" 1
    : >"$work/bytes"
    wanted length "$nest" 0
    count=$((count + 1))
    : >"$work/cases/open"
    printf '%s\n' expand "${nest%??}" 200 500 0 >"$work/cases/open.args"
    : >"$work/cases/open.stdout"
    echo 1 >"$work/cases/open.status"
}

formats
arithmetic
by_tput
system
addresses
deep
if ! python3 -B tests/trying.py "$work/cases" >"$work/log" 2>&1; then
    head -40 "$work/log" >&2
    echo "expansions: the answers differ" >&2
    exit 1
fi
echo "expansions: $count expansions are the same as those of printf, the shell, tput and the nest"
