#!/bin/sh
# The streams of screens.txt, fed to the terminal, leave the screens that the file has. If libvterm and a C compiler are
# installed, the screens that the file has from libvterm are compared with libvterm's.
set -eu
cd -- "$(dirname -- "$0")/.."
work=$(mktemp -d)
trap 'rm -rf "$work"' EXIT
# some shells leave out that where a signal ends them
trap 'exit 130' HUP INT TERM
mkdir "$work/cases"

count=0
case=
while IFS= read -r line; do
    case $line in
    '#'*) ;;
    '') case= ;;
    *)
        if [ -n "$case" ]; then
            printf '%s\n' "$line" >>"$case.stdout"
            continue
        fi
        count=$((count + 1))
        source=${line%% *}
        line=${line#* }
        rows=${line%% *}
        line=${line#* }
        case=$work/cases/$count
        printf '%b' "${line#* }" >"$case"
        printf '%s\n' feed "$rows" "${line%% *}" '{}' >"$case.args"
        : >"$case.stdout"
        if [ "$source" = libvterm ]; then
            echo "$count $rows ${line%% *}" >>"$work/libvterm"
        fi
        ;;
    esac
done <tests/screens.txt

if printf '#include <vterm.h>\nint main(void) { return 0; }\n' | cc -x c -o "$work/peer" - -lvterm 2>/dev/null; then
    cc -O2 -o "$work/peer" bench/peer.c -lvterm
    while read -r name rows cols; do
        if ! "$work/peer" "$rows" "$cols" "$work/cases/$name" | cmp -s - "$work/cases/$name.stdout"; then
            echo "screens: stream $name: libvterm shows another screen" >&2
            exit 1
        fi
    done <"$work/libvterm"
    echo "screens: libvterm shows those that are said to be its own"
else
    echo "screens: a C compiler or libvterm is not installed, and what libvterm shows is left out"
fi
if ! python3 -B tests/trying.py "$work/cases" >"$work/log" 2>&1; then
    cat "$work/log" >&2
    echo "screens: the answers differ" >&2
    exit 1
fi
echo "screens: $count streams leave the screens that are known"
