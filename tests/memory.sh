#!/bin/sh
# Each request for memory is refused in turn. The program of memory/ makes the calls one after another. If a call
# answers that it ran out of memory, the program prints `refused: CALL` and checks that nothing else has changed. The
# number of the refused request never changes; instead, the program first makes as many requests as its argument has
# letters, so that one build serves every run. Each call named in memory.txt must meet a refusal.
set -eu
cd -- "$(dirname -- "$0")/.."
. tests/probing

work=$(mktemp -d)
trap 'rm -rf "$work"' EXIT
# some shells leave out that where a signal ends them
trap 'exit 130' HUP INT TERM

# the number of the refused request: more than the calls make together, so that requests before and after them are
# refused too
REFUSED=840

mkdir "$work/cases"
word=
for n in $(seq "$REFUSED"); do
    word=x$word
    : >"$work/cases/$n"
    echo "$word" >"$work/cases/$n.args"
done
# shellcheck disable=SC2046
lay "$work/probe" $(used tests/memory/*.txt)
fill "$work/probe" tests/memory
attempt "$work/probe" --steps 1 --cases "$work/cases" --fail-alloc "$REFUSED"
must_run "$work/probe" "memory: the calls can't be tried"

# with more and more requests before the calls, the refusal meets first none of the calls' requests, then one after
# them, then theirs, then one before them
sed -n 's/^case=\([0-9]*\) run=ended status=\([0-9]*\) .*/\1 \2/p' "$work/probe.log" | sort -n | cut -d ' ' -f 2 >"$work/statuses"
if [ "$(wc -l <"$work/statuses")" -ne "$REFUSED" ] || grep -qvx '[023]' "$work/statuses"; then
    cat "$work/probe.log" >&2
    echo "memory: a call fails where one of its requests is refused" >&2
    exit 1
fi
case $(uniq "$work/statuses" | tr -d '\n') in
302 | 0302) ;;
*)
    echo "memory: the calls ask for memory more than $REFUSED times, so the first ones were not refused" >&2
    exit 1
    ;;
esac
grep -v '^#' tests/memory.txt | while read -r call; do
    if ! grep -q "^ *refused: $call\$" "$work/probe.log"; then
        echo "memory: no request of $call was refused" >&2
        exit 1
    fi
done
echo "memory: $(grep -vc '^#' tests/memory.txt) calls are refused each of their requests in turn, $(sed -n '/3/,/2/p' "$work/statuses" | grep -c 0) in all"
