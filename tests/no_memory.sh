#!/bin/sh
# The calls that must take no memory take none: a program that makes all of them asks for memory as often as the program
# without them. A contract can't say this, since a body that requests memory and drops it would meet the contract too.
set -eu
cd -- "$(dirname -- "$0")/.."
. tests/probing

work=$(mktemp -d)
trap 'rm -rf "$work"' EXIT
# some shells leave out that where a signal ends them
trap 'exit 130' HUP INT TERM

# count NAME CALLS: runs the program with these calls, true or false; `allocations` of NAME.log is how often it asked
count() {
    # shellcheck disable=SC2046
    lay "$work/$1" $(used tests/no_memory_probe.txt)
    sed "s/^const CALLS: bool = true;/const CALLS: bool = $2;/" tests/no_memory_probe.txt >"$work/$1/crates/probe/src/main.rt"
    # no program asks so often, so no request is refused, and they are counted
    attempt "$work/$1" --fail-alloc 1000000
}

count with true &
count without false &
wait
for probe in with without; do
    must_run "$work/$probe" "no_memory: the program $probe the calls fails"
    sed -n 's/^allocations: //p' "$work/$probe.log" >"$work/$probe.count"
done
if [ ! -s "$work/with.count" ] || ! cmp -s "$work/with.count" "$work/without.count"; then
    echo "no_memory: $(cat "$work/with.count") requests with the calls, and $(cat "$work/without.count") without" >&2
    exit 1
fi
# a painter's request is the last one
attempt "$work/without" --fail-alloc "$(cat "$work/without.count")"
if ! grep -q '^ *refused: Painter::start$' "$work/without.log"; then
    cat "$work/without.log" >&2
    echo "no_memory: a painter starts although its request is refused" >&2
    exit 1
fi
echo "no_memory: the calls that are to take no memory ask for none; what they work on was made with $(cat "$work/with.count") requests"
