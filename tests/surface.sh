#!/bin/sh
# The published surface of the libraries (surface/): each public call by its name and with its arguments, from the crate that
# offers it, and its answer. If a call had another name or other arguments, the program wouldn't compile. (command.sh
# calls `command`, since no other crate can use a program's crate.)
set -eu
cd -- "$(dirname -- "$0")/.."
. tests/probing

work=$(mktemp -d)
trap 'rm -rf "$work"' EXIT
# some shells leave out that where a signal ends them
trap 'exit 130' HUP INT TERM
# shellcheck disable=SC2046
lay "$work/surface" $(used tests/surface/*.txt)
fill "$work/surface" tests/surface
attempt "$work/surface" --test
must_run "$work/surface" "surface: not each public call has its name, its arguments and its answer"
must_pass "$work/surface" tests/surface/*.txt
echo "surface: $wanted tests call each public call by its name"
