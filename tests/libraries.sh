#!/bin/sh
# Tests of the libraries' public calls (libraries/): worked examples, texts, screens and refusals, worked out by hand.
# They run without proof: the calls are proved in their crates, and proving the examples too would take many minutes and
# show no more.
set -eu
cd -- "$(dirname -- "$0")/.."
. tests/probing

work=$(mktemp -d)
trap 'rm -rf "$work"' EXIT
# some shells leave out that where a signal ends them
trap 'exit 130' HUP INT TERM
# shellcheck disable=SC2046
lay "$work/libraries" $(used tests/libraries/*.txt)
fill "$work/libraries" tests/libraries
attempt "$work/libraries" --test
must_run "$work/libraries" "libraries: not each test of the libraries' calls passes"
must_pass "$work/libraries" tests/libraries/*.txt
echo "libraries: $wanted tests of the libraries' calls pass"
