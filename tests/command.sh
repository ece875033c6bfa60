#!/bin/sh
# Whole runs of `command`, with files and writers in memory: statuses, outputs that are closed, full or slow, files
# without end (command_tests.txt), and the worked examples that are runs of a command (command/). They are tests of the
# program's own crate, run without proof: a proof there reads the command line's parser, and proving the tests too would
# take as long as proving the program.
set -eu
cd -- "$(dirname -- "$0")/.."
. tests/probing

work=$(mktemp -d)
trap 'rm -rf "$work"' EXIT
# some shells leave out that where a signal ends them
trap 'exit 130' HUP INT TERM
# shellcheck disable=SC2046
lay "$work/command" $(sed -n 's/^ticurses: *//p' crates.txt)
cp crates/ticurses/src/*.rt "$work/command/crates/probe/src"
cp tests/command_tests.txt "$work/command/crates/probe/src/tests.rt"
fill "$work/command" tests/command
printf '\n#[cfg(test)]\nmod %s;\n' tests rooms examples scripts >>"$work/command/crates/probe/src/main.rt"
sed -i "s/^probe: .*/$(grep '^ticurses:' crates.txt | sed 's/^ticurses:/probe:/')/" "$work/command/crates.txt"
attempt "$work/command" --test
must_run "$work/command" "command: not each whole run of the program passes"
must_pass "$work/command" tests/command_tests.txt tests/command/*.txt
echo "command: $wanted tests of whole runs pass"
