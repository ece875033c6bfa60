#!/bin/sh
# The callers in the crates' READMEs compile: all of them as modules of one program, with the crates that they use, and
# those in C against include/.
set -eu
cd -- "$(dirname -- "$0")/.."
. tests/probing

work=$(mktemp -d)
trap 'rm -rf "$work"' EXIT
# some shells leave out that where a signal ends them
trap 'exit 130' HUP INT TERM
mkdir "$work/sources"
python3 -B tests/readmes.py --callers "$work/sources" >"$work/names"
# shellcheck disable=SC2046
lay "$work/callers" $(used "$work"/sources/*.rt)
mv "$work"/sources/*.rt "$work/callers/crates/probe/src"
{
    echo "//! The callers of the READMEs, which nothing calls."
    echo "#![tactic(auto)]"
    echo
    sed 's/.*/pub mod &;/' "$work/names"
    echo
    echo "fn main(_rt: HostRuntime) {}"
} >"$work/callers/crates/probe/src/main.rt"
attempt "$work/callers"
must_run "$work/callers" "callers: not each caller of a README compiles"
if command -v cc >/dev/null 2>&1; then
    for crate in curses_c terminfo_c; do
        sed -n '/^```c$/,/^```$/p' "crates/$crate/README.md" | grep -v '^```' >"$work/caller.c"
        cc -std=c99 -Wall -Wextra -Werror -fsyntax-only -Iinclude "$work/caller.c"
    done
    echo "callers: the callers in C compile"
else
    echo "callers: the callers in C are skipped, since cc is missing"
fi
echo "callers: the callers of $(wc -l <"$work/names") READMEs compile"
