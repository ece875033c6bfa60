#!/bin/sh
# The result of `decode` borrows from the file: a program that keeps it, or its names, for longer than the
# file must not compile. The compiler refuses that before any proof, so no must-fail edit can show it.
# With a file that lives long enough, that program compiles and runs.
set -eu
cd -- "$(dirname -- "$0")/.."
. tests/probing

work=$(mktemp -d)
trap 'rm -rf "$work"' EXIT
# some shells leave out that where a signal ends them
trap 'exit 130' HUP INT TERM

# probe NAME OUTER FIRST SECOND: a program that keeps what was read, and names; the others are lines of it
probe() {
    lay "$work/$1" ti_compiled
    cat >"$work/$1/crates/probe/src/main.rt" <<END
#![tactic(auto)]

use std::process::ExitCode;
use ti_compiled::decode;

fn main(_rt: HostRuntime) -> ExitCode {
    $2
    let packed = {
        $3
        decode(&file)
    };
    let names = {
        $4
        decode(&file).map(|packed| packed.names())
    };
    match (packed, names) {
        (Ok(packed), Ok(names)) if packed.names() == names => ExitCode::SUCCESS,
        _ => ExitCode::FAILURE,
    }
}
END
    attempt "$work/$1"
}

file='let file = [0x1a_u8, 1, 2, 0, 0, 0, 0, 0, 0, 0, 0, 0, 109, 0];'
probe right "$file" '' '' &
probe packed "$file" "$file" '' &
probe names "$file" '' "$file" &
wait

must_run "$work/right" "borrowed_file: a program whose file lives long enough is refused"
for kept in packed names; do
    must_not_compile "$work/$kept" 'error\[borrow-e0597\]: `file` does not live long enough$' \
        "borrowed_file: the $kept may live longer than the file"
done
echo "borrowed_file: what was read, and its names, may not live longer than the file"
