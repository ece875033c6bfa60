#!/bin/sh
# A row that `row_mut` returns borrows the desk: a program that makes another call on the desk while the row is still used
# must not compile. The compiler refuses that before any proof, so no must-fail edit can show it.
# With the call after the last use of the row, that program compiles and runs.
set -eu
cd -- "$(dirname -- "$0")/.."
. tests/probing

work=$(mktemp -d)
trap 'rm -rf "$work"' EXIT
# some shells leave out that where a signal ends them
trap 'exit 130' HUP INT TERM

# probe NAME DURING WITHIN AFTER: a program that writes through a lent line and then through its cells; the others are lines of it
probe() {
    lay "$work/$1" cur_windows
    cat >"$work/$1/crates/probe/src/main.rt" <<END
#![tactic(auto)]

use cur_windows::{Attrs, Cell, Desk, Size, View};
use std::process::ExitCode;

fn main(rt: HostRuntime) -> ExitCode {
    let Some(size) = Size::new(2, 4) else {
        return ExitCode::FAILURE;
    };
    let Ok(mut desk) = Desk::new(rt.alloc(), size) else {
        return ExitCode::FAILURE;
    };
    let Ok(mut line) = desk.row_mut(0, 1) else {
        return ExitCode::FAILURE;
    };
    $2
    line.set(3, Cell::new(b'z', Attrs::none(), 0));
    let cells = line.into_cells();
    $3
    cells[2] = Cell::new(b'y', Attrs::none(), 0);
    $4
    match desk.view(0) {
        Ok(window) if window.row(1)[3].byte() == b'z' && window.row(1)[2].byte() == b'y' => ExitCode::SUCCESS,
        _ => ExitCode::FAILURE,
    }
}
END
    attempt "$work/$1"
}

probe right '' '' 'let _ = desk.touchwin(0);' &
probe changed 'let _ = desk.erase(0);' '' '' &
probe looked_at 'let _ = desk.touchwin(0);' '' '' &
probe drawn_on '' 'let _ = desk.erase(0);' '' &
wait

must_run "$work/right" "borrowed_row: a program that is done with its row is refused"
for held in changed looked_at drawn_on; do
    must_not_compile "$work/$held" 'error\[borrow-e0\(499\|502\)\]' "borrowed_row: a desk may be $held while a row of it is borrowed"
done
echo "borrowed_row: while a row is borrowed, no other call on the desk compiles"
