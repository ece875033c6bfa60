#!/bin/sh
# The second verifier, tools/second, beside `ticurses verify`. Certificates of 150 entries of the system's database, altered
# ones, every kind of fault; its terminal beside vectors/. With --all 5,000 certificates are altered.
set -eu
cd -- "$(dirname -- "$0")/.."
exec python3 -B tests/second.py "$@"
