#!/bin/sh
# The help and the manual pages: `--help` prints the texts of tests/help, the pages have them, the calls of `play --help`
# are those that the reader of scripts takes, and the causes are those of the code. Also: usage errors, options in other
# places, `-` as a file, and hints.
set -eu
cd -- "$(dirname -- "$0")/.."
exec python3 -B tests/manual.py
