#!/bin/sh
# Fields that continue on further lines, with --join: each command says what it says of the text with joined lines, and
# names the lines of the file as it is; compiled files and certificates are read as they are.
set -eu
cd -- "$(dirname -- "$0")/.."
exec python3 -B tests/joins.py
