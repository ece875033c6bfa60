#!/bin/sh
# Small compiled files, cut at each length and altered at each byte. The answers must be those of a plain reader in
# Python, which goes by places in the file. One build without proof serves all cases, since the code is proved in its
# crates.
set -eu
cd -- "$(dirname -- "$0")"
exec python3 -B compiled_altered.py
