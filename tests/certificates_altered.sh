#!/bin/sh
# The certificate of a small entry at 2 by 2, cut at each length and altered at each byte. The judgements must be those
# of a plain judge in Python, which goes by lines and runs the strings on a small terminal. One build without proof
# serves all cases, since the code is proved in its crates.
set -eu
cd -- "$(dirname -- "$0")"
exec python3 -B certificates_altered.py
