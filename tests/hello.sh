#!/bin/sh
# `hello`, the first program over the library: the screens that it leaves, and what it refuses.
set -eu
cd -- "$(dirname -- "$0")"
exec python3 -B hello.py
