#!/bin/sh
# All faults of an entry at once: `check --all` and `survey --all` of 60 entries with two to six planted faults, each
# with its line; of an entry whose faults are all mended in one round, by hand and by the suggested strings; of seventeen
# entries whose strings are right only together; of three whose faults may depend on others; and of two entries with
# one name.
set -eu
cd -- "$(dirname -- "$0")/.."
exec python3 -B tests/faults.py
