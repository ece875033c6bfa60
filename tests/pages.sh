#!/bin/sh
# Pages of docs/ that are made from the sources agree with them. Links lead somewhere, no paragraph breaks off,
# docs/THEOREM.md leaves out no word and no sentence, and every file that names the version names one version.
set -eu
cd -- "$(dirname -- "$0")/.."
python3 -B tools/version.py --check
python3 -B tools/paragraphs.py
exec python3 -B tools/pages.py --check
