#!/bin/sh
# The pictures of README and docs/: they are what the scripts make of the program's reports and of the pages' tables, and
# none has more than 60 KB.
set -eu
cd -- "$(dirname -- "$0")/.."
python3 -B tools/charts.py --check
python3 -B tools/pictures.py --check
large=$(find docs/pictures -size +60k)
[ -z "$large" ] || { echo "pictures: more than 60 KB: $large"; exit 1; }
for page in README.md docs/*.md; do
    folder=$(dirname -- "$page")
    grep -o ']([^)]*\.svg)' "$page" | sed 's/^](//; s/)$//' | while IFS= read -r path; do
        [ -f "$folder/$path" ] || { echo "pictures: $page shows $path, which isn't there"; exit 1; }
    done || exit 1
done
echo "pictures: $(find docs/pictures -name '*.svg' | wc -l) pictures are what the scripts make"
