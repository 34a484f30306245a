#!/usr/bin/env bash
# Copies the checkout into a folder, without what git ignores, and lays the crates of audit/tests into the copy, each with the line of crates.txt that
# it needs: of samples first, which the others use.
# usage: scripts/lay_out.sh TREE      where there is no folder TREE, it is made
set -euo pipefail

if [ $# -ne 1 ]; then
    sed -n '/^# usage/s/^# //p' "$0" >&2
    exit 2
fi
mkdir -p "$1"
tree=$(realpath "$1")
cd "$(dirname "$0")/.."

# A file that was deleted and is still tracked isn't copied.
git ls-files -z --cached --others --exclude-standard | while IFS= read -r -d '' file; do
    [ ! -e "$file" ] || printf '%s\0' "$file"
done | xargs -0 cp --parents -t "$tree"

for folder in audit/tests/pit_sample audit/tests/test_*; do
    crate=${folder##*/}
    cat "$folder/needs.txt" >>"$tree/crates.txt"
    find "$folder" -mindepth 2 -name '*.txt' -printf '%P\0' | while IFS= read -r -d '' file; do
        install -D -m 644 "$folder/$file" "$tree/crates/$crate/${file%.txt}"
    done
done
