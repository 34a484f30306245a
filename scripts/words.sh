#!/usr/bin/env bash
# Holds all pages of the tree together to a ceiling: each word is read by somebody. Where they have more, the words of each page are printed.
# usage: scripts/words.sh
set -uo pipefail
cd "$(dirname "$0")/.." || exit 2

# The most words that all *.md may have together, but those that git ignores.
ceiling=37650

work=$(mktemp -d)
trap 'rm -rf "$work"' EXIT
. tests/judge.sh

# pages: their words, each page's and then those of all.
pages() { git ls-files -z --cached --others --exclude-standard '*.md' | LC_ALL=C wc -w --files0-from=-; }

fits() {
    pages >"$work/pages" || { cat "$work/pages" && return 1; }
    [ "$(tail -n 1 "$work/pages" | awk '{ print $1 }')" -le "$ceiling" ] || { sort -n "$work/pages" && return 1; }
}

judge "all pages have at most $ceiling words" fits
judged
