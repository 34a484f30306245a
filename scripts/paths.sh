#!/usr/bin/env bash
# Holds the paths that pages name to the tree: each leads, from the top or from the page's folder, to what is there or what git ignores. Names that stand for
# any name, as in crates/CRATE/must-fail/, have to fit some. A link to a heading has to lead to one, and what docs/PROMISES.md names behind a type, a crate or a
# module has to be a function or a test.
# usage: scripts/paths.sh
set -uo pipefail
cd "$(dirname "$0")/.." || exit 2
. tests/judge.sh

pages() { git ls-files --cached --others --exclude-standard '*.md'; }

# paths PAGE FOLDER: its links, and the words of it that begin with a folder of the tree, of crates/ or of the page's folder, or end as a source does.
paths() {
    local folders
    folders=$(git ls-files | sed -n "p; s|^crates/||p; s|^$2/||p" | sed -n 's|/.*||p' | sort -u | paste -sd '|')
    sed 's/](/ link:/g' "$1" | tr -s ' `()[]|,;' '\n' | sed -E 's/#.*//; s/[.:]+$//' |
        sed -nE "s/^link:(.)/\1/p; \#^($folders)/#p; \#^[^\$/].*\.(rt|antt|sh|py)\$#p" | grep -v '^http' | sort -u
}

# leads PATH FOLDER: to a file or a folder, or it is the name of files without their endings.
leads() {
    local any=$1 name
    for name in CRATE FILE TYPE FUNCTION NAME; do any=${any//$name/*}; done
    for name in $any $2/$any $any.*; do [ -e "$name" ] && return; done
    git check-ignore -q "$1"
}

all_lead() {
    local page path status=0
    while read -r page; do
        while read -r path; do
            leads "$path" "$(dirname "$page")" || { echo "$page: $path" && status=1; }
        done < <(paths "$page" "$(dirname "$page")")
    done < <(pages)
    return $status
}

# headings PAGE: the names by which links lead to them.
headings() { sed -n 's/^##* //p' "$1" | tr 'A-Z ' 'a-z-' | tr -cd 'a-z0-9_\n-'; }

are_headings() {
    local page to name status=0
    while read -r page; do
        while IFS='#' read -r to name; do
            headings "${to:+$(dirname "$page")/}${to:-$page}" | grep -qxe "$name" || { echo "$page: $to#$name" && status=1; }
        done < <(grep -o '](\([^()]*#[^()]*\))' "$page" | sed 's/^](//; s/)$//' | grep -v '^http' | sort -u)
    done < <(pages)
    return $status
}

are_functions() {
    ! comm -23 <(grep -oE '`[A-Za-z_]+(::[a-z_0-9]+)+`' docs/PROMISES.md | sed 's/.*:://; s/`//' | sort -u) \
        <(git grep -ohE 'fn +[a-z_0-9]+' -- crates audit/tests | sed 's/.* //' | sort -u) | grep .
}

judge "each path that a page names is there" all_lead
judge "each heading that a link names is there" are_headings
judge "each function and test that docs/PROMISES.md names is there" are_functions
judged
