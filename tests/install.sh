#!/usr/bin/env bash
# Installs a built program into a folder, runs it from there, formats its manual page, completes words, and uninstalls it.
# usage: tests/install.sh PIT      PIT is the path of the program. It lies as ./pit in a copy of what `make install` takes from the tree, where it is newer
# than all that it is made of, so that an unproved one is installed too. In the tree itself `make install` proves what isn't proved.
set -u

. "$(dirname "$0")/judge.sh"
if [ $# -ne 1 ] || [ ! -x "$1" ]; then
    echo "usage: $0 PIT" >&2
    exit 2
fi
program=$(realpath "$1")
work=$(mktemp -d)
trap 'rm -rf "$work"' EXIT
cd "$(dirname "$0")/.." || exit 2
mkdir "$work/tree" "$work/tree/crates"
cp -r Makefile crates.txt HANDLES scripts share docs examples "$work/tree" && cp "$program" "$work/tree/pit" && cd "$work/tree" || exit 2

at=$work/root/opt/pit
judge 'install' make --no-print-directory install DESTDIR="$work/root" PREFIX=/opt/pit
files() {
    (cd "$work/root" && find . -type f | sort)
}
wanted='./opt/pit/bin/pit
./opt/pit/bin/pit-page
./opt/pit/share/bash-completion/completions/pit
./opt/pit/share/doc/pit/FORMATS.md
./opt/pit/share/man/man1/pit.1'
judge 'what is installed' diff <(files) <(echo "$wanted")

installed_value() {
    [ "$("$at/bin/pit" value examples/tiny/tiny.cpit examples/tiny/tiny.sol)" = 37.772727272730000000 ]
}
judge 'the program runs from there' installed_value

# It finds the program beside it.
page_is_drawn() {
    "$at/bin/pit-page" examples/tiny/tiny.cpit examples/tiny/tiny.prec examples/tiny/tiny.sol >"$work/drawn" && grep -qF "exactly 37.772727272730000000" "$work/drawn"
}
judge 'pit-page draws from there' page_is_drawn

# The page as a terminal of 80 columns shows it, without a warning.
page() {
    if command -v groff >/dev/null; then
        groff -man -Tutf8 -ww -P-cbou -rLL=80n "$at/share/man/man1/pit.1"
    else
        MANWIDTH=80 man --warnings=w -P cat "$at/share/man/man1/pit.1"
    fi
}
formats() {
    page >"$work/page" 2>"$work/warnings" && [ -s "$work/page" ] && diff /dev/null "$work/warnings"
}
has_sections() {
    for section in NAME SYNOPSIS DESCRIPTION COMMANDS FILES 'EXIT STATUS' EXAMPLES; do
        grep -qx "$section" "$work/page" || { echo "no section $section"; return 1; }
    done
}
# Each option, and each argument in angle brackets, of each subcommand's help.
has_words() {
    local words command
    for command in value check table diff info show plan replay log merge; do
        ./pit "$command" --help | grep -oE -- '--[a-z-]+|<[A-Z]+>' | sort -u >"$work/words"
        [ -s "$work/words" ] || return 1
        while read -r words; do
            grep -qF -- "$words" "$work/page" || { echo "$command: no $words"; return 1; }
        done <"$work/words"
    done
}
if command -v groff >/dev/null || command -v man >/dev/null; then
    judge 'the page is formatted without a warning' formats
    judge 'the page has its sections' has_sections
    judge 'the page has each argument and option' has_words
else
    for name in 'the page is formatted without a warning' 'the page has its sections' 'the page has each argument and option'; do
        skip "$name" 'there is neither groff nor man'
    done
fi

# completes WANTED WORD..: what the last word is completed to, in a folder with the small example.
completes() {
    local wanted=$1
    shift
    COMP_WORDS=(pit "$@")
    COMP_CWORD=$#
    COMPREPLY=()
    _pit
    diff <(printf '%s\n' "${COMPREPLY[@]}") <(printf '%s\n' $wanted)
}
# shellcheck disable=SC1091
source "$at/share/bash-completion/completions/pit"
judge 'completes a subcommand' completes 'plan' pl
judge 'completes a subcommand that looks at a schedule' completes 'table' ta
judge 'completes an option' completes '--history' plan tiny.cpit --hi
judge 'completes a flag' completes '--in-turn' plan tiny.cpit --in
judge 'completes a flag of the log' completes '--writes' log --w
cp examples/tiny/tiny.* "$work"
cd "$work" || exit 2
judge 'completes a file' completes 'tiny.cpit' value tiny.c
judge 'completes a file behind an option' completes 'tiny.sol' plan --start tiny.s
judge 'completes no number' completes '' plan --retries t
cd "$OLDPWD" || exit 2

judge 'uninstall' make --no-print-directory uninstall DESTDIR="$work/root" PREFIX=/opt/pit
judge 'nothing is left' diff <(files) /dev/null

judged
