#!/usr/bin/env bash
# Passes on what `rt ci` prints, and behind each line that tells of a crate says how far the gate is.
# usage: rt ci | scripts/progress.sh, at the top of the repository
set -u

crates=$(grep -cE '^[a-z]' crates.txt)
tests=$(grep -rlE '^ *#\[test\]' crates/*/src | cut -d/ -f2 | sort -u | wc -l)
edits=$(find crates -path '*/must-fail/*.edit' | wc -l)
proved=0 tested=0 tried=0
number='must-fail edits \(([0-9]+)\)$'
while IFS= read -r line; do
    printf '%s\n' "$line"
    case $line in
        'rt: '*': its tests are proved') tested=$((tested + 1)) ;;
        'rt: '*' proved' | 'rt: '*' is kept: '*) proved=$((proved + 1)) ;;
        'rt: '*': trying its must-fail edits '*) [[ $line =~ $number ]] && tried=$((tried + BASH_REMATCH[1])) ;;
        *) continue ;;
    esac
    printf 'so far: %d of %d crates, the tests of %d of %d, %d of %d edits begun, %d:%02d minutes\n' \
        $proved "$crates" $tested "$tests" $tried "$edits" $((SECONDS / 60)) $((SECONDS % 60))
done
