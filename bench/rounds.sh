#!/usr/bin/env bash
# Times what `pit` does with large files, in turn with a native program: five rounds.
# usage: bench/rounds.sh -t TWIN PIT NAME..   reads NAME.cpit, NAME.prec and NAME.sol, whose lines have two fields
# Runs `value`, `check`, `plan` from the solution with one job of one line, and `replay` of the history that such a plan writes. The twin is run with the same
# words, and as `TWIN plan .. --reads board`. Prints the middle of the seconds and of the peak memory of PIT; and of five ratios to the twin in the same
# round, of the clock and of processor time, the middle, the least and the greatest; and the middle one of memory. Wants GNU time.
set -eu

. "$(dirname "$(realpath "$0")")/measure.sh"
words t: 1 "$@"
run_on "${others[@]}"
[ -n "$twin" ] || usage

other=twin

for name in "${names[@]}"; do
    rm -f "$work"/*
    files=("$name.cpit" "$name.prec")
    plan=(plan "${files[@]}" --start "$name.sol")
    printf 'begin\nput %s\ncommit\n' "$(awk '$1 ~ /^[0-9]+$/ { print $1, $2; exit }' "$name.sol")" >"$work/one"
    # All files are in memory then.
    "$pit" "${plan[@]}" --history "$work/history" "$work/one" >"$work/out" 2>"$work/err" || [ $? -eq 1 ]
    for round in 1 2 3 4 5; do
        both value value "$name.cpit" "$name.sol"
        both check check "${files[@]}" "$name.sol"
        turn 'twin plan' 'twin plan' "$twin" "${plan[@]}" --reads board "$work/one"
        turn plan 'twin plan' "$pit" "${plan[@]}" "$work/one"
        both replay replay "${files[@]}" "$work/history"
    done
    echo "${name##*/}"
    for key in value check plan replay; do
        printf '%-8s %6.2f s %8d KB   to the twin: time %s, processor time %s, memory %.2f\n' "$key" "$(middle_of "$key" '$1')" "$(middle_of "$key" '$2')" \
            "$(range_of "$key" '$1 / $3')" "$(range_of "$key" '$6 / $7')" "$(middle_of "$key" '$2 / $4')"
    done
done
