#!/usr/bin/env bash
# Times two builds of `pit`, one in turn with the other: five rounds of what one thread does.
# usage: bench/versions.sh [-n JOBS] -t OLD PIT NAME..   reads NAME.cpit, NAME.prec and NAME.sol, whose lines have two fields
# Runs `value`, `check`, `plan` from the solution with one job of one line, with one planner who has JOBS (250,000 where it isn't said) of one block, which is
# read and put where it is, the same with a history, and `replay` of that. Prints the middle of the seconds and of the peak memory of PIT, and the middle
# of five ratios to OLD in the same round. Wants GNU time.
set -eu

. "$(dirname "$(realpath "$0")")/measure.sh"
words n:t: 250000 "$@"
run_on "${others[@]}"
[ -n "$twin" ] || usage

other=old

for name in "${names[@]}"; do
    rm -f "$work"/*
    pit_files=("$name.cpit" "$name.prec")
    from=(--start "$name.sol")
    script "$name" 1
    printf 'begin\nput %s\ncommit\n' "$(awk '$1 ~ /^[0-9]+$/ { print $1, $2; exit }' "$name.sol")" >"$work/one"
    for round in 1 2 3 4 5; do
        both value value "$name.cpit" "$name.sol"
        both check check "${pit_files[@]}" "$name.sol"
        both 'plan, one job' plan "${pit_files[@]}" "${from[@]}" "$work/one"
        both plan plan "${pit_files[@]}" "${from[@]}" "$work/script.1"
        both 'plan --history' plan "${pit_files[@]}" "${from[@]}" --history "$work/history" "$work/script.1"
        both replay replay "${pit_files[@]}" "$work/history"
    done
    echo "${name##*/}"
    for key in value check 'plan, one job' plan 'plan --history' replay; do
        awk -v key="$key" -v s="$(middle_of "$key" '$1')" -v m="$(middle_of "$key" '$2')" -v rs="$(middle_of "$key" '$1 / $3')" -v rm="$(middle_of "$key" '$2 / $4')" \
            'BEGIN { printf "%-16s %8.2f s %10d KB   to the old: time %.2f, memory %.2f\n", key, s, m, rs, rm }'
    done
done
