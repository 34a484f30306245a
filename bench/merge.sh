#!/usr/bin/env bash
# Times `pit merge` of four edits of a solution, in turn with `pit check` of that solution and `pit value` of each edit together: five rounds.
# usage: bench/merge.sh [-n CHANGES] PIT NAME..   reads NAME.cpit, NAME.prec and NAME.sol, whose lines rise by block
# Each edit leaves CHANGES blocks of the solution out (10,000 where it isn't said): the first edit its first blocks, the second those behind them, and
# so on, so that each is lawful behind the ones before it where predecessors have higher numbers, as in the pits that `generate.py` makes. Prints what
# each edit was answered, the middle of the seconds and of the peak memory of each, and the middle of five ratios to the twin in the same round. Wants
# GNU time.
set -eu

. "$(dirname "$(realpath "$0")")/measure.sh"
words n:t: 10000 "$@"
run_on "${others[@]}"

for name in "${names[@]}"; do
    rm -f "$work"/*
    mined=$(wc -l <"$name.sol")
    for edit in 1 2 3 4; do
        awk -v first=$(((edit - 1) * count)) -v count="$count" 'NR <= first || NR > first + count' "$name.sol" >"$work/edit.$edit"
    done
    for round in 1 2 3 4 5; do
        # shellcheck disable=SC2016
        turn twin twin bash -c '"$1" check "$2.cpit" "$2.prec" "$2.sol" || [ $? -eq 1 ]; for e in 1 2 3 4; do "$1" value "$2.cpit" "$3/edit.$e"; done' _ "$pit" "$name" "$work"
        turn merge twin "$pit" merge "$name.cpit" "$name.prec" --start "$name.sol" "$work"/edit.[1-4]
    done
    echo "$(basename "$name"), $mined blocks mined, $count changes in each edit"
    grep '^edit ' "$work/err"
    for key in twin merge; do
        awk -v key="$key" -v s="$(middle_of "$key" '$1')" -v m="$(middle_of "$key" '$2')" -v rs="$(middle_of "$key" '$1 / $3')" -v rm="$(middle_of "$key" '$2 / $4')" \
            'BEGIN { printf "%-6s %8.2f s %10d KB   to check and values: time %.2f, memory %.2f\n", key, s, m, rs, rm }'
    done
done
