#!/usr/bin/env bash
# Times what looks at a schedule, in turn with `pit check` on it: five rounds.
# usage: bench/views.sh PIT NAME..   runs `PIT check NAME.cpit NAME.prec NAME.sol`, and `check --all`, `table`, `diff`, `show` and `info` on the same files
# Prints the middle of the seconds and of the peak memory of each, and the middle of five ratios to `check` in the same round. `diff` compares the
# solution with one that lacks its last block, so it reads two. Wants GNU time.
set -eu

. "$(dirname "$0")/measure.sh"
run_on "$@"

for name in "${names[@]}"; do
    rm -f "$work"/*
    model=$name.cpit
    prec=$name.prec
    solution=$name.sol
    blocks=()
    [ ! -s "$name.blocks" ] || blocks=(--blocks "$name.blocks")
    head -n -1 "$solution" >"$work/other.sol"
    for round in 1 2 3 4 5; do
        turn check check "$pit" check "$model" "$prec" "$solution"
        turn all check "$pit" check --all "$model" "$prec" "$solution"
        turn table check "$pit" table "$model" "$solution"
        turn diff check "$pit" diff "$model" "$solution" "$work/other.sol"
        turn show check "$pit" show "$model" "$solution"
        turn info check "$pit" info "$model" "$prec" "${blocks[@]}"
    done
    echo "$(basename "$name")"
    for key in check all table diff show info; do
        awk -v key="$key" -v s="$(middle_of "$key" '$1')" -v m="$(middle_of "$key" '$2')" -v rs="$(middle_of "$key" '$1 / $3')" -v rm="$(middle_of "$key" '$2 / $4')" \
            'BEGIN { printf "%-6s %8.2f s %10d KB   to check: time %.2f, memory %.2f\n", key, s, m, rs, rm }'
    done
done
