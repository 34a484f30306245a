#!/usr/bin/env bash
# Times `share/pit-page`, in turn with `pit check` and an empty program of python3 together: five rounds.
# usage: bench/page.sh PIT NAME..   reads NAME.cpit, NAME.prec, NAME.sol and NAME.blocks
# Prints the middle of the seconds and of the peak memory of each, the bytes of the page, and the middle of what the page took in five rounds in parts
# of what it may take: five times the others in the same round, and two seconds. Wants GNU time.
set -eu

. "$(dirname "$(realpath "$0")")/measure.sh"
run_on "$@"
page=$(dirname "$(realpath "$0")")/../share/pit-page

for name in "${names[@]}"; do
    rm -f "$work"/*
    for round in 1 2 3 4 5; do
        # shellcheck disable=SC2016
        turn both both bash -c '"$1" check "$2.cpit" "$2.prec" "$2.sol" || [ $? -eq 1 ]; python3 -c pass' _ "$pit" "$name"
        turn page both "$page" "$name.cpit" "$name.prec" "$name.sol" --blocks "$name.blocks" --pit "$pit"
    done
    echo "$(basename "$name")"
    for key in both page; do
        awk -v key="$key" -v s="$(middle_of "$key" '$1')" -v m="$(middle_of "$key" '$2')" 'BEGIN { printf "%-6s %8.2f s %10d KB\n", key, s, m }'
    done
    awk -v b="$(middle_of page '$5')" -v r="$(middle_of page '$1 / (5 * $3 + 2)')" 'BEGIN { printf "page   %d bytes, %.2f of the time that it may take\n", b, r }'
done
