#!/usr/bin/env bash
# Times `pit log` and `pit log --writes`, in turn with `pit replay` of the same history: five rounds.
# usage: bench/log.sh [-n JOBS] PIT NAME..   reads NAME.cpit, NAME.prec and NAME.sol, whose lines have two fields
# Four planners with JOBS each (250,000 where it isn't said), of one block, which is read and put where it is, plan from the solution, and leave a
# history. Prints the middle of the seconds and of the peak memory of each, the bytes that it wrote, and the middle of five ratios to `replay` in the
# same round. Wants GNU time.
set -eu

. "$(dirname "$(realpath "$0")")/measure.sh"
words n:t: 250000 "$@"
run_on "${others[@]}"

for name in "${names[@]}"; do
    rm -f "$work"/*
    for seed in 1 2 3 4; do script "$name" "$seed"; done
    "$pit" plan "$name.cpit" "$name.prec" --start "$name.sol" --history "$work/history" "$work"/script.[1-4] >"$work/left" 2>"$work/told" || [ $? -eq 1 ]
    for round in 1 2 3 4 5; do
        turn replay replay "$pit" replay "$name.cpit" "$name.prec" "$work/history"
        turn log replay "$pit" log "$name.cpit" "$name.prec" "$work/history"
        turn writes replay "$pit" log --writes "$name.cpit" "$name.prec" "$work/history"
    done
    echo "$(basename "$name"), $(($(wc -l <"$work/history") - 1)) entries, $(wc -c <"$work/history") bytes"
    for key in replay log writes; do
        awk -v key="$key" -v s="$(middle_of "$key" '$1')" -v m="$(middle_of "$key" '$2')" -v b="$(middle_of "$key" '$5')" \
            -v rs="$(middle_of "$key" '$1 / $3')" -v rm="$(middle_of "$key" '($2 * 1024 - $5) / ($4 * 1024)')" \
            'BEGIN { printf "%-6s %8.2f s %10d KB, text %d bytes   to replay: time %.2f, memory without the text %.2f\n", key, s, m, b, rs, rm }'
    done
done
