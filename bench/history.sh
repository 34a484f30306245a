#!/usr/bin/env bash
# Times `pit plan --history` and `pit replay`, in turn with a native program; the best of three runs.
# usage: bench/history.sh [-n JOBS] [-t TWIN] PIT NAME..   reads NAME.cpit, NAME.prec and NAME.sol, whose lines have two fields
# Four planners with JOBS each (250,000 where it isn't said), of one block, which is read and put where it is, plan from the solution, and their
# history is written; then it is replayed, and once more with a space behind each comma, so that each line is read by its JSON value. Prints seconds
# and peak memory. The twin is run as `TWIN plan .. --reads board` and `TWIN replay`, on the same files, the last time on the history without spaces,
# since it reads no other. Wants GNU time.
set -eu

. "$(dirname "$(realpath "$0")")/measure.sh"
words n:t: 250000 "$@"
run_on "${others[@]}"

for name in "${names[@]}"; do
    for seed in 1 2 3 4; do script "$name" "$seed"; done
    for _ in 1 2 3; do
        best "pit plan" 1 "$pit" plan "$name.cpit" "$name.prec" --start "$name.sol" --history "$work/history" "$work"/script.[1-4]
        [ -z "$twin" ] ||
            best "twin plan" 1 "$twin" plan "$name.cpit" "$name.prec" --start "$name.sol" --history "$work/other" --reads board "$work"/script.[1-4]
    done
    sed 's/,/, /g' "$work/history" >"$work/spaced"
    for _ in 1 2 3; do
        best "pit replay" 1 "$pit" replay "$name.cpit" "$name.prec" "$work/history"
        head -1 "$work/out" | grep -q '^legal ' || { echo "not legal" >&2; exit 1; }
        [ -z "$twin" ] || best "twin replay" 1 "$twin" replay "$name.cpit" "$name.prec" "$work/history"
        best "pit spaced" 1 "$pit" replay "$name.cpit" "$name.prec" "$work/spaced"
    done
    echo "${name##*/}, $(($(wc -l <"$work/history") - 1)) entries, $(wc -c <"$work/history") bytes"
    whole "pit plan" "twin plan" "  plan --history"
    whole "pit replay" "twin replay" "  replay"
    whole "pit spaced" "twin replay" "  replay, with spaces"
done
