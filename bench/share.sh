#!/usr/bin/env bash
# Times planners who share a workspace, in turn with a native program; the best of three runs.
# usage: bench/share.sh [-n TRANSACTIONS] [-b BLOCKS] [-t TWIN] NAME..   reads NAME.cpit, NAME.prec and NAME.sol, whose lines have two fields
# Makes a program of share.txt over the crates first, in bench/data/share. The solution is the first commit. Then 1, 2 and 4 planners, each
# in a thread of its own, make TRANSACTIONS each (100,000 where it isn't said) that read a block of the pit, or of BLOCKS that are spread
# evenly over it, and write to it the period that it has; and then transactions of 32 reads, alone and beside one more planner who commits.
# Prints what the boards and 64 seats take, the commits and the reads a second, and the ratios to the twin, which is run as
# `TWIN plan .. --reads board` on a script for each planner, and as `TWIN reads .. --reads board`. Wants the toolchain.
set -eu

. "$(dirname "$(realpath "$0")")/program.sh"
words n:b:t: 100000 "$@"
named "${others[@]}"
made_of share pit_book pit_model pit_num pit_share pit_step pit_text pit_tx

# script NAME SEED: a planner's transactions, in the words of the twin.
script() {
    awk -v jobs="$count" -v among="$among" -v x="$2" '
        FILENAME != ARGV[1] && $1 == "NBLOCKS:" { blocks = $2; exit }
        FILENAME == ARGV[1] { period[$1] = $2 }
        END {
            if (among > blocks) among = blocks
            step = int(blocks / among)
            for (; jobs > 0; jobs--) {
                x = (x * 1664525 + 1013904223) % 4294967296
                b = int(x / 256) % among * step
                print "begin"
                print "read", b
                if (b in period) print "put", b, period[b]; else print "clear", b
                print "commit"
            }
        }' "$1.sol" "$1.cpit" >"$build/script.$2"
}

declare -A most
# best KEY RATE: keeps the greatest rate.
best() {
    if awk "BEGIN { exit !($2 > ${most[$1]:-0}) }"; then most[$1]=$2; fi
}

# told KEY WHAT: a line with the rate, and its ratio to the twin's.
told() {
    local rate=${most["pit $1"]} other=${most["twin $1"]:-}
    printf '%-40s %12s a second' "$2" "$rate"
    [ -z "$other" ] || printf '   twin %12s   ratio %s' "$other" "$(awk "BEGIN { printf \"%.2f\", $rate / $other }")"
    echo
}

# memory NAME: what both boards and 64 seats take. The program pauses for a second before it opens the workspace, and behind that: its last two
# sizes that stay for long.
memory() {
    local pid before after
    "$program" "$1.cpit" "$1.prec" "$1.sol" 3 64 0 "$among" >"$build/answer" &
    pid=$!
    while kill -0 $pid 2>/dev/null; do
        sed -n 's/^VmRSS:[[:space:]]*\([0-9]*\) kB$/\1/p' /proc/$pid/status 2>/dev/null || true
        sleep 0.02
    done >"$build/sizes"
    read -r before after < <(uniq -c "$build/sizes" | awk '$1 >= 15 { before = after; after = $2 } END { print before + 0, after + 0 }')
    awk -v blocks="$(awk '$1 == "NBLOCKS:" { print $2; exit }' "$1.cpit")" -v more=$((after - before)) \
        'BEGIN { printf "%.1f MB, %.2f bytes a block\n", more / 1000 * 1.024, more * 1024 / blocks }'
}

for name in "${names[@]}"; do
    printf '%-40s %s\n' "${name##*/} boards and 64 seats" "$(memory "$name")"
    for _ in 1 2 3; do
        for planners in 1 2 4; do
            read -r commits _ < <("$program" "$name.cpit" "$name.prec" "$name.sol" 0 "$planners" "$count" "$among")
            best "pit $name writes $planners" "$commits"
            [ -n "$twin" ] || continue
            scripts=()
            for seed in $(seq "$planners"); do
                script "$name" "$seed"
                scripts+=("$build/script.$seed")
            done
            "$twin" plan "$name.cpit" "$name.prec" --start "$name.sol" --reads board --jobs-only --time "${scripts[@]}" 2>"$build/answer"
            best "twin $name writes $planners" "$(sed -n 's|^jobs .* commits/s \([0-9]*\)$|\1|p' "$build/answer")"
        done
        for planners in 1 2 4; do
            read -r _ reads < <("$program" "$name.cpit" "$name.prec" "$name.sol" 1 "$planners" "$count" "$among")
            best "pit $name reads $planners" "$reads"
            read -r _ reads < <("$program" "$name.cpit" "$name.prec" "$name.sol" 2 $((planners + 1)) "$count" "$among")
            best "pit $name beside $planners" "$reads"
            [ -n "$twin" ] || continue
            for key in reads beside; do
                writer=
                [ $key = reads ] || writer=--writer
                "$twin" reads "$name.cpit" "$name.prec" --start "$name.sol" --threads "$planners" --tx "$count" --per 32 $writer --reads board >"$build/answer"
                best "twin $name ${key} $planners" "$(sed -n 's|.* reads/s \([0-9]*\) .*|\1|p' "$build/answer")"
            done
        done
    done
    for planners in 1 2 4; do told "$name writes $planners" "${name##*/} commits, planners $planners"; done
    for planners in 1 2 4; do
        told "$name reads $planners" "${name##*/} reads, planners $planners"
        told "$name beside $planners" "${name##*/} the same beside a writer"
    done
done
