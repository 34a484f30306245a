#!/usr/bin/env bash
# Times `pit plan`, in turn with a native program; the best of three runs.
# usage: bench/plan.sh [-1] [-n JOBS] [-t TWIN] PIT NAME..   reads NAME.cpit, NAME.prec and NAME.sol, whose lines have two fields
# Plans from the solution: with one planner who has one job of one line; then with 1 and 4 planners who have JOBS each (50,000 where it isn't
# said), of one block, which is read and put where it is; then with 1 and 4 planners whose jobs read 32 blocks and put one. With -1 the one job
# is all. Prints seconds and peak memory, and jobs a second: by the time of a run less that of one that ends once its scripts are parsed, since
# one more behind them is bad. The twin is run as `TWIN plan .. --reads board`, on the same files. Wants GNU time.
set -eu

sizes=(1 32)
if [ "${1:-}" = -1 ]; then
    sizes=()
    shift
fi
. "$(dirname "$(realpath "$0")")/measure.sh"
words n:t: 50000 "$@"
run_on "${others[@]}"

# script NAME SEED JOBS READS: a planner's jobs.
script() {
    awk -v jobs="$3" -v reads="$4" -v x="$2" '
        function next_block() {
            x = (x * 1664525 + 1013904223) % 4294967296
            return int(x / 256) % blocks
        }
        FILENAME != ARGV[1] && $1 == "NBLOCKS:" { blocks = $2; exit }
        FILENAME == ARGV[1] { period[$1] = $2 }
        END {
            for (; jobs > 0; jobs--) {
                print "begin"
                for (i = 0; i < reads; i++) {
                    b = next_block()
                    print "read", b
                }
                if (b in period) print "put", b, period[b]; else print "clear", b
                print "commit"
            }
        }' "$1.sol" "$1.cpit" >"$work/script.$2.$3.$4"
}

# runs KEY NAME SCRIPT..: both programs, in turn, and each with a bad script behind the others. A status of 1 says that a load falls short.
runs() {
    local key=$1 name=$2
    shift 2
    best "pit $key" 1 "$pit" plan "$name.cpit" "$name.prec" --start "$name.sol" "$@"
    best "pit $key parsed" 2 "$pit" plan "$name.cpit" "$name.prec" --start "$name.sol" "$@" "$work/bad"
    [ -n "$twin" ] || return 0
    best "twin $key" 1 "$twin" plan "$name.cpit" "$name.prec" --start "$name.sol" --reads board "$@"
    best "twin $key parsed" 2 "$twin" plan "$name.cpit" "$name.prec" --start "$name.sol" --reads board "$@" "$work/bad"
}

# rate KEY PLANNERS: jobs a second.
rate() {
    awk "BEGIN { printf \"%.0f\", $2 * $count / (${seconds[$1]} - ${seconds[$1 parsed]}) }"
}

# rates KEY PLANNERS: jobs a second, and their ratio to the twin's.
rates() {
    local of
    of=$(rate "pit $1" "$2")
    printf '%36s %8s jobs a second' '' "$of"
    [ -z "$twin" ] || awk "BEGIN { printf \"   to the twin: %.2f\", $of / $(rate "twin $1" "$2") }"
    echo
}

echo bad >"$work/bad"
for name in "${names[@]}"; do
    for reads in "${sizes[@]}"; do
        for seed in 1 2 3 4; do script "$name" "$seed" "$count" "$reads"; done
    done
    printf 'begin\nput %s\ncommit\n' "$(awk '$1 ~ /^[0-9]+$/ { print $1, $2; exit }' "$name.sol")" >"$work/one"
    for _ in 1 2 3; do
        runs "$name one" "$name" "$work/one"
        for reads in "${sizes[@]}"; do
            runs "$name $reads 1" "$name" "$work/script.1.$count.$reads"
            runs "$name $reads 4" "$name" "$work"/script.[1-4]."$count.$reads"
        done
    done
    whole "pit $name one" "twin $name one" "${name##*/}, one job of one line"
    for reads in "${sizes[@]}"; do
        for planners in 1 4; do
            whole "pit $name $reads $planners" "twin $name $reads $planners" "${name##*/}, reads $reads, planners $planners"
            rates "$name $reads $planners" "$planners"
        done
    done
done
