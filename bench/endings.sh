#!/usr/bin/env bash
# Times the endings of jobs by two builds of `pit`, one in turn with the other, in five rounds.
# usage: bench/endings.sh [-n JOBS] -t OLD PIT NAME..   reads NAME.cpit, NAME.prec and NAME.sol, whose lines have two fields
# Plans from the solution with 1 and with 4 planners, who have JOBS each (100,000 where it isn't said): jobs of one block, which is read and put where it
# is; jobs of 32 reads that end so; jobs that are refused, since they put a predecessor behind its block; and jobs that abort. Prints the jobs a second
# of PIT, by the time of a run less that of one that ends once its scripts are parsed, and the middle of five ratios to those of OLD in the same round;
# and the middle of the ratios of the peak memory. Wants GNU time.
set -eu

. "$(dirname "$(realpath "$0")")/measure.sh"
words n:t: 100000 "$@"
run_on "${others[@]}"
[ -n "$twin" ] || usage

# script NAME SEED KIND: a planner's jobs of this kind, in the file KIND.SEED of work.
script() {
    awk -v jobs="$count" -v kind="$3" -v x="$2" '
        function drawn(count) {
            x = (x * 1664525 + 1013904223) % 4294967296
            return int(x / 256) % count
        }
        FNR == 1 { file++ }
        file == 1 { period[$1] = $2; next }
        file == 2 { if ($1 == "NBLOCKS:") blocks = $2; if ($1 == "NPERIODS:") last = $2 - 1; next }
        $2 > 0 && $1 in period && period[$1] < last { wanting[wants++] = $3 }
        END {
            for (; jobs > 0; jobs--) {
                print "begin"
                for (i = kind == "reads" ? 32 : 1; i > 0; i--) {
                    b = drawn(blocks)
                    print "read", b
                }
                if (kind == "refused") print "put", wanting[drawn(wants)], last
                else if (b in period) print "put", b, period[b]
                else print "clear", b
                print kind == "aborted" ? "abort" : "commit"
            }
        }' "$1.sol" "$1.cpit" "$1.prec" >"$work/$3.$2"
}

# both KEY STATUS WORD..: a run of each build.
both() {
    local key=$1 most=$2
    shift 2
    seconds=()
    memory=()
    best old "$most" "$twin" "$@"
    best new "$most" "$pit" "$@"
    echo "${seconds[new]} ${memory[new]} ${seconds[old]} ${memory[old]}" >>"$work/$key"
}

echo bad >"$work/bad"
for name in "${names[@]}"; do
    echo "${name##*/}"
    for kind in commits reads refused aborted; do
        for seed in 1 2 3 4; do script "$name" "$seed" "$kind"; done
        for planners in 1 4; do
            scripts=()
            for seed in $(seq "$planners"); do scripts+=("$work/$kind.$seed"); done
            rm -f "$work/whole" "$work/parsed"
            for round in 1 2 3 4 5; do
                both whole 1 plan "$name.cpit" "$name.prec" --start "$name.sol" "${scripts[@]}"
                both parsed 2 plan "$name.cpit" "$name.prec" --start "$name.sol" "${scripts[@]}" "$work/bad"
            done
            paste -d' ' "$work/whole" "$work/parsed" >"$work/rounds"
            awk -v kind="$kind" -v planners="$planners" -v jobs=$((count * planners)) -v rate="$(middle_of rounds '1 / ($1 - $5)')" \
                -v ratio="$(middle_of rounds '($3 - $7) / ($1 - $5)')" -v memory="$(middle_of rounds '$2 / $4')" \
                'BEGIN { printf "%-8s planners %d %10.0f jobs a second   to the old: %.2f, memory %.2f\n", kind, planners, jobs * rate, ratio, memory }'
        done
    done
done
