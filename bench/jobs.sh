#!/usr/bin/env bash
# Times jobs of `pit plan` by what they touch, in turn with a native program: five rounds.
# usage: bench/jobs.sh [-n JOBS] [-o OLD] -t TWIN PIT NAME..   reads NAME.cpit, NAME.prec, NAME.sol and NAME.params, as bench/twin/grid makes them
# Plans from the solution with 1, 2 and 4 planners. Each has JOBS (200,000 where it isn't said) that shift a block, every second one back; a quarter as many
# that shift eight blocks; a quarter as many that read up to 40 blocks and shift one (read32 of the maker); and JOBS that shift one block, the same for all.
# Each script is run once more with the first quarter of its jobs, and the rate is that of the others: what comes before the first job is left out. The twin
# is run as `TWIN plan .. --reads board`, on the same files. OLD is an older build, for its memory. Prints the middle of the jobs a second and of the peak
# memory of PIT; and of five ratios, each of one round, the middle, the least and the greatest: of the rate to the twin's, by the clock and by processor
# time, of memory to the twin's and to OLD's, and of the rate of four planners to that of one, which counts on a quiet machine alone. Behind each that has
# a bound it says whether the middle meets it. Memory of several planners changes from run to run, so there the bound is 1.05 in place of 1. Wants GNU time,
# and what bench/twin/build.sh makes.
set -eu

. "$(dirname "$(realpath "$0")")/measure.sh"
words n:o:t: 200000 "$@"
run_on "${others[@]}"
[ -n "$twin" ] || usage
grid=$(dirname "$(realpath "$0")")/twin/grid

kinds=(one eight reads hot)

# kind_of KIND: what such jobs are called here and by the maker, of how many blocks theirs are drawn where that is said, how many a planner has, and the
# least rate by the twin's.
kind_of() {
    among=
    jobs=$count
    case $1 in
    one) what='one block' mix=shift1 least=0.9 ;;
    eight) what='eight blocks' mix=area8 least=0.8 jobs=$((count / 4)) ;;
    reads) what='40 reads' mix=read32 least=1.0 jobs=$((count / 4)) ;;
    hot) what='a hot block' mix=shift1 least=0.8 among=1 ;;
    esac
    few=$((jobs / 4))
}

# scripts NAME KIND: the jobs of four planners in the files KIND.PLANNER.script of work, and the first quarters in KIND.PLANNER.few.
scripts() {
    local planner
    kind_of "$2"
    "$grid" scripts "$1" 4 "$jobs" "$mix" 7 "$work/$2" ${among:+"$among"}
    for planner in 1 2 3 4; do
        awk -v few="$few" '{ print } $1 == "commit" && ++ended == few { exit }' "$work/$2.$planner.script" >"$work/$2.$planner.few"
    done
}

# runs KIND PLANNERS PART: both programs, in turn, on the whole scripts (PART is `script`) or on the first quarters (`few`); and OLD on the whole ones.
runs() {
    local key="$1 $2 $3" planner scripts=()
    for planner in $(seq "$2"); do scripts+=("$work/$1.$planner.$3"); done
    turn "pit $key" "pit $key" "$pit" "${plan[@]}" "${scripts[@]}"
    turn "twin $key" "twin $key" "$twin" "${plan[@]}" --reads board "${scripts[@]}"
    if [ -n "$old" ] && [ "$3" = script ]; then
        turn "old $key" "old $key" "$old" "${plan[@]}" "${scripts[@]}"
    fi
}

# gather KIND PLANNERS: a line for each round in the file `KIND PLANNERS`: the seconds that the later jobs took PIT and the twin, those of processor time, and
# the peak memory of PIT, the twin and OLD. Fails where all jobs took no longer than the first quarter.
gather() {
    local of="$1 $2 script"
    paste -d' ' "$work/pit $of" "$work/pit $1 $2 few" "$work/twin $of" "$work/twin $1 $2 few" ${old:+"$work/old $of"} |
        awk '{ print $1 - $8, $15 - $22, $6 - $13, $20 - $27, $2, $16, $30 + 0 }' >"$work/$1 $2"
    awk '$1 <= 0 || $2 <= 0 || $3 <= 0 || $4 <= 0 { exit 1 }' "$work/$1 $2"
}

# told KIND PLANNERS: the rate and the memory.
told() {
    local most=1
    [ "$2" -eq 1 ] || most=1.05
    kind_of "$1"
    printf '%-14s planners %d' "$what" "$2"
    gather "$1" "$2" || { echo ': too few jobs to tell' && return 0; }
    printf ' %9.0f jobs a second   to the twin %s; by processor time %s\n' "$(middle_of "$1 $2" "$2 * $((jobs - few)) / \$1")" \
        "$(held least "$least" "$(range_of "$1 $2" '$2 / $1')")" "$(range_of "$1 $2" '$4 / $3')"
    printf '%25s %9d KB              to the twin %s' '' "$(middle_of "$1 $2" '$5')" "$(range_of "$1 $2" '$5 / $6')"
    [ -z "$old" ] || printf '; to the old %s' "$(held most $most "$(range_of "$1 $2" '$5 / $7')")"
    echo
}

# told_scaling KIND: the rates of four planners to those of one.
told_scaling() {
    kind_of "$1"
    printf '%-14s planners 4 to 1: ' "$what"
    if ! gather "$1" 1 || ! gather "$1" 4; then
        echo 'too few jobs to tell'
        return 0
    fi
    paste -d' ' "$work/$1 1" "$work/$1 4" | awk '{ print 4 * $1 / $8, 4 * $2 / $9 }' >"$work/scaling"
    printf 'rate %s; the twin %s\n' "$(held least 1.5 "$(range_of scaling '$1')")" "$(range_of scaling '$2')"
}

for name in "${names[@]}"; do
    rm -f "$work"/*
    plan=(plan "$name.cpit" "$name.prec" --start "$name.sol")
    for kind in "${kinds[@]}"; do scripts "$name" "$kind"; done
    for round in 1 2 3 4 5; do
        for kind in "${kinds[@]}"; do
            for planners in 1 2 4; do
                runs "$kind" "$planners" few
                runs "$kind" "$planners" script
            done
        done
    done
    echo "${name##*/}"
    for kind in "${kinds[@]}"; do
        for planners in 1 2 4; do told "$kind" "$planners"; done
    done
    told_scaling eight
done
