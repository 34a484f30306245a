#!/usr/bin/env bash
# Times `pit` on blocks whose numbers are chosen to collide in the hash of its sets, in turn with as many that are drawn: five rounds.
# usage: bench/hostile.sh [-n BLOCKS] [-m MULTIPLIER] PIT
# The pit has 4,194,304 blocks, by a header of five lines. BLOCKS of them (400,000 where it isn't said) are put into a period by the one job of a `plan`,
# whose history is then replayed, and by an edit that `merge` takes in. They are chosen for the multiplier that the sources name, and each run draws its
# own. Where MULTIPLIER is said, they are chosen for that, and each run is told to draw it: so it is seen what the choice does. Prints the middle of the
# seconds on chosen and on drawn blocks, and on none; and of the ratios of chosen to drawn in the same round the middle, the least and the greatest, and
# whether the middle is at most 2. A run is ended after 120 seconds, and its command's rounds with it. Wants python3, and for MULTIPLIER a C compiler.
set -eu

. "$(dirname "$(realpath "$0")")/measure.sh"
words n:m: 400000 "$@"
run_alone "${others[@]}"
python3 "$(dirname "$(realpath "$0")")/hostile.py" "$work/blocks" "$count" ${multiplier:+"$multiplier"}

drawing=()
if [ -n "$multiplier" ]; then
    ${CC:-cc} -shared -fPIC -O1 -o "$work/draw.so" "$(dirname "$(realpath "$0")")/../tests/keys/draw.c"
    drawing=(env "GIVEN=$(printf %x "$multiplier")" "LD_PRELOAD=$work/draw.so")
fi

# The most seconds that a run may take.
limit=120

printf 'TYPE: CPIT\nNBLOCKS: 4194304\nNPERIODS: 1\nNRESOURCE_SIDE_CONSTRAINTS: 0\nDISCOUNT_RATE: 0\n' >"$work/model"
: >"$work/precedence"
: >"$work/blocks.none"
for blocks in none drawn chosen; do
    sed 's/$/ 0/' "$work/blocks.$blocks" >"$work/edit.$blocks"
    { echo begin; sed 's/^/put /' "$work/edit.$blocks"; echo commit; } >"$work/script.$blocks"
done

# timed COMMAND BLOCKS WORD..: a run, whose seconds go to the file COMMAND.BLOCKS. Fails where it was ended.
timed() {
    local status=0 begun=$EPOCHREALTIME
    timeout "$limit" ${drawing[@]+"${drawing[@]}"} "$pit" "$1" "$work/model" "$work/precedence" "${@:3}" >"$work/out" 2>"$work/err" || status=$?
    awk "BEGIN { print $EPOCHREALTIME - $begun }" >>"$work/$1.$2"
    [ $status -ne 124 ] || return 1
    if [ $status -ne 0 ]; then
        echo "$1 of $2 blocks: status $status" >&2
        tail -2 "$work/err" >&2
        exit 1
    fi
}

# run COMMAND BLOCKS: the same, with the words of the command.
run() {
    case $1 in
    plan) timed "$@" --history "$work/history.$2" "$work/script.$2" ;;
    replay) timed "$@" "$work/history.$2" ;;
    merge) timed "$@" "$work/edit.$2" ;;
    esac
}

# told COMMAND: the seconds and the ratios. Where a run was ended, its own seconds count, and the ratio is more.
told() {
    local ratios
    printf '%-6s' "$1"
    [ -s "$work/$1.chosen" ] || { echo ' has no history to read: the plan was ended' && return 0; }
    printf ' chosen %6.2f s, drawn %6.2f s, none %6.2f s   chosen to drawn ' "$(middle <"$work/$1.chosen")" "$(middle <"$work/$1.drawn")" \
        "$(middle <"$work/$1.none")"
    ratios=$(paste "$work/$1.chosen" "$work/$1.drawn" | awk '{ print $1 / $2 }' | range)
    [ -z "${ended[$1]:-}" ] || printf 'more than '
    held most 2 "$ratios"
    echo
}

declare -A ended
for round in 1 2 3 4 5; do
    for command in plan replay merge; do
        [ -z "${ended[$command]:-}" ] || continue
        if [ "$command" = replay ] && [ -n "${ended[plan]:-}" ]; then continue; fi
        for blocks in none drawn chosen; do run "$command" "$blocks" || ended[$command]=yes; done
    done
done
echo "$count blocks"
for command in plan replay merge; do told "$command"; done
