#!/usr/bin/env bash
# The calls by which a built `pit` writes the file of a history. The new file is on the disk before it is renamed. A program that has opened the new
# file, and hasn't locked it yet when another one writes the history, goes on from what that wrote. An input that stands at the name of the new file
# or of the history is told, whichever input it is, and stays as it was, whichever call is refused.
# usage: tests/history_calls.sh PIT      PIT is the path of the program. Wants a C compiler and python3.
set -u
. "$(dirname "$0")/history/head.sh"

# The inputs besides a model, precedences and a script.
printf '0 0 0 0\n1 0 0 1\n2 0 0 2\n3 1 0 0\n' >blocks
printf '0 0\n' >start
printf 'begin\nput 3 0\ncommit\n' >script2
# An edit that puts block 0 into period 0, and one that leaves out all that its base has.
printf '0 0\n' >edit
: >edit2
# merged OLD: that history, and behind it the entry of the edit, which began with nothing and is the last commit.
merged() {
    cat "$1"
    echo "{\"act\":\"commit\",\"job\":1,\"planner\":1,\"reads\":[[0,null]],\"reply\":{\"committed\":$(wc -l <"$1")},\"start\":0,\"writes\":[[0,0]]}"
}
merged old >edited
merged new >new.edited
merged second >second.edited

# words_of COMMAND WAY: the words of a run of `plan` or `merge` that writes the history.
words_of() {
    case $1 in
        plan) words=(plan "$2" kept model precedence script) ;;
        merge) words=(merge "$2" kept --from 0 model precedence edit) ;;
    esac
}

# Synced before it is renamed: else a machine that stops just then can leave an empty history, though the rename is on the disk.
# is_synced OLD LEFT: the run leaves LEFT where it finds OLD. It writes the new file, then waits until that is on the disk, and then renames it.
is_synced() {
    begin "$1"
    rm -f calls
    CALLS=calls LD_PRELOAD=./fault.so "$pit" "${words[@]}" >out 2>err </dev/null
    is_status $? 0 && is_file kept "$2" || return
    awk '$2 == "kept.pit-new" && $1 ~ /^(write|ftruncate|ftruncate64)$/ { is_written = is_written || $1 == "write"; is_synced = 0 }
        $2 == "kept.pit-new" && $1 ~ /^(fsync|fdatasync)$/ { is_synced = is_written }
        $1 == "rename" { renames++; synced += $2 == "kept.pit-new" && $3 == "kept" && is_synced }
        END { exit !(renames == 1 && synced == 1) }' calls && return
    uniq -c calls
    false
}
# For each run what it leaves of no history, and of one with an entry.
while read -r command way of_none of_new; do
    words_of "$command" "$way"
    judge "$command $way, where no history was: the new file is synced before it is renamed" is_synced none "$of_none"
    judge "$command $way, where one was: the new file is synced before it is renamed" is_synced new "$of_new"
done <<'TEXT'
plan --history new new
plan --continue new second
merge --history edited edited
merge --continue edited new.edited
TEXT

# Two programs. The second is held before its first locking: it has opened the new file, and the history if there is one. The first then runs from its
# start to its end, and so renames the file that the second has opened. The second has to see that, and to look again: else it writes over what the
# first has written, or begins a history that is there by now.
# hold: the second program, `second`, that waits before it locks a file.
hold() {
    rm -f held.waits held.goes
    HELD=held LD_PRELOAD=./fault.so "$pit" "${words[@]}" >held.out 2>held.err </dev/null &
    second=$!
    while [ ! -e held.waits ] && kill -0 "$second" 2>/dev/null; do sleep 0.01; done
    [ -e held.waits ] || { echo 'it locked no file'; false; }
}
# go: the second program goes on to its end, and its status is left in `status`.
go() {
    : >held.goes
    wait "$second"
    status=$?
}
# stand BETWEEN: what stands at the name of the new file once the first program has ended: nothing, a file that an ended program left, or one that a
# third program has locked.
stand() {
    case $1 in
        left) head -c 1000 /dev/zero >kept.pit-new ;;
        locked) lock kept.pit-new ;;
    esac
}
# comes_second OLD FIRST BETWEEN LEFT: the first program leaves FIRST where it finds OLD, and the second LEFT where it finds that.
comes_second() {
    local old=$1 first=$2 between=$3 left=$4
    begin "$old"
    hold || return
    plan kept --continue
    is_file kept "$first" || { go; return 1; }
    stand "$between"
    go
    if [ "$between" = locked ]; then
        unlock
        is_file kept "$left" && is_file kept.pit-new /dev/null && is_status "$status" 3 &&
            [ "$(cat held.err)" = 'pit: history is in use' ] && [ ! -s held.out ] && return
    else
        # It finds the first's entries, so it reports no new history.
        is_file kept "$left" && [ ! -e kept.pit-new ] && is_status "$status" 0 && ! grep -qx 'history new' held.err && return
    fi
    cat held.err
    ls kept*
    false
}
# For each run what it leaves of a history with one entry, and of one with two.
while read -r command way of_new of_second; do
    words_of "$command" "$way"
    judge "$command $way, held while another program begins the history" comes_second none new nothing "$of_new"
    judge "$command $way, held while another program carries it on" comes_second new second nothing "$of_second"
    judge "$command $way, held while another begins it, and a new file is left then" comes_second none new left "$of_new"
    judge "$command $way, held while another carries it on, and a new file is left then" comes_second new second left "$of_second"
    judge "$command $way, held while another begins it, and a third program has it then" comes_second none new locked new
done <<'TEXT'
plan --continue second third
merge --continue new.edited second.edited
plan --history new new
merge --history edited edited
TEXT

# A history that is an input too.
# input_words COMMAND WAY: the words of a run with each kind of input, and the inputs among them. Each is named as its file.
input_words() {
    local start=(--start start)
    [ "$2" = --history ] || start=()
    case $1 in
        plan) words=(plan "$2" kept --blocks blocks "${start[@]}" model precedence script script2) inputs=(model precedence blocks script script2) ;;
        merge) words=(merge "$2" kept --from 0 "${start[@]}" model precedence edit edit2) inputs=(model precedence edit edit2) ;;
    esac
    [ "$2" != --history ] || inputs+=(start)
}
# with INPUT PATH: leaves the words in `given`, with that path in place of the input's.
with() {
    local word
    given=()
    for word in "${words[@]}"; do
        if [ "$word" = "$1" ]; then given+=("$2"); else given+=("$word"); fi
    done
}
# is_refused: the run is told that the history is an input, and prints nothing else.
is_refused() {
    "$pit" "${given[@]}" >out 2>err </dev/null
    is_status $? 2 && [ ! -s out ] && [ "$(cat err)" = 'pit: history is an input' ] || { cat err; false; }
}
# has_stayed FILE TEXT NUMBER: it holds that text, and is the file of that number.
has_stayed() { is_file "$1" "$2" && [ "$(stat -c %i "$1")" = "$3" ]; }
# stands HISTORY: the history is as it was, or isn't there.
stands() { if [ "$1" = none ]; then [ ! -e kept ]; else is_file kept "$1"; fi; }
# is_new_file INPUT: the input is the new file, by its own path and by a link.
is_new_file() {
    local history path number
    for history in old none; do
        for path in kept.pit-new linked; do
            begin "$history"
            cp "$1" kept.pit-new
            number=$(stat -c %i kept.pit-new)
            with "$1" "$path"
            is_refused && has_stayed kept.pit-new "$1" "$number" && stands "$history" || { echo "as $path, history $history"; return 1; }
        done
    done
}
# is_history INPUT: the input is the history's own file, by its path and by another name.
is_history() {
    local path number
    for path in kept hard; do
        begin "$1"
        rm -f hard
        ln kept hard
        number=$(stat -c %i kept)
        with "$1" "$path"
        is_refused && has_stayed kept "$1" "$number" && [ ! -e kept.pit-new ] || { echo "as $path"; return 1; }
    done
}
# is_left INPUT: it is the new file, and stays whichever call for the history is refused, as that which sets the permissions of another user's file.
is_left() {
    local number status history refused=0
    with "$1" kept.pit-new
    for history in old none; do
        for number in {1..12}; do
            begin "$history"
            cp "$1" kept.pit-new
            FAULT_AT=$number LD_PRELOAD=./fault.so "$pit" "${given[@]}" >out 2>err </dev/null
            status=$?
            [ "$status" != 3 ] || refused=$((refused + 1))
            if [ "$status" != 2 ] && [ "$status" != 3 ] || [ -s out ] || ! is_file kept.pit-new "$1" || ! stands "$history"; then
                echo "call $number, history $history: status $status"
                cat err
                return 1
            fi
        done
    done
    # the opening of the new file and its lock at least, with a history and without one; and of the last number there is no call
    [ "$refused" -ge 4 ] && [ "$status" = 2 ] || { echo "$refused calls refused, the last one ends with $status"; false; }
}
ln -s kept.pit-new linked
for command in plan merge; do
    for way in --history --continue; do
        input_words "$command" "$way"
        for input in "${inputs[@]}"; do
            judge "$command $way, the new file is the input $input" is_new_file "$input"
            judge "$command $way, the history is the input $input" is_history "$input"
            [ "$way" = --history ] || judge "$command $way, the input $input stays, whichever call is refused" is_left "$input"
        done
    done
done

judged
