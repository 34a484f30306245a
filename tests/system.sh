#!/usr/bin/env bash
# Has a built `pit` plan with many threads, of which some can't be started, or which want one block. What comes of it is another thing each time, and is
# judged line by line.
# usage: tests/system.sh PIT      PIT is the path of the program.
set -u

. "$(dirname "$0")/judge.sh"
if [ $# -ne 1 ] || [ ! -x "$1" ]; then
    echo "usage: $0 PIT" >&2
    exit 2
fi
pit=$(realpath "$1")
of=$(realpath "$(dirname "$0")/../examples/tiny")/tiny
work=$(mktemp -d)
trap 'rm -rf "$work"' EXIT
cd "$work" || exit 2

# Too little memory for the threads of 64 planners: the report says who wasn't started, the others do their scripts, and the solution is printed.
printf 'begin\nput 3 1\ncommit\n' >late
scripts=()
for _ in {1..64}; do scripts+=(late); done
are_not_started() {
    local status
    (
        ulimit -v 60000
        exec "$pit" plan --history stopped "$of.cpit" "$of.prec" "${scripts[@]}"
    ) >out 2>err
    status=$?
    cat err
    echo "status $status"
    [ $status -eq 3 ] && [ "$(cat out)" = '3 1' ] && awk '
        NR <= 64 && $0 == "planner " NR " not started" { refused++; next }
        NR <= 64 && $0 ~ "^planner " NR " job 1 committed [0-9]+ tries 1$" { done++; next }
        NR == 65 && $0 == "value 4.545454545455000000" { value = 1; next }
        { other = 1 }
        END { exit !(refused && done && value && !other) }' err
}
judge 'threads that cannot be started' are_not_started

are_replayed() {
    local entries
    entries=$(($(wc -l <stopped) - 1))
    diff <("$pit" replay "$of.cpit" "$of.prec" stopped) <(printf 'legal %s %s\nvalue 4.545454545455000000\n' "$entries" "$entries")
}
judge 'the history of planners who were not all started' are_replayed

# Eight planners want one block, and no try is repeated: each refusal names that block, and a commit that was made.
hot=()
for i in {1..8}; do
    awk -v first="$i" 'BEGIN { for (j = 0; j < 300; j++) printf "begin\nread 0\nput 0 %d\ncommit\n", (first + j) % 2 }' >"hot.$i"
    hot+=("hot.$i")
done
meet() {
    local status
    "$pit" plan --retries 0 "$of.cpit" "$of.prec" "${hot[@]}" >out 2>err
    status=$?
    echo "status $status"
    [ $status -le 1 ] && awk '
        $1 == "planner" && $3 == "job" && $5 == "committed" && $7 " " $8 == "tries 1" { made[$6]++; commits++; next }
        $1 == "planner" && $3 == "job" && $5 " " $6 " " $7 == "refused moved 0" && $9 " " $10 == "tries 1" { met[$8]; refused++; next }
        $1 == "value" || $1 == "short" { next }
        { other = 1; print }
        END {
            for (n = 1; n <= commits; n++) if (made[n] != 1) other = 1
            for (n in met) if (!(n in made)) other = 1
            print commits " committed, " refused " refused"
            exit !(commits + refused == 2400 && !other)
        }' err
}
judge 'eight planners who want one block' meet

judged
