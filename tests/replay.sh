#!/usr/bin/env bash
# Has a built `pit` plan on pits and scripts that are drawn from seeds, and replays each history: it is legal, has an entry for each line but the
# first and a commit for each line that says so, and has the value that the report and the solution have. Then each reply is changed in turn: the
# history is then illegal at that place. On the first of the pits that have 2 to 4 planners these then work for three days, each of which carries on
# the history of the day before.
# usage: tests/replay.sh PIT [N/M] [RUNS [DAYS [SEED]]]      PIT is the path of the program; 200 pits from seed 1, and 20 of them for three days, where
# their numbers aren't said. N/M takes the Nth of M parts of the pits. Some three of four pits have more than one planner: 27 are enough for 20 such, and
# 266 for 200. Each pit is a case. It ends at the first that isn't well.
set -u

. "$(dirname "$0")/judge.sh"
if [ $# -lt 1 ] || [ ! -x "$1" ]; then
    echo "usage: $0 PIT [N/M] [RUNS [DAYS [SEED]]]" >&2
    exit 2
fi
pit=$(realpath "$1")
again="$0 $1"
shift
if [[ ${1:-} == */* ]] && is_part "$1"; then
    part=$1
    shift
fi
runs=${1:-200}
first=${3:-1}
# Days are shared among the parts, as the pits are.
wanted=$(((${2:-20} + ${part#*/} - ${part%/*}) / ${part#*/}))
work=$(mktemp -d)
trap 'rm -rf "$work"' EXIT
cd "$work" || exit 2

# draw SEED: writes a model, precedences, blocks and scripts. Prints the number of scripts.
draw() {
    awk -v x="$1" '
        function draw(n) {
            x = (x * 1664525 + 1013904223) % 4294967296
            return int(x / 65536) % n
        }
        BEGIN {
            for (i = 0; i < 8; i++) draw(2)
            blocks = 3 + draw(10); periods = 1 + draw(4); resources = 1 + draw(2); planners = 1 + draw(4)
            model = "NAME: drawn\nTYPE: CPIT\nNBLOCKS: " blocks "\nNPERIODS: " periods "\nNRESOURCE_SIDE_CONSTRAINTS: " resources "\nDISCOUNT_RATE: 0." draw(4)
            model = model "\nOBJECTIVE_FUNCTION:"
            for (b = 0; b < blocks; b++) model = model "\n" b " " draw(100) - 40 "." draw(10)
            model = model "\nRESOURCE_CONSTRAINT_COEFFICIENTS:"
            for (b = 0; b < blocks; b++) for (r = 0; r < resources; r++) if (draw(4)) model = model "\n" b " " r " " draw(8) - 1
            model = model "\nRESOURCE_CONSTRAINT_LIMITS:"
            for (r = 0; r < resources; r++) for (t = 0; t < periods; t++) if (draw(3)) model = model "\n" r " " t " L " 4 + draw(14)
            print model "\nEOF" >"model"
            printf "" >"precedence"
            for (b = 1; b < blocks; b++) if (draw(2)) print b, 2, draw(b), draw(b) >"precedence"
            for (b = 0; b < blocks; b++) print b, 0, b, draw(3) >"blocks"
            for (p = 1; p <= planners; p++) {
                file = "script" p
                printf "" >file
                for (jobs = draw(7); jobs > 0; jobs--) {
                    print "begin" >file
                    for (lines = draw(6); lines > 0; lines--) {
                        kind = draw(12)
                        if (kind < 3) print "read", draw(blocks) >file
                        else if (kind < 7) print "put", draw(blocks), draw(periods) >file
                        else if (kind < 8) print "clear", draw(blocks) >file
                        else if (kind < 10) print "shift", draw(blocks), draw(3) - 1 >file
                        else print "revise", draw(resources), draw(periods), draw(5) ? 3 + draw(20) : "inf" >file
                    }
                    print draw(6) ? "commit" : "abort" >file
                }
            }
            print planners
        }'
}

# fail TEXT: this pit isn't well, and the script ends.
fail() {
    again="$again 1 1 $seed"
    wrong "a pit of seed $seed" <<<"$1"
    judged
}

# replay HISTORY STATUS TEXT: replays, and compares.
replay() {
    local found status
    found=$("$pit" replay model precedence "$1")
    status=$?
    [ "$status" = "$2" ] && [ "$found" = "$3" ] || fail "$1: status $status, $found, wanted $2, $3"
}

# audit WORD..: plans with these words beside the files, then replays as it is, and with each reply changed.
audit() {
    local status value lines commits line
    "$pit" plan model precedence --blocks blocks --history history "$@" "${scripts[@]}" >solution 2>report
    status=$?
    # the start may break a limit that was revised
    if [ "$status" = 2 ]; then
        grep -q '^pit: start: ' report || fail "$(cat report)"
        refused=$((refused + 1))
        return
    fi
    [ "$status" -le 1 ] || fail "plan: status $status"
    value=$(grep '^value ' report)
    [ "value $("$pit" value model solution)" = "$value" ] || fail "$value"
    lines=$(wc -l <history)
    commits=$(grep -c '"reply":{"committed":' history)
    replay history 0 "legal $((lines - 1)) $commits
$value"
    entries=$((entries + lines - 1))
    for ((line = 2; line <= lines; line++)); do
        # another number where it was committed, and else a commit
        sed -E "${line}{
            s/\"reply\":\{\"committed\":([0-9]+)\}/\"reply\":{\"committed\":1\1}/
            t
            s/\"reply\":(\"withdrawn\"|\{[^}]*\})/\"reply\":{\"committed\":$((commits + 1))}/
        }" history >changed
        cmp -s history changed && fail "line $line is the same"
        replay changed 1 "illegal $((line - 1))"
    done
}

# bare HISTORY: its entries, each as if no entry revised a limit, as they stand in either format.
bare() { sed '1d; s/"revises":\[\],//' "$1"; }

# day NUMBER WORD..: one day, which goes on from the history of the day before. The history begins with that one and is legal, has the value that is
# told, and is shown as the solution; its log has a line for each entry.
day() {
    local number=$1 status value lines commits
    shift
    [ ! -f day ] || cp day before
    "$pit" plan model precedence --blocks blocks --continue day "$@" "${scripts[@]}" >solution 2>report
    status=$?
    [ "$status" -le 1 ] || fail "day $number: status $status, $(cat report)"
    [ "$(head -1 report)" = 'history new' ] && [ "$number" -gt 1 ] && fail "day $number: a new history"
    [ "$(head -1 report)" != 'history new' ] && [ "$number" -eq 1 ] && fail "day 1: no new history"
    value=$(grep '^value ' report)
    lines=$(wc -l <day)
    commits=$(grep -c '"reply":{"committed":' day)
    replay day 0 "legal $((lines - 1)) $commits
$value"
    if [ "$number" -gt 1 ]; then
        cmp -s <(bare before) <(bare day | head -n "$(($(wc -l <before) - 1))") || fail "day $number doesn't begin with the day before"
    fi
    "$pit" show model day | tail -n +2 | cmp -s - solution || fail "day $number isn't shown as its solution"
    [ "$("$pit" log model precedence day | grep -c '^entry ')" = "$((lines - 1))" ] || fail "day $number: its log"
    [ ! -e day.pit-new ] || fail "day $number: a new file is left"
}

# days: three of them, the last in turn, which does the same once more.
days() {
    rm -f day before
    day 1
    day 2 --retries 0
    cp day again
    day 3 --in-turn
    "$pit" plan model precedence --blocks blocks --continue again --in-turn "${scripts[@]}" >other 2>told
    cmp -s day again && cmp -s solution other && cmp -s report told || fail "in turn, another outcome"
}

entries=0
refused=0
carried=0
pits=0
for ((seed = first; seed < first + runs; seed++)); do
    ours || continue
    planners=$(draw "$seed")
    scripts=()
    for ((p = 1; p <= planners; p++)); do scripts+=("script$p"); done
    audit
    cp solution start
    audit --start start
    if [ "$planners" -gt 1 ] && [ "$carried" -lt "$wanted" ]; then
        days
        carried=$((carried + 1))
    fi
    pits=$((pits + 1))
    passed=$((passed + 1))
done
echo "ok    pits from seed $first: $pits cases"
days_came_up() {
    echo "three days on $carried pits, wanted $wanted"
    [ "$carried" = "$wanted" ]
}
judge 'three days came up' days_came_up
# So few starts are refused, and so many histories have entries, that the draws are of use. A few pits say nothing of that.
came_up() {
    echo "$((2 * pits - refused)) plans, $entries entries replayed, each of them changed in turn"
    [ "$entries" -gt "$((5 * pits))" ] && [ "$((2 * refused))" -lt "$pits" ]
}
[ "$pits" -lt 20 ] || judge 'plans and entries came up' came_up
judged
