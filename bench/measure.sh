# For the scripts beside it, which read it in: runs a program that is given, in turn with a twin. Wants GNU time.

. "$(dirname "$(realpath "${BASH_SOURCE[0]}")")/words.sh"

# run_alone PIT: sets pit to the program, and work to a folder that is gone when the script ends.
run_alone() {
    [ $# -eq 1 ] && [ -x "$1" ] || usage
    pit=$(realpath "$1")
    work=$(mktemp -d)
    trap 'rm -rf "$work"' EXIT
}

# run_on PIT NAME..: does so, and sets names to the pits.
run_on() {
    named "${@:2}"
    run_alone "${@:1:1}"
}

# best KEY STATUS PROGRAM WORD..: keeps the least seconds and the least peak memory, in KB, of the runs so far. A status above STATUS ends the
# script.
declare -A seconds memory
best() {
    local key=$1 most=$2 status=0 begun ended m s user system
    shift 2
    begun=$EPOCHREALTIME
    /usr/bin/time -f '%M %U %S' -o "$work/measured" "$@" >"$work/out" 2>"$work/err" || status=$?
    ended=$EPOCHREALTIME
    if [ "$status" -gt "$most" ]; then
        echo "$key: status $status" >&2
        tail -2 "$work/err" >&2
        exit 1
    fi
    read -r m user system < <(tail -1 "$work/measured")
    s=$(awk "BEGIN { print $ended - $begun }")
    if awk "BEGIN { exit !($s < ${seconds[$key]:-999999}) }"; then seconds[$key]=$s; fi
    if [ "$m" -lt "${memory[$key]:-999999999}" ]; then memory[$key]=$m; fi
}

# whole KEY TWIN WHAT: seconds and memory, and their ratios to those of the key TWIN.
whole() {
    printf '%-36s %8.2f s %10s KB' "$3" "${seconds[$1]}" "${memory[$1]}"
    [ -z "$twin" ] || awk "BEGIN { printf \"   to the twin: time %.2f, memory %.2f\", ${seconds[$1]} / ${seconds[$2]}, ${memory[$1]} / ${memory[$2]} }"
    echo
}

# script NAME SEED: a planner's jobs, as many as count says, of one block, which is read and put where it is: in the file script.SEED of work.
script() {
    awk -v jobs="$count" -v x="$2" '
        FILENAME != ARGV[1] && $1 == "NBLOCKS:" { blocks = $2; exit }
        FILENAME == ARGV[1] { period[$1] = $2 }
        END {
            for (; jobs > 0; jobs--) {
                x = (x * 1664525 + 1013904223) % 4294967296
                b = int(x / 256) % blocks
                print "begin\nread", b
                if (b in period) print "put", b, period[b]; else print "clear", b
                print "commit"
            }
        }' "$1.sol" "$1.cpit" >"$work/script.$2"
}

# middle: the middle one of five numbers; of an even number of them the lesser.
middle() { sort -g | awk '{ n[NR] = $1 } END { print n[int((NR + 1) / 2)] }'; }

# range: the middle, the least and the greatest.
range() { sort -g | awk '{ n[NR] = $1 } END { printf "%.2f (%.2f to %.2f)", n[int((NR + 1) / 2)], n[1], n[NR] }'; }

# held SIDE BOUND RANGE: a range, and whether its middle, as it is printed, meets a bound. SIDE is `least` or `most`.
held() {
    awk -v side="$1" -v bound="$2" -v range="$3" 'BEGIN {
        is_met = side == "least" ? range + 0 >= bound : range + 0 <= bound
        printf "%s, at %s %s: %s", range, side, bound, is_met ? "met" : "missed"
    }'
}

# turn KEY BASE PROGRAM WORD..: one run, whose seconds and memory go to the file KEY of work, with those of the last run of BASE, the bytes that were
# written, and the seconds of processor time of both. A status above 1 ends the script.
declare -A last processor
turn() {
    local key=$1 base=$2
    shift 2
    seconds=()
    memory=()
    best "$key" 1 "$@"
    last[$key]="${seconds[$key]} ${memory[$key]}"
    processor[$key]=$(tail -1 "$work/measured" | awk '{ print $2 + $3 }')
    echo "${last[$key]} ${last[$base]} $(wc -c <"$work/out") ${processor[$key]} ${processor[$base]}" >>"$work/$key"
}

# both KEY WORD..: a run of the other program, which is called by the name that `other` is set to, and then one of PIT, on the same words.
both() {
    local key=$1
    shift
    turn "$other $key" "$other $key" "$twin" "$@"
    turn "$key" "$other $key" "$pit" "$@"
}

# middle_of KEY EXPRESSION: the middle of what an expression of awk gives for each line of the file KEY.
middle_of() { awk "{ print $2 }" "$work/$1" | middle; }

# range_of KEY EXPRESSION: the same of the range.
range_of() { awk "{ print $2 }" "$work/$1" | range; }
