#!/usr/bin/env bash
# Times the commits of a desk over a pit: the best of three runs, in turn with a native program.
# usage: bench/desk.sh [-n COMMITS] [-b BLOCKS] [-t TWIN] NAME..   reads NAME.cpit, NAME.prec and NAME.sol, whose lines have two fields
# Makes a program of desk.txt over the crates first, in bench/data/desk. It opens a desk with no start, whose first commit is the solution,
# and makes COMMITS commits of one write, as many of eight, and as many of one write and one revised limit, 100,000 where it isn't said. Each
# is a transaction that notes blocks drawn over the whole pit, or of BLOCKS that are spread evenly over it, writes to each the period that
# it has, and revises a drawn limit to what it is, so that none is refused. No program treats such a write apart: the blocks around it and
# its loads are looked at as for a move. Timed is all of a transaction, from its empty sets to the reply. TWIN, which revises no limit, is
# run as `TWIN plan NAME.cpit NAME.prec --start NAME.sol --reads lock --jobs-only --time SCRIPT`, on a script of the same transactions.
# Prints the microseconds of a transaction, how many were committed and refused, and the ratios to the twin and to the first NAME, and of a
# revision to none. Wants the toolchain.
set -eu

. "$(dirname "$(realpath "$0")")/program.sh"
words n:b:t: 100000 "$@"
named "${others[@]}"
made_of desk pit_book pit_cli pit_model pit_num pit_text pit_tx

# script NAME WRITES: the transactions of desk.txt, in the words of the twin.
script() {
    awk -v commits="$count" -v among="$among" -v writes="$2" '
        FILENAME != ARGV[1] && $1 == "NBLOCKS:" { blocks = $2; exit }
        FILENAME == ARGV[1] { period[$1] = $2 }
        END {
            if (among > blocks) among = blocks
            step = int(blocks / among)
            for (x = 1; commits > 0; commits--) {
                print "begin"
                for (i = 0; i < writes; i++) {
                    x = (x * 1664525 + 1013904223) % 4294967296
                    b = int(x / 256) % among * step
                    print "read", b
                    if (b in period) print "put", b, period[b]; else print "clear", b
                }
                print "commit"
            }
        }' "$1.sol" "$1.cpit" >"$build/script"
}

# best OF NAME WRITES REVISES MICROSECONDS COMMITTED REFUSED: keeps the least time of the runs so far, and the last two numbers.
best() {
    local of="$1 $2 $3 $4"
    if awk "BEGIN { exit !($5 < ${micros[$of]:-999999999}) }"; then micros[$of]=$5; fi
    replies[$of]="$6 committed, $7 refused"
}

# best_twin NAME WRITES: the twin's jobs are transactions.
best_twin() {
    local committed refused rate
    script "$1" "$2"
    "$twin" plan "$1.cpit" "$1.prec" --start "$1.sol" --reads lock --jobs-only --time "$build/script" 2>"$build/answer"
    read -r committed refused rate < <(sed -n 's|^jobs .* committed \([0-9]*\) refused \([0-9]*\) .* jobs/s \([0-9]*\) .*|\1 \2 \3|p' "$build/answer")
    best twin "$1" "$2" 0 "$(awk "BEGIN { printf \"%.3f\", 1e6 / $rate }")" "$committed" "$refused"
}

ratio() {
    awk "BEGIN { printf \"%.2f\", $1 / $2 }"
}

declare -A micros replies
for name in "${names[@]}"; do
    for _ in 1 2 3; do
        "$program" "$name.cpit" "$name.prec" "$name.sol" "$count" "$among" >"$build/answer"
        while read -r writes revises took committed refused; do
            best desk "$name" "$writes" "$revises" "$took" "$committed" "$refused"
        done <"$build/answer"
        for writes in 1 8; do
            [ -z "$twin" ] || best_twin "$name" "$writes"
        done
    done
    for kind in '1 0' '8 0' '1 1'; do
        for of in desk ${twin:+twin}; do
            key="$of $name $kind"
            [ -n "${micros[$key]:-}" ] || continue
            printf '%-12s %-5s writes %s revises %s %12s us   %s\n' "${name##*/}" "$of" ${kind% *} ${kind#* } "${micros[$key]}" "${replies[$key]}"
        done
        took=${micros[desk $name $kind]}
        [ -z "${micros[twin $name $kind]:-}" ] || echo "to the twin $(ratio "$took" "${micros[twin $name $kind]}")"
        [ "$name" = "${names[0]}" ] || echo "to ${names[0]##*/} $(ratio "$took" "${micros[desk ${names[0]} $kind]}")"
        [ "$kind" != '1 1' ] || echo "to one write alone $(ratio "$took" "${micros[desk $name 1 0]}")"
    done
done
