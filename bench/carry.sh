#!/usr/bin/env bash
# Times jobs of `pit plan` that carry blocks along: five rounds.
# usage: bench/carry.sh [-n JOBS] PIT NAME BLOCK SMALL   reads NAME.cpit, NAME.prec and NAME.sol, whose lines rise by block, and SMALL.cpit and SMALL.prec
# Ten jobs of a planner who starts from the solution put BLOCK into period 0 with all that stands in its way (`cone`), and abort. In turn with them ten
# jobs shift as many mined blocks by one period, and abort. Then JOBS jobs (20,000 where it isn't said) on each pit are a cone of up to ten blocks and an
# `abort`, from an empty schedule. Of each the seconds of a `plan` of no job are taken off. Prints the middle of the seconds and of the peak memory, and
# the middle of the ratios in one round: of the cone to the shifts, and of small cones in NAME to those in SMALL. Predecessors have higher numbers, as in
# the pits that `generate.py` makes. Wants GNU time.
set -eu

. "$(dirname "$(realpath "$0")")/measure.sh"
words n: 20000 "$@"
[ ${#others[@]} -eq 4 ] || usage
block=${others[2]}
run_on "${others[0]}" "${others[1]}" "${others[3]}"
large=${names[0]}
small=${names[1]}

# small_cones NAME KEY: JOBS jobs, each a cone of a block with at most nine predecessors, none of which has one. Of all such blocks about a thousand are
# taken, far apart.
small_cones() {
    tac "$1.prec" | awk -v jobs="$count" '
        $2 == 0 { is_top[$1] = 1; next }
        $2 <= 9 { for (i = 3; i <= NF; i++) if (!($i in is_top)) next; block[n++] = $1 }
        END {
            if (!n) exit 1
            step = int(n / 1000) + 1
            for (i = 0; i < jobs; i++) print "begin\ncone", block[i * step % n], "0\nabort"
        }' >"$work/script.$2"
}

: >"$work/script.none"
for _ in {1..10}; do printf 'begin\ncone %s 0\nabort\n' "$block"; done >"$work/script.one"
# What the cone takes along, and as many blocks that are mined later than in period 0.
awk -v block="$block" '
    FILENAME == ARGV[1] { period[$1] = $2; next }
    $1 == block { is_in[block] = 1 }
    $1 in is_in && (!($1 in period) || period[$1] > 0) { members++; for (i = 3; i <= NF; i++) is_in[$i] = 1 }
    END {
        print members
        for (b in period) if (period[b] > 0 && members-- > 0) print "shift", b, "-1"
    }' "$large.sol" "$large.prec" >"$work/shifted"
members=$(head -n 1 "$work/shifted")
tail -n +2 "$work/shifted" | sort -k 2n >"$work/steps"
for _ in {1..10}; do echo begin; cat "$work/steps"; echo abort; done >"$work/script.shifts"
if [ "$(wc -l <"$work/steps")" -ne "$members" ]; then
    echo "$large.sol has too few blocks that are mined later than in period 0" >&2
    exit 1
fi
small_cones "$large" large
small_cones "$small" small
held=(plan "$large.cpit" "$large.prec" --start "$large.sol")
for round in 1 2 3 4 5; do
    turn held held "$pit" "${held[@]}" "$work/script.none"
    turn cone held "$pit" "${held[@]}" "$work/script.one"
    turn shifts held "$pit" "${held[@]}" "$work/script.shifts"
    turn none none "$pit" plan "$large.cpit" "$large.prec" "$work/script.none"
    turn large none "$pit" plan "$large.cpit" "$large.prec" "$work/script.large"
    turn less less "$pit" plan "$small.cpit" "$small.prec" "$work/script.none"
    turn small less "$pit" plan "$small.cpit" "$small.prec" "$work/script.small"
done

# own KEY: of each round the seconds less those of no job.
own() { awk '{ print $1 - $3 }' "$work/$1"; }

echo "${large##*/}, a cone of $members blocks"
for key in cone shifts large small; do
    printf '%-8s %8.3f s beside no job, %8d KB\n' "$key" "$(own "$key" | middle)" "$(middle_of "$key" '$2')"
done
printf 'the cone to the shifts %.2f, small cones to those of %s %.2f\n' "$(paste <(own cone) <(own shifts) | awk '{ print $1 / $2 }' | middle)" \
    "${small##*/}" "$(paste <(own large) <(own small) | awk '{ print $1 / $2 }' | middle)"
