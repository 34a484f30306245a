#!/usr/bin/env bash
# Times `pit value` on two made-up pits, of 1,000,000 and 2,142,000 blocks, and on two whose lines stand in no order of blocks, of 100,000
# blocks with 64 coefficients each and of 2,142,000 without any: the best of three runs each, in turn.
# usage: bench/run.sh PIT [TWIN]      PIT is the program; TWIN a native program that takes the same words, `TWIN value MODEL SOLUTION`
# Prints seconds, peak memory, and the ratios to reading the bytes alone and to the twin. Wants python3 and GNU time.
set -eu

if [ $# -lt 1 ] || [ $# -gt 2 ] || [ ! -x "$1" ]; then
    echo "usage: $0 PIT [TWIN]" >&2
    exit 2
fi
pit=$(realpath "$1")
twin=${2:+$(realpath "$2")}
here=$(dirname "$(realpath "$0")")
data=$here/data
mkdir -p "$data"
[ -s "$data/small.sol" ] || python3 "$here/generate.py" "$data/small" 200 100 50 20 3
[ -s "$data/large.sol" ] || python3 "$here/generate.py" "$data/large" 300 238 30 20 4
[ -s "$data/orders.sol" ] || python3 "$here/orders.py" "$data/orders" 100000 64 20 5
[ -s "$data/bare.sol" ] || python3 "$here/orders.py" "$data/bare" 2142000 0 20 6
cd "$data"

# best NAME WORD..: the least seconds and the least peak memory, in KB, of three runs.
best() {
    local name=$1 seconds=999999 memory=999999999 run
    shift
    for run in 1 2 3; do
        /usr/bin/time -f '%e %M' -o measured "$@" >answer
        read -r s m <measured
        if awk "BEGIN { exit !($s < $seconds) }"; then seconds=$s; fi
        if [ "$m" -lt "$memory" ]; then memory=$m; fi
    done
    printf -v "${name}_seconds" '%s' "$seconds"
    printf -v "${name}_memory" '%s' "$memory"
    printf '%-12s %8s s %10s KB  %s\n' "$name" "$seconds" "$memory" "$(head -c 60 answer | tr -d '\0\n')"
}

ratio() { awk "BEGIN { printf \"%-52s %.2f\n\", \"$1\", ($2) / ($3) }"; }

echo "cores $(nproc)"
best small_read cat small.cpit small.sol
best large_read cat large.cpit large.sol
best small_pit "$pit" value small.cpit small.sol
best large_pit "$pit" value large.cpit large.sol
best orders_pit "$pit" value orders.cpit orders.sol
best bare_pit "$pit" value bare.cpit bare.sol
if [ -n "$twin" ]; then
    best small_twin "$twin" value small.cpit small.sol
    best large_twin "$twin" value large.cpit large.sol
    best orders_twin "$twin" value orders.cpit orders.sol
    best bare_twin "$twin" value bare.cpit bare.sol
    ratio 'time to the twin, 2,142,000 blocks' "$large_pit_seconds" "$large_twin_seconds"
    ratio 'peak memory to the twin, 2,142,000 blocks' "$large_pit_memory" "$large_twin_memory"
    ratio 'time to the twin, 64 resources in turn' "$orders_pit_seconds" "$orders_twin_seconds"
    ratio 'peak memory to the twin, 64 resources in turn' "$orders_pit_memory" "$orders_twin_memory"
    ratio 'time to the twin, no coefficients' "$bare_pit_seconds" "$bare_twin_seconds"
    ratio 'peak memory to the twin, no coefficients' "$bare_pit_memory" "$bare_twin_memory"
fi
ratio 'time to reading the bytes alone, 2,142,000 blocks' "$large_pit_seconds" "$large_read_seconds + 0.001"
ratio 'time of 2,142,000 blocks to that of 1,000,000' "$large_pit_seconds" "$small_pit_seconds"
rm -f measured answer
