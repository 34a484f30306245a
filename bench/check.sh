#!/usr/bin/env bash
# Times `pit check` on a pit: the best of three runs, in turn with a native program.
# usage: bench/check.sh PIT NAME [TWIN]   runs `PIT check NAME.cpit NAME.prec NAME.sol`, and TWIN with the same words
# Prints seconds, peak memory, and the ratios to the twin. Wants GNU time.
set -eu

if [ $# -lt 2 ] || [ $# -gt 3 ] || [ ! -x "$1" ] || [ ! -s "$2.prec" ]; then
    echo "usage: $0 PIT NAME [TWIN]" >&2
    exit 2
fi
name=$2
measured=$(mktemp)
trap 'rm -f "$measured"' EXIT

# best NAME PROGRAM: keeps the least seconds and the least peak memory, in KB, of the runs so far. A status of 1 says that the solution
# breaks a rule or falls short; one above 1 ends the script.
best() {
    local status=0 s m
    /usr/bin/time -f '%e %M' -o "$measured" "$2" check "$name.cpit" "$name.prec" "$name.sol" >/dev/null || status=$?
    if [ "$status" -gt 1 ]; then
        echo "$1: status $status" >&2
        exit 1
    fi
    read -r s m < <(tail -1 "$measured")
    if awk "BEGIN { exit !($s < ${seconds[$1]:-999999}) }"; then seconds[$1]=$s; fi
    if [ "$m" -lt "${memory[$1]:-999999999}" ]; then memory[$1]=$m; fi
}

declare -A seconds memory
for run in 1 2 3; do
    best pit "$1"
    [ -z "${3:-}" ] || best twin "$3"
done
for of in pit ${3:+twin}; do
    printf '%-5s %8s s %10s KB\n' "$of" "${seconds[$of]}" "${memory[$of]}"
done
if [ -n "${3:-}" ]; then
    awk "BEGIN { printf \"time to the twin %.2f, memory %.2f\n\", ${seconds[pit]} / ${seconds[twin]}, ${memory[pit]} / ${memory[twin]} }"
fi
