#!/usr/bin/env bash
# Times the readers of model, precedence and block texts on a pit: the best of five runs, in turn with a native program.
# usage: bench/readers.sh NAME [TWIN]   reads NAME.cpit, NAME.prec and NAME.blocks; TWIN is run as `TWIN check NAME.cpit NAME.prec NAME.sol`
# Makes a program of readers.txt over the crates first, in bench/data/readers. Prints seconds of processor time, peak memory, and the
# ratios to the twin. Wants the toolchain, and GNU time.
set -eu

if [ $# -lt 1 ] || [ $# -gt 2 ] || [ ! -s "$1.cpit" ]; then
    echo "usage: $0 NAME [TWIN]" >&2
    exit 2
fi
name=$(realpath "$1.cpit")
name=${name%.cpit}
twin=${2:+$(realpath "$2")}
. "$(dirname "$(realpath "$0")")/program.sh"
made_of readers pit_cli pit_model pit_num pit_text

# best NAME WORD..: keeps the least seconds and the least peak memory, in KB, of the runs so far. A status above 1 ends the script: that of
# a program that did not read its files. A twin's 1 says that its solution does not fit.
best() {
    local of=$1 s u m status=0
    shift
    /usr/bin/time -f '%U %S %M' -o "$build/measured" "$@" >"$build/answer" || status=$?
    if [ "$status" -gt 1 ]; then
        echo "$of: status $status" >&2
        exit 1
    fi
    read -r u s m < <(tail -1 "$build/measured")
    s=$(awk "BEGIN { print $u + $s }")
    if awk "BEGIN { exit !($s < ${seconds[$of]:-999999}) }"; then seconds[$of]=$s; fi
    if [ "$m" -lt "${memory[$of]:-999999999}" ]; then memory[$of]=$m; fi
}

declare -A seconds memory
for run in 1 2 3 4 5; do
    best readers "$program" "$name.cpit" "$name.prec" "$name.blocks"
    [ -z "$twin" ] || best twin "$twin" check "$name.cpit" "$name.prec" "$name.sol"
done
for of in readers ${twin:+twin}; do
    printf '%-8s %8s s %10s KB\n' "$of" "${seconds[$of]}" "${memory[$of]}"
done
if [ -n "$twin" ]; then
    awk "BEGIN { printf \"time to the twin %.2f, memory %.2f\n\", ${seconds[readers]} / ${seconds[twin]}, ${memory[readers]} / ${memory[twin]} }"
fi
