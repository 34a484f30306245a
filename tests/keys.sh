#!/usr/bin/env bash
# The keys by which the sets of a built `pit` hash. A run that makes transactions draws its own from the system, once; others draw none. Whatever is
# drawn, and where nothing can be, all outputs are the same.
# usage: tests/keys.sh PIT FOLDER      PIT is the path of the program, FOLDER has the hill. Wants a C compiler.
set -u

. "$(dirname "$0")/judge.sh"
if [ $# -ne 2 ] || [ ! -x "$1" ] || [ ! -r "$2/hill.cpit" ]; then
    echo "usage: $0 PIT FOLDER" >&2
    exit 2
fi
pit=$(realpath "$1")
hill=$(realpath "$2")/hill
source=$(realpath "$(dirname "$0")")/keys/draw.c
folder=$(realpath "$2")
work=$(mktemp -d)
trap 'rm -rf "$work"' EXIT
cd "$work" || exit 2

${CC:-cc} -shared -fPIC -O1 -o draw.so "$source" || exit 2

plan=(plan "$hill.cpit" "$hill.prec" --blocks "$hill.blocks" --start "$hill.sol" --history kept --in-turn "$folder"/{east,west,top,second,deep}.script)
merge=(merge "$hill.cpit" "$hill.prec" --start "$hill.sol" --history kept "$folder"/{north,south}.sol)

# run TO WORD..: the outputs and the status go to files that begin with TO, what it drew to TO.drew.
run() {
    local to=$1
    shift
    rm -f kept "$to.drew"
    DREW=$to.drew LD_PRELOAD=./draw.so "$pit" "$@" >"$to.out" 2>"$to.err" </dev/null
    echo $? >"$to.status"
    if [ -e kept ]; then mv kept "$to.kept"; else : >"$to.kept"; fi
    [ -e "$to.drew" ] || : >"$to.drew"
}

# draws TIMES WORD..: the run draws so often.
draws() {
    local times=$1
    shift
    run one "$@"
    wc -l <one.drew
    [ "$(wc -l <one.drew)" -eq "$times" ]
}

# differ WORD..: two runs draw two numbers.
differ() {
    run one "$@"
    run other "$@"
    cat one.drew other.drew
    ! cmp -s one.drew other.drew
}

# is_same GIVEN WORD..: with these digits the run leaves what it leaves by its own.
is_same() {
    local given=$1 part
    shift
    run one "$@"
    GIVEN=$given run other "$@"
    for part in out err kept status; do
        cmp "one.$part" "other.$part" || return
    done
    cat one.status one.err
    [ -s one.out ] && [ -s one.err ] && [ -s one.kept ]
}

judge 'a plan draws once' draws 1 "${plan[@]}"
judge 'a merge draws once' draws 1 "${merge[@]}"
judge 'two plans draw two numbers' differ "${plan[@]}"
judge 'two merges draw two numbers' differ "${merge[@]}"
for given in 0000000000000000 0000000000000001 9e3779b97f4a7c15 ffffffffffffffff 8000000000000000 refused; do
    judge "a plan that draws $given" is_same "$given" "${plan[@]}"
    judge "a merge that draws $given" is_same "$given" "${merge[@]}"
done
judge 'a value draws nothing' draws 0 value "$hill.cpit" "$hill.sol"
judge 'a check draws nothing' draws 0 check "$hill.cpit" "$hill.prec" "$hill.sol"
judged
