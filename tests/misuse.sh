#!/usr/bin/env bash
# Shows that programs that drop a transaction, or end it twice, are refused before any proof, for that alone.
# usage: tests/misuse.sh [PART]      Each program is one of tests/misuse, made into a crate over a copy of the sources. PART is N/M, the Nth of M parts of
# them, or the number of one. It wants the kit, or that whose rt is named by RT, and nothing that is built.
set -u

. "$(dirname "$0")/judge.sh"
if [ $# -gt 1 ] || ! is_part "${1:-1/1}"; then
    echo "usage: $0 [PART]" >&2
    exit 2
fi
part=${1:-1/1}
alone="$0 %CASE%"
programs=$(realpath "$(dirname "$0")/misuse")
cd "$(dirname "$0")/.." || exit 2
work=$(mktemp -d)
trap 'rm -rf "$work"' EXIT
tar -c --exclude=out crates crates.txt HANDLES | tar -x -C "$work" || exit 2
cd "$work" || exit 2
git init -q . || exit 2
mkdir -p crates/misuse/src
echo 'misuse: pit_share' >>crates.txt
cd crates/misuse || exit 2

# refused FAULT PROGRAM: the one fault of the program is that one, with its line and column. What is tried with a test is not proved.
refused() {
    { cat "$programs/$2.txt" && printf '\n#[test]\nfn nothing() {}\n'; } >src/lib.rt || exit 2
    timeout 300 "${RT:-rt}" try --test >out.txt 2>&1
    local status=$?
    cat out.txt
    echo "status $status"
    [ $status -eq 1 ] && [ "$(grep -c 'error\[' out.txt)" = 1 ] && grep -qF "src/lib.rt:$1: " out.txt
}

while read -r name fault; do
    ! ours || judge "$name" refused "$fault" "$name"
done <<'TEXT'
let_go 8:46: error[linear-value-let-go]
dropped 9:5: error[unsatisfied-bound]
ended_twice 11:29: error[borrow-e0382]
TEXT
judged
