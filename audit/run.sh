#!/usr/bin/env bash
# What the gate leaves out, tried on a copy of the tree: further edits, each of which the prover has to refuse; planted wrong bodies, of
# which only the listed ones may meet their contracts; and further tests. Before them, pages that a browser opens. Each line that is not as it should be
# begins with FAIL.
# usage: audit/run.sh [page|edits|plants|tests [CRATE..]]
# Without a word the pages of ./pit, and then the other three of each crate, side by side: as many at once as there are processors and 3 GB of free
# memory for each. A part of a crate that has passed over the same sources and toolchain is not tried again (audit/out). Wants the toolchain, and for
# pages the package chromium of Debian.
set -u
cd "$(dirname "$0")/.." || exit 2
top=$PWD

if [ $# -eq 0 ] || [ "$1" = page ]; then
    audit/page.sh ./pit || exit
    [ $# -eq 0 ] || exit 0
fi

# Each part of each crate in a run of its own, whose lines are printed together when it ends.
if [ $# -eq 0 ]; then
    free=$(awk '/^MemAvailable/ { print int($2 / 3000000) }' /proc/meminfo)
    lanes=$(nproc)
    [ "$free" -lt "$lanes" ] && lanes=$((free > 0 ? free : 1))
    export RT_JOBS=1
    {
        for part in plants edits; do
            for crate in crates/*/src audit/tests/pit_sample/src; do
                echo "$part $(basename "${crate%/src}")"
            done
        done
        for crate in audit/tests/test_*; do
            echo "tests $(basename "$crate")"
        done
    } | xargs -P "$lanes" -L 1 bash -c 'said=$(audit/run.sh "$@" 2>&1); status=$?; echo "$said"; exit $status' audit && echo 'all of it fine'
    exit
fi

part=$1
shift
case $part in
    edits | plants | tests) ;;
    *) sed -n '/^# usage/s/^# //p' "$0" && exit 2 ;;
esac
wanted=" $* "
tree=$(mktemp -d)
trap 'rm -rf "$tree"' EXIT
scripts/lay_out.sh "$tree" || exit 2
failures=0
# What a part passes over.
over=$({
    rt version
    git ls-files -z --cached --others --exclude-standard crates crates.txt HANDLES scripts/lay_out.sh audit/{run.sh,edits,plants,tests} | xargs -0 sha256sum
} 2>&1 | sha256sum)
mkdir -p audit/out

# take CRATE: what the checkout's own checks kept of the crate, and the libraries that they built. Files that rt replaces and doesn't write into are
# linked.
take() {
    local out
    for out in crates/*/out/rlib; do
        [ -d "$out" ] && mkdir -p "$tree/${out%/*}" && cp -rln "$out" "$tree/${out%/*}/"
    done
    out=crates/$1/out
    if [ -d "$out/incremental" ] && [ ! -d "$tree/$out/incremental" ]; then
        mkdir -p "$tree/$out"
        cp -rl "$out/incremental" "$tree/$out/"
        (cd "$out" && find incremental -type f ! -name '*.oantt' -print0 | xargs -0r cp --parents --remove-destination -t "$tree/$out")
    fi
}

# is_wanted CRATE: no crate was named, or this one was.
is_wanted() { [ "$wanted" = '  ' ] || [[ $wanted == *" $1 "* ]]; }

fail() {
    echo "FAIL  $1"
    failures=$((failures + 1))
}

# edits CRATE: each edit of audit/edits/CRATE is refused.
edits() {
    [ -d "$top/audit/edits/$1" ] || return
    rm -rf "$tree/crates/$1/must-fail"
    cp -r "$top/audit/edits/$1" "$tree/crates/$1/must-fail"
    (cd "$tree" && rt must-fail "$1") || fail "edits of $1"
}

# plants CRATE: what `rt plant` lists, without line numbers, is what audit/plants/CRATE.txt lists; what that lists behind `? ` may be missing.
plants() {
    local listed=$top/audit/plants/$1.txt found=$tree/plants.txt
    (cd "$tree/crates/$1" && rt plant --max 2000 --minutes 600 ${RT_JOBS:+--jobs "$RT_JOBS"}) >"$tree/said.txt" || fail "planting in $1"
    tail -n 1 "$tree/said.txt"
    grep -q '^note: some plants may not have been tried' "$tree/said.txt" && fail "plants of $1: not all were tried"
    grep -E '^(proves|no-ensures|untested) ' "$tree/said.txt" | sed -E 's/:[0-9]+//g; s/ +/ /g' | sort >"$found"
    [ -f "$listed" ] || listed=/dev/null
    {
        grep -v '^[#?]' "$listed"
        sed -n 's/^? //p' "$listed" | grep -Fxf "$found"
    } | sort | diff - "$found" || fail "plants of $1: < is listed and was not found, > was found and is not listed"
}

# tests CRATE: the crate passes its tests.
tests() {
    (cd "$tree/crates/$1" && rt test ${RT_JOBS:+--jobs "$RT_JOBS"}) || fail "tests of $1"
}

tried=0
for folder in "$tree"/crates/*/src; do
    crate=$(basename "${folder%/src}")
    is_wanted "$crate" || continue
    [ "$part" != tests ] || [[ $crate == test_* && $crate != test_surface ]] || continue
    tried=$((tried + 1))
    passed=audit/out/$part.$crate
    if [ "$(cat "$passed" 2>/dev/null)" = "$over" ]; then
        echo "== $part of $crate: passed before"
        continue
    fi
    echo "== $part of $crate"
    take "$crate"
    before=$failures
    "$part" "$crate"
    [ "$failures" -ne "$before" ] || echo "$over" >"$passed"
done
[ "$tried" -ne 0 ] || fail "no crate of that name has $part"
if [ "$failures" -ne 0 ]; then
    echo "$failures failed"
    exit 1
fi
echo 'all fine'
