#!/usr/bin/env bash
# Proves the crates that the program is made of, each as soon as those below it are proved, builds the program and leaves it as ./pit.
# usage: scripts/build.sh, at the top of the repository. LANES=N in the environment: at most N crates at once.
set -euo pipefail

# What a crate of crates.txt uses, and the repository's crates that it stands on, lowest first: a crate stands behind those that it uses.
declare -A uses under
while IFS=: read -r crate names; do
    uses[$crate]=$names
    under[$crate]=$(for it in $names; do printf '%s\n' ${under[$it]-} ${under[$it]+"$it"}; done | awk 'NF && !seen[$0]++')
done < <(sed -n 's/#.*//; /^[a-z]/p' crates.txt)

# below CRATE: the repository's crates that it stands on, lowest first.
below() { echo "${under[$1]}"; }

# marks NAME: how many crates have a mark of that name, `running` or `proved`.
marks() {
    find "$work" -maxdepth 1 -name "*.$1" | wc -l
}

# back LANE CRATE: what was made of a crate in its lane goes to the crate's own folder.
back() {
    [ ! -d "$1/crates/$2/out" ] || mv -T "$1/crates/$2/out" "crates/$2/out"
}

# prove CRATE: only one command of rt at a time works in the folders of a crate and of those below it. So a crate is proved in copies of them, which
# are links to the same files, and what was made of it is then moved to its own folder.
prove() {
    local it part jobs status=0
    crate=$1
    lane=$work/$crate
    mkdir -p "$lane/crates"
    # Also where it is stopped: what is kept there is worth minutes.
    trap 'back "$lane" "$crate"' EXIT
    for it in $(below "$crate") "$crate"; do
        echo "$it:${uses[$it]}" >>"$lane/crates.txt"
        mkdir "$lane/crates/$it"
        for part in src specs proofs; do
            [ ! -d "crates/$it/$part" ] || cp -al "crates/$it/$part" "$lane/crates/$it"
        done
        if [ "$it" = "$crate" ]; then
            [ ! -d "crates/$it/out" ] || mv "crates/$it/out" "$lane/crates/$it"
        else
            mkdir "$lane/crates/$it/out"
            cp -al "crates/$it/out/rlib" "$lane/crates/$it/out"
        fi
    done
    : >"$work/$crate.running"
    # A third process in one crate gains nothing.
    jobs=$((cores >= 2 * $(marks running) ? 2 : 1))
    (cd "$lane/crates/$crate" && rt lib --jobs $jobs) >"$work/$crate.log" 2>&1 || status=$?
    rm "$work/$crate.running"
    if [ $status -ne 0 ]; then
        cat "$work/$crate.log" >&2
        echo "pit: $crate is not proved" >&2
        return $status
    fi
    back "$lane" "$crate"
    : >"$work/$crate.proved"
    echo "$crate is proved: $(marks proved) of $total crates, $((total - $(marks proved))) left, after $(minutes)"
}

minutes() {
    local seconds=$(($(date +%s) - begun))
    printf '%d:%02d minutes' $((seconds / 60)) $((seconds % 60))
}

if [ "${1-}" = prove ]; then
    prove "$2"
    exit
fi

mkdir -p crates/pit/out
# One run at a time. Its commands hold the lock too, so none is at work any more when the next run begins.
exec {lock}>crates/pit/out/lock
flock -n "$lock" || { echo 'pit: another make pit is at work' >&2; exit 1; }
# What a run that was killed has left goes back.
for lane in crates/pit/out/lanes.*/*/; do
    [ ! -d "$lane" ] || [ -d "crates/$(basename "$lane")/out" ] || back "$lane" "$(basename "$lane")"
done
rm -rf crates/pit/out/lanes.*

cores=$(nproc)
# A crate takes up to 3 GB.
memory=$(awk '$1 == "MemAvailable:" { print int($2 / 3000000) }' /proc/meminfo)
lanes=${LANES:-$((memory < 1 ? 1 : memory < cores ? memory : cores))}
begun=$(date +%s)
mapfile -t product < <(below pit)
total=$((${#product[@]} + 1))
work=$(realpath "$(mktemp -d crates/pit/out/lanes.XXXXXX)")
export cores begun total work

# build: proves the crates below the program, and then the program itself, in its own folder.
build() {
    env -u MAKEFLAGS -u MAKELEVEL make --no-print-directory -j "$lanes" -f "$work/makefile" all || return
    echo "pit is proved and built, the last of $total crates .."
    (cd crates/pit && rt run --jobs $((cores > 1 ? 2 : 1)) -- value data/tiny.cpit data/tiny.sol) >"$work/log" 2>&1 && return
    cat "$work/log" >&2
    return 1
}

echo "Proves $total crates, $lanes at once, on $cores cores. From nothing it takes half an hour or more; later only what changed is proved again."
{
    echo "all: ${product[*]}"
    for crate in "${product[@]}"; do
        printf '%s: %s\n\t@scripts/build.sh prove %s\n' "$crate" "$(below "$crate" | tr '\n' ' ')" "$crate"
    done
} >"$work/makefile"
status=0
build || status=$?
rm -rf "$work"
[ $status -eq 0 ] || exit $status
cp crates/pit/out/pit pit.new
mv pit.new pit
echo "./pit is there, after $(minutes)."
