# For the scripts beside it, which read it in: makes a program of a text over the crates, in a folder of its own. Wants the toolchain.

. "$(dirname "$(realpath "${BASH_SOURCE[0]}")")/words.sh"

# made_of NAME CRATE..: makes bench/data/NAME/crates/NAME/out/NAME of bench/NAME.txt, which uses the crates; sets `build` to the folder
# bench/data/NAME and `program` to the program.
made_of() {
    local name=$1 here
    shift
    here=$(dirname "$(realpath "${BASH_SOURCE[0]}")")
    build=$here/data/$name
    program=$build/crates/$name/out/$name
    mkdir -p "$build/crates/$name/src"
    cp -r "$here/../crates/." "$build/crates"
    cp "$here/../HANDLES" "$build"
    (cat "$here/../crates.txt"; echo "$name: $*") >"$build/crates.txt"
    cp "$here/$name.txt" "$build/crates/$name/src/main.rt"
    # What the session of its workspace names, where it opens one.
    if [ -f "$here/$name.session.txt" ]; then
        mkdir -p "$build/crates/$name/proofs/played"
        cp "$here/$name.session.txt" "$build/crates/$name/proofs/played/Invariants.antt"
    fi
    [ -d "$build/.git" ] || git init -q "$build"
    rm -f "$program"
    # With no words it answers 2; what counts is that it was made.
    (cd "$build/crates/$name" && rt run >../../log 2>&1) || true
    [ -x "$program" ] || { tail "$build/log" >&2; exit 1; }
}
