#!/usr/bin/env bash
# Compiles the program as it stands, without a proof, and leaves it at a path.
# usage: scripts/unproved.sh PATH [LEVEL]      LEVEL is clang's: -O1 where none is said. With -O0 it is there sooner, and is up to forty times slower.
# PATH is looked up from the folder that the script is called in.
set -euo pipefail

if [ $# -lt 1 ]; then
    sed -n '/^# usage/s/^# //p' "$0" >&2
    exit 2
fi
path=$(realpath -m "$1")
cd "$(dirname "$0")/.."
work=$(mktemp -d)
new=$(mktemp -u "$path.XXXXXX")
trap 'rm -rf "$work" "$new"' EXIT
scripts/kit.sh "$work/kit" "$new" "${2:--O1}"
if ! (cd crates/pit && "$work/kit/bin/rt" try -- --version) >"$work/said" 2>&1 || [ ! -x "$new" ]; then
    cat "$work/said" >&2
    echo 'pit: the program was not compiled' >&2
    exit 1
fi
mv "$new" "$path"
