#!/usr/bin/env bash
# Builds the twin and the maker of pits beside their sources. Needs rustc alone.
set -eu
cd "$(dirname "$0")"
for name in twin grid; do
    rustc --edition 2021 -C opt-level=3 -o "$name" "$name.rs"
done
