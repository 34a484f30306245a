#!/usr/bin/env bash
# Says in one line what the machine lacks that the program is proved and built with, and ends with status 1; or says nothing.
# usage: scripts/needs.sh
set -eu

# What `rt version` prints of the logic that the proofs were made with.
logic=dac8208d650f15bf
# In kilobytes; a machine of 8 GB keeps some of them for its system.
least=7400000

lacks() {
    echo "pit: $1" >&2
    exit 1
}

[ "$(uname -sm)" = 'Linux x86_64' ] || lacks "this is $(uname -sm), and the toolchain needs Linux on x86-64"
for tool in git python3; do
    command -v $tool >/dev/null || lacks "there is no $tool on the path"
done
command -v rt >/dev/null || lacks "there is no rt on the path: put the folder bin of rattle-kit-13b or rattle-kit-13f there (README, 'Toolchain and platforms')"
compiler=${CC:-cc}
command -v "${compiler%% *}" >/dev/null || lacks "there is no C compiler $compiler: install one, as gcc or clang, or set CC"
memory=$(awk '$1 == "MemTotal:" { print $2 }' /proc/meminfo)
[ "$memory" -ge $least ] || lacks "this machine has $((memory / 1000000)) GB of memory, and 8 GB are needed"
version=$(rt version) || lacks 'rt version fails'
case $version in
    *"$logic"*) ;;
    *) echo "pit: the proofs were made with logic $logic, and this is $version: a proof may fail here" >&2 ;;
esac
