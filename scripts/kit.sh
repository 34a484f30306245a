#!/usr/bin/env bash
# Lays the kit into a folder, by links, for `rt try` of the folder's `bin/rt`. It compiles and runs and does nothing else, where that of the kit also
# looks for names that a check would refuse.
# usage: scripts/kit.sh FOLDER [PATH LEVEL]      the program that `rt try` compiles has no sanitizer, and a copy of it is left at PATH; LEVEL is clang's
set -euo pipefail

if [ $# -ne 1 ] && [ $# -ne 3 ]; then
    sed -n '/^# usage/s/^# //p' "$0" >&2
    exit 2
fi
kit=$(dirname "$(rt doc)")
mkdir -p "$1/bin" "$1/toolchain/bin"
cd "$1"

link() {
    local file
    for file in "$kit/$1"/*; do
        [ -e "$1/${file##*/}" ] || ln -s "$file" "$1"
    done
}
link .
link bin
link toolchain
link toolchain/bin
# rt looks for the rest of its kit beside its own file, so it is copied.
cp --remove-destination "$kit/bin/rt" "$kit/bin/rtlib.py" bin
rm bin/rattle
printf '#!/bin/sh\n' >bin/rattle
chmod +x bin/rattle
[ $# -eq 3 ] || exit 0

# Both are run without an environment.
rm toolchain/bin/{clang,ld.lld}
cat >toolchain/bin/clang <<TEXT
#!/bin/bash
words=()
for word in "\$@"; do
    [ "\$word" = -fsanitize=address ] && words+=('$3') || words+=("\$word")
done
exec '$kit/toolchain/bin/clang' "\${words[@]}"
TEXT
# What is linked whole is the sanitizer's own library.
cat >toolchain/bin/ld.lld <<TEXT
#!/bin/bash
words=() taken=yes made=
while [ \$# -ne 0 ]; do
    case \$1 in
        --whole-archive) taken=no ;;
        --no-whole-archive) taken=yes ;;
        -o) made=\$2 words+=("\$1" "\$2") && shift ;;
        *) [ \$taken = no ] || words+=("\$1") ;;
    esac
    shift
done
'$kit/toolchain/bin/ld.lld' "\${words[@]}" && /bin/cp "\$made" '$2'
TEXT
chmod +x toolchain/bin/{clang,ld.lld}
