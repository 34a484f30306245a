# For the scripts of a history's file, which read it in: it takes their words, and goes to a folder of their own that has a small pit, histories of it
# and `fault.so`.

if [ $# -ne 1 ] || [ ! -x "$1" ]; then
    echo "usage: $0 PIT" >&2
    exit 2
fi
pit=$(realpath "$1")
tests=$(realpath "$(dirname "$0")")
work=$(realpath "$(mktemp -d)")
trap 'chmod -R u+rwx "$work"; rm -rf "$work"' EXIT
cd "$work" || exit 2
umask 022
. "$tests/judge.sh"
${CC:-cc} -shared -fPIC -o fault.so "$tests/history/fault.c" -ldl || exit 2

cp "$tests/../examples/tiny/tiny.cpit" model
cp "$tests/../examples/tiny/tiny.prec" precedence
printf 'begin\nput 3 1\ncommit\n' >script
# runs COUNT: the history of so many runs, each of which carries on the one before.
runs() {
    local run
    echo '{"format":1}'
    for ((run = 1; run <= $1; run++)); do
        echo "{\"act\":\"commit\",\"job\":1,\"planner\":1,\"reads\":[],\"reply\":{\"committed\":$run},\"start\":$((run - 1)),\"writes\":[[3,1]]}"
    done
}
runs 0 >old
runs 1 >new
runs 2 >second
runs 3 >third

# plan [FILE [WAY]]: a run that replaces the history in the file, or carries it on.
plan() { "$pit" plan "${2:---history}" "${1:-kept}" model precedence script >out 2>err </dev/null; }
is_same() { cmp -s "$1" "$2"; }
# is_file FILE WANTED: the file holds that text.
is_file() { diff "$2" "$1"; }
is_told() { [ "$(tail -n 1 err)" = "$1" ] || { cat err; false; }; }
# is_status STATUS WANTED
is_status() { [ "$1" = "$2" ] || { echo "status $1"; false; }; }
# are_none LINE..: nothing went wrong. Else the lines say what did.
are_none() { [ $# = 0 ] || { printf '%s\n' "$@"; false; }; }

# begin [OLD]: the old history, alone; or no history.
begin() {
    rm -rf kept kept.pit-new
    [ "${1:-old}" = none ] || { cp "${1:-old}" kept && chmod 640 kept; }
}

# lock FILE: another program, `holder`, that has locked the file until it is killed. The file is made where it isn't there.
lock() {
    rm -f locked
    python3 - "$1" <<'TEXT' &
import fcntl, sys, time
file = open(sys.argv[1], "a")
fcntl.flock(file, fcntl.LOCK_EX)
open("locked", "w").close()
time.sleep(60)
TEXT
    holder=$!
    while [ ! -e locked ] && kill -0 "$holder" 2>/dev/null; do sleep 0.05; done
}
unlock() {
    kill "$holder"
    wait "$holder" 2>/dev/null
}
