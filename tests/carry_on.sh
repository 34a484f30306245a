#!/usr/bin/env bash
# Has a built `pit` write one history's file by two programs at once, of which one does or both do, one after the other: no entry is lost. Then it is
# killed before and behind each call that opens, locks, writes, syncs or renames a file, or sets its permissions, and at moments that are drawn: the
# file holds the old history or the whole new one, and the next program goes on from there.
# usage: tests/carry_on.sh PIT [N/M] [ROUNDS [SEED]]      PIT is the path of the program; 50 rounds and a drawn seed, where they aren't said. N/M takes
# the Nth of M parts of the eight cases. Wants a C compiler.
set -u

. "$(dirname "$0")/judge.sh"
if [ $# -lt 1 ] || [ ! -x "$1" ]; then
    echo "usage: $0 PIT [N/M] [ROUNDS [SEED]]" >&2
    exit 2
fi
pit=$(realpath "$1")
alone="$0 $1 %CASE%/8"
shift
if [[ ${1:-} == */* ]] && is_part "$1"; then
    part=$1
    shift
fi
rounds=${1:-50}
seed=${2:-$RANDOM}
alone+=" $rounds $seed"
work=$(mktemp -d)
trap 'rm -rf "$work"' EXIT
cd "$work" || exit 2
echo "seed $seed"

printf 'TYPE: CPIT\nNBLOCKS: 4\nNPERIODS: 2\nNRESOURCE_SIDE_CONSTRAINTS: 0\nDISCOUNT_RATE: 0\n' >model
: >precedence
printf 'begin\nput 0 0\ncommit\nbegin\nclear 0\ncommit\n' >script

# fail TEXT: what isn't as it should be in the case that is judged.
fail() {
    echo "$1"
    lacks=$((lacks + 1))
}

# entries FILE: how many entries the history in a file has, where it is legal.
entries() { "$pit" replay model precedence "$1" 2>err | sed -n '1s/^legal \([0-9]*\) .*/\1/p'; }

# is_refused STATUS REPORT: a program was told that another one writes the history, and nothing else.
is_refused() { [ "$1" = 3 ] && [ "$(cat "$2")" = 'pit: history is in use' ]; }

# count FILE: how many entries stand in a file, where there is one.
count() { echo $(($(wc -l 2>/dev/null <"$1" || echo 1) - 1)); }

# One program holds the history while it waits for its script, and others are told so. Once it ends, something else reads the pipe, so that nobody
# waits for it where it ended too early.
mkfifo waited
hold() {
    local lacks=0 round entries way status
    for round in $(seq "$rounds"); do
        entries=$(count held)
        {
            "$pit" plan --continue held model precedence waited >first.out 2>first.err
            echo $? >first.status
            cat waited >/dev/null
        } &
        # It opens the pipe behind the lock.
        exec 7>waited
        for way in --continue --history; do
            "$pit" plan $way held model precedence script >second.out 2>second.err
            status=$?
            is_refused "$status" second.err && [ ! -s second.out ] || fail "round $round: $way beside a program that holds the history: status $status"
        done
        cat script >&7
        exec 7>&-
        while kill -0 $! 2>/dev/null; do
            : <>waited
            sleep 0.002
        done
        wait
        [ "$(cat first.status)" = 0 ] || fail "round $round: the program that held the history: status $(cat first.status)"
        [ "$(entries held)" = $((entries + 2)) ] && [ ! -e held.pit-new ] || fail "round $round: $(entries held) entries, wanted $((entries + 2))"
    done
    [ "$lacks" -eq 0 ]
}
! ours || judge 'one program holds the history, and others are told so' hold

# Two programs begin at once: each adds its two entries, or is told that the history is in use.
begin_at_once() {
    local lacks=0 round entries first second written end
    for round in $(seq "$rounds"); do
        entries=$(count shared)
        "$pit" plan --continue shared model precedence script >first.out 2>first.err &
        "$pit" plan --continue shared model precedence script >second.out 2>second.err
        second=$?
        wait $!
        first=$?
        written=0
        for end in "$first first.err" "$second second.err"; do
            if [ "${end%% *}" = 0 ]; then
                written=$((written + 1))
            elif ! is_refused $end; then
                fail "round $round: a program ended with ${end%% *}: $(cat "${end#* }")"
            fi
        done
        [ "$written" -gt 0 ] || fail "round $round: neither program wrote the history"
        [ "$(entries shared)" = $((entries + 2 * written)) ] || fail "round $round: $(entries shared) entries, wanted $((entries + 2 * written))"
        [ ! -e shared.pit-new ] || fail "round $round: a new file is left"
    done
    [ "$lacks" -eq 0 ]
}
! ours || judge 'two programs begin at once: one after the other, or one of them' begin_at_once

cat >kill.c <<'TEXT'
#define _GNU_SOURCE
#include <dlfcn.h>
#include <fcntl.h>
#include <signal.h>
#include <stdarg.h>
#include <stdlib.h>
#include <sys/file.h>
#include <sys/stat.h>
#include <sys/types.h>
#include <unistd.h>
// Twice for each call: before it, and behind it.
static void pass(void) {
    static long passed;
    const char *text = getenv("KILLED_AT");
    if (text && __atomic_add_fetch(&passed, 1, __ATOMIC_SEQ_CST) == atol(text)) kill(getpid(), SIGKILL);
}
#define BETWEEN(TYPE, NAME, WITH, ...) \
    TYPE (*next) WITH = (TYPE (*) WITH)dlsym(RTLD_NEXT, NAME); \
    pass(); \
    TYPE answer = next(__VA_ARGS__); \
    pass(); \
    return answer
#define MODE(LAST) \
    va_list rest; \
    va_start(rest, LAST); \
    mode_t mode = how & (O_CREAT | O_TMPFILE) ? va_arg(rest, mode_t) : 0; \
    va_end(rest)
int open(const char *path, int how, ...) { MODE(how); BETWEEN(int, "open", (const char *, int, ...), path, how, mode); }
int open64(const char *path, int how, ...) { MODE(how); BETWEEN(int, "open64", (const char *, int, ...), path, how, mode); }
int openat(int at, const char *path, int how, ...) { MODE(how); BETWEEN(int, "openat", (int, const char *, int, ...), at, path, how, mode); }
int openat64(int at, const char *path, int how, ...) { MODE(how); BETWEEN(int, "openat64", (int, const char *, int, ...), at, path, how, mode); }
ssize_t write(int file, const void *text, size_t size) { BETWEEN(ssize_t, "write", (int, const void *, size_t), file, text, size); }
int flock(int file, int how) { BETWEEN(int, "flock", (int, int), file, how); }
int fchmod(int file, mode_t mode) { BETWEEN(int, "fchmod", (int, mode_t), file, mode); }
int fchown(int file, uid_t user, gid_t group) { BETWEEN(int, "fchown", (int, uid_t, gid_t), file, user, group); }
int ftruncate(int file, off_t size) { BETWEEN(int, "ftruncate", (int, off_t), file, size); }
int ftruncate64(int file, off64_t size) { BETWEEN(int, "ftruncate64", (int, off64_t), file, size); }
int fsync(int file) { BETWEEN(int, "fsync", (int), file); }
int fdatasync(int file) { BETWEEN(int, "fdatasync", (int), file); }
int rename(const char *from, const char *to) { BETWEEN(int, "rename", (const char *, const char *), from, to); }
int renameat(int from_at, const char *from, int to_at, const char *to) { BETWEEN(int, "renameat", (int, const char *, int, const char *), from_at, from, to_at, to); }
int unlink(const char *path) { BETWEEN(int, "unlink", (const char *), path); }
int unlinkat(int at, const char *path, int how) { BETWEEN(int, "unlinkat", (int, const char *, int), at, path, how); }
TEXT
${CC:-cc} -shared -fPIC -o kill.so kill.c -ldl || exit 2

# holds FILE TEXT-FILE: it holds that text, or neither is there.
holds() {
    if [ -e "$2" ]; then cmp -s "$1" "$2"; else [ ! -e "$1" ]; fi
}

# killed NAME OLD WORD..: kills the program that writes F at each place in turn. OLD is what F held, or isn't there.
killed() {
    ! ours || judge "$1: killed at each place" kill_at_each "$@"
}
kill_at_each() {
    local name=$1 old=$2 place status entries old_left=0 new_left=0 lacks=0 ends=0
    shift 2
    rm -f F F.pit-new
    [ ! -e "$old" ] || cp "$old" F
    "$pit" plan "$@" F model precedence script >whole.out 2>whole.err || fail "$name: status $? where nothing is killed"
    cp F whole
    for place in {1..400}; do
        rm -f F F.pit-new
        [ ! -e "$old" ] || cp "$old" F
        { KILLED_AT=$place LD_PRELOAD=./kill.so "$pit" plan "$@" F model precedence script >out 2>err; } 2>/dev/null
        status=$?
        if [ "$status" = 0 ]; then
            ends=1
            break
        fi
        [ "$status" = 137 ] || fail "$name, place $place: status $status"
        if holds F "$old"; then
            old_left=$((old_left + 1))
        elif cmp -s F whole; then
            new_left=$((new_left + 1))
            [ ! -e F.pit-new ] || fail "$name, place $place: the new file is there twice"
        else
            fail "$name, place $place: neither the old history nor the new one is left"
        fi
        entries=$(count F)
        "$pit" plan --continue F model precedence script >out 2>err || fail "$name, place $place: the next program ended with $?"
        [ "$(entries F)" = $((entries + 2)) ] && [ ! -e F.pit-new ] || fail "$name, place $place: the next program didn't go on"
    done
    [ "$ends" = 1 ] && [ "$old_left" -gt 0 ] && [ "$new_left" -gt 0 ] || fail "$name: $old_left places with the old history, and $new_left with the new one"
    [ "$lacks" -eq 0 ]
}

printf 'begin\nput 3 1\ncommit\n' >other
"$pit" plan --history old model precedence other >out 2>err || { wrong 'a history to begin with' <err; judged; }
killed 'a history is new' none --history
killed 'a history is replaced' old --history
killed 'a history is carried on' old --continue
killed 'a history begins' none --continue

# Kills at drawn moments, while planners carry on a history of 3,000 entries, or write another in its place.
# jobs ONE OTHER: a script of 3,000 jobs with these two blocks.
jobs() {
    local number
    for number in {1..1000}; do
        printf 'begin\nput %s 1\ncommit\nbegin\nread %s\nput %s 1\ncommit\nbegin\nclear %s\ncommit\n' "$1" "$1" "$2" "$2"
    done
}
jobs 0 1 >many
"$pit" plan --history long model precedence <(jobs 2 3) >out 2>err || { wrong 'a long history' <err; judged; }
# A pipe that nothing is written to: a wait for it ends when its time is over, with no program started.
mkfifo silent
exec 9<>silent

# moments NAME WAY: kills the program at 100 moments between its start and a bit behind its end.
moments() {
    ! ours || judge "$1" kill_at_moments "$@"
}
kill_at_moments() {
    local name=$1 way=$2 begun time round moment pause status left old_left=0 beside=0 lacks=0
    RANDOM=$seed
    cp long F
    "$pit" plan "$way" F model precedence many >out 2>err || fail "$name: status $? where nothing is killed"
    cp F whole
    # What the next program leaves behind the old history, and behind the new one.
    for left in long whole; do
        cp "$left" F
        "$pit" plan --continue F model precedence script >out 2>err || fail "$name: the next program ended with $?"
        mv F "next.$left"
    done
    begun=${EPOCHREALTIME/[.,]/}
    for round in 1 2 3; do
        cp long F
        "$pit" plan "$way" F model precedence many >out 2>err
    done
    time=$(((${EPOCHREALTIME/[.,]/} - begun) / 3))
    for round in {1..100}; do
        rm -f F.pit-new
        cp long F
        moment=$((time * 12 / 10 * RANDOM / 32768))
        printf -v pause '%d.%06d' $((moment / 1000000)) $((moment % 1000000))
        "$pit" plan "$way" F model precedence many >out 2>err &
        read -r -t "$pause" -u 9
        kill -KILL $! 2>/dev/null
        { wait $!; } 2>/dev/null
        status=$?
        [ "$status" = 137 ] || [ "$status" = 0 ] || fail "$name, $moment microseconds: status $status"
        [ ! -e F.pit-new ] || beside=$((beside + 1))
        left=whole
        if cmp -s F long; then
            left=long
            old_left=$((old_left + 1))
        elif ! cmp -s F whole; then
            fail "$name, $moment microseconds: neither the old history nor the whole new one is left"
        fi
        "$pit" plan --continue F model precedence script >out 2>err || fail "$name, $moment microseconds: the next program ended with $?"
        cmp -s F "next.$left" && [ ! -e F.pit-new ] || fail "$name, $moment microseconds: the next program didn't go on"
    done
    [ "$old_left" -gt 0 ] && [ "$beside" -gt 0 ] || fail "$name: $old_left moments with the old history, $beside with a new file beside it"
    [ "$lacks" -eq 0 ]
}
moments 'at drawn moments, a history is carried on' --continue
moments 'at drawn moments, a history is replaced' --history

judged
