#!/usr/bin/env bash
# Refuses each request of a built `pit` for memory in turn, those of the command line's parser too. A run with a refused
# request has to print `pit: no memory` alone, with status 3, or to end as the run in which nothing is refused; or a planner
# stops for it, and the report says so, with status 3. The file of a plan's history is then as it was; or it has a history, where a planner stopped.
# No new file is left beside it, and none is removed that is an input.
# It also refuses each thread of a plan in turn: that planner isn't started, and the others do their scripts.
# usage: tests/no_memory.sh PIT FOLDER [PART]      PIT is the path of the program, FOLDER has the small example. PART is N/M, the Nth of M parts of the
# cases, or the number of one case. Wants a C compiler.
set -u

. "$(dirname "$0")/judge.sh"
if [ $# -lt 2 ] || [ $# -gt 3 ] || [ ! -x "$1" ] || [ ! -r "$2/tiny.cpit" ] || ! is_part "${3:-1/1}"; then
    echo "usage: $0 PIT FOLDER [PART]" >&2
    exit 2
fi
pit=$(realpath "$1")
data=$(realpath "$2")
part=${3:-1/1}
alone="$0 $1 $2 %CASE%"
work=$(mktemp -d)
trap 'rm -rf "$work"' EXIT
cd "$work" || exit 2

cat >refuse.c <<'TEXT'
#define _GNU_SOURCE
#include <dlfcn.h>
#include <errno.h>
#include <pthread.h>
#include <stdlib.h>
extern void *__libc_malloc(size_t);
extern void *__libc_realloc(void *, size_t);
static long asked, number = -1;
static int is_refused(void) {
    if (number < 0) {
        const char *text = getenv("REFUSED_REQUEST");
        number = text ? atol(text) : 0;
    }
    return ++asked == number;
}
void *malloc(size_t size) {
    if (is_refused()) { errno = ENOMEM; return 0; }
    return __libc_malloc(size);
}
void *realloc(void *at, size_t size) {
    if (is_refused()) { errno = ENOMEM; return 0; }
    return __libc_realloc(at, size);
}
typedef int (*starts)(pthread_t *, const pthread_attr_t *, void *(*)(void *), void *);
static starts start;
__attribute__((constructor)) static void find(void) { *(void **)&start = dlsym(RTLD_NEXT, "pthread_create"); }
int pthread_create(pthread_t *thread, const pthread_attr_t *how, void *(*does)(void *), void *with) {
    static long threads;
    const char *text = getenv("REFUSED_THREAD");
    return text && ++threads == atol(text) ? EAGAIN : start(thread, how, does, with);
}
TEXT
${CC:-cc} -shared -fPIC -o refuse.so refuse.c -ldl || exit 2

# The pit of the runs.
of=("$data/tiny.cpit" "$data/tiny.prec")

# is_told WORD..: where the words have a history to keep, what was kept is legal.
is_told() { [[ " $* " != *' kept '* ]] || "$pit" replay "${of[@]}" kept >/dev/null; }

# What the file of a history holds before a run.
echo before >old

# How many requests are refused at most, more than any run below makes.
most=300

# each NAME WORD..: runs the program with the words, once for each request.
each() {
    ! ours || judge "$1" each_request "${@:2}"
}
each_request() {
    local refused=0 before=0 lacking=0 number status whole
    cp old kept
    "$pit" "$@" >whole.out 2>whole.err
    whole=$?
    cp kept whole.kept
    for number in $(seq "$most"); do
        cp old kept
        REFUSED_REQUEST=$number LD_PRELOAD=./refuse.so "$pit" "$@" >out 2>err
        status=$?
        before=$refused
        if [ -e kept.pit-new ]; then
            echo "request $number refused: a new file is left"
            rm kept.pit-new
            lacking=1
        elif [ "$status" = 3 ] && [ ! -s out ] && cmp -s kept old && [ "$(cat err)" = 'pit: no memory' ]; then
            refused=$((refused + 1))
        elif [ "$status" = 3 ] && grep -q '^planner [0-9]* \(stopped at job [0-9]*: no memory\|not started\)$' err && is_told "$@"; then
            refused=$((refused + 1))
        elif [ "$status" != "$whole" ] || ! cmp -s out whole.out || ! cmp -s err whole.err || ! cmp -s kept whole.kept; then
            echo "request $number refused: status $status"
            lacking=1
        fi
    done
    # In the last run nothing is left to refuse.
    if [ "$refused" -eq 0 ] || [ "$refused" -ne "$before" ]; then
        echo "$refused of $most runs had no memory: none, or the last one too"
        lacking=1
    fi
    return $lacking
}

# input_stays: carries a history on whose new file is an input, once for each request. The input stays, and so does the history.
input_stays() {
    local stayed=0 number
    for number in {1..300}; do
        cp old kept
        cp one kept.pit-new
        REFUSED_REQUEST=$number LD_PRELOAD=./refuse.so "$pit" plan --continue kept "$data/tiny.cpit" "$data/tiny.prec" kept.pit-new >out 2>err
        cmp -s kept.pit-new one && cmp -s kept old && grep -q '^pit: \(no memory\|history is an input\)$' err && stayed=$((stayed + 1))
    done
    rm kept.pit-new
    echo "it stays in $stayed of 300 runs"
    [ "$stayed" = 300 ]
}

# threads COUNT: plans by so many planners, once for each of their threads, which is refused.
threads() {
    local count=$1 lacking=0 scripts=() number status
    printf 'begin\nput 3 1\ncommit\n' >late
    for number in $(seq "$count"); do scripts+=(late); done
    for number in $(seq "$count"); do
        echo before >kept
        REFUSED_THREAD=$number LD_PRELOAD=./refuse.so "$pit" plan --history kept "$data/tiny.cpit" "$data/tiny.prec" "${scripts[@]}" >out 2>err
        status=$?
        # The thread of the last planner is started first.
        awk -v count="$count" -v refused=$((count + 1 - number)) '
            NR == refused && $0 == "planner " NR " not started" { next }
            NR != refused && NR <= count && $0 ~ "^planner " NR " job 1 committed [0-9]+ tries 1$" { next }
            NR == count + 1 && $0 == "value 4.545454545455000000" { next }
            { other = 1 }
            END { exit other || NR != count + 1 }' err || status=lacking
        if [ "$status" != 3 ] || [ "$(cat out)" != '3 1' ] ||
            [ "$("$pit" replay "$data/tiny.cpit" "$data/tiny.prec" kept | head -1)" != "legal $((count - 1)) $((count - 1))" ]; then
            echo "thread $number of $count refused: status $status"
            lacking=1
        fi
    done
    return $lacking
}

each 'value' value "$data/tiny.cpit" "$data/tiny.sol"
each 'check' check "$data/tiny.cpit" "$data/tiny.prec" "$data/tiny.sol"
each 'check, breach and shortfall' check "$data/tiny.cpit" "$data/tiny.prec" "$data/over.sol"
printf 'begin\nput 0 0\nput 1 0\ncommit\nbegin\nread 0\nrevise 0 0 inf\ncommit\nbegin\nshift 1 1\nabort\n' >one
printf 'begin\nread 3\nabort\n' >two
printf 'begin\nexpect 3 -\ncone 2 1\npush 0 1\nabort\n' >carried
each 'plan' plan "$data/tiny.cpit" "$data/tiny.prec" one
each 'plan, two planners from a start' plan "$data/tiny.cpit" "$data/tiny.prec" --start "$data/tiny.sol" --retries 0 one two
each 'plan, blocks are carried along' plan "$data/tiny.cpit" "$data/tiny.prec" carried
each 'plan, two planners in turn' plan --in-turn "$data/tiny.cpit" "$data/tiny.prec" one two
each 'plan with a history' plan --history kept "$data/tiny.cpit" "$data/tiny.prec" one
"$pit" plan --history history "${of[@]}" one >out 2>err
[ -s history ] || { wrong 'a history to begin with' <err; judged; }
cp history old
each 'plan, a history is carried on' plan --continue kept "$data/tiny.cpit" "$data/tiny.prec" one
each 'merge, a history is carried on' merge --continue kept --from 1 "$data/tiny.cpit" "$data/tiny.prec" "$data/early.sol" "$data/over.sol"
each 'plan, the history is an input' plan --history kept "$data/tiny.cpit" "$data/tiny.prec" kept
! ours || judge 'plan, the new file is an input: it stays' input_stays
echo before >old
each 'merge, an edit that is refused' merge --start "$data/tiny.sol" --history kept "$data/tiny.cpit" "$data/tiny.prec" "$data/early.sol" "$data/short.sol"
each 'merge, the same is left out' merge --start "$data/tiny.sol" --partial "$data/tiny.cpit" "$data/tiny.prec" "$data/short.sol" "$data/over.sol"
printf 'begin\nput 3 1\ncommit\n' >three
"$pit" plan --history edited "${of[@]}" three >out 2>err
"$pit" show "$data/tiny.cpit" edited >shown
each 'merge, an edit that is a history' merge --start "$data/tiny.sol" "${of[@]}" edited
each 'merge, an edit that names its base' merge --start edited "${of[@]}" shown
each 'log' log --writes "$data/tiny.cpit" "$data/tiny.prec" history
each 'replay' replay "$data/tiny.cpit" "$data/tiny.prec" history
# Each line of this one is read by its JSON value.
sed 's/,/, /g' history | head -3 >spaced
each 'replay, white space' replay "$data/tiny.cpit" "$data/tiny.prec" spaced
sed 's/"committed":2/"committed":3/' history >other
each 'replay, another reply' replay "$data/tiny.cpit" "$data/tiny.prec" other
each 'check --all' check --all "$data/tiny.cpit" "$data/tiny.prec" "$data/early.sol"
each 'table, a history' table "$data/tiny.cpit" history
each 'diff, a solution and a history' diff "$data/tiny.cpit" "$data/tiny.sol" history
printf '0 0 0 2\n1 0 0 1\n2 0 0 0\n3 1 0 2\n' >blocks
each 'info' info "$data/tiny.cpit" "$data/tiny.prec" --blocks blocks
each 'show, a solution' show "$data/tiny.cpit" "$data/tiny.sol"
each 'show, a history up to a commit' show "$data/tiny.cpit" history --at 1
# A pit of 100 blocks in four rows, each row in a period: what is kept of it grows past its first room. A job writes 10 blocks, another 50.
awk 'BEGIN {
    print "TYPE: CPIT\nNBLOCKS: 100\nNPERIODS: 4\nNRESOURCE_SIDE_CONSTRAINTS: 2\nDISCOUNT_RATE: 0.1\nOBJECTIVE_FUNCTION:" >"rows.cpit"
    for (b = 0; b < 100; b++) print b, b % 7 - 1.5 >"rows.cpit"
    print "RESOURCE_CONSTRAINT_COEFFICIENTS:" >"rows.cpit"
    for (b = 0; b < 100; b++) for (r = 0; r < 2; r++) print b, r, r + 1 >"rows.cpit"
    print "RESOURCE_CONSTRAINT_LIMITS:" >"rows.cpit"
    for (t = 0; t < 4; t++) for (r = 0; r < 2; r++) print r, t, "L", 25 * (r + 1) >"rows.cpit"
    for (b = 25; b < 100; b++) print b, 1, b - 25 >"rows.prec"
    for (b = 0; b < 40; b++) under = under " " b
    print 99, 40 under >"wide.prec"
    for (b = 0; b < 100; b++) print b, b % 25, 0, int(b / 25) >"rows.blocks"
    for (b = 0; b < 100; b++) print b, int(b / 25) >"rows.sol"
    for (b = 0; b < 100; b++) print b, 3 - int(b / 25) >"turned.sol"
    for (b = 0; b < 40; b++) print b, int(b / 25) >"front.sol"
    print "begin" >"rows.job"
    for (b = 40; b < 50; b++) print "read " b - 25 "\nput", b, 1 >"rows.job"
    print "commit\nbegin" >"rows.job"
    for (b = 50; b < 100; b++) print "put", b, int(b / 25) >"rows.job"
    for (t = 0; t < 4; t++) for (r = 0; r < 2; r++) print "revise", r, t, 60 >"rows.job"
    print "commit" >"rows.job"
    print "begin\nexpect 0 -\ncone 99 3\npush 0 3\nrevise 0 3 inf\nrevise 1 3 inf\ncommit\nbegin\ncone 99 1\npush 39 2\nabort" >"wide.job"
}'
of=(rows.cpit rows.prec)
most=400
each 'rows, check --all' check --all "${of[@]}" turned.sol
each 'rows, table' table rows.cpit rows.sol
each 'rows, info' info "${of[@]}" --blocks rows.blocks
each 'rows, plan' plan --start front.sol --history kept "${of[@]}" --blocks rows.blocks rows.job
"$pit" plan --start front.sol --history rows.history "${of[@]}" --blocks rows.blocks rows.job >out 2>err
each 'rows, log' log --writes "${of[@]}" rows.history
each 'rows, replay' replay "${of[@]}" rows.history
each 'rows, merge' merge "${of[@]}" front.sol rows.sol
# Here a cone takes 41 blocks along, and a push two of them.
of=(rows.cpit wide.prec)
each 'rows, a wide cone' plan --history kept "${of[@]}" wide.job
most=300
! ours || judge 'threads: each of 4 refused' threads 4
each 'help' --help
each 'help on value' value --help
each 'help value' help value
each 'help check' help check
each 'help table' help table
each 'help diff' help diff
each 'help info' help info
each 'help show' help show
each 'help plan' help plan
each 'help replay' help replay
each 'help log' help log
each 'help merge' help merge
each 'version' --version
each 'no words'
each 'no such subcommand' valu
each 'words that exclude one another' plan --continue history --start history "$data/tiny.cpit" "$data/tiny.prec" one
each 'one file' value "$data/tiny.cpit"
each 'a word that is not UTF-8' value $'\xff' x

judged
