#!/usr/bin/env bash
# The file of a history that a built `pit` writes, in place of the old one or to carry that on. Each call by which it opens, locks, writes, syncs,
# renames or removes that file or the new one beside it is refused in turn, and the program is killed before each in turn: the file then holds the old
# history or the whole new one, and the next run succeeds. Several programs that write one history, files that can't be locked, somebody else's files,
# links, permissions, and what stands at the new file's name.
# usage: tests/history_file.sh PIT      PIT is the path of the program. Wants a C compiler and python3.
set -u
. "$(dirname "$0")/history/head.sh"

plan made || [ $? = 1 ]
judge 'a history is made' is_file made new
judge 'no new file is left' test ! -e made.pit-new

# tells_fault WAY: the fault is told, and where the history is carried on nothing else is printed.
tells_fault() {
    [ "$1" = --history ] || { [ ! -s out ] && [ "$(wc -l <err)" = 1 ]; } || return
    [ "$(tail -n 1 err)" = 'pit: cannot write' ] || { [ "$1" = --continue ] && [ "$(tail -n 1 err)" = 'pit: cannot read history' ]; }
}
# goes_on: the next run leaves what is due behind what it found.
goes_on() {
    local due=$next
    ! is_same kept "$old" || due=$new
    plan kept "$way"
    is_same kept "$due" && [ ! -e kept.pit-new ] && [ "$(stat -c %a kept)" = 640 ]
}
# faults WAY OLD NEW NEXT: where a run finds OLD it leaves NEW, and the next one NEXT. Each of its calls is refused, and it is killed before each.
faults() {
    local way=$1 old=$2 new=$3 next=$4 number status refused=0 left=0 killed=0 wrong=()
    for number in {1..60}; do
        begin "$old"
        FAULT_AT=$number LD_PRELOAD=./fault.so plan kept "$way"
        status=$?
        if [ "$status" = 3 ] && is_same kept "$old" && tells_fault "$way"; then
            refused=$((refused + 1))
            [ ! -e kept.pit-new ] || left=$((left + 1))
        elif [ "$status" -gt 1 ] || ! is_same kept "$new" || [ -e kept.pit-new ]; then
            wrong+=("call $number refused: status $status")
        fi
        goes_on || wrong+=("the run after call $number was refused")
    done
    judge "$way, whichever call is refused, the old history or the new one stays" are_none "${wrong[@]}"
    judge "$way, some calls are refused, $refused in all" test "$refused" -gt 8
    judge "$way, a new file is left only where it could not be locked" test "$left" = 1
    wrong=()
    for number in {1..60}; do
        begin "$old"
        FAULT_KILLS=1 FAULT_AT=$number LD_PRELOAD=./fault.so plan kept "$way"
        status=$?
        [ "$status" = 137 ] && killed=$((killed + 1))
        if ! is_same kept "$old" && ! is_same kept "$new" || [ "$(stat -c %a kept)" != 640 ]; then
            wrong+=("killed before call $number: status $status")
        fi
        goes_on || wrong+=("the run after it was killed before call $number")
    done 2>/dev/null
    judge "$way, before whichever call it is killed, the old history or the new one stays" are_none "${wrong[@]}"
    judge "$way, it is killed before some calls, $killed in all" test "$killed" -gt 8
}
faults --history old new new
faults --continue new second third

# A program that was ended leaves its new file, with whatever it holds and may be.
begin
head -c 100000 /dev/zero >kept.pit-new
chmod 600 kept.pit-new
plan
judge 'what was left is used again' is_file kept new
judge 'with the permissions of the old history' test "$(stat -c %a kept)" = 640
rm kept
head -c 100000 /dev/zero >kept.pit-new
chmod 600 kept.pit-new
plan
judge 'where no history stands, with those of a new file' test "$(stat -c %a kept)" = 644

# Another program that has locked the new file.
begin
lock kept.pit-new
plan
status=$?
judge 'it is in use' is_status "$status" 3
judge 'it says so' is_told 'pit: history is in use'
judge 'the old history stays' is_file kept old
judge 'the new file stays' test -e kept.pit-new
unlock
plan
judge 'it is free once that program has ended' is_file kept new

# A file system without locks.
# is_unlocked WAY ERROR: the program is told by the error that it can't lock, and leaves the history as it was.
is_unlocked() {
    begin
    LOCK_ERROR=$(python3 -c "import errno; print(errno.$2)") LD_PRELOAD=./fault.so "$pit" plan "$1" kept model precedence script >out 2>err </dev/null
    [ $? = 3 ] && [ ! -s out ] && [ "$(cat err)" = 'pit: cannot write' ] && is_file kept old
}
for error in ENOLCK EOPNOTSUPP ENOSYS; do
    judge "no lock, by $error, of a history that is replaced" is_unlocked --history "$error"
    judge "and of one that is carried on" is_unlocked --continue "$error"
done

# Somebody else's files, in a folder in which only its owner may rename or remove a file.
theirs() { setpriv --reuid=65534 --regid=65534 --clear-groups ./here plan "$1" sticky/kept model precedence script >out 2>err </dev/null; }
# is_kept_out WAY: another user's program can't write the history, and leaves each file in the folder as it was.
is_kept_out() {
    rm -rf before
    cp -a sticky before
    theirs "$1"
    [ $? = 3 ] && is_told 'pit: cannot write' && diff -r before sticky
}
# stand_sticky: the folder, with the history as that user's own.
stand_sticky() {
    rm -rf sticky
    mkdir sticky
    cp old sticky/kept
    chown 65534:65534 sticky/kept
}
cp "$pit" here
chmod 755 . here
if [ "$(id -u)" = 0 ] && setpriv --reuid=65534 --regid=65534 --clear-groups ./here --version >out 2>err; then
    for way in --history --continue; do
        stand_sticky
        chown 0:0 sticky/kept
        chmod 666 sticky/kept
        chmod 1777 sticky
        judge "$way, somebody else's history in a sticky folder" is_kept_out "$way"
        chmod 777 sticky
        theirs "$way"
        judge 'it is replaced where the folder is not sticky' is_file sticky/kept new
        for mode in 644 666; do
            stand_sticky
            echo theirs >sticky/kept.pit-new
            chmod "$mode" sticky/kept.pit-new
            chmod 1777 sticky
            judge "$way, somebody else's new file of mode $mode" is_kept_out "$way"
            rm sticky/kept
            judge 'and where no history stands' is_kept_out "$way"
        done
        chown 65534 sticky/kept.pit-new
        theirs "$way"
        judge 'their own new file is used again' is_file sticky/kept new
    done
else
    skip "somebody else's files" "whoever runs this can't be somebody else"
fi

# Several programs at once: each writes the history whole, or is told that it is in use.
race() {
    "$pit" plan --history kept model precedence script >out."$1" 2>err."$1" </dev/null
    local status=$?
    [ "$status" -lt 2 ] || { [ "$status" = 3 ] && [ "$(tail -n 1 err."$1")" = 'pit: history is in use' ]; } || : >failed
    [ "$status" -gt 1 ] || : >written
}
raced=0
for _ in {1..30}; do
    begin
    rm -f written failed
    for number in {1..8}; do race "$number" & done
    wait
    [ -e written ] && [ ! -e failed ] && is_same kept new && [ ! -e kept.pit-new ] && raced=$((raced + 1))
done
judge 'of several programs some write it, and the others are told' test "$raced" = 30

# Links.
begin
ln -sf kept link
plan link
judge 'a link leads to the history' is_file kept new
judge 'and stays a link' test -L link
ln -sf nowhere lost
plan lost
status=$?
judge 'a link that leads nowhere' test "$status" = 3
judge 'is not written' is_told 'pit: cannot write'
judge 'and makes nothing' test ! -e nowhere
begin
cp old other
ln -s other kept.pit-new
plan
judge 'a link at the name of the new file' is_told 'pit: cannot write'
judge 'is not followed' is_file other old
begin
mkdir kept.pit-new
plan
judge 'a folder at the name of the new file' is_told 'pit: cannot write'
judge 'stays' test -d kept.pit-new
rmdir kept.pit-new
begin
ln kept kept.pit-new
plan
judge 'the history itself at the name of the new file' is_told 'pit: cannot write'
judge 'stays as it is' is_file kept old

# A pipe is written as it is.
rm -rf kept kept.pit-new
mkfifo kept
cat kept >taken &
plan
wait $!
judge 'a pipe gets the history' is_file taken new
judge 'and stays a pipe' test -p kept
rm kept

judged
