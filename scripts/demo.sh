#!/usr/bin/env bash
# Three days of planners on two examples: four edit one schedule at once, their history is gone over once more, it is carried on, and two sit down at it.
# By a ./pit that is there, or else by ./pit-unproved, which is first compiled where a source is newer than it.
# usage: scripts/demo.sh, at the top of the repository. Solutions and histories are left in demo/.
set -eu

hill=examples/hill
tiny=examples/tiny
pit=./pit
if [ -x pit ]; then
    echo 'Three days with ./pit, on two examples. It takes a second.'
else
    pit=./pit-unproved
    echo 'Three days with ./pit-unproved, on two examples. To compile it takes two minutes or so, where that is still to be done.'
    make --no-print-directory pit-unproved
fi
rm -rf demo
mkdir demo

# run WORD..: shows the command and what it prints.
run() {
    printf '\n$ %s\n' "$*"
    "$@"
}

# planned FILE WORD..: the same for a plan, whose solution goes to a file.
planned() {
    local solution=$1
    shift
    printf '\n$ %s >%s\n' "$*" "$solution"
    "$@" >"$solution"
}

run $pit value $tiny/tiny.cpit $tiny/tiny.sol
run $pit check $tiny/tiny.cpit $tiny/tiny.prec $tiny/tiny.sol
run $pit check $hill/hill.cpit $hill/hill.prec $hill/hill.sol
planned demo/new.sol $pit plan $hill/hill.cpit $hill/hill.prec --blocks $hill/hill.blocks --start $hill/hill.sol --history demo/hill.history \
    $hill/deep.script $hill/top.script $hill/east.script $hill/west.script
run $pit table $hill/hill.cpit demo/hill.history
run $pit replay $hill/hill.cpit $hill/hill.prec demo/hill.history
printf '\nThe next day:\n'
planned demo/second.sol $pit plan $hill/hill.cpit $hill/hill.prec --blocks $hill/hill.blocks --continue demo/hill.history $hill/second.script
printf '\n$ %s log %s %s demo/hill.history | tail -n 5\n' $pit $hill/hill.cpit $hill/hill.prec
$pit log $hill/hill.cpit $hill/hill.prec demo/hill.history | tail -n 5
# Two planners who sit down, each at two named pipes, whose descriptors stand in into and out_of.
declare -A into out_of

# sits WHO: opens a planner's pipes, the one that the program reads first.
sits() {
    local write read
    exec {write}>"demo/$1.in"
    exec {read}<"demo/$1.out"
    into[$1]=$write out_of[$1]=$read
}

# asks WHO REQUEST: shows a request and its reply.
asks() {
    local reply
    echo "$2" >&"${into[$1]}"
    read -r reply <&"${out_of[$1]}"
    printf '%-4s  %-10s  %s\n' "$1" "$2" "$reply"
}

# leaves WHO: ends a planner's input.
leaves() { exec {into[$1]}>&- {out_of[$1]}<&-; }

printf '\nThe third day two planners sit down at once, and each request has its reply:\n'
mkfifo demo/{anna,ben}.{in,out}
live=("$pit" live "$hill/hill.cpit" "$hill/hill.prec" --blocks "$hill/hill.blocks" --continue demo/hill.history demo/anna.in:demo/anna.out demo/ben.in:demo/ben.out)
printf '\n$ %s\n' "${live[*]}"
"${live[@]}" 2>demo/live.report &
sits anna
sits ben
asks anna begin
asks anna 'read 18'
asks anna 'put 18 5'
asks ben begin
asks ben 'read 18'
asks ben 'clear 18'
asks ben commit
asks anna commit
asks anna begin
asks anna 'read 18'
asks anna 'put 18 5'
asks anna commit
asks ben value
leaves anna
leaves ben
wait
cat demo/live.report
if [ $pit = ./pit-unproved ]; then
    printf '\nNothing is proved by this: `make pit` proves the program, and leaves it as ./pit. Try the commands of the README on ./pit-unproved.\n'
fi
