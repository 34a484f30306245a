# For the scripts beside it, which read it in: each case prints a line, `ok`, `FAIL` or `skip`, and the last line says how many there were of each.
# Its twin for python is judge.py.

passed=0
failures=0
skipped=0
# The command that repeats a case that failed: the script with its own words. A script that is cut into parts says it
# in `alone`, where %CASE% stands for the number of the case.
printf -v again '%q ' "$0" "$@"
again=${again% }
alone=

# well NAME [CASES], and wrong NAME with what is said of it on standard input: cases that the script has judged itself.
well() {
    echo "ok    $1"
    passed=$((passed + ${2:-1}))
}
wrong() {
    echo "FAIL  $1"
    sed 's/^/      /'
    if [ -n "$alone" ]; then echo "      again: ${alone//%CASE%/$at}"; else echo "      again: $again"; fi
    failures=$((failures + 1))
}

# judge NAME COMMAND..: the case is well where the command ends with status 0. Else what it said is printed.
judge() {
    local name=$1 said
    shift
    said=$(mktemp)
    if "$@" >"$said" 2>&1; then
        well "$name"
    else
        wrong "$name" <"$said"
    fi
    rm -f "$said"
}

# skip NAME WHY: a case that can't be judged here.
skip() {
    echo "skip  $1: $2"
    skipped=$((skipped + 1))
}

# judged: ends the script, with status 1 where a case failed, or none was there.
judged() {
    echo "$passed passed, $failures failed, $skipped skipped"
    [ "$failures" -eq 0 ] && [ $((passed + skipped)) -ne 0 ]
    exit
}

# ours: counts the cases of a script that is cut into parts, and ends well where the next one is in this part. `part` is N/M, the Nth of M parts, or N,
# the Nth case alone.
at=0
part=1/1
ours() {
    at=$((at + 1))
    case $part in
        */*) [ $(((at - 1) % ${part#*/} + 1)) -eq "${part%/*}" ] ;;
        *) [ "$at" -eq "$part" ] ;;
    esac
}

# is_part WORD: whether a word is such a part.
is_part() { [[ $1 =~ ^([1-9][0-9]*)(/([1-9][0-9]*))?$ ]] && [ "${BASH_REMATCH[1]}" -le "${BASH_REMATCH[3]:-${BASH_REMATCH[1]}}" ]; }
