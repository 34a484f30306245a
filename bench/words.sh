# For the scripts beside it, which read it in: what their words ask.

# usage: tells the words that a script wants, by the line of its head that begins with `# usage`, and ends it.
usage() {
    sed -n '/^# usage/s/^# //p' "$0" >&2
    exit 2
}

# words OPTIONS COUNT WORD..: reads -n, -b, -m, -o and -t, as far as OPTIONS has them, into count, which is COUNT where it isn't said, among, multiplier,
# old and twin. Sets others to the words behind these.
words() {
    local options=$1 option number OPTIND=1
    count=$2
    among=4294967295
    multiplier=
    old=
    twin=
    shift 2
    while getopts "$options" option; do
        case $option in
        n) count=$OPTARG ;;
        b) among=$OPTARG ;;
        m) multiplier=$OPTARG ;;
        o) old=$(realpath "$OPTARG") ;;
        t) twin=$(realpath "$OPTARG") ;;
        *) usage ;;
        esac
    done
    others=("${@:OPTIND}")
    for number in "$count" "$among"; do
        case $number in
        '' | 0* | *[!0-9]*) usage ;;
        esac
    done
}

# named NAME..: sets names to the whole paths of the pits, each of which has a solution.
named() {
    local name
    [ $# -ge 1 ] || usage
    names=()
    for name in "$@"; do
        [ -s "$name.sol" ] || usage
        name=$(realpath "$name.sol")
        names+=("${name%.sol}")
    done
}
