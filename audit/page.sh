#!/usr/bin/env bash
# Opens pages of both examples in a headless Chromium, in the light and the dark scheme and in windows 360, 1,200 and 3,000 pixels wide: it has no
# word to say on its console.
# usage: audit/page.sh PIT [FOLDER]      PIT is the path of the program. The screenshots are left in FOLDER, where one is named, to be looked at.
# Wants the package chromium of Debian.
set -u

if [ $# -lt 1 ] || [ ! -x "$1" ]; then
    echo "usage: $0 PIT [FOLDER]" >&2
    exit 2
fi
command -v chromium >/dev/null || { echo "$0: there is no chromium on the path: install Debian's package of that name" >&2; exit 2; }
pit=$(realpath "$1")
top=$(realpath "$(dirname "$0")/..")
work=$(mktemp -d)
trap 'rm -rf "$work"' EXIT
shots=${2:-$work}
mkdir -p "$shots" || exit 2
shots=$(realpath "$shots")
cd "$work" || exit 2
failures=0

# opened PAGE SCHEME WIDTH HEIGHT: opens a page in a window, of scheme 0, dark, or 1, light. A screenshot is left in `shot.png`, what was said in `log`.
opened() {
    rm -f shot.png
    timeout 120 chromium --headless --no-sandbox --disable-gpu --hide-scrollbars --user-data-dir="$work/profile" --enable-logging=stderr \
        --blink-settings=preferredColorScheme="$2" --window-size="$3,$4" --screenshot=shot.png "file://$work/$1" >log 2>&1
    [ -s shot.png ]
}

# A page that does say something, so that a browser which tells nothing isn't taken for a page which says nothing.
echo '<!DOCTYPE html><title>loud</title><script>console.log("heard")</script>' >loud.html
opened loud.html 1 400 400
grep -q 'CONSOLE.*heard' log || { echo "$0: this chromium doesn't tell what a page says" >&2; cat log >&2; exit 2; }

# quiet NAME WORD..: the page of these words has nothing to say, in each scheme and width.
quiet() {
    local name=$1 scheme number width
    shift
    "$top/share/pit-page" "$@" --pit "$pit" >"$name.html" || { failures=$((failures + 1)); return; }
    for width in 360 1200 3000; do
        for scheme in dark light; do
            number=0
            [ "$scheme" = dark ] || number=1
            if opened "$name.html" "$number" $width 3000 && ! grep CONSOLE log; then
                echo "ok    $name, $scheme, $width pixels"
            else
                echo "FAIL  $name, $scheme, $width pixels"
                failures=$((failures + 1))
            fi
            [ ! -s shot.png ] || mv shot.png "$shots/$name-$scheme-$width.png"
        done
    done
}

hill=$top/examples/hill
tiny=$top/examples/tiny
quiet hill "$hill/hill.cpit" "$hill/hill.prec" "$hill/hill.sol" --blocks "$hill/hill.blocks"
quiet mistakes "$hill/hill.cpit" "$hill/hill.prec" "$hill/mistakes.sol" --blocks "$hill/hill.blocks" --diff "$hill/hill.sol"
quiet tiny "$tiny/tiny.cpit" "$tiny/tiny.prec" "$tiny/tiny.sol"

if [ "$failures" -ne 0 ]; then
    echo "$failures failed"
    exit 1
fi
echo 'all fine'
