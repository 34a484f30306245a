#!/usr/bin/env bash
# Has `share/pit-page` draw schedules by a built `pit`, and looks at each page: that it is well formed and asks for nothing else, that its cells are
# those of `pit table`, its bars and marks as high as the loads and limits, and each square of its maps of the colour of the period of its block. Then
# the faults; and that the pictures in `examples` are those of the page.
# usage: tests/page.sh PIT [PART..]      PIT is the path of the program. The parts are hill, small, many, wide and faults, all where none is said.
set -u

. "$(dirname "$0")/judge.sh"
parts=${*:2}
parts=${parts:-hill small many wide faults}
if [ $# -lt 1 ] || [ ! -x "$1" ] || [ -n "$(tr ' ' '\n' <<<"$parts" | grep -vxE 'hill|small|many|wide|faults')" ]; then
    echo "usage: $0 PIT [PART..]      of the parts hill small many wide faults" >&2
    exit 2
fi
pit=$(realpath "$1")
alone="$0 $1 %CASE%"
top=$(realpath "$(dirname "$0")/..")
draw=$top/share/pit-page
hill=$top/examples/hill/hill
tiny=$top/examples/tiny/tiny
work=$(mktemp -d)
trap 'rm -rf "$work"' EXIT
cd "$work" || exit 2

# Looks at a page: look.py PIT PAGE MODEL PREC SCHEDULE [--blocks FILE] [--diff OLD]
cat >look.py <<'PYTHON'
import collections
import decimal
import html.parser
import re
import subprocess
import sys
import xml.etree.ElementTree as xml

SVG = "{http://www.w3.org/2000/svg}"
PALE = "var(--pale,#e9ebee)"
OUT = "var(--out,#c65a10)"


def same(found, wanted, what):
    if found != wanted:
        sys.exit(f"{what}: {found!r}, wanted {wanted!r}")


def told(*words):
    return subprocess.run([pit, *words], capture_output=True, text=True, check=False).stdout.splitlines()


class Page(html.parser.HTMLParser):
    """A page whose elements are closed in order, with its cells and its texts by element."""

    def __init__(self, text):
        super().__init__()
        self.open, self.ids, self.rows, self.texts = [], set(), [], collections.defaultdict(list)
        self.feed(text)
        self.close()
        same(self.open, [], "elements that are left open")

    def handle_starttag(self, tag, attributes):
        self.handle_startendtag(tag, attributes)
        if tag != "meta":
            self.open.append(tag)
        if tag == "tr":
            self.rows.append([])
        if tag in ("td", "th"):
            self.rows[-1].append("")
        self.texts[tag].append("")

    def handle_startendtag(self, tag, attributes):
        same(tag in ("script", "link", "img", "image", "iframe", "object", "embed", "audio", "video", "a", "base", "form"), False, tag)
        for key, value in attributes:
            same(key.startswith("on") or "url(" in value or key in ("src", "srcset", "action"), False, f"{tag} {key}")
            same(key.endswith("href") and not value.startswith("#"), False, f"{tag} {key}")
            if key == "id":
                same(value in self.ids, False, f"a second id {value}")
                self.ids.add(value)

    def handle_endtag(self, tag):
        same(self.open.pop(), tag, "an end tag")

    def handle_data(self, data):
        for tag in set(self.open):
            self.texts[tag][-1] += data
        if {"td", "th"} & set(self.open):
            self.rows[-1][-1] += data


def rectangles(path):
    """Of the path of squares: column, row, width and height of each rectangle."""
    parts = re.findall(r"M(\d+) (\d+)h(\d+)v(\d+)h-(\d+)z", path)
    same("".join("M{} {}h{}v{}h-{}z".format(*it) for it in parts), path, "a path")
    return [tuple(map(int, it[:4])) for it in parts]


def squares(path):
    return [(x + i, y + j) for x, y, width, height in rectangles(path) for i in range(width) for j in range(height)]


def luminance(colour):
    parts = (int(colour[it : it + 2], 16) / 255 for it in (1, 3, 5))
    return sum(share * (it / 12.92 if it <= 0.04045 else ((it + 0.055) / 1.055) ** 2.4) for share, it in zip((0.2126, 0.7152, 0.0722), parts))


def look_at_table(page, rows):
    names, *body = rows
    is_used = [name.startswith("used_") for name in page.rows[0]]
    bare = lambda row: [cell for cell, leave in zip(row, is_used) if not leave]
    same([bare(row) for row in page.rows], rows, "the table's cells")
    for row, cells in zip(body, page.rows[1:]):
        by = dict(zip(names, row))
        for name, found in zip(page.rows[0], cells):
            if name.startswith("used_"):
                resource = name[len("used_") :].removesuffix(" %")
                load, upper = decimal.Decimal(by[f"load_{resource}"]), decimal.Decimal(by[f"upper_{resource}"] or 0)
                same(found, f"{100 * load / upper:.1f}" if upper > 0 else "", f"{name} of period {row[0]}")


def look_at_charts(charts, rows):
    names, *body = rows
    resources = sum(name.startswith("load_") for name in names)
    same(len(charts), 1 + resources, "charts")
    for at, chart in enumerate(charts):
        bars = chart.findall(f".//{SVG}rect")
        titles = [it.find(f"{SVG}title").text for it in chart.findall(f"{SVG}g") if it.find(f"{SVG}title") is not None]
        same([re.match(r"Period (\d+): ", it).group(1) for it in titles], [row[0] for row in body], "titles of bars")
        column = names.index("value" if at == 0 else f"load_{at - 1}")
        numbers = [abs(float(row[column])) for row in body]
        heights = [float(it.get("height")) for it in bars]
        same(len(heights), len(numbers), "bars")
        for number, height in zip(numbers, heights):
            off = abs(height - (number * max(heights) / max(numbers) if max(numbers) else 0))
            same(off < 0.02, True, f"the height {height} of a bar of {number}")
        if at > 0:
            limits = [row[column + it] for row in body for it in (1, 2)]
            marks = chart.findall(f".//{SVG}path[@stroke-dasharray]")
            same(len(marks), sum(it != "" for it in limits), "marks of limits")
            bases = {round(float(it.get("y")) + float(it.get("height")) * (float(row[column]) >= 0), 2) for it, row in zip(bars, body)}
            same(max(bases) - min(bases) < 0.03, True, "bars that begin at one height")
            unit = max(heights) / max(numbers) if max(numbers) else None
            for mark, limit in zip(marks, [it for it in limits if it]):
                y = float(re.match(r"M[\d.]+ ([\d.]+)h", mark.get("d")).group(1))
                if unit:
                    same(abs(max(bases) - y - float(limit) * unit) < 0.05 * max(1, float(limit) / max(numbers)), True, f"a mark at {limit}")
            less = lambda one, other: one != "" and other != "" and decimal.Decimal(one) < decimal.Decimal(other)
            outside = [less(row[column], row[column + 1]) or less(row[column + 2], row[column]) for row in body]
            same([it.get("fill") == OUT for it in bars], outside, "bars outside their limits")


def look_at_maps(maps, side, colours, schedule, words, differences):
    """Each square of SIDE by SIDE places has the colour of the period that most of its blocks have, of equal ones the earlier."""
    places = {}
    for line in open(words[words.index("--blocks") + 1], encoding="latin-1"):
        fields = line.replace(":", " ").split()
        if fields[:1] == ["EOF"]:
            break
        if fields and not fields[0].startswith("%"):
            places[int(fields[0])] = tuple(map(decimal.Decimal, fields[1:4]))
    held = dict(map(int, line.split()) for line in schedule if not line.startswith("%"))
    x_rank, y_rank = ({it: rank for rank, it in enumerate(sorted({place[at] for place in places.values()}))} for at in (0, 1))
    square_of = {it: (x_rank[x] // side, (len(y_rank) - 1 - y_rank[y]) // side) for it, (x, y, _) in places.items()}
    benches = sorted({z for _, _, z in places.values()}, reverse=True)
    same(len(maps), len(benches), "maps")
    changed = {int(line.split()[1]) for line in differences if line.startswith("block ")}
    for z, drawn in zip(benches, maps):
        same(re.match(r"Bench z = (\S+): ", drawn.find(f"{SVG}title").text).group(1), f"{z.normalize():f}", "the name of a bench")
        blocks = [it for it, place in places.items() if place[2] == z]
        counts = collections.Counter((held.get(it, len(colours)), square_of[it]) for it in blocks)
        of_period = collections.Counter(map(held.get, blocks))
        wanted = {}
        for (period, square), _ in sorted(counts.items(), key=lambda it: (-it[1], it[0])):
            wanted.setdefault(square, [*colours, PALE][period])
        outlined = {square_of[it] for it in changed if places[it][2] == z}
        found, lines = {}, set()
        for path in drawn.iter(f"{SVG}path"):
            if path.get("fill") != "none":
                same(set(found).isdisjoint(squares(path.get("d"))), True, "squares that are drawn once")
                found.update(dict.fromkeys(squares(path.get("d")), path.get("fill")))
                period, number = re.search(r", (?:period (\d+)|not mined): ([\d,]+) blocks?$", path.find(f"{SVG}title").text).groups()
                same(int(number.replace(",", "")), of_period[period and int(period)], "the number of blocks in a title")
            elif path.get("id"):
                lines.update(squares(path.get("d")))
        same(found, wanted, f"the squares of z = {z}")
        same(lines, outlined, f"the outlines of z = {z}")


def look_at_sizes(maps):
    """No path is outside its map, and all maps have one grid."""
    for drawn in maps:
        same(drawn.get("viewBox"), maps[0].get("viewBox"), "the grid of a map")
        frame = drawn.find(f"{SVG}rect")
        columns, rows = int(frame.get("width")), int(frame.get("height"))
        for path in drawn.iter(f"{SVG}path"):
            if path.get("fill") == "none" and not path.get("id"):
                points = [tuple(map(int, it)) for it in re.findall(r"M(\d+) (\d+)[vh](\d+)", path.get("d"))]
                same(all(x <= columns and y <= rows and length in (columns, rows) for x, y, length in points), True, "grid lines in their map")
            else:
                same(all(x + width <= columns and y + height <= rows for x, y, width, height in rectangles(path.get("d"))), True, "a path in its map")


pit, path, *words = sys.argv[1:]
model, precedence, schedule = words[:3]
text = open(path, encoding="utf-8").read()
page = Page(text)
drawings = [xml.fromstring(it) for it in re.findall(r"<svg .*?</svg>", text, re.S)]
rows = [line.split(",") for line in told("table", model, schedule)]
look_at_table(page, rows)
look_at_charts([it for it in drawings if it.get("class") == "chart"], rows)
value, *breaches, verdict = told("check", "--all", model, precedence, schedule)
same(value.split()[1] in page.texts["small"][0], True, "the value")
same(page.texts["strong"], [verdict], "whether it is fine")
pres = iter(page.texts["pre"])
if breaches:
    same(next(pres).splitlines(), breaches[:20], "the first lines of what is wrong")
counts = [int(it) for it in verdict.split() if it.isdigit()]
same(re.findall(r"<p>([\d,]+) more by", text), [f"{sum(counts) - 20:,}"] * (sum(counts) > 20), "how many lines are left out")
differences = told("diff", model, words[words.index("--diff") + 1], schedule) if "--diff" in words else []
if differences:
    same(next(pres).splitlines(), differences, "what has changed")
wanted = ["Value", "Periods", "Table", *["Benches"] * ("--blocks" in words), *["Changes"] * ("--diff" in words), "Legend"]
same(page.texts["h2"], wanted, "the order of the parts")
named = re.search(r"^NAME[ :]+(.*)$", open(model, encoding="utf-8").read(), re.M)
same(page.texts["h1"], [named.group(1) if named else model.rsplit("/", 1)[-1]], "the heading")
same(page.texts["title"][0], page.texts["h1"][0], "the title")
maps = [it for it in drawings if it.get("class") == "map"]
if "--blocks" in words:
    colours = [it.get("fill") for drawing in drawings if drawing.get("class") == "scale" for it in drawing.iter(f"{SVG}rect")]
    same(len(colours), len(rows) - 1, "colours of periods")
    lights = [luminance(it) for it in colours]
    # Of so many periods that neighbours differ by less than a step of the screen, one may be brighter by that.
    step = 0 if len(lights) <= 50 else 0.001
    same(all(later < earlier + step for earlier, later in zip(lights, lights[1:])), True, "colours that grow darker")
    same(len(set(lights)) >= min(len(lights), 200), True, "colours that differ")
    look_at_sizes(maps)
    side = re.search(r"a square stands for up to (\d+) by", text)
    look_at_maps(maps, int(side.group(1)) if side else 1, colours, told("show", model, schedule), words, differences)
else:
    same(maps, [], "maps without places")
PYTHON

# drawn NAME WORD..: a page is written for the words, and what it shows is so. It is left in `page.html`.
drawn() {
    local name=$1
    shift
    judge "$name" is_drawn "$@"
}
is_drawn() {
    "$draw" "$@" --pit "$pit" >page.html 2>err || { echo "status $?"; cat err; return 1; }
    [ ! -s err ] && python3 look.py "$pit" page.html "$@"
}

# fails NAME STATUS LINE WORD..: with the words there is this one line on standard error, and no page.
fails() {
    local name=$1
    shift
    judge "$name" has_failed "$@"
}
has_failed() {
    local wanted=$1 line=$2 status
    shift 2
    "$draw" "$@" >page.html 2>err
    status=$?
    [ "$status" = "$wanted" ] || echo "status $status, wanted $wanted"
    diff err <(echo "$line") && [ ! -s page.html ] && [ "$status" = "$wanted" ]
}

# Files that several parts begin with.
printf '0 0 0 2\n1 0 0 1\n2 0 0 0\n3 1 0 2\n' >blocks
: >none
printf '0 0\n1 1\n' >both

# The hill, and the pictures of it.
part_hill() {
    drawn 'the hill' "$hill.cpit" "$hill.prec" "$hill.sol"
    drawn 'the hill with its benches' "$hill.cpit" "$hill.prec" "$hill.sol" --blocks "$hill.blocks"
    drawn 'mistakes on the hill, and what they changed' "$hill.cpit" "$hill.prec" "${hill%/*}/mistakes.sol" --blocks "$hill.blocks" --diff "$hill.sol"
    # The pictures in the repository are cut out of this page.
    picture() {
        grep -o "<svg[^>]*><title>$1.*</svg>" page.html
    }
    judge 'the picture of a load' cmp <(picture 'Load of resource 1<') "${hill%/*}/load.svg"
    judge 'the picture of a bench' cmp <(picture 'Bench z = 4:') "${hill%/*}/bench.svg"
    drawn 'changes without places' "$hill.cpit" "$hill.prec" "$hill.sol" --diff "${hill%/*}/mistakes.sol"
    drawn 'no change' "$hill.cpit" "$hill.prec" "$hill.sol" --diff "$hill.sol" --blocks "$hill.blocks"
}

# The small pit, and what is made of it.
part_small() {
    drawn 'the small pit' "$tiny.cpit" "$tiny.prec" "$tiny.sol"
    drawn 'the small pit with its benches' "$tiny.cpit" "$tiny.prec" "$tiny.sol" --blocks blocks
    drawn 'a breach' "$tiny.cpit" "$tiny.prec" "${tiny%/*}/early.sol" --blocks blocks
    "$pit" plan "$tiny.cpit" "$tiny.prec" "${tiny%/*}/first.script" --history history >out 2>err || exit 2
    drawn 'a history' "$tiny.cpit" "$tiny.prec" history --blocks blocks --diff "$tiny.sol"
    printf '%% no place here\n0:-1.5:1e1:+2 5 x\r\n1 .25 10 2\n2 -1.5 1 2\n\n3 -1.5 10 -0.1\nEOF\nnot read\n' >spelled
    drawn 'places in other words' "$tiny.cpit" "$tiny.prec" "$tiny.sol" --blocks spelled
    printf '0 0 0 0\n1 0 0 0\n2 0 0 0\n3 1 0 0\n' >together
    drawn 'blocks in one place' "$tiny.cpit" "$tiny.prec" "$tiny.sol" --blocks together
    judge 'it says so' grep -q 'A square of several blocks' page.html

    sed 's|^NAME: .*|NAME: <\&" <script>alert(1)</script> \&amp; --> '"'"']]> ümlaut|' "$tiny.cpit" >named
    drawn 'a name with marks' named "$tiny.prec" "$tiny.sol" --blocks blocks
    sed '/^NAME/d' "$tiny.cpit" >'no<&"name'
    drawn 'no name, and marks in that of a file' 'no<&"name' "$tiny.prec" "$tiny.sol"
    sed '/^RESOURCE_CONSTRAINT_LIMITS/,$d' "$tiny.cpit" >free
    drawn 'no limits' free "$tiny.prec" "$tiny.sol" --blocks blocks
    sed '/^RESOURCE_CONSTRAINT_COEFFICIENTS/,$d; s/^NRESOURCE_SIDE_CONSTRAINTS: 1/NRESOURCE_SIDE_CONSTRAINTS: 0/' "$tiny.cpit" >bare
    drawn 'no resource' bare "$tiny.prec" "$tiny.sol" --blocks blocks
    sed '/^0 1 I/d; s/^NPERIODS: 2/NPERIODS: 1/' "$tiny.cpit" >short
    printf '0 0\n1 0\n' >soon
    drawn 'one period' short "$tiny.prec" soon --blocks blocks
    drawn 'nothing mined' "$tiny.cpit" "$tiny.prec" none --blocks blocks
    sed 's/^NPERIODS: 2/NPERIODS: 1000/; $a 0 999 G 1' "$tiny.cpit" >long
    printf '0 0\n1 500\n2 999\n' >late
    drawn '1,000 periods' long "$tiny.prec" late --blocks blocks
    printf 'NAME: losses\nTYPE: CPIT\nNBLOCKS: 2\nNPERIODS: 2\nNRESOURCE_SIDE_CONSTRAINTS: 1\nDISCOUNT_RATE: 0\nOBJECTIVE_FUNCTION\n0 -5\n1 2\n' >losses
    printf 'RESOURCE_CONSTRAINT_COEFFICIENTS\n0 0 -3\n1 0 2\nRESOURCE_CONSTRAINT_LIMITS\n0 0 I -4 0\n0 1 I -1 1\n' >>losses
    drawn 'values and loads below zero' losses none both

    # Of two resources the second alone is above its limit, and then below it.
    printf 'TYPE: CPIT\nNBLOCKS: 2\nNPERIODS: 2\nNRESOURCE_SIDE_CONSTRAINTS: 2\nDISCOUNT_RATE: 0\nRESOURCE_CONSTRAINT_COEFFICIENTS\n0 0 1\n0 1 5\n' >second
    printf 'RESOURCE_CONSTRAINT_LIMITS\n0 0 L 9\n1 0 L 4\n1 1 G 3\n' >>second
    printf '0 0\n' >heavy
    drawn 'a second resource outside its limits' second none heavy
    # More breaches than `pit` prints one by one.
    awk 'BEGIN {
        print "TYPE: CPIT\nNBLOCKS: 1003\nNPERIODS: 1\nNRESOURCE_SIDE_CONSTRAINTS: 0\nDISCOUNT_RATE: 0" >"tall"
        printf "0 1002" >"tall.prec"
        for (b = 1; b < 1003; b++) printf " %d", b >"tall.prec"
        print "" >"tall.prec"
    }'
    drawn 'more breaches than are printed' tall tall.prec heavy
}

# Many blocks, and what of them is left out.
part_many() {
    # 50,000 blocks in periods that are drawn, so that hardly any square is like the one beside it; and all of them have changed.
    awk 'BEGIN {
        print "TYPE: CPIT\nNBLOCKS: 50000\nNPERIODS: 20\nNRESOURCE_SIDE_CONSTRAINTS: 0\nDISCOUNT_RATE: 0.1" >"many"
        x = 1
        for (b = 0; b < 50000; b++) {
            x = (x * 1664525 + 1013904223) % 4294967296
            t = int(x / 65536) % 20
            print b, b % 100, int(b / 100) % 50, int(b / 5000) >"many.blocks"
            print b, t >"many.sol"
            print b, (t + 1) % 20 >"many.old"
        }
    }'
    drawn '50,000 blocks' many none many.sol --blocks many.blocks
    is_small() {
        "$draw" many none many.sol --blocks many.blocks --diff many.old --pit "$pit" >page.html && [ "$(wc -c <page.html)" -le 2000000 ]
    }
    judge 'they take 2 MB at most, with their changes' is_small
    # Of the 50,020 lines of these, of the blocks and of the moves from 20 periods, the page has the first 9,999 and the last.
    is_cut() {
        "$pit" diff many many.old many.sol >lines
        { head -n 9999 lines; echo '.. 40,020 lines left out ..'; tail -n 1 lines; } >cut
        sed -n '/<h2>Changes/,/<\/pre>/p' page.html | sed '1d; s/^<pre[^>]*>//; s/<\/pre>$//' | diff - cut
    }
    judge 'the first lines of the changes and the last one' is_cut
}

# More places than squares.
part_wide() {
    # More places than are drawn each by a square, 501 by 400, in periods that are drawn, or in none; every 997th has changed.
    awk 'BEGIN {
        print "TYPE: CPIT\nNBLOCKS: 200400\nNPERIODS: 2\nNRESOURCE_SIDE_CONSTRAINTS: 0\nDISCOUNT_RATE: 0" >"wide"
        x = 1
        for (b = 0; b < 200400; b++) {
            x = (x * 1664525 + 1013904223) % 4294967296
            t = int(x / 65536) % 3
            print b, b % 501, int(b / 501), 0 >"wide.blocks"
            if (t < 2) print b, t >"wide.sol"
            if (b % 997 == 0) t = (t + 1) % 3
            if (t < 2) print b, t >"wide.old"
        }
    }'
    drawn 'a coarser grid' wide none wide.sol --blocks wide.blocks --diff wide.old
    judge 'it says so' grep -q 'There are 200,400 places, too many to draw: a square stands for up to 2 by 2 of them' page.html
}

# Faults, and streams.
part_faults() {
    fails 'a fault of the model' 2 'pit: model line 1: missing TYPE' none none none --pit "$pit"
    fails 'a fault of the blocks' 2 'pit: blocks line 1: field count' "$tiny.cpit" "$tiny.prec" "$tiny.sol" --blocks both --pit "$pit"
    fails 'no model' 3 'pit: cannot read model' absent none none --pit "$pit"
    fails 'no schedule' 3 'pit: cannot read schedule' "$tiny.cpit" "$tiny.prec" absent --pit "$pit"
    fails 'no old schedule' 3 'pit: cannot read old' "$tiny.cpit" "$tiny.prec" "$tiny.sol" --diff absent --pit "$pit"
    fails 'no blocks' 3 'pit: cannot read blocks' "$tiny.cpit" "$tiny.prec" "$tiny.sol" --blocks absent --pit "$pit"
    head -n 3 blocks >fewer
    fails 'a block without a place' 2 'pit-page: blocks: 1 of 4 have no place' "$tiny.cpit" "$tiny.prec" "$tiny.sol" --blocks fewer --pit "$pit"
    fails 'no pit' 3 'pit-page: cannot run ./absent' "$tiny.cpit" "$tiny.prec" "$tiny.sol" --pit ./absent
    printf '#!/bin/sh\nkill -9 $$\n' >killed
    chmod +x killed
    fails 'a pit that is killed' 3 'pit-page: pit info was ended by signal 9' "$tiny.cpit" "$tiny.prec" "$tiny.sol" --pit ./killed
    full() {
        "$draw" "$tiny.cpit" "$tiny.prec" "$tiny.sol" --pit "$pit" 2>err >/dev/full
        [ $? = 3 ] && [ "$(cat err)" = 'pit-page: cannot write' ]
    }
    judge 'a full output' full
    on_the_path() {
        mkdir bin && ln -s "$pit" bin/pit && PATH=$work/bin:$PATH "$draw" "$tiny.cpit" "$tiny.prec" "$tiny.sol" >page.html && grep -q '<h1>' page.html
    }
    judge 'the pit on the path' on_the_path
}

# `at` is what repeats a case: its part.
for at in $parts; do
    "part_$at"
done
judged
