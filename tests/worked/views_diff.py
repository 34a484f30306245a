"""What `diff` writes of two schedules."""
from views import FILES, LOADING, REVISING, SOLUTION, case

#: It mines nothing, takes the limit of period 0 away, and lowers that of period 1.
FREEING = b"""\
{"format":2}
{"act":"commit","job":1,"planner":1,"reads":[],"reply":{"committed":1},"revises":[[0,1,"3500000"],[0,0,null]],"start":0,"writes":[]}
"""

REVISED_DIFF = b"""\
block 3 1 0
moves 1 0 1
limit 0 0 4.000000 5.000000
load 0 0 4.000000 5.000000
load 0 1 1.000000 0.000000
value 15.045454545455000000 15.500000000000000000
"""

BOTH_DIFF = b"""\
block 2 1 -
block 3 - 0
moves 1 - 1
moves - 0 1
limit 0 0 4.000000 5.000000
load 0 0 4.000000 5.000000
load 0 1 3.000000 0.000000
value 37.772727272730000000 15.500000000000000000
"""

LATER_DIFF = b"""\
block 0 0 1
block 1 0 1
moves 0 1 2
load 0 0 4.000000 0.000000
load 0 1 0.000000 4.000000
value 10.500000000000000000 9.545454545455500000
"""

#: The values are 10.5 + 35 * 0.909090909091 and -10 * 0.909090909091 + 30.
EACH_DIFF = b"""\
block 0 0 1
block 1 0 -
block 2 1 0
block 3 1 -
moves 0 1 1
moves 0 - 1
moves 1 0 1
moves 1 - 1
load 0 0 4.000000 3.000000
load 0 1 4.000000 2.000000
value 42.318181818185000000 20.909090909090000000
"""

NEW_DIFF = b"""\
block 0 - 0
block 1 - 0
block 2 - 1
moves - 0 2
moves - 1 1
load 0 0 0.000000 4.000000
load 0 1 0.000000 3.000000
value 0.000000000000000000 37.772727272730000000
"""

#: Three resources in two periods, of which one has a limit in the first period.
THREE = b"""\
TYPE: CPIT
NBLOCKS: 2
NPERIODS: 2
NRESOURCE_SIDE_CONSTRAINTS: 3
DISCOUNT_RATE: 0
RESOURCE_CONSTRAINT_COEFFICIENTS:
0 0 1
0 2 2.5
1 1 1
RESOURCE_CONSTRAINT_LIMITS:
2 0 L 1
EOF
"""

#: The limits of two are revised in period 0, and that of one in period 1.
THREE_HISTORY = b"""\
{"format":2}
{"act":"commit","job":1,"planner":1,"reads":[],"reply":{"committed":1},"revises":[[0,1,"-1"],[1,0,"0"],[2,0,"2000000"]],"start":0,"writes":[[0,1],[1,0]]}
"""

THREE_DIFF = b"""\
block 0 0 1
block 1 - 0
moves 0 1 1
moves - 0 1
limit 1 0 - 0.000000
limit 2 0 1.000000 2.000000
limit 0 1 - -0.000001
load 0 0 1.000000 0.000000
load 1 0 0.000000 1.000000
load 2 0 2.500000 0.000000
load 0 1 0.000000 1.000000
load 2 1 0.000000 2.500000
"""


def different(about, old, new, out, **files):
    return case(about, "diff", new, out, 1, old=old, **files)


def same(old, new):
    return case("nothing differs", "diff", new, old=old)


DIFFS = [
    different("the limit, and the block that fits in", LOADING, REVISING, REVISED_DIFF),
    different("a block goes, another comes", SOLUTION, REVISING, BOTH_DIFF),
    different("two blocks go to the next period", b"0 0\n1 0\n", b"0 1\n1 1\n", LATER_DIFF),
    different("a limit alone", b"0 0\n1 0\n3 0\n", REVISING, b"limit 0 0 4.000000 5.000000\n"),
    different("each block goes somewhere else", b"0 0\n1 0\n2 1\n3 1\n", b"0 1\n2 0\n", EACH_DIFF),
    different("all from nothing", b"", SOLUTION, NEW_DIFF),
    different("limits come back", FREEING, b"", b"limit 0 0 - 4.000000\nlimit 0 1 3.500000 4.000000\n"),
    different("limits go", b"", FREEING, b"limit 0 0 4.000000 -\nlimit 0 1 4.000000 3.500000\n"),
    different("limits and loads by period first", b"0 0", THREE_HISTORY, THREE_DIFF, model=THREE),
    same(LOADING, b"0 0\n1 0\n3 1\n"),
    same(b"3 1\n1 0\n0 0\n", LOADING),
    same(REVISING, REVISING),
    same(SOLUTION, SOLUTION),
    same(b"", b'{"format":1}\n'),
    same(b"", b""),
]

CASES = DIFFS
