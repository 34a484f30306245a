"""What `value`, `check` and `table` write of schedules, and the small pit that all views are shown of."""
import tiny
from case import Case

TINY_MODEL, TINY_PRECEDENCE, SOLUTION, LOADING, REVISING, MEETING = (
    text.encode() for text in (tiny.MODEL, tiny.PRECEDENCES, tiny.SOLUTION, tiny.LOADING, tiny.REVISING, tiny.MEETING)
)

#: The model up to its limits.
TINY_UNLIMITED = TINY_MODEL[: TINY_MODEL.index(b"0 0 L 4")]

#: Blocks that are mined before those they come after.
TURNED = b"0 1\n1 0\n2 0\n3 0\n"

#: What a case has where it says no other text. `last` is what a command reads last, and `old` what `diff` reads before it.
FILES = {"model": TINY_MODEL, "prec": TINY_PRECEDENCE, "old": LOADING}

#: The files behind the words of a command.
READS = {
    "value": ["model", "last"],
    "check": ["model", "prec", "last"],
    "table": ["model", "last"],
    "diff": ["model", "old", "last"],
    "info": ["model", "prec"],
    "show": ["model", "last"],
    "log": ["model", "prec", "last"],
    "replay": ["model", "prec", "last"],
}


def words(command):
    """The words of a command, with its files."""
    asked = command.split()
    return [*asked, *READS[asked[0]]]


def case(about, command, last, out=b"", status=0, **files):
    """A command, what it reads last, what it writes, and its status."""
    return Case(about, words(command), out, status=status, files={"last": last, **files})


def fault(about, command, last, line, status=2, **files):
    """A command, what it reads last, and the line of its fault."""
    return Case(about, words(command), err=line + b"\n", status=status, files={"last": last, **files})


def lines(*texts):
    return b"".join(text + b"\n" for text in texts)


def changed(held, *changes):
    """A text of which parts, that stand there once, are replaced."""
    for old, new in changes:
        assert held.count(old) == 1, old
        held = held.replace(old, new)
    return held


# What `value` and `check` write of solutions.

CHECKED = b"value 37.772727272730000000\nfine\n"
SHORT = b"short 0 1 0.000000 1.000000"

#: It is cut within the profit of block 1, which is then 2. No other block has one.
FRONT = TINY_MODEL[len(b"NAME: Tiny\n") : TINY_MODEL.index(b"0.5\n")]

#: A limit below zero in period 0, which nothing meets.
UNMET = TINY_UNLIMITED + b"0 0 L -1\n0 1 I 1 4\n"

VALUES = [
    case("10.5 and 30 * 0.909090909091", "value", SOLUTION, b"37.772727272730000000\n"),
    case("no block is mined", "value", b"", b"0.000000000000000000\n"),
    case("-10 * 0.909090909091", "value", b"0 1\n", b"-9.090909090910000000\n"),
    case("the load in period 0 is at its limit", "check", SOLUTION, CHECKED),
    case("period 1 falls short", "check", b"", lines(b"value 0.000000000000000000", SHORT), 1),
    case("the pair (2, 0) before the pair (2, 1)", "check", b"2 0", lines(b"value 30.000000000000000000", b"precedence 2 0", SHORT), 1),
    case("the load 2 + 2 + 1", "check", b"0 0\n1 0\n3 0", lines(b"value 15.500000000000000000", b"over 0 0 5.000000 4.000000", SHORT), 1),
    case("a model that is cut", "value", SOLUTION, b"-8.000000000000000000\n", model=FRONT),
    case("a limit below zero", "check", b"", lines(b"value 0.000000000000000000", b"over 0 0 0.000000 -1.000000", SHORT), 1, model=UNMET),
]

# What `check --all` writes of schedules.

#: What is written of the first entries of `LOADING`, by how many of them there are. The second is refused, and period 1 wants a load of 1.
NOTHING_CHECKED = lines(b"value 0.000000000000000000", SHORT, b"broken 0 over 0 short 1")
FIRST_CHECKED = lines(b"value 10.500000000000000000", SHORT, b"broken 0 over 0 short 1")
LOADING_FINE = b"value 15.045454545455000000\nfine\n"
LOADING_CHECKED = [NOTHING_CHECKED, FIRST_CHECKED, FIRST_CHECKED, LOADING_FINE]

TURNED_WRONG = b"""\
value 46.409090909090000000
precedence 1 0 0 1
precedence 2 0 0 1
over 0 0 6.000000 4.000000
broken 2 over 1 short 0
"""

TWO_ALONE = b"""\
value 30.000000000000000000
precedence 2 0 0 -
precedence 2 1 0 -
short 0 1 0.000000 1.000000
broken 2 over 0 short 1
"""

OVER_AND_SHORT = b"""\
value 15.500000000000000000
over 0 0 5.000000 4.000000
short 0 1 0.000000 1.000000
broken 0 over 1 short 1
"""

OVER = b"""\
value 41.818181818185500000
over 0 1 7.000000 4.000000
broken 0 over 1 short 0
"""

ALL = [
    case("a sound solution", "check --all", SOLUTION, CHECKED),
    case("a sound history", "check --all", LOADING, LOADING_FINE),
    case("no block is mined", "check --all", b"", NOTHING_CHECKED, 1),
    case("blocks before those they come after", "check --all", TURNED, TURNED_WRONG, 1),
    case("a block alone", "check --all", b"2 0\n", TWO_ALONE, 1),
    case("a raised limit", "check --all", REVISING, lines(b"value 15.500000000000000000", SHORT, b"broken 0 over 0 short 1"), 1),
    case("the same schedule with no limit revised", "check --all", b"0 0\n1 0\n3 0\n", OVER_AND_SHORT, 1),
    case("the load 2 + 2 + 3 in period 1", "check --all", b"0 1\n1 1\n2 1\n3 0\n", OVER, 1),
]

# The tables of schedules.

TABLE_HEAD = b"period,blocks,value,cumulative,load_0,lower_0,upper_0,room_0"

SOLUTION_TABLE = lines(
    TABLE_HEAD,
    b"0,2,10.500000000000000000,10.500000000000000000,4.000000,,4.000000,0.000000",
    b"1,1,27.272727272730000000,37.772727272730000000,3.000000,1.000000,4.000000,1.000000",
)

REVISING_TABLE = lines(
    TABLE_HEAD,
    b"0,3,15.500000000000000000,15.500000000000000000,5.000000,,5.000000,0.000000",
    b"1,0,0.000000000000000000,15.500000000000000000,0.000000,1.000000,4.000000,4.000000",
)

UNREVISED_TABLE = lines(
    TABLE_HEAD,
    b"0,3,15.500000000000000000,15.500000000000000000,5.000000,,4.000000,-1.000000",
    b"1,0,0.000000000000000000,15.500000000000000000,0.000000,1.000000,4.000000,4.000000",
)

NOTHING_TABLE = lines(
    TABLE_HEAD,
    b"0,0,0.000000000000000000,0.000000000000000000,0.000000,,4.000000,4.000000",
    b"1,0,0.000000000000000000,0.000000000000000000,0.000000,1.000000,4.000000,4.000000",
)

FIRST_TABLE = lines(
    TABLE_HEAD,
    b"0,2,10.500000000000000000,10.500000000000000000,4.000000,,4.000000,0.000000",
    b"1,0,0.000000000000000000,10.500000000000000000,0.000000,1.000000,4.000000,4.000000",
)

BOTH_TABLE = lines(
    TABLE_HEAD,
    b"0,2,10.500000000000000000,10.500000000000000000,4.000000,,4.000000,0.000000",
    b"1,1,4.545454545455000000,15.045454545455000000,1.000000,1.000000,4.000000,3.000000",
)

#: The tables of the first entries of `LOADING`, by how many of them there are.
LOADING_TABLES = [NOTHING_TABLE, FIRST_TABLE, FIRST_TABLE, BOTH_TABLE]

ENDS_TABLE = lines(
    TABLE_HEAD,
    b"0,1,-10.000000000000000000,-10.000000000000000000,2.000000,,4.000000,2.000000",
    b"1,1,4.545454545455000000,-5.454545454545000000,1.000000,1.000000,4.000000,3.000000",
)

BENCH_TABLE = lines(
    TABLE_HEAD,
    b"0,2,-5.000000000000000000,-5.000000000000000000,3.000000,,4.000000,1.000000",
    b"1,0,0.000000000000000000,-5.000000000000000000,0.000000,1.000000,4.000000,4.000000",
)

BARE = b"""\
TYPE: CPIT
NBLOCKS: 2
NPERIODS: 1
NRESOURCE_SIDE_CONSTRAINTS: 0
DISCOUNT_RATE: 0.1
OBJECTIVE_FUNCTION:
0 1.5
1 -0.25
EOF
"""

BARE_TABLE = b"""\
period,blocks,value,cumulative
0,2,1.250000000000000000,1.250000000000000000
"""

#: The second resource has no limits. The factors at a rate of 1 are 1, 0.5 and 0.25.
TWO_RESOURCES = b"""\
TYPE: CPIT
NBLOCKS: 4
NPERIODS: 3
NRESOURCE_SIDE_CONSTRAINTS: 2
DISCOUNT_RATE: 1
OBJECTIVE_FUNCTION:
0 8
1 16
2 4
3 32
RESOURCE_CONSTRAINT_COEFFICIENTS:
1 0 0.5
1 1 7
2 0 -1.25
3 1 3
RESOURCE_CONSTRAINT_LIMITS:
0 0 I 1 2
0 1 L 0.25
0 2 G -3
EOF
"""

TWO_TABLE = b"""\
period,blocks,value,cumulative,load_0,lower_0,upper_0,room_0,load_1,lower_1,upper_1,room_1
0,1,8.000000000000000000,8.000000000000000000,0.000000,1.000000,2.000000,2.000000,0.000000,,,
1,1,8.000000000000000000,16.000000000000000000,0.500000,,0.250000,-0.250000,7.000000,,,
2,2,9.000000000000000000,25.000000000000000000,-1.250000,-3.000000,,,3.000000,,,
"""

TABLES = [
    case("10.5 and 30 * 0.909090909091", "table", SOLUTION, SOLUTION_TABLE),
    case("a raised limit", "table", REVISING, REVISING_TABLE),
    case("the same schedule with no limit revised", "table", b"0 0\n1 0\n3 0\n", UNREVISED_TABLE),
    case("no block is mined", "table", b"", NOTHING_TABLE),
    case("the first block and the last", "table", b"0 0\n3 1\n", ENDS_TABLE),
    case("the blocks at height 2", "table", b"0 0\n3 0\n", BENCH_TABLE),
    case("one period, and no resource", "table", b"0 0\n1 0\n", BARE_TABLE, model=BARE),
    case("two resources in three periods", "table", b"0 0\n1 1\n2 2\n3 2\n", TWO_TABLE, model=TWO_RESOURCES),
]

CASES = [*VALUES, *ALL, *TABLES]
