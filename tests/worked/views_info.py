"""What `info` writes of pits: their numbers, their places, and keys that aren't known."""
import tiny
from views import FILES, TINY_MODEL, TINY_PRECEDENCE, case, changed, fault

#: Where the blocks lie: two of the four at one height.
PLACES = tiny.PLACES.encode()

TINY_COUNTS = b"blocks 4\nperiods 2\nresources 1\nrate 0.100000\nprofits 4\ncoefficients 4\nlower 1\nupper 2\n"

#: Nobody has a predecessor; block 1 has block 0; and block 2 both.
NO_PAIRS = TINY_COUNTS + b"pairs 0\nroots 4\nhighest -\n"
ONE_PAIR = TINY_COUNTS + b"pairs 1\nroots 3\nhighest 1\n"
ALL_PAIRS = TINY_COUNTS + b"pairs 3\nroots 2\nhighest 2\n"

#: A second resource, a section line with an accent, and an upper limit below zero.
SLIPS = changed(
    TINY_MODEL, (b"CONSTRAINTS: 1\n", b"CONSTRAINTS: 2\n"), (b"OBJECTIVE_FUNCTION", b"Objectiv\xc3\xa9"), (b"0 0 L 4", b"0 0 L -1"),
)

SLIPS_INFO = b"""\
blocks 4
periods 2
resources 2
rate 0.100000
profits 0
coefficients 4
lower 1
upper 2
pairs 0
roots 4
highest -
unlimited 1
unmeetable 0 0
unknown 7 11 Objectiv??
"""

#: Amounts that are given as 0, a coefficient each for two resources of one block, limits that set no bound, and one for a period that isn't the
#: first.
ZEROS = b"""\
TYPE: CPIT
NBLOCKS: 5
NPERIODS: 3
NRESOURCE_SIDE_CONSTRAINTS: 3
DISCOUNT_RATE: 0
OBJECTIVE_FUNCTION:
0 0
1 -0.0000001
2 0.000001
RESOURCE_CONSTRAINT_COEFFICIENTS:
4 1 0
4 0 -1
4 2 1
3 2 0.0
RESOURCE_CONSTRAINT_LIMITS:
1 2 L 0
0 1 L inf
0 1 G -inf
2 0 G 5
2 1 I -1 inf
"""

#: Block 3 is its own predecessor, which is dropped. Two of three places have one height.
ZEROS_PRECEDENCE = b"4 1 0\n3 1 3\n1 2 0 2\n"
ZEROS_PLACES = b"4 0 0 -1\n0 9 9 3\n2 1 1 -1.0\n"

ZEROS_INFO = b"""\
blocks 5
periods 3
resources 3
rate 0.000000
profits 1
coefficients 2
lower 2
upper 1
pairs 3
roots 3
highest 4
places 3
benches 2
unlimited 0
unlimited 2
"""

INFOS = [
    case("two blocks at one height", "info --blocks last", PLACES, ALL_PAIRS + b"places 4\nbenches 3\n"),
    case("one block has a place", "info --blocks last", b"0 0 0 0", ALL_PAIRS + b"places 1\nbenches 1\n"),
    case("none has", "info --blocks last", b"% none\n", ALL_PAIRS + b"places 0\nbenches 0\n"),
    case("no places are given", "info", b"", ALL_PAIRS),
    case("slips", "info", b"", SLIPS_INFO, model=SLIPS, prec=b""),
    case("zeros", "info --blocks last", ZEROS_PLACES, ZEROS_INFO, model=ZEROS, prec=ZEROS_PRECEDENCE),
]

#: What is told of a pit of one block, in which nothing is set.
ONE_BLOCK = b"""\
blocks 1
periods 1
resources 0
rate 0.000000
profits 0
coefficients 0
lower 0
upper 0
pairs 0
roots 1
highest -
"""

#: A key comes in capitals.
NO_UNKNOWN = b"""\
TYPE: CPIT
NBLOCKS 1
NPERIODS 1
NRESOURCE_SIDE_CONSTRAINTS 0
DISCOUNT_RATE 0
NAME: x y z
NDESTINATIONS 1
NGENERAL_SIDE_CONSTRAINTS 0
NAME
"""

#: The last run is at the end of the text.
PARTED = b"""\
type: CPIT
TYPE CPIT
NBLOCKS 1
NPERIODS 1
x
y z
DISCOUNT_RATE 0
NRESOURCE_SIDE_CONSTRAINTS 0
a:b
c"""

#: A comment and a line without fields stand within a run, and none of them at its end.
COMMENTED = b"""\
TYPE CPIT
NBLOCKS 1

q 1
% 2

 :\x20
r 3
%
NPERIODS 1
NRESOURCE_SIDE_CONSTRAINTS 0
NAME
DISCOUNT_RATE 0
EOF
s
"""

#: What stands behind a section line is not of the header.
SECTION = b"""\
TYPE CPIT
NBLOCKS 1
NPERIODS 1
NRESOURCE_SIDE_CONSTRAINTS 0
DISCOUNT_RATE 0
OBJECTIVE FUNCTION
RESOURCE_CONSTRAINT_LIMITS
"""

#: And their neighbours.
PRINTED = b"TYPE CPIT\nNBLOCKS 1\nNPERIODS 1\nNRESOURCE_SIDE_CONSTRAINTS 0\nDISCOUNT_RATE 0\n\x1f!~\x7f\xc3\xbe\r\n"


def header(about, model, unknown):
    """Lines of a header, and what is told of its unknown keys."""
    return case(about, "info", b"", ONE_BLOCK + unknown, model=model, prec=b"")


HEADERS = [
    header("no section, and no unknown key", NO_UNKNOWN, b""),
    header("listed keys part the runs", PARTED, b"unknown 1 1 type\nunknown 5 6 x\nunknown 9 10 a\n"),
    header("comments end no run", COMMENTED, b"unknown 4 8 q\n"),
    header("a section line ends it", SECTION, b"unknown 6 6 OBJECTIVE\n"),
    header("the first and the last byte that are printed", PRINTED, b"unknown 6 6 ?!~???\n"),
]

FIELDS = b"field count"
COUNT = b"predecessor count"

#: What is told of the first so many bytes of `0 0`, `1 1 0`, `2 2 0 1`, `3 0`, each with its line feed; or the line and the words of the fault.
#: What is told of them all is among `INFOS`.
TOLD = [
    NO_PAIRS, (1, FIELDS), (1, FIELDS), NO_PAIRS,
    NO_PAIRS, (2, FIELDS), (2, FIELDS), (2, COUNT), (2, COUNT), ONE_PAIR,
    ONE_PAIR, (3, FIELDS), (3, FIELDS), (3, COUNT), (3, COUNT), (3, COUNT), (3, COUNT), ALL_PAIRS,
    ALL_PAIRS, (4, FIELDS), (4, FIELDS), ALL_PAIRS,
]


def told(end):
    part = TINY_PRECEDENCE[:end]
    about = f"precedences cut behind byte {end}"
    if isinstance(TOLD[end], bytes):
        return case(about, "info", b"", TOLD[end], prec=part)
    return fault(about, "info", b"", b"pit: precedence line %d: %s" % TOLD[end], prec=part)


PARTS = [told(end) for end in range(len(TINY_PRECEDENCE))]

CASES = [*INFOS, *HEADERS, *PARTS]
