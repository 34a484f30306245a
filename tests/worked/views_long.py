"""What views write of long texts, past each doubling of what they are read into and what is kept of them."""
from views import FILES, case, fault


def joined(*parts):
    """A long text of texts, and of lists of them."""
    return "".join(part if isinstance(part, str) else "".join(part) for part in parts).encode()


def head(blocks, periods, resources, rate):
    return f"TYPE: CPIT\nNBLOCKS: {blocks}\nNPERIODS: {periods}\nNRESOURCE_SIDE_CONSTRAINTS: {resources}\nDISCOUNT_RATE: {rate}\n"


#: 1,500 blocks, of which each is worth 2 and takes 1 of each resource, and 300 periods, of which each wants 6 of the first. Each factor is 1. The
#: coefficients are listed resource by resource, so that the list of each block grows after those of others.
LONG_MODEL = joined(
    head(1_500, 300, 3, 0),
    "OBJECTIVE_FUNCTION:\n",
    [f"{n} 2\n" for n in range(1_500)],
    "RESOURCE_CONSTRAINT_COEFFICIENTS:\n",
    [f"{n} {r} 1\n" for r in range(3) for n in range(1_500)],
    "RESOURCE_CONSTRAINT_LIMITS:\n",
    [f"0 {n} G 6\n" for n in range(300)],
)

#: The last block comes after the first 1,100, and each other after the one of its period before it.
LONG_PRECEDENCE = joined([f"{n + 300} 1 {n}\n" for n in range(1_199)], "1499 1100", [f" {n}" for n in range(1_100)])

#: Five blocks in each period.
LONG_SOLUTION = joined([f"{n + more} {n}\n" for more in range(0, 1_500, 300) for n in range(300)])

#: 1,500 blocks are worth 2 each, and five in each period are one too few.
LONG_CHECKED = joined("value 3000.000000000000000000\n", [f"short 0 {n} 5.000000 6.000000\n" for n in range(300)])

assert all(len(held) > 8_192 for held in (LONG_MODEL, LONG_PRECEDENCE, LONG_SOLUTION, LONG_CHECKED))


def longest(command, out, status=0):
    return case("the longest texts", command, LONG_SOLUTION, out, status, model=LONG_MODEL, prec=LONG_PRECEDENCE)


def above(count):
    """Block 0 comes after so many others."""
    return joined(f"0 {count}", [f" {n}" for n in range(1, count + 1)])


def numbered(count):
    """So many blocks, each in the period of its number."""
    return joined([f"{n} {n}\n" for n in range(count)])


#: Each of 20 blocks has a load of 1, no load is allowed, and block 0 has all others as predecessors.
OVERLOADED = joined(
    head(20, 20, 1, 0.1),
    "RESOURCE_CONSTRAINT_COEFFICIENTS:\n",
    [f"{n} 0 1\n" for n in range(20)],
    "RESOURCE_CONSTRAINT_LIMITS:\n",
    [f"0 {n} L 0\n" for n in range(20)],
    "EOF\n",
)

OVERLOADED_WRONG = joined(
    "value 0.000000000000000000\n",
    [f"precedence 0 {n} 0 {n}\n" for n in range(1, 20)],
    [f"over 0 {n} 1.000000 0.000000\n" for n in range(20)],
    "broken 19 over 20 short 0\n",
)

#: One block in 40 periods, which is mined in period 1, where it is worth 2.
LASTING = joined(head(1, 40, 0, 0), "OBJECTIVE_FUNCTION:\n0 2\nEOF\n")

LASTING_TABLE = joined(
    "period,blocks,value,cumulative\n",
    "0,0,0.000000000000000000,0.000000000000000000\n",
    "1,1,2.000000000000000000,2.000000000000000000\n",
    [f"{n},0,0.000000000000000000,2.000000000000000000\n" for n in range(2, 40)],
)

#: The text of what differs is longer than 256 bytes.
TWENTY = joined(head(20, 20, 0, 0.1), "EOF\n")
TWENTY_DIFF = joined([f"block {n} - {n}\n" for n in range(20)], [f"moves - {n} 1\n" for n in range(20)])

#: 40 blocks, each at a height of its own, and 40 keys that aren't known, each in a run of its own.
CROWDED = joined(head(40, 2, 2, 0.1), [f"key{n}\nNAME\n" for n in range(40)])
CROWDED_PLACES = joined([f"{n} 0 0 {n}\n" for n in range(40)])

CROWDED_INFO = joined(
    "blocks 40\nperiods 2\nresources 2\nrate 0.100000\nprofits 0\ncoefficients 0\nlower 0\nupper 0\n",
    "pairs 3\nroots 38\nhighest 2\nplaces 40\nbenches 40\nunlimited 0\nunlimited 1\n",
    [f"unknown {2 * n + 6} {2 * n + 6} key{n}\n" for n in range(40)],
)

#: What is written of it is longer than 1,024 bytes.
FLAT = joined(head(300, 1, 0, 0), "EOF\n")
FLAT_SOLUTION = joined([f"{n} 0\n" for n in range(300)])


def unmined(count, end):
    """Block 0 has so many others as predecessors, and is mined without them. No block is worth anything. The first 1,000 pairs are shown."""
    model = f"TYPE: CPIT\nNPERIODS: 1\nNRESOURCE_SIDE_CONSTRAINTS: 0\nDISCOUNT_RATE: 0.1\nNBLOCKS: {count + 1}\nEOF\n"
    shown = [f"precedence 0 {n} 0 -\n" for n in range(1, min(count, 1_000) + 1)]
    out = joined("value 0.000000000000000000\n", shown, end)
    return case(f"{count} pairs", "check --all", b"0 0\n", out, 1, model=model.encode(), prec=above(count))


#: 40 entries, of which each puts block 3 into period 1, where it is worth 5 * 0.909090909091.
LONG_HISTORY = joined(
    '{"format":1}\n',
    [
        f'{{"act":"commit","job":{n},"planner":1,"reads":[],"reply":{{"committed":{n + 1}}},"start":{n},"writes":[[3,1]]}}\n'
        for n in range(40)
    ],
)

LONG_LOG = joined(
    "entry 1 planner 1 job 0 start 0 reads 0 writes 1 revises 0 cause - committed 1\nwrite 3 - 1\n",
    [
        f"entry {n + 1} planner 1 job {n} start {n} reads 0 writes 1 revises 0 cause - committed {n + 1}\nwrite 3 1 1\n"
        for n in range(1, 40)
    ],
    "legal 40 40\nvalue 4.545454545455000000\n",
)

#: The sum was made by another program.
LONG_SHOWN = b"% commits 40 sum 4c1455ad89215b19570aa364b2d9c8a04c7817f56a1bc4eba995a96b06399549\n3 1\n"

LONG = [
    longest("check", LONG_CHECKED, 1),
    longest("value", b"3000.000000000000000000\n"),
    case("a pair, and a load, in each period", "check --all", numbered(20), OVERLOADED_WRONG, 1, model=OVERLOADED, prec=above(19)),
    case("40 periods", "table", b"0 1\n", LASTING_TABLE, model=LASTING),
    case("20 blocks, each from none to a period of its own", "diff", numbered(20), TWENTY_DIFF, 1, model=TWENTY, old=b""),
    case("40 benches, and 40 unknown keys", "info --blocks last", CROWDED_PLACES, CROWDED_INFO, model=CROWDED),
    fault("places that can't be read, behind 40 unknown keys", "info --blocks .", b"", b"pit: cannot read blocks", 3, model=CROWDED),
    case("300 blocks", "show", FLAT_SOLUTION, FLAT_SOLUTION, model=FLAT),
    unmined(1_002, "more 2\nbroken 1002 over 0 short 0\n"),
    unmined(1_001, "more 1\nbroken 1001 over 0 short 0\n"),
    unmined(1_000, "broken 1000 over 0 short 0\n"),
    unmined(999, "broken 999 over 0 short 0\n"),
    case("40 commits", "show", LONG_HISTORY, LONG_SHOWN),
    case("40 commits", "log --writes", LONG_HISTORY, LONG_LOG),
    case("40 commits", "replay", LONG_HISTORY, b"legal 40 40\nvalue 4.545454545455000000\n"),
]

# An input is read whole, whatever its length.


def padded(length):
    """The solution in so many bytes: most are those of a comment before its last line."""
    front, end = b"0 0\n1 0\n%", b"\n2 1\n"
    return front + bytes(11 + n % 240 for n in range(length - len(front) - len(end))) + end


LENGTHS = [
    case(f"{length} bytes", "value", padded(length), b"37.772727272730000000\n") for length in (65_536, 65_537, 200_000)
]

CASES = [*LONG, *LENGTHS]
