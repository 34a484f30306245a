"""Jobs with many lines: many reads and revised limits, and so many writes that they are judged over a copy of all periods."""
import json

from case import Case

#: Blocks that come after others, all but three of them in period 0 or nowhere.
BLOCKS = 20
PIT = f"TYPE: CPIT\nNBLOCKS: {BLOCKS}\nNPERIODS: 2\nNRESOURCE_SIDE_CONSTRAINTS: 0\nDISCOUNT_RATE: 0\nOBJECTIVE_FUNCTION:\n".encode()
AFTER = b"9 1 15\n10 1 16\n17 1 3\n"
START = b"3 0\n15 1\n17 0\n"

#: Jobs that put most of the first ten blocks into one period.
TEN = range(10)


def puts(period, blocks):
    """A job that puts these blocks there."""
    return "".join(["begin\n", *(f"put {block} {period}\n" for block in blocks), "commit\n"])


SCRIPT = puts(0, TEN) + puts(1, TEN) + puts(1, [block for block in TEN if block != 3])

MANY_WRITES = Case(
    "ten of twenty blocks at once: before a predecessor, behind a successor, and fine",
    "plan pit after --start start script".split(),
    "".join(f"{block} {0 if block in (3, 17) else 1}\n" for block in sorted([*TEN, 15, 17])).encode(),
    (
        "planner 1 job 1 refused precedence 9 15 tries 1\n"
        "planner 1 job 2 refused precedence 17 3 tries 1\n"
        "planner 1 job 3 committed 2 tries 1\n"
        "value 0.000000000000000000\n"
    ).encode(),
    files={"script": SCRIPT.encode()},
)

#: A pit of 100 blocks and as many periods, with one resource, whose job looks at each block, puts it away and revises the limit of each period.
MANY = 100
WIDE = f"TYPE: CPIT\nNBLOCKS: {MANY}\nNPERIODS: {MANY}\nNRESOURCE_SIDE_CONSTRAINTS: 1\nDISCOUNT_RATE: 0\nOBJECTIVE_FUNCTION:\n".encode()
#: Sets keep the order in which their pairs came.
FALLING = range(MANY - 1, -1, -1)
JOB = "".join(["begin\n", *(f"read {n}\nput {n} {n}\nrevise 0 {n} {n}\n" for n in FALLING), "commit\n"])
ENTRY = {
    "act": "commit", "job": 1, "planner": 1, "reads": [[n, None] for n in FALLING], "reply": {"committed": 1},
    "revises": [[0, n, str(n * 1_000_000)] for n in FALLING], "start": 0, "writes": [[n, n] for n in FALLING],
}
KEPT = '{"format":2}\n' + json.dumps(ENTRY, separators=(",", ":")) + "\n"

MANY_READS = Case(
    "a hundred reads, writes and revised limits",
    "plan wide none --history kept script".split(),
    "".join(f"{n} {n}\n" for n in range(MANY)).encode(),
    b"planner 1 job 1 committed 1 tries 1\nvalue 0.000000000000000000\n",
    files={"script": JOB.encode()},
    left={"kept": KEPT.encode()},
)

AGAIN = Case(
    "the same by its history",
    "replay wide none kept".split(),
    b"legal 1 1\nvalue 0.000000000000000000\n",
    files={"kept": KEPT.encode()},
)

FILES = {"pit": PIT, "after": AFTER, "start": START, "wide": WIDE, "none": b""}
CASES = [MANY_WRITES, MANY_READS, AGAIN]
