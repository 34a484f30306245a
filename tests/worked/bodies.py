"""Wrong bodies that no other theme refuses: of `check --all`, of what a merge's edit was made from, and of a solution."""
from merges import MARK_1, SHORT, commit, merged, schedule
from merges_bases import based
from tiny import LOADING, MODEL, PRECEDENCES
from views import case, fault, lines

FILES = {"model": MODEL.encode(), "precedence": PRECEDENCES.encode()}

# The last block of a pit has pairs, the last resource of its last period a load at fault.

#: No block but the last takes of the second resource, of which period 1 wants 1 to 4. Each factor is 1.
LAST = b"""\
TYPE: CPIT
NBLOCKS: 3
NPERIODS: 2
NRESOURCE_SIDE_CONSTRAINTS: 2
DISCOUNT_RATE: 0
OBJECTIVE_FUNCTION:
2 3
RESOURCE_CONSTRAINT_COEFFICIENTS:
2 1 5
RESOURCE_CONSTRAINT_LIMITS:
1 1 I 1 4
EOF
"""


def of_the_last(about, solution, *wrong):
    """Block 2 is mined without blocks 0 and 1, after which it comes."""
    return case(about, "check --all", solution, lines(b"value 3.000000000000000000", *wrong), 1, model=LAST, prec=b"2 2 0 1\n")


ALL = [
    of_the_last(
        "pairs of the last block, and the last load above its limit", b"2 1\n",
        b"precedence 2 0 1 -", b"precedence 2 1 1 -", b"over 1 1 5.000000 4.000000", b"broken 2 over 1 short 0",
    ),
    of_the_last(
        "pairs of the last block, and the last load below its limit", b"2 0\n",
        b"precedence 2 0 0 -", b"precedence 2 1 0 -", b"short 1 1 0.000000 1.000000", b"broken 2 over 0 short 1",
    ),
]

#: LOADING with another refusal between its commits, so that both histories begin with one entry and no more.
OTHERWISE = LOADING.replace('"job":2', '"job":5')
assert OTHERWISE != LOADING

MERGES = [
    # Commit 1 wrote blocks 0 and 1, and commit 2 another one. So nobody has changed them since, and both are taken out.
    based(
        "blocks written before the edit was made, though not by the last commit", LOADING, "--partial", f"{MARK_1}\n", "3 1\n", "4.545454545455000000\n",
        (1, {0: 0, 1: 0}, {0: None, 1: None}),
    ),
    # The first edit takes block 3 out. Of the base of both commits, the second one's wouldn't change it.
    merged(
        "another refusal between the same commits", schedule(LOADING), ["0 0\n1 0\n", OTHERWISE], "0 0\n1 0\n",
        "edit 1 entry 4 changes 1 left 0 cause - committed 3\nedit 2 entry 5 changes 1 left 0 cause 4 refused moved 3 3\n"
        "conflict 2 3 base - now - entry 4 wanted 1\nvalue 10.500000000000000000\n" + SHORT,
        LOADING + commit(1, 2, {3: 1}, {3: None}, committed=3) + commit(2, 1, {3: None}, {3: 1}, moved=[3, 3]), 2, status=1,
    ),
]

# The later line doesn't count in place of the first.
REPEATED = fault("a block in two periods", "check", b"2 0\n2 1\n", b"pit: solution line 2: repeated", prec=b"")

CASES = [*ALL, *MERGES, REPEATED]
