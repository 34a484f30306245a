"""What is due to entries that revise limits, or break one by a removal, and what they leave."""
from plans_histories import (
    AFTER_TWO, FILES, Left, THIRD_BLOCK, TWO_BLOCKS, ask, by_script, commit, committed, history_of, legal, log_of, over, precedence, story, withdraw,
)

# Block 3 under a limit that is raised for it, which can't be lowered then. The value is 5 more.
RAISING = [
    TWO_BLOCKS,
    commit(1, [], [(3, 0)], committed(2), revises=[(0, 0, 5_000_000)]),
    commit(2, [], [], over(0, 0, 5_000_000, 4_000_000), revises=[(0, 0, 4_000_000)]),
]
RAISED = Left(2, (0, 0, None, 0), (1, 1, 0, 2), (5_000_000, 0), (5_000_000, 4_000_000), "15.500000000000000000")

REVISED = [
    *story("a limit is raised for block 3", [], RAISING, RAISED),
    *story(
        "what a withdrawn call revised is not there for the next", [],
        [TWO_BLOCKS, withdraw(1, [], [(3, 0)], [(0, 1, 0), (0, 0, 5_000_000)]), THIRD_BLOCK], AFTER_TWO,
    ),
    *story(
        "nor is what a refused commit revised", [],
        [TWO_BLOCKS, commit(1, [], [(0, None)], precedence(1, 0), 1, [(0, 0, 5_000_000)]), THIRD_BLOCK], AFTER_TWO,
    ),
    *story(
        "loads that no write moves are judged by the limits that are revised, the least period first", [], [
            TWO_BLOCKS,
            commit(1, [], [], over(0, 0, 4_000_000, 3_999_999), revises=[(0, 1, -1), (0, 0, 3_999_999)]),
            commit(1, [], [], over(0, 1, 0, -1), revises=[(0, 1, -1), (0, 0, None)]),
        ], AFTER_TWO,
    ),
    # The value of blocks 0 to 2 is -10 + 20.5 + 30.
    *story(
        "all blocks in a period without a limit, then a limit that they reach, and a tighter one as block 3 goes to period 1", [], [
            commit(0, [], [(0, 0), (1, 0), (2, 0), (3, 0)], committed(1), revises=[(0, 0, None)]),
            commit(1, [], [], over(0, 0, 8_000_000, 7_999_999), revises=[(0, 0, 7_999_999)]),
            commit(1, [], [], committed(2), revises=[(0, 0, 8_000_000)]),
            commit(2, [], [(3, 1)], committed(3), revises=[(0, 0, 7_000_000)]),
        ], Left(3, (0, 0, 0, 1), (1, 1, 1, 3), (7_000_000, 1_000_000), (7_000_000, 4_000_000), "45.045454545455000000"),
    ),
    *story(
        "of two commits that both saw none the last decides, and neither gives a block a version", [], [
            commit(0, [], [], committed(1), revises=[(0, 1, 9_000_000), (0, 0, 1_000_000)]),
            commit(0, [], [], committed(2), revises=[(0, 0, 2_000_000), (0, 1, None)]),
            commit(0, [(3, None)], [(3, 0), (0, 0)], over(0, 0, 3_000_000, 2_000_000)),
        ], Left(2, limits=(2_000_000, None)), is_script=False,
    ),
]

# A limit that is broken by a removal.
REMOVED = [
    commit(0, [], [(0, 0), (1, 0)], committed(1)),
    commit(1, [], [(1, None)], over(0, 0, 3_000_000, 1_000_000)),
]
OFFSET = [
    ask("replay", "a limit that is broken by a removal", history_of(REMOVED), legal(REMOVED, 1, Left().value), pit="offset"),
    ask(
        "log", "a limit that is broken by a removal", history_of(REMOVED),
        log_of(REMOVED, "offset") + legal(REMOVED, 1, Left().value), 0, ["--writes"], "offset",
    ),
    *by_script("a limit that is broken by a removal", [], "", REMOVED, Left(1, (0, 0)), "offset"),
    ask(
        "table", "a load that is taken off", history_of(REMOVED),
        "period,blocks,value,cumulative,load_0,lower_0,upper_0,room_0\n0,2,0.000000000000000000,0.000000000000000000,1.000000,,1.000000,0.000000\n",
        pit="offset",
    ),
]

CASES = [*REVISED, *OFFSET]
