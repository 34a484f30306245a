"""Histories that a plan goes on from, that are legal over one pit alone, and that runs have kept."""
from case import Case
from plans_histories import (
    AFTER_THREE, FILES, Left, THREE_BLOCKS, ask, audits, by_script, commit, committed, history_of, legal, log_of, moved, story, views, withdraw,
)
from tiny import LOADING, MEETING, REVISING

SWAP = commit(2, [(3, 1)], [(2, 1), (3, None)], committed(3))
AFTER_SWAP = Left(3, (0, 0, 1, None), (1, 1, 3, 3), (4_000_000, 3_000_000), value="37.772727272730000000")
TOO_EARLY = commit(1, [(3, None)], [], moved(3, 2), cause=3)
RENUMBERED = history_of([*THREE_BLOCKS[:2], commit(1, [], [(3, 1)], committed(3))])

RESUMED = [
    *audits("block 2 in the place of block 3", [*THREE_BLOCKS, SWAP], AFTER_SWAP),
    *views("block 2 in the place of block 3", [*THREE_BLOCKS, SWAP], AFTER_SWAP),
    *by_script("block 2 in the place of block 3", THREE_BLOCKS, history_of(THREE_BLOCKS), [SWAP], AFTER_SWAP),
    *audits("block 3, which was read before it was there", [*THREE_BLOCKS, TOO_EARLY], AFTER_THREE),
    *views("block 3, which was read before it was there", [*THREE_BLOCKS, TOO_EARLY], AFTER_THREE),
    ask("log", "a wrong number", RENUMBERED, log_of(THREE_BLOCKS[:2]) + "illegal 3\n", 1, ["--writes"]),
    *(
        Case("a wrong number", ["plan", "tiny.cpit", "tiny.prec", word, "history", "no.script"], b"", f"pit: {name}: illegal 3\n".encode(), 2,
             {"history": RENUMBERED.encode(), "no.script": b""}, {"history": RENUMBERED.encode()})
        for word, name in (("--start", "start"), ("--continue", "history"))
    ),
]


def wrong(about, rows):
    """A history whose second entry has what the pit of two blocks has not."""
    return [
        ask("replay", about, history_of(rows), "illegal 2\n", 1, pit="offset"),
        ask("log", about, history_of(rows), log_of(rows[:1], "offset") + "illegal 2\n", 1, ["--writes"], "offset"),
    ]


NO_BLOCK = [commit(0, [], [], committed(1)), withdraw(1, [(2, None)], [])]
NO_PERIOD = [commit(0, [], [], committed(1), revises=[(0, 0, None)]), withdraw(1, [], [], [(0, 0, 0), (0, 1, 0)])]
NO_RESOURCE = [
    commit(0, [], [], committed(1), revises=[(0, 0, None)]),
    commit(1, [], [], committed(2), revises=[(0, 0, 0), (1, 0, 0)]),
]

# Histories that are due over one pit, and not over another.
WRONG = [
    *story("block 2 is read", [], NO_BLOCK, Left(1)),
    *wrong("no block 2", NO_BLOCK),
    *story("period 1 is revised", [], NO_PERIOD, Left(1, limits=(None, 4_000_000))),
    *wrong("no period 1", NO_PERIOD),
    ask("replay", "resource 1 is revised", history_of(NO_RESOURCE), legal(NO_RESOURCE, 2, Left().value), pit="two"),
    ask("table", "resource 1 is revised", history_of(NO_RESOURCE), """\
period,blocks,value,cumulative,load_0,lower_0,upper_0,room_0,load_1,lower_1,upper_1,room_1
0,0,0.000000000000000000,0.000000000000000000,0.000000,,0.000000,0.000000,0.000000,,0.000000,0.000000
1,0,0.000000000000000000,0.000000000000000000,0.000000,1.000000,4.000000,4.000000,0.000000,,,
""", pit="two"),
    *wrong("no resource 1", NO_RESOURCE),
]

MEETING_LOG = """\
entry 1 planner 0 job 0 start 0 reads 0 writes 1 revises 0 cause - committed 1
write 3 - 1
entry 2 planner 2 job 1 start 1 reads 0 writes 1 revises 0 cause - committed 2
write 3 1 -
entry 3 planner 1 job 1 start 1 reads 1 writes 1 revises 0 cause 2 refused moved 3 2
"""
VALUE_0 = f"value {Left().value}\n"

# Histories of runs, as they are kept.
KEPT = [
    ask("replay", "a block that was read is moved, and the job is tried again", MEETING, "legal 4 2\n" + VALUE_0),
    ask("log", "a block that was read is moved, and the job is tried again", MEETING, MEETING_LOG + """\
entry 4 planner 1 job 1 start 2 reads 1 writes 0 revises 0 cause - withdrawn
legal 4 2
""" + VALUE_0, 0, ["--writes"]),
    ask("replay", "the job is given up", MEETING[:MEETING.index('{"act":"withdraw"')], "legal 3 2\n" + VALUE_0),
    ask("log", "the job is given up", MEETING[:MEETING.index('{"act":"withdraw"')], MEETING_LOG + "legal 3 2\n" + VALUE_0, 0, ["--writes"]),
    ask("log", "loading", LOADING, """\
entry 1 planner 1 job 1 start 0 reads 0 writes 2 revises 0 cause - committed 1
write 0 - 0
write 1 - 0
entry 2 planner 1 job 2 start 1 reads 0 writes 1 revises 0 cause - refused over 0 0 5.000000 4.000000
entry 3 planner 1 job 3 start 1 reads 0 writes 1 revises 0 cause - committed 2
write 3 - 1
legal 3 2
value 15.045454545455000000
""", 0, ["--writes"]),
    ask("log", "revising", REVISING, """\
entry 1 planner 1 job 1 start 0 reads 0 writes 2 revises 0 cause - committed 1
write 0 - 0
write 1 - 0
entry 2 planner 1 job 2 start 1 reads 0 writes 1 revises 1 cause - committed 2
write 3 - 0
revise 0 0 4.000000 5.000000
entry 3 planner 1 job 3 start 2 reads 0 writes 0 revises 1 cause - refused over 0 0 5.000000 4.000000
legal 3 2
value 15.500000000000000000
""", 0, ["--writes"]),
]

CASES = [*RESUMED, *WRONG, *KEPT]
