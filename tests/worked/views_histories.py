"""What `show`, `log` and `replay` write of histories, and `show` of solutions."""
from views import FILES, LOADING, MEETING, REVISING, SOLUTION, case, changed, lines

# What `show` writes of schedules. The sums are those of `sha256sum`.

LOADED = b"% commits 2 sum 067cbacbcebf1d0897baba929209ce0b79b9c0eeebed4d67337f33960cf5fece\n0 0\n1 0\n3 1\n"

#: The first entry alone.
FIRST_SHOWN = b"% commits 1 sum 312518e8d523661db7defb163f322a349cecc0034f12ef03e4ebecba15d44317\n0 0\n1 0\n"

#: The sum of no byte.
NONE_SHOWN = b"% commits 0 sum e3b0c44298fc1c149afbf4c8996fb92427ae41e4649b934ca495991b7852b855\n"

#: What is written of the first entries of `LOADING`, by how many of them there are.
LOADING_SHOWN = [NONE_SHOWN, FIRST_SHOWN, FIRST_SHOWN, LOADED]

#: Only the entries up to the last commit count, so not those that were refused and withdrawn behind it.
MEETING_SHOWN = b"% commits 2 sum b14f5263b20d62c298407795e4b817367d29fcda31370255f134b98ea630d459\n"

REVISED = b"% commits 2 sum 94b579ec07a5079367a45ea5ff5c01514db6ba7b00f01c9356b1ea59d3a2c1fe\n0 0\n1 0\n3 0\n"

SHOWN = [
    case("both commits", "show", LOADING, LOADED),
    case("both commits", "show --at 2", LOADING, LOADED),
    case("the first commit", "show --at 1", LOADING, FIRST_SHOWN),
    case("no commit", "show --at 0", LOADING, NONE_SHOWN),
    case("nothing is mined at the end", "show", MEETING, MEETING_SHOWN),
    case("a raised limit", "show", REVISING, REVISED),
    case("before it is raised", "show --at 1", REVISING, FIRST_SHOWN),
    case("a solution", "show", SOLUTION, SOLUTION),
    case("a solution is one commit", "show --at 1", SOLUTION, SOLUTION),
    case("a solution before it", "show --at 0", SOLUTION),
    case("blocks in their order, and a part of 0 mines nothing", "show", b"2 1\n1 0 0 1\n3 0 0 0\n0 0\n", SOLUTION),
    case("an empty solution", "show", b""),
    case("an empty solution has no commit", "show --at 0", b""),
    case("an empty history", "show", b'{"format":2}\n', NONE_SHOWN),
]

# The logs of histories.

MEETING_1 = b"entry 1 planner 0 job 0 start 0 reads 0 writes 1 revises 0 cause - committed 1"
MEETING_2 = b"entry 2 planner 2 job 1 start 1 reads 0 writes 1 revises 0 cause - committed 2"
MEETING_3 = b"entry 3 planner 1 job 1 start 1 reads 1 writes 1 revises 0 cause 2 refused moved 3 2"
MEETING_4 = b"entry 4 planner 1 job 1 start 2 reads 1 writes 0 revises 0 cause - withdrawn"

#: What `replay` writes of the first entries of `MEETING`, by how many of them there are. After the first block 3 is worth 5 * 0.909090909091.
MEETING_LEGAL = [
    b"legal 0 0\nvalue 0.000000000000000000\n",
    b"legal 1 1\nvalue 4.545454545455000000\n",
    b"legal 2 2\nvalue 0.000000000000000000\n",
    b"legal 3 2\nvalue 0.000000000000000000\n",
    b"legal 4 2\nvalue 0.000000000000000000\n",
]

#: And what `log --writes` does.
MEETING_LOGS = [
    MEETING_LEGAL[0],
    lines(MEETING_1, b"write 3 - 1") + MEETING_LEGAL[1],
    lines(MEETING_1, b"write 3 - 1", MEETING_2, b"write 3 1 -") + MEETING_LEGAL[2],
    lines(MEETING_1, b"write 3 - 1", MEETING_2, b"write 3 1 -", MEETING_3) + MEETING_LEGAL[3],
    lines(MEETING_1, b"write 3 - 1", MEETING_2, b"write 3 1 -", MEETING_3, MEETING_4) + MEETING_LEGAL[4],
]

REVISING_1 = b"entry 1 planner 1 job 1 start 0 reads 0 writes 2 revises 0 cause - committed 1"
REVISING_2 = b"entry 2 planner 1 job 2 start 1 reads 0 writes 1 revises 1 cause - committed 2"
REVISING_3 = b"entry 3 planner 1 job 3 start 2 reads 0 writes 0 revises 1 cause - refused over 0 0 5.000000 4.000000"
REVISING_LEGAL = b"legal 3 2\nvalue 15.500000000000000000\n"

REVISING_WRITES = lines(
    REVISING_1, b"write 0 - 0", b"write 1 - 0", REVISING_2, b"write 3 - 0", b"revise 0 0 4.000000 5.000000", REVISING_3,
)

#: A block is taken out, so that one above it can't be mined: not alone, and not where both are written. And a block is noted that nobody wrote.
TAKING_OUT = b"""\
{"format":1}
{"act":"commit","job":1,"planner":1,"reads":[],"reply":{"committed":1},"start":0,"writes":[[0,0]]}
{"act":"commit","job":1,"planner":2,"reads":[[0,0]],"reply":{"committed":2},"start":1,"writes":[[0,null]]}
{"act":"commit","job":2,"planner":1,"reads":[],"reply":{"precedence":[1,0]},"start":2,"writes":[[1,0]]}
{"act":"commit","job":3,"planner":1,"reads":[],"reply":{"precedence":[1,0]},"start":2,"writes":[[1,0],[0,null]]}
{"act":"commit","job":4,"planner":1,"reads":[[3,1]],"reply":{"misread":3},"start":2,"writes":[]}
"""

TAKING_OUT_LOG = b"""\
entry 1 planner 1 job 1 start 0 reads 0 writes 1 revises 0 cause - committed 1
entry 2 planner 2 job 1 start 1 reads 1 writes 1 revises 0 cause - committed 2
entry 3 planner 1 job 2 start 2 reads 0 writes 1 revises 0 cause 2 refused precedence 1 0
entry 4 planner 1 job 3 start 2 reads 0 writes 2 revises 0 cause - refused precedence 1 0
entry 5 planner 1 job 4 start 2 reads 1 writes 0 revises 0 cause - refused misread 3
legal 5 2
value 0.000000000000000000
"""

#: Entries that wrote a block but did not commit are no cause, and neither is the first of two that did. The block below one that is mined is
#: taken out, which is refused by what wrote the upper one.
WRITING = b"""\
{"format":2}
{"act":"commit","job":1,"planner":3,"reads":[],"reply":{"committed":1},"revises":[[0,1,null],[0,0,"7000000"]],"start":0,"writes":[]}
{"act":"commit","job":1,"planner":1,"reads":[],"reply":{"committed":2},"revises":[],"start":1,"writes":[[3,1]]}
{"act":"commit","job":2,"planner":1,"reads":[],"reply":{"ahead":[9,2]},"revises":[],"start":9,"writes":[[3,0]]}
{"act":"commit","job":3,"planner":1,"reads":[],"reply":{"committed":3},"revises":[[0,1,"9000000"]],"start":2,"writes":[[0,0],[1,1],[3,0]]}
{"act":"withdraw","job":4,"planner":1,"reads":[],"reply":"withdrawn","revises":[[0,0,"1"]],"start":3,"writes":[[3,1]]}
{"act":"commit","job":1,"planner":2,"reads":[[0,0],[3,1]],"reply":{"misread":3},"revises":[],"start":3,"writes":[]}
{"act":"commit","job":2,"planner":2,"reads":[[3,1],[0,null]],"reply":{"moved":[0,3]},"revises":[],"start":2,"writes":[]}
{"act":"commit","job":3,"planner":2,"reads":[],"reply":{"precedence":[1,0]},"revises":[],"start":3,"writes":[[0,null]]}
"""

#: The value is -10 + 20.5 * 0.909090909091 + 5.
WRITING_LOG = b"""\
entry 1 planner 3 job 1 start 0 reads 0 writes 0 revises 2 cause - committed 1
revise 0 1 4.000000 -
revise 0 0 4.000000 7.000000
entry 2 planner 1 job 1 start 1 reads 0 writes 1 revises 0 cause - committed 2
write 3 - 1
entry 3 planner 1 job 2 start 9 reads 0 writes 1 revises 0 cause - refused ahead 9 2
entry 4 planner 1 job 3 start 2 reads 0 writes 3 revises 1 cause - committed 3
write 0 - 0
write 1 - 1
write 3 1 0
revise 0 1 - 9.000000
entry 5 planner 1 job 4 start 3 reads 0 writes 1 revises 1 cause - withdrawn
entry 6 planner 2 job 1 start 3 reads 2 writes 0 revises 0 cause 4 refused misread 3
entry 7 planner 2 job 2 start 2 reads 2 writes 0 revises 0 cause 4 refused moved 0 3
entry 8 planner 2 job 3 start 3 reads 0 writes 1 revises 0 cause 4 refused precedence 1 0
legal 8 3
value 13.636363636365500000
"""

HIGHEST = b"""\
{"format":1}
{"act":"withdraw","job":4294967295,"planner":4294967295,"reads":[],"reply":"withdrawn","start":4294967295,"writes":[[3,0]]}
"""

HIGHEST_LOG = b"""\
entry 1 planner 4294967295 job 4294967295 start 4294967295 reads 0 writes 1 revises 0 cause - withdrawn
legal 1 0
value 0.000000000000000000
"""


def illegal(history, old, new, out):
    """The log of a history of which one part is changed."""
    return case("the log up to what is illegal", "log", changed(history, (old, new)), out, 1)


LOGS = [
    case("a block that moved", "log --writes", MEETING, MEETING_LOGS[4]),
    case("a raised limit", "log --writes", REVISING, REVISING_WRITES + REVISING_LEGAL),
    case("a block is taken out below another", "log", TAKING_OUT, TAKING_OUT_LOG),
    case("which entry is a cause", "log --writes", WRITING, WRITING_LOG),
    case("a raised limit, without the lines of writes", "log", REVISING, lines(REVISING_1, REVISING_2, REVISING_3) + REVISING_LEGAL),
    case("an empty history", "log --writes", b'{"format":2}\n', b"legal 0 0\nvalue 0.000000000000000000\n"),
    case("the highest numbers", "log --writes", HIGHEST, HIGHEST_LOG),
    illegal(MEETING, b'{"moved":[3,2]}', b'{"moved":[3,1]}', lines(MEETING_1, MEETING_2, b"illegal 3")),
    illegal(MEETING, b"[[3,1]]}", b"[[4,1]]}", b"illegal 1\n"),
    illegal(MEETING, b'"withdrawn"', b'{"committed":3}', lines(MEETING_1, MEETING_2, MEETING_3, b"illegal 4")),
    illegal(REVISING, b'[[0,0,"4000000"]]', b'[[0,2,"4000000"]]', lines(REVISING_1, REVISING_2, b"illegal 3")),
]

# What `replay` writes of histories.

#: What is written of the first entries of `LOADING`, by how many of them there are.
LOADING_LEGAL = [
    b"legal 0 0\nvalue 0.000000000000000000\n",
    b"legal 1 1\nvalue 10.500000000000000000\n",
    b"legal 2 1\nvalue 10.500000000000000000\n",
    b"legal 3 2\nvalue 15.045454545455000000\n",
]

REPLAYS = [
    case("no block is mined at the end", "replay", MEETING, MEETING_LEGAL[4]),
    case("-10 + 20.5 + 5 * 0.909090909091", "replay", LOADING, LOADING_LEGAL[3]),
    case("-10 + 20.5 + 5", "replay", REVISING, REVISING_LEGAL),
]

CASES = [*SHOWN, *LOGS, *REPLAYS]
