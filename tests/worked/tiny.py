"""The small pit, a schedule of it, and histories that several themes begin with."""

HEADER = """\
NAME: Tiny
TYPE: CPIT
NBLOCKS: 4
NPERIODS: 2
NRESOURCE_SIDE_CONSTRAINTS: 1
DISCOUNT_RATE: 0.1
"""
OBJECTIVE = "OBJECTIVE_FUNCTION:\n0 -10\n1 20.5\n2 30\n3 5\n"
COEFFICIENTS = "RESOURCE_CONSTRAINT_COEFFICIENTS:\n0 0 2\n1 0 2\n2 0 3\n3 0 1\n"
#: At most 4 may be loaded in a period, and at least 1 in period 1.
LIMITS = "RESOURCE_CONSTRAINT_LIMITS:\n0 0 L 4\n0 1 I 1 4\n"
#: The model without an end, for limits behind it.
UNENDED = HEADER + OBJECTIVE + COEFFICIENTS + LIMITS
MODEL = UNENDED + "EOF\n"
#: Block 1 comes after block 0, and block 2 after both.
PRECEDENCES = "0 0\n1 1 0\n2 2 0 1\n3 0\n"
#: Two of the four blocks are at one height.
PLACES = "0 0 0 2\n1 0 0 1\n2 0 0 0\n3 1 0 2\n"
SOLUTION = "0 0\n1 0\n2 1\n"

#: The history of no entry.
EMPTY = '{"format":1}\n'
#: Blocks 0 and 1 in period 0.
FRONT = EMPTY + '{"act":"commit","job":1,"planner":1,"reads":[],"reply":{"committed":1},"start":0,"writes":[[0,0],[1,0]]}\n'
#: Then block 3 there too, which is too much; and block 3 in period 1.
TOO_MUCH = '{"act":"commit","job":2,"planner":1,"reads":[],"reply":{"over":[0,0,"5000000","4000000"]},"start":1,"writes":[[3,0]]}\n'
THIRD = '{"act":"commit","job":3,"planner":1,"reads":[],"reply":{"committed":2},"start":1,"writes":[[3,1]]}\n'
#: It leaves blocks 0 and 1 in period 0, worth -10 and 20.5, and block 3 in period 1, where it is worth 5 * 0.909090909091.
LOADING = FRONT + TOO_MUCH + THIRD
#: A limit is raised, so that block 3 fits in, and can't be lowered again. It leaves blocks 0, 1 and 3 in period 0, where 5 may be loaded.
REVISING = """\
{"format":2}
{"act":"commit","job":1,"planner":1,"reads":[],"reply":{"committed":1},"revises":[],"start":0,"writes":[[0,0],[1,0]]}
{"act":"commit","job":2,"planner":1,"reads":[],"reply":{"committed":2},"revises":[[0,0,"5000000"]],"start":1,"writes":[[3,0]]}
{"act":"commit","job":3,"planner":1,"reads":[],"reply":{"over":[0,0,"5000000","4000000"]},"revises":[[0,0,"4000000"]],"start":2,"writes":[]}
"""
#: A planner's block is taken out again by another, so that what was read is refused, and then withdrawn. It leaves no block.
MEETING = """\
{"format":1}
{"act":"commit","job":0,"planner":0,"reads":[],"reply":{"committed":1},"start":0,"writes":[[3,1]]}
{"act":"commit","job":1,"planner":2,"reads":[],"reply":{"committed":2},"start":1,"writes":[[3,null]]}
{"act":"commit","job":1,"planner":1,"reads":[[3,1]],"reply":{"moved":[3,2]},"start":1,"writes":[[3,0]]}
{"act":"withdraw","job":1,"planner":1,"reads":[[3,null]],"reply":"withdrawn","start":2,"writes":[]}
"""
