"""What commands that look at a schedule write of files, pipes and folders, of faults in their order, and of a pit whose model has changed since."""
import hashlib

import tiny
from case import CLOSED, Folder, Pipe, fault, refused, says

MODEL = tiny.MODEL
VALUE = "37.772727272730000000"
#: A limit is revised, so that blocks 0, 1 and 3 fit into period 0.
REVISED = "".join(tiny.REVISING.splitlines(True)[:3])
SUM_OF_REVISED = hashlib.sha256("".join(REVISED.splitlines(True)[1:]).encode()).hexdigest()
SUM_OF_FIRST = hashlib.sha256(REVISED.splitlines(True)[1].encode()).hexdigest()
SUM_OF_NOTHING = hashlib.sha256(b"").hexdigest()
LOADED = "0 0\n1 0\n3 0\n"

FILES = {
    "model": MODEL.encode(), "precedence": tiny.PRECEDENCES.encode(), "solution": tiny.SOLUTION.encode(),
    "early": b"2 0\n", "empty": b"", "folder": Folder(), "refused": b"no model\n", "revised": REVISED.encode(),
    # Its block is none of this pit.
    "foreign": b'{"format":1}\n{"act":"commit","job":1,"planner":1,"reads":[],"reply":{"committed":7},"start":3,"writes":[[4,0]]}\n',
    # The same pit with another profit of block 3 and another limit: the history can be looked at, though no longer replayed.
    "changed": MODEL.replace("3 5\n", "3 50\n").replace("0 0 L 4\n", "0 0 L 3\n").encode(),
    "unmeetable": MODEL.replace("0 0 L 4\n", "0 0 L -1\n").encode(),
}
OF = "model precedence"
SHORT = "short 0 1 0.000000 1.000000\n"

CHECKS = [
    says("breach and shortfall", f"check {OF} early", f"value 30.000000000000000000\nprecedence 2 0\n{SHORT}", status=1),
    fault("bad precedences", "check model refused solution", "precedence line 1: bad number"),
    fault("no precedences", "check model absent solution", "cannot read precedence"),
    says("pairs and a load, the option behind the files", f"check {OF} wrong --all", """\
value 46.409090909090000000
precedence 1 0 0 1
precedence 2 0 0 1
over 0 0 6.000000 4.000000
broken 2 over 1 short 0
""", status=1, files={"wrong": b"0 1\n1 0\n2 0\n3 0\n"}),
    # Under the limit that it revised nothing is over; as a solution, under the model's own, it is.
    says("a history", f"check --all {OF} revised", f"value 15.500000000000000000\n{SHORT}broken 0 over 0 short 1\n", status=1),
    fault("an entry of another pit", f"check --all {OF} foreign", "schedule: illegal 1"),
    fault("a cut history", f"check --all {OF} cut", "schedule line 1: not json", files={"cut": Pipe(b' \t{"format":1')}),
    fault("a bad solution", f"check --all {OF} refused", "schedule line 1: bad number"),
    fault("no schedule", f"check --all {OF} missing", "cannot read schedule"),
    fault("a folder", f"check --all {OF} folder", "cannot read schedule"),
    says("more than are shown", "check --all wide below first",
         "value 0.000000000000000000\n" + "".join(f"precedence 0 {b} 0 -\n" for b in range(1, 1001)) + "more 2\nbroken 1002 over 0 short 0\n", status=1,
         files={
             "wide": b"NAME: wide\nTYPE: CPIT\nNBLOCKS: 1003\nNPERIODS: 1\nNRESOURCE_SIDE_CONSTRAINTS: 0\nDISCOUNT_RATE: 0\n"
                     b"OBJECTIVE_FUNCTION:\nRESOURCE_CONSTRAINT_COEFFICIENTS:\nRESOURCE_CONSTRAINT_LIMITS:\nEOF\n",
             "below": f"0 1002 {' '.join(map(str, range(1, 1003)))}\n".encode(), "first": Pipe(b"0 0\n"),
         }),
    says("a limit below zero", "check unmeetable precedence empty", f"value 0.000000000000000000\nover 0 0 0.000000 -1.000000\n{SHORT}", status=1),
]

COLUMNS = "period,blocks,value,cumulative,load_0,lower_0,upper_0,room_0\n"
TABLES = [
    says("a history by a pipe", "table model history", f"""\
{COLUMNS}0,3,15.500000000000000000,15.500000000000000000,5.000000,,5.000000,0.000000
1,0,0.000000000000000000,15.500000000000000000,0.000000,1.000000,4.000000,4.000000
""", files={"history": Pipe(REVISED.encode())}),
    fault("an entry of another pit", "table model foreign", "schedule: illegal 1"),
    fault("a bad model", "table refused refused", "model line 2: missing TYPE"),
    fault("a bad schedule", "table model refused", "schedule line 1: bad number"),
    fault("no schedule", "table refused missing", "cannot read schedule"),
    fault("a folder", "table model folder", "cannot read schedule"),
]


def difference(limit, value):
    """How the revised history differs from the solution, where period 0 has this limit and the history this value."""
    return f"""\
block 2 1 -
block 3 - 0
moves 1 - 1
moves - 0 1
limit 0 0 {limit} 5.000000
load 0 0 4.000000 5.000000
load 0 1 3.000000 0.000000
value {VALUE} {value}
"""


DIFFERENCES = [
    says("a difference", "diff model solution revised", difference("4.000000", "15.500000000000000000"), status=1),
    says("a limit alone, by pipes", "diff model one other", "limit 0 0 5.000000 4.000000\n", status=1,
         files={"one": Pipe(REVISED.encode()), "other": Pipe(LOADED.encode())}),
    says("nothing", "diff model solution solution"),
    fault("the first fault", "diff model refused foreign", "old line 1: bad number"),
    fault("the second fault", "diff model solution foreign", "new: illegal 1"),
    fault("a bad model", "diff refused refused foreign", "model line 2: missing TYPE"),
    fault("no file", "diff refused missing missing", "cannot read old"),
    fault("no second schedule", "diff refused refused missing", "cannot read new"),
    fault("folders", "diff model folder folder", "cannot read old"),
    fault("a path is a path, and no stream", "diff model - revised", "cannot read old", given=LOADED.encode()),
    says("what is shown is the schedule, under the limits of the model", "diff model shown revised", "limit 0 0 4.000000 5.000000\n", status=1,
         files={"shown": Pipe(f"% commits 2 sum {SUM_OF_REVISED}\n{LOADED}".encode())}),
]

COUNTS = """\
blocks 4
periods 2
resources 1
rate 0.100000
profits 4
coefficients 4
lower 1
upper 2
pairs 3
roots 2
highest 2
"""
INFO = [
    says("counts, from pipes", f"info {OF}", COUNTS, files={"model": Pipe(MODEL.encode()), "precedence": Pipe(tiny.PRECEDENCES.encode())}),
    fault("a bad model", "info refused refused --blocks refused", "model line 2: missing TYPE"),
    fault("bad precedences", "info model refused --blocks refused", "precedence line 1: bad number"),
    fault("bad blocks", f"info {OF} --blocks refused", "blocks line 1: field count"),
    fault("no file", "info missing missing --blocks missing", "cannot read model"),
    fault("no blocks", "info refused refused --blocks missing", "cannot read blocks"),
    fault("a folder", "info model folder", "cannot read precedence"),
]

SHOWN = [
    says("a solution of other lines", "show model lines", "0 0\n2 1\n", files={"lines": Pipe(b"2 0 1 1\n% x\n0 0 0 1.0\n1 0 0 0\n")}),
    fault("past a solution", "show model solution --at 2", "at: 1 commits"),
    says("a history", "show model history", f"% commits 2 sum {SUM_OF_REVISED}\n{LOADED}", files={"history": Pipe(REVISED.encode())}),
    *(says(f"a history up to a commit, {at}", ["show", *at.split(), "model", "revised"], f"% commits 1 sum {SUM_OF_FIRST}\n0 0\n1 0\n") for at in ("--at=1", "--at +1")),
    says("a history before its commits", "show model revised --at 0", f"% commits 0 sum {SUM_OF_NOTHING}\n"),
    fault("past a history", "show model revised --at 3", "at: 2 commits"),
    fault("past any history", "show model revised --at 4294967295", "at: 2 commits"),
    refused("a number that is too large", "show model revised --at 4294967296"),
    refused("no number", "show model revised --at -1"),
    fault("an entry of another pit", "show model foreign --at 7", "schedule: illegal 1"),
    fault("no schedule", "show refused missing", "cannot read schedule"),
    fault("a folder", "show model folder", "cannot read schedule"),
]

# The model was changed since: block 3 is worth 50, and period 0 has a limit of 3.
SINCE = [
    says("replay", "replay changed precedence revised", "illegal 1\n", status=1),
    says("check", "check --all changed precedence revised", f"value 60.500000000000000000\n{SHORT}broken 0 over 0 short 1\n", status=1),
    says("table", "table changed revised", f"""\
{COLUMNS}0,3,60.500000000000000000,60.500000000000000000,5.000000,,5.000000,0.000000
1,0,0.000000000000000000,60.500000000000000000,0.000000,1.000000,4.000000,4.000000
"""),
    says("diff", "diff changed solution revised", difference("3.000000", "60.500000000000000000"), status=1),
    says("show", "show changed revised", f"% commits 2 sum {SUM_OF_REVISED}\n{LOADED}"),
]

VALUES = [
    says("files behind --", "value -- model solution", f"{VALUE}\n"),
    # A word of its environment is none of its words.
    says("an environment", "value model solution", f"{VALUE}\n", environment={"PIT": "--version", "LC_ALL": "de_DE.UTF-8", "LANG": "de_DE.UTF-8"}),
]

COMMANDS = [
    f"check --all {OF} revised", "table model revised", "diff model solution revised", f"info {OF}", "show model revised", f"replay {OF} kept",
    "value model solution", "--help", "value --help",
]
OUTPUTS = [fault(f"{what}: {words.split()[0]}", words, "cannot write", into=into, files={"kept": tiny.LOADING.encode()})
           for words in COMMANDS for what, into in (("a full output", "/dev/full"), ("a closed output", CLOSED))]

CASES = [*CHECKS, *TABLES, *DIFFERENCES, *INFO, *SHOWN, *SINCE, *VALUES, *OUTPUTS]
