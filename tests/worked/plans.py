"""Scripts of planners, and what they leave."""
import os

import tiny
from case import Case
from tiny import EMPTY, LOADING, PRECEDENCES, REVISING, UNENDED

# Thirteen blocks, fifteen periods and eight resources, so that no two numbers of a line need be the same.
WIDE_MODEL = """\
TYPE: CPIT
NBLOCKS: 13
NPERIODS: 15
NRESOURCE_SIDE_CONSTRAINTS: 8
DISCOUNT_RATE: 0.1
RESOURCE_CONSTRAINT_COEFFICIENTS:
0 3 0.000001
1 3 -12.000001
2 3 15.000009
RESOURCE_CONSTRAINT_LIMITS:
"""

# A pit of the small one's size, of which one limit is below zero.
BELOW_ZERO = f"""\
{tiny.HEADER}OBJECTIVE_FUNCTION:
RESOURCE_CONSTRAINT_COEFFICIENTS:
RESOURCE_CONSTRAINT_LIMITS:
0 1 L -1
"""

FILES = {
    "tiny.cpit": UNENDED.encode(),
    "tiny.prec": PRECEDENCES.encode(),
    "tiny.blocks": tiny.PLACES.encode(),
    "wide.cpit": WIDE_MODEL.encode(),
    "wide.prec": b"12 1 8\n",
}

# Block 3 has period 1, as a start.
BLOCK_3 = """\
{"format":1}
{"act":"commit","job":0,"planner":0,"reads":[],"reply":{"committed":1},"start":0,"writes":[[3,1]]}
"""

# The report where no block is mined and no job is done.
NOTHING = "value 0.000000000000000000\nshort 0 1 0.000000 1.000000\n"

# Where a history's file isn't there yet.
NEW = object()


def jobs(*each):
    """A script of jobs, each its lines between commas. A job ends with `commit` where its last line isn't `abort`."""
    lines = []
    for job in each:
        inner = [line for line in job.split(", ") if line]
        lines += ["begin", *inner, *([] if inner[-1:] == ["abort"] else ["commit"])]
    return "".join(line + "\n" for line in lines)


def plan(about, scripts, out="", err="", status=0, *, start=None, onto=None, kept=None, words=(), pit="tiny", files=None):
    """The plan of these scripts: its two outputs, and what it leaves for a history.

    It begins with what `start` says, or `onto`, the history's file, where `NEW` is none yet. Of one script two plans, of which one is in turn.
    """
    texts = [scripts] if isinstance(scripts, str) else scripts
    names = [f"{number}.script" for number in range(1, len(texts) + 1)]
    held = {**dict(zip(names, texts)), **(files or {})}
    said = ["plan", f"{pit}.cpit", f"{pit}.prec", *words]
    if start is not None:
        said += ["--start", "start"]
        held["start"] = start
    if onto is not None:
        said += ["--continue", "kept"]
        held.update({"kept": onto} if onto is not NEW else {})
    elif kept is not None or status > 1:
        said += ["--history", "kept"]
    left = {"kept": None if kept is None else kept.encode(), "kept.pit-new": None}
    held = {name: text.encode() for name, text in held.items()}
    ways = [[], ["--in-turn"]] if isinstance(scripts, str) else [[]]
    return [Case(about, [*said, *way, *names], out.encode(), err.encode(), status, held, left) for way in ways]


def refused(about, line, scripts, **more):
    """The plan that ends with this fault line. Nothing is printed, and the history is as it was."""
    return plan(about, scripts, "", line + "\n", 2, **{"kept": more.get("onto"), **more})


# An example of a cone.
with open(os.path.join(os.path.dirname(__file__), "../../examples/tiny/cone.script"), encoding="ascii") as text:
    CONE = text.read()

# Three jobs, of which the second is too heavy, the solution that they leave, and their report.
THREE = jobs("put 0 0, put 1 0", "put 3 0", "put 3 1")
THREE_LEFT = "0 0\n1 0\n3 1\n"
THREE_TOLD = """\
planner 1 job 1 committed 1 tries 1
planner 1 job 2 refused over 0 0 5.000000 4.000000 tries 1
planner 1 job 3 committed 2 tries 1
value 15.045454545455000000
"""

# One planner, or planners of whom one at most has jobs.
ALONE = [
    *plan("three jobs, of which the second is too heavy", THREE, THREE_LEFT, THREE_TOLD, kept=LOADING),
    *plan("the same without a history", THREE, THREE_LEFT, THREE_TOLD),
    *plan("no byte", "", "", NOTHING, 1, kept=EMPTY),
    *plan("no jobs", "\n", "", NOTHING, 1, kept=EMPTY),
    *plan(
        "a limit is revised", jobs("put 0 0, put 1 0", "put 3 0, revise 0 0 5", "revise 0 0 4"), "0 0\n1 0\n3 0\n", """\
planner 1 job 1 committed 1 tries 1
planner 1 job 2 committed 2 tries 1
planner 1 job 3 refused over 0 0 5.000000 4.000000 tries 1
value 15.500000000000000000
short 0 1 0.000000 1.000000
""", 1, kept=REVISING),
    *plan(
        "blocks 0 and 3 are at height 2, and block 1 has no period to be shifted from",
        jobs("bench 2 0", "read 0, clear 3, abort", "shift 1 1"), "0 0\n3 0\n", """\
planner 1 job 1 committed 1 tries 1
planner 1 job 2 withdrawn tries 1
planner 1 job 3 withdrawn tries 1
value -5.000000000000000000
short 0 1 0.000000 1.000000
""", 1, words=["--blocks", "tiny.blocks"], kept="""\
{"format":1}
{"act":"commit","job":1,"planner":1,"reads":[],"reply":{"committed":1},"start":0,"writes":[[0,0],[3,0]]}
{"act":"withdraw","job":2,"planner":1,"reads":[[0,0]],"reply":"withdrawn","start":1,"writes":[[3,null]]}
{"act":"withdraw","job":3,"planner":1,"reads":[[1,null]],"reply":"withdrawn","start":1,"writes":[]}
"""),
    *plan(
        "what stands in a block's way is put with it, and what depends on it", jobs("put 1 0", "cone 1 0", "cone 2 1", "push 0 1"), "0 0\n1 0\n2 1\n", """\
planner 1 job 1 refused precedence 1 0 tries 1
planner 1 job 2 committed 1 tries 1
planner 1 job 3 committed 2 tries 1
planner 1 job 4 refused over 0 1 7.000000 4.000000 tries 1
value 37.772727272730000000
""", kept="""\
{"format":1}
{"act":"commit","job":1,"planner":1,"reads":[],"reply":{"precedence":[1,0]},"start":0,"writes":[[1,0]]}
{"act":"commit","job":2,"planner":1,"reads":[[1,null],[0,null]],"reply":{"committed":1},"start":0,"writes":[[0,0],[1,0]]}
{"act":"commit","job":3,"planner":1,"reads":[[2,null],[0,0],[1,0]],"reply":{"committed":2},"start":1,"writes":[[2,1]]}
{"act":"commit","job":4,"planner":1,"reads":[[0,0],[1,0],[2,1]],"reply":{"over":[0,1,"7000000","4000000"]},"start":2,"writes":[[0,1],[1,1]]}
"""),
    *plan("a block that is refused alone", CONE, "0 0\n1 0\n", """\
planner 1 job 1 refused precedence 1 0 tries 1
planner 1 job 2 committed 1 tries 1
value 10.500000000000000000
short 0 1 0.000000 1.000000
""", 1),
    *plan(
        "what stands in its way is too heavy", jobs("cone 2 1"), "",
        "planner 1 job 1 refused over 0 1 7.000000 4.000000 tries 1\n" + NOTHING, 1, kept=EMPTY + """\
{"act":"commit","job":1,"planner":1,"reads":[[2,null],[0,null],[1,null]],"reply":{"over":[0,1,"7000000","4000000"]},"start":0,"writes":[[0,1],[1,1],[2,1]]}
"""),
    *plan(
        "a job goes on where the schedule is as it thought", jobs("expect 0 -, put 0 0", "expect 0 1, clear 0"), "0 0\n", """\
planner 1 job 1 committed 1 tries 1
planner 1 job 2 withdrawn tries 1
value -10.000000000000000000
short 0 1 0.000000 1.000000
""", 1, kept=EMPTY + """\
{"act":"commit","job":1,"planner":1,"reads":[[0,null]],"reply":{"committed":1},"start":0,"writes":[[0,0]]}
{"act":"withdraw","job":2,"planner":1,"reads":[[0,0]],"reply":"withdrawn","start":1,"writes":[]}
"""),
    *plan(
        "from a solution, by benches", ["", jobs("bench 0 1, bench 1 1")], "0 0\n1 0\n2 1\n", """\
planner 2 job 1 refused over 0 1 5.000000 4.000000 tries 1
value 37.772727272730000000
""", start="0 0\n1 0\n2 1\n", words=["--blocks", "tiny.blocks"], kept="""\
{"format":1}
{"act":"commit","job":0,"planner":0,"reads":[],"reply":{"committed":1},"start":0,"writes":[[0,0],[1,0],[2,1]]}
{"act":"commit","job":1,"planner":2,"reads":[],"reply":{"over":[0,1,"5000000","4000000"]},"start":1,"writes":[[2,1],[1,1]]}
"""),
    *plan("a refused job is a failure where that counts", THREE, THREE_LEFT, THREE_TOLD, 1, words=["--strict"], kept=LOADING),
    *plan(
        "a withdrawn job is none", jobs("put 3 1", "shift 3 1"), "3 1\n", """\
planner 1 job 1 committed 1 tries 1
planner 1 job 2 withdrawn tries 1
value 4.545454545455000000
""", words=["--strict"], kept="""\
{"format":1}
{"act":"commit","job":1,"planner":1,"reads":[],"reply":{"committed":1},"start":0,"writes":[[3,1]]}
{"act":"withdraw","job":2,"planner":1,"reads":[[3,1]],"reply":"withdrawn","start":1,"writes":[]}
"""),
    *plan("a start is an entry", "", "3 1\n", "value 4.545454545455000000\n", start="3 1\n", kept=BLOCK_3),
    *plan("an empty start is none", "", "", NOTHING, 1, start="", kept=EMPTY),
    *plan(
        "loads and limits of either sign", jobs(
            "revise 3 14 -0.5", "put 0 14, revise 3 14 -0.5", "put 1 14, revise 3 14 -12.000002", "put 2 14, revise 3 14 -2.000006",
        ), "", """\
planner 1 job 1 refused over 3 14 0.000000 -0.500000 tries 1
planner 1 job 2 refused over 3 14 0.000001 -0.500000 tries 1
planner 1 job 3 refused over 3 14 -12.000001 -12.000002 tries 1
planner 1 job 4 refused over 3 14 15.000009 -2.000006 tries 1
value 0.000000000000000000
""", pit="wide", kept="""\
{"format":2}
{"act":"commit","job":1,"planner":1,"reads":[],"reply":{"over":[3,14,"0","-500000"]},"revises":[[3,14,"-500000"]],"start":0,"writes":[]}
{"act":"commit","job":2,"planner":1,"reads":[],"reply":{"over":[3,14,"1","-500000"]},"revises":[[3,14,"-500000"]],"start":0,"writes":[[0,14]]}
{"act":"commit","job":3,"planner":1,"reads":[],"reply":{"over":[3,14,"-12000001","-12000002"]},"revises":[[3,14,"-12000002"]],"start":0,\
"writes":[[1,14]]}
{"act":"commit","job":4,"planner":1,"reads":[],"reply":{"over":[3,14,"15000009","-2000006"]},"revises":[[3,14,"-2000006"]],"start":0,\
"writes":[[2,14]]}
"""),
]

# Two scripts that meet at block 3 where they run at once.
TWO = [jobs("shift 3 -1"), jobs("clear 3")]

# A job for each of the most planners.
MOST = 64
ONE_JOB = jobs("clear 0")


def in_turn(about, scripts, *rest, **more):
    """The plan of several scripts that are done in turn."""
    return plan(about, scripts, *rest, **{**more, "words": ["--in-turn"]})


def lines(form, count):
    """A line for each number from 1."""
    return "".join(form.format(number=number, before=number - 1) + "\n" for number in range(1, count + 1))


# Several planners. Where they run at once, whoever comes first leaves the same.
SEVERAL = [
    *in_turn(
        "in turn: the first moves what the second then clears", TWO, "", """\
planner 1 job 1 committed 2 tries 1
planner 2 job 1 committed 3 tries 1
value 0.000000000000000000
short 0 1 0.000000 1.000000
""", 1, start="3 1\n", kept=BLOCK_3 + """\
{"act":"commit","job":1,"planner":1,"reads":[[3,1]],"reply":{"committed":2},"start":1,"writes":[[3,0]]}
{"act":"commit","job":1,"planner":2,"reads":[],"reply":{"committed":3},"start":2,"writes":[[3,null]]}
"""),
    *in_turn(
        "in turn: empty scripts before and behind", ["", ONE_JOB, ONE_JOB, ""], "",
        "planner 2 job 1 committed 1 tries 1\nplanner 3 job 1 committed 2 tries 1\n" + NOTHING, 1, kept=EMPTY + """\
{"act":"commit","job":1,"planner":2,"reads":[],"reply":{"committed":1},"start":0,"writes":[[0,null]]}
{"act":"commit","job":1,"planner":3,"reads":[],"reply":{"committed":2},"start":1,"writes":[[0,null]]}
"""),
    *plan(
        "planners are told in their order, whoever was done first", [jobs("read 3, abort"), jobs("put 1 0")], "3 1\n", """\
planner 1 job 1 withdrawn tries 1
planner 2 job 1 refused precedence 1 0 tries 1
value 4.545454545455000000
""", start="3 1\n"),
    *in_turn(
        "in turn: the same", [jobs("read 3, abort"), jobs("put 1 0")], "3 1\n", """\
planner 1 job 1 withdrawn tries 1
planner 2 job 1 refused precedence 1 0 tries 1
value 4.545454545455000000
""", start="3 1\n", kept=BLOCK_3 + """\
{"act":"withdraw","job":1,"planner":1,"reads":[[3,1]],"reply":"withdrawn","start":1,"writes":[]}
{"act":"commit","job":1,"planner":2,"reads":[],"reply":{"precedence":[1,0]},"start":1,"writes":[[1,0]]}
"""),
    *in_turn(
        "in turn: the most planners", [ONE_JOB] * MOST, "", lines("planner {number} job 1 committed {number} tries 1", MOST) + NOTHING, 1,
        kept=EMPTY + lines(
            '{{"act":"commit","job":1,"planner":{number},"reads":[],"reply":{{"committed":{number}}},"start":{before},"writes":[[0,null]]}}', MOST,
        ),
    ),
    *plan(
        "the most planners at once, who give up", [jobs("clear 0, abort")] * MOST, "",
        lines("planner {number} job 1 withdrawn tries 1", MOST) + NOTHING, 1,
    ),
    *plan(
        "the most planners at once, who are refused", [jobs("put 2 0")] * MOST, "",
        lines("planner {number} job 1 refused precedence 2 0 tries 1", MOST) + NOTHING, 1,
    ),
]

# Block 3 makes room for block 2.
SWAP = jobs("put 2 1, clear 3")
SWAP_LEFT = "0 0\n1 0\n2 1\n"
SWAP_TOLD = "planner 1 job 1 committed 3 tries 1\nvalue 37.772727272730000000\n"
SWAP_KEPT = LOADING + """\
{"act":"commit","job":1,"planner":1,"reads":[],"reply":{"committed":3},"start":2,"writes":[[2,1],[3,null]]}
"""

# What a history without revisions says where one follows.
LOADING_2 = LOADING.replace('"format":1', '"format":2').replace(',"start"', ',"revises":[],"start"')


def carried(about, history, scripts, out, err, status=0, **more):
    """The plan that begins with this history, and the one that goes on with its file."""
    return [*plan(about, scripts, out, err, status, start=history, **more), *plan(about, scripts, out, err, status, onto=history, **more)]


# The last reply isn't the one that is due.
WRONG = LOADING.replace('{"committed":2}', '{"committed":3}')

# Plans that begin with a history.
CARRIED = [
    *carried("behind three entries", LOADING, SWAP, SWAP_LEFT, SWAP_TOLD, kept=SWAP_KEPT),
    *carried(
        "a revised limit stays in force", REVISING, jobs(""), "0 0\n1 0\n3 0\n",
        "planner 1 job 1 committed 3 tries 1\nvalue 15.500000000000000000\nshort 0 1 0.000000 1.000000\n", 1, kept=REVISING + """\
{"act":"commit","job":1,"planner":1,"reads":[],"reply":{"committed":3},"revises":[],"start":2,"writes":[]}
"""),
    *carried(
        "a limit is revised behind entries without one", LOADING, jobs("revise 0 1 1"), THREE_LEFT,
        "planner 1 job 1 committed 3 tries 1\nvalue 15.045454545455000000\n", kept=LOADING_2 + """\
{"act":"commit","job":1,"planner":1,"reads":[],"reply":{"committed":3},"revises":[[0,1,"1000000"]],"start":2,"writes":[]}
"""),
    *plan("a new history", THREE, THREE_LEFT, "history new\n" + THREE_TOLD, onto=NEW, kept=LOADING),
    *carried(
        "the same jobs once more: the numbers go on", LOADING, THREE, THREE_LEFT, """\
planner 1 job 1 committed 3 tries 1
planner 1 job 2 refused over 0 0 5.000000 4.000000 tries 1
planner 1 job 3 committed 4 tries 1
value 15.045454545455000000
""", kept=LOADING + """\
{"act":"commit","job":1,"planner":1,"reads":[],"reply":{"committed":3},"start":2,"writes":[[0,0],[1,0]]}
{"act":"commit","job":2,"planner":1,"reads":[],"reply":{"over":[0,0,"5000000","4000000"]},"start":3,"writes":[[3,0]]}
{"act":"commit","job":3,"planner":1,"reads":[],"reply":{"committed":4},"start":3,"writes":[[3,1]]}
"""),
    *refused("a start has to be legal", "pit: start: illegal 3", "", start=WRONG),
    *refused("a history has to be legal", "pit: history: illegal 3", "", onto=WRONG),
]

# Refused by each reader, at its first line.
BAD = "no model\n"

TOO_MANY = [ONE_JOB] * (MOST + 1)


def behind(model, line):
    """The text of a model with one more limit."""
    return {f"{model}.cpit": {"tiny": UNENDED, "wide": WIDE_MODEL}[model] + line + "\n"}


BAD_MODEL = {"tiny.cpit": BAD, "tiny.prec": BAD, "tiny.blocks": BAD}
BAD_PRECEDENCE = {"tiny.prec": BAD, "tiny.blocks": BAD}
PLACES = ["--blocks", "tiny.blocks"]

# The first fault of texts.
OF_TEXTS = [
    *refused("all texts are bad", "pit: model line 2: missing TYPE", BAD, start=BAD, words=PLACES, files=BAD_MODEL),
    *refused("all but the model are bad", "pit: precedence line 1: bad number", BAD, start=BAD, words=PLACES, files=BAD_PRECEDENCE),
    *refused("the precedences are good too", "pit: blocks line 1: field count", BAD, start=BAD, words=PLACES, files={"tiny.blocks": BAD}),
    *refused("the blocks are good too", "pit: start line 1: period out of range", BAD, start="0 2\n", words=PLACES),
    *refused(
        "a script's comes before the start's own breach", "pit: script 2 line 2: no such bench", ["", "begin\nbench 0 0\ncommit\n", BAD],
        start="2 0\n",
    ),
    *refused("numbers of a script", "pit: script 4 line 11: no such bench", ["", "", "", "begin\ncommit\n" * 4 + "\nbegin\nbench 0 0\ncommit\n"]),
    *refused("the number of a start's line", "pit: start line 5: field count", "", start="0 0\n\n% no line\n1 0\n2\n"),
    *refused(
        "the number of a line of precedences", "pit: precedence line 5: predecessor count", "", pit="wide",
        files={"wide.prec": "1 0\n\n% no line\n2 1 1\n12 2 8\n"},
    ),
]

# What is refused behind the texts. The number of planners comes last.
OF_STARTS = [
    *refused("a start that breaks a precedence", "pit: start: precedence 2 0", "", start="2 0\n"),
    *refused("it comes before too many planners", "pit: start: precedence 2 0", TOO_MANY, start="2 0\n"),
    *refused("a start too heavy for the pit's limit", "pit: start: over 0 0 5.000000 4.000000", "", start="0 0\n1 0\n3 0\n"),
    *refused("it comes before too many planners", "pit: start: over 0 0 5.000000 4.000000", TOO_MANY, start="0 0\n1 0\n3 0\n"),
    *refused(
        "a limit below zero comes before the start's breach", "pit: model: upper limit below zero 0 1", "", start="2 0\n",
        files={"tiny.cpit": BELOW_ZERO},
    ),
    *refused("a limit below zero", "pit: model: upper limit below zero 0 0", "", files=behind("tiny", "0 0 L -1")),
    *refused("it comes before too many planners", "pit: model: upper limit below zero 0 0", TOO_MANY, files=behind("tiny", "0 0 L -1")),
    *refused("the least limit holds", "pit: start: over 0 0 2.000000 1.000000", "", start="0 0\n", files=behind("tiny", "0 0 L 1")),
    *refused("too many planners", "pit: planner count", TOO_MANY),
    *refused("numbers of a limit", "pit: model: upper limit below zero 7 9", "", pit="wide", files=behind("wide", "7 9 L -1")),
    *refused("numbers of a precedence", "pit: start: precedence 12 8", "", pit="wide", start="12 14\n"),
    *refused(
        "numbers of a load", "pit: start: over 3 14 15.000009 2.000006", "", pit="wide", start="2 14\n", files=behind("wide", "3 14 L 2.000006"),
    ),
]

# A device that takes no byte. The history is written behind the others.
FULL = [
    Case(
        "a history for which there is no room", ["plan", "tiny.cpit", "tiny.prec", "--history", "/dev/full", "1.script"], THREE_LEFT.encode(),
        THREE_TOLD.encode() + b"pit: cannot write\n", 3, {"1.script": THREE.encode()},
    ),
]

CASES = [*ALONE, *SEVERAL, *CARRIED, *OF_TEXTS, *OF_STARTS, *FULL]
