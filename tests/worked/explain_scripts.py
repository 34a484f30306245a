"""What a person at a terminal is told of a fault of a script, a history or an edit, and of a job that is refused for a predecessor."""
import dataclasses

from explain import COMMIT, FILES, THREE, both, history, of_file, told

# Its entry isn't what an audit finds, since nothing was read.
MISREAD = '{"act":"withdraw","job":1,"planner":1,"reads":[],"reply":{"misread":0},"start":1,"writes":[]}'
REVISION = b'{"act":"commit","job":1,"planner":1,"reads":[],"reply":{"committed":1},"revises":[[0,0,"5000000"]],"start":0,"writes":[]}\n'

OF_SCRIPT = of_file("plan hill.cpit hill.prec empty amy.job", "amy.job", [
    ("an accent in a script", b"b\xE9gin\n",
     "pit: script 2 line 1: not ascii",
     "  amy.job:1: b?gin",
     "  It holds a byte above 127, as an accent, a hard space or a typographic minus: write plain ASCII."),
    ("a capital", b"Begin\n",
     "pit: script 2 line 1: unknown word",
     "  amy.job:1: Begin",
     "  A line begins with begin, read, put, clear, shift, bench, expect, cone, push, revise, commit or abort, in small letters."),
    ("a byte order mark before a script", b"\xEF\xBB\xBFbegin\n",
     "pit: script 2 line 1: not ascii",
     "  amy.job:1: ???begin",
     "  The file begins with a byte order mark, three bytes that editors don't show: save it without."),
    *[(f"fields behind {form}", f"{form.split()[0]} 1 2 3 4\n".encode(),
       "pit: script 2 line 1: field count",
       f"  amy.job:1: {form.split()[0]} 1 2 3 4",
       f"  The line is `{form}`; a comment stands in a line of its own, which begins with %.")
      for form in (
          "begin", "read B", "put B T", "clear B", "shift B D", "bench Z T", "expect B T` or `expect B -", "cone B T", "push B T", "revise R T V",
          "commit", "abort",
      )],
    ("half a period", b"begin\nput 1 0.5\n",
     "pit: script 2 line 2: bad number",
     "  amy.job:2: put 1 0.5",
     "  The line is `put B T`. B, R and T are whole numbers, D may have a sign, Z and V a point."),
    ("an exponent of four digits in a script", b"begin\nbench 1e1000 0\n",
     "pit: script 2 line 2: number too long",
     "  amy.job:2: bench 1e1000 0",
     "  A number has too many digits: six behind the point are kept."),
    ("a shift too far", b"begin\nshift 1 1001\n",
     "pit: script 2 line 2: number too large",
     "  amy.job:2: shift 1 1001",
     "  The line is `shift B D`. B, R and T are below 2^32, D is at most 1000 either way, Z and V are below 10^12."),
    ("the block behind the last, in a script", b"begin\nread 4\n",
     "pit: script 2 line 2: block out of range",
     "  amy.job:2: read 4",
     "  Blocks are numbered from 0 to 3: the model has NBLOCKS 4."),
    ("the resource behind the last, in a script", b"begin\nrevise 1 0 5\n",
     "pit: script 2 line 2: resource out of range",
     "  amy.job:2: revise 1 0 5",
     "  Resources are numbered from 0 to 0: the model has NRESOURCE_SIDE_CONSTRAINTS 1."),
    ("the period behind the last, in a script", b"begin\nput 1 2\n",
     "pit: script 2 line 2: period out of range",
     "  amy.job:2: put 1 2",
     "  Periods are numbered from 0 to 1: the model has NPERIODS 2."),
    ("a job inside another", b"begin\nread 1\nbegin\n",
     "pit: script 2 line 3: job order",
     "  amy.job:3: begin",
     "  The job that begins in line 1 hasn't ended: `commit` or `abort` goes above this line."),
    ("a line outside a job", b"begin\nabort\nread 1\n",
     "pit: script 2 line 3: job order",
     "  amy.job:3: read 1",
     "  The line stands in no job: `begin` goes above it."),
    ("a bench where no places were given", b"begin\nbench 20 0\n",
     "pit: script 2 line 2: no such bench",
     "  amy.job:2: bench 20 0",
     "  The heights of blocks weren't given: add `--blocks FILE`."),
    ("a million jobs and one", b"begin\nabort\n" * 1_000_000 + b"begin\n",
     "pit: script 2 line 2000001: too many jobs",
     "  amy.job:2000001: begin",
     "  A script has at most 1000000 jobs: give the rest to another."),
    ("a job without an end", b"begin\ncommit\nbegin\nread 1\n",
     "pit: script 2 line 5: job not ended",
     "  amy.job:5:",
     "  The job that begins in line 3 has no end: `commit` or `abort` goes below its lines."),
])

OF_BENCH = told(
    "a bench at a height where no block is", "plan hill.cpit hill.prec --blocks hill.blocks amy.job",
    ["pit: script 1 line 2: no such bench",
     "  amy.job:2: bench 20 0",
     "  No block of hill.blocks lies at this height: z is the third of its coordinates."],
    {"hill.blocks": b"0 0 0 2\n1 0 0 1\n", "amy.job": b"begin\nbench 20 0\n"},
)

BEGINNING = '  A history begins with {"format":1} or {"format":2}, as `pit plan --history` writes it: is this another file?'

OF_HISTORY = of_file("replay hill.cpit hill.prec hill.history", "hill.history", [
    ("a solution for a history", b"1 0\n",
     "pit: history line 1: not json",
     "  hill.history:1: 1 0",
     BEGINNING),
    ("an empty history", b"",
     "pit: history line 1: not format 1 or 2",
     "  hill.history:1:",
     BEGINNING),
    ("a line that is cut", b'{"format":1}\n{"act":',
     "pit: history line 2: not json",
     '  hill.history:2: {"act":',
     "  The line was cut or edited: a history is read as `pit plan --history` wrote it."),
    ("no keys", b'{"format":1}\n{}\n',
     "pit: history line 2: bad entry",
     "  hill.history:2: {}",
     "  The line is JSON, and no entry of this format: keys and values are those that `pit plan --history` writes."),
]) + of_file("plan hill.cpit hill.prec --continue hill.history empty", "hill.history", [
    ("a reply that wasn't due", history(COMMIT % (1, 0, 1), MISREAD + "\n", COMMIT % (2, 1, 2)),
     "pit: history: illegal 2",
     "  hill.history:3: " + MISREAD,
     "  The entry doesn't fit this pit, or isn't what an audit finds there: the history is another pit's, or was edited."),
])

OF_EDIT = of_file("merge hill.cpit hill.prec empty amy.edit", "amy.edit", [
    ("a block twice, behind a line that is skipped", b"1 0 0 0\n1 0 0 1\n1 1\n",
     "pit: edit 2 line 3: repeated",
     "  amy.edit:3: 1 1",
     "  Block 1 stands in line 2 already: add the two up, or drop one."),
]) + [
    told("a base of more commits than there are", "merge hill.cpit hill.prec --start hill.history --from 4 amy.edit", [
        "pit: edit 1: 3 commits",
        "  amy.edit",
        "  `--from` says that the edit was made of more commits than the history has.",
    ], {"hill.history": THREE, "amy.edit": b"1 0\n"}),
    told("an edit of another history", "merge hill.cpit hill.prec --start hill.history amy.edit", [
        "pit: edit 1: another history",
        "  amy.edit",
        "  The edit's first line names a beginning that this history hasn't: it was made of another one.",
    ], {"hill.history": THREE, "amy.edit": b"% commits 3 sum " + b"0" * 64 + b"\n1 0\n"}),
    told("an edit without a base", "merge hill.cpit hill.prec --start hill.history amy.edit", [
        "pit: edit 1: base missing",
        "  amy.edit",
        "  Nothing says of what the edit was made: begin from what `pit show` prints, or add `--from N`.",
    ], {"hill.history": THREE, "amy.edit": b"1 0\n"}),
    told("an edit that revises a limit", "merge hill.cpit hill.prec amy.edit", [
        "pit: edit 1: revised limit",
        "  amy.edit",
        "  A merge takes no revised limit over: a script of `plan` revises it in the base first.",
    ], {"amy.edit": b'{"format":2}\n' + REVISION}),
]

ADVICE = "  Where a job is refused precedence B A, `cone B T` brings B forward with A, and `push A T` puts A off with B."
NOTHING = ["value 0.000000000000000000", "short 0 1 0.000000 1.000000"]
# Block 2 stands behind block 1.
LATE = b"begin\nput 2 0\ncommit\n"


def planned(about, script, *lines, status=1, out=b""):
    """A plan at a terminal, and what comes there."""
    return told(about, "plan hill.cpit hill.prec amy.job", lines, {"amy.job": script}, status, out)


REFUSED = planned("a put is refused for a predecessor", LATE, "planner 1 job 1 refused precedence 2 1 tries 1", *NOTHING, ADVICE)

OF_REPORT = [
    REFUSED,
    dataclasses.replace(REFUSED, about="a put is refused for a predecessor, and no terminal", err=REFUSED.err.removesuffix(f"{ADVICE}\n".encode()),
                        terminal=False),
    planned("two jobs are refused for a predecessor, and others are committed", LATE * 2 + b"begin\ncone 2 1\ncommit\nbegin\nclear 1\ncommit\n",
            "planner 1 job 1 refused precedence 2 1 tries 1",
            "planner 1 job 2 refused precedence 2 1 tries 1",
            "planner 1 job 3 committed 1 tries 1",
            "planner 1 job 4 refused precedence 2 1 tries 1",
            "value 18.636363636365500000", ADVICE, status=0, out=b"1 1\n2 1\n"),
    planned("no job is refused for a predecessor", b"begin\ncone 2 1\ncommit\nbegin\nrevise 0 1 1\ncommit\n",
            "planner 1 job 1 committed 1 tries 1",
            "planner 1 job 2 refused over 0 1 2.000000 1.000000 tries 1",
            "value 18.636363636365500000", status=0, out=b"1 1\n2 1\n"),
    # An edit has no lines of a script.
    told("an edit is refused for a predecessor", "merge hill.cpit hill.prec amy.edit",
         ["edit 1 entry 1 changes 1 left 0 cause - refused precedence 2 1", *NOTHING], {"amy.edit": b"2 0\n"}, 1),
]

CASES = both(OF_SCRIPT, [OF_BENCH], OF_HISTORY, OF_EDIT) + OF_REPORT
