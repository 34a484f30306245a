"""Scripts: the jobs that are read of them, and their faults."""
from case import Case
from texts import FILES as PIT, HEADER, PLACES, prints, refuses
from texts_cut import cuts
from texts_long import LONG
from texts_numbers import LONG_NUMBER

#: The small pit with nothing set but its places: blocks 0 and 3 are at height 2, block 1 at 1 and block 2 at 0.
FILES = {"model": HEADER, "none": b"", "blocks": PLACES}
CASES = []
WORDS = "plan --in-turn --blocks blocks model none script"
ZERO = "value 0.000000000000000000\n"


def add(about, words, want, left=None, **files):
    """Adds a case. A text among the files is its bytes in ASCII. `left` is the history that the planner leaves in `new`."""
    held = {name: it.encode() if isinstance(it, str) else it for name, it in files.items()}
    CASES.append(Case(about, words.split(), files=held, left={"new": left.encode()} if left else {}, **want))


def entry(act, job, reads, reply, revises, start, writes):
    """A line of a history in format 2."""
    planner = 1 if job else 0
    front = f'"act":"{act}","job":{job},"planner":{planner},"reads":{reads},"reply":{reply}'
    return f'{{{front},"revises":{revises},"start":{start},"writes":{writes}}}\n'


def reports(*endings):
    """The report of a planner whose jobs end so, and a value of 0."""
    return "".join(f"planner 1 job {j} {it} tries 1\n" for j, it in enumerate(endings, 1)) + ZERO


# Each kind of line, spaces and line ends of each kind, a job without a step, and what stands behind the end.
KINDS = """begin
read 0
put 1 1
  clear\t2
shift 3 -1
shift 3 +1000
commit
begin\r
abort\r

begin
bench 2 0
bench 2.0000004 1
revise 0 1 -2.5
revise 0 0 inf
commit
EOF
fly"""
# It begins with blocks 2 and 3 in period 1.
START = "2 1\n3 1\n"
STARTED = '{"format":2}\n' + entry("commit", 0, "[]", '{"committed":1}', "[]", 0, "[[2,1],[3,1]]")
# The first job gives up, since 1,000 periods later there is none. The third revises a limit to less than what is loaded.
STEPS = (
    STARTED
    + entry("withdraw", 1, "[[0,null],[3,1]]", '"withdrawn"', "[]", 1, "[[1,1],[2,null],[3,0]]")
    + entry("withdraw", 2, "[]", '"withdrawn"', "[]", 1, "[]")
    + entry("commit", 3, "[]", '{"over":[0,1,"0","-2500000"]}', '[[0,1,"-2500000"],[0,0,null]]', 1, "[[0,1],[3,1]]")
)
ENDINGS = reports("withdrawn", "withdrawn", "refused over 0 1 0.000000 -2.500000")
add("each kind of line", f"{WORDS} --start start --history new", prints(START, 0, ENDINGS), STEPS, script=KINDS, start=START)

# What each step does, where the job is committed.
DOING = [
    # A step, its reads, writes and revisions, and the schedule left.
    ("read 0", "[[0,null]]", "[]", "[]", START),
    ("put 1 1", "[]", "[[1,1]]", "[]", "1 1\n2 1\n3 1\n"),
    ("  clear\t2", "[]", "[[2,null]]", "[]", "3 1\n"),
    ("shift 3 -1", "[[3,1]]", "[[3,0]]", "[]", "2 1\n3 0\n"),
    ("bench 2 0", "[]", "[[0,0],[3,0]]", "[]", "0 0\n2 1\n3 0\n"),
    ("bench 2.0000004 1", "[]", "[[0,1],[3,1]]", "[]", "0 1\n2 1\n3 1\n"),
    ("expect 3 1", "[[3,1]]", "[]", "[]", START),
    ("expect\t0 -", "[[0,null]]", "[]", "[]", START),
    ("cone 3 0", "[[3,1]]", "[[3,0]]", "[]", "2 1\n3 0\n"),
    ("cone 3 1", "[[3,1]]", "[]", "[]", START),
    ("push 0 1", "[[0,null]]", "[]", "[]", START),
    ("push 3 1", "[[3,1]]", "[]", "[]", START),
    ("revise 0 1 2.5", "[]", "[]", '[[0,1,"2500000"]]', START),
    ("revise 0 0 4", "[]", "[]", '[[0,0,"4000000"]]', START),
    ("revise 0 0 inf", "[]", "[]", "[[0,0,null]]", START),
    ("revise 0 0 +Infinity", "[]", "[]", "[[0,0,null]]", START),
]

for step, reads, writes, revises, shown in DOING:
    history = STARTED + entry("commit", 1, reads, '{"committed":2}', revises, 1, writes)
    if revises == "[]":
        # Format 2 is that of a history with revisions.
        history = history.replace('"format":2', '"format":1').replace('"revises":[],', "")
    words = f"{WORDS} --start start --history new"
    add(f"the step {step}", words, prints(shown, 0, reports("committed 2")), history, script=f"begin\n{step}\ncommit\n", start=START)

# How far a block is put, in as many periods as there may be.
WIDE = HEADER.replace(b"NPERIODS: 2", b"NPERIODS: 1000")
for step, ending, shown in [
    ("shift 3 +999", "committed 2", "3 999\n"),
    ("shift 3 1", "committed 2", "3 1\n"),
    ("shift 3 -0", "committed 2", "3 0\n"),
    ("shift 3 1000", "withdrawn", "3 0\n"),
    ("shift 3 -1", "withdrawn", "3 0\n"),
    ("shift 2 1", "withdrawn", "3 0\n"),
]:
    add(f"the step {step}", f"{WORDS} --start start", prints(shown, 0, reports(ending)), model=WIDE, script=f"begin\n{step}\ncommit\n", start="3 0\n")

for text in "", "\n\n", "EOF\nbegin\n":
    add("a script without a job", WORDS, prints("", 0, ZERO), script=text)

# A height, and the blocks there; or there is no such bench.
for height, blocks in [("0", [2]), ("1", [1]), ("1.000001", []), ("2", [0, 3]), ("-0.000001", []), ("3", [])]:
    wanted = prints("".join(f"{b} 0\n" for b in blocks), 0, reports("committed 1")) if blocks else refuses("script 1 line 2: no such bench")
    add(f"the bench at {height}", WORDS, wanted, script=f"begin\nbench {height} 0\ncommit\n")


# Faults: texts, their line and their words.
FAULTS = [
    ([b"\xff"], "line 1: not ascii"),
    (["fly"], "line 1: unknown word"),
    (["begin\ncommit\nBegin"], "line 3: unknown word"),
    # The word comes first, then the number of fields, then whether a job is open.
    (["fly 0 0"], "line 1: unknown word"),
    (["begin\nbegin 0"], "line 2: field count"),
    (["begin 0", "read", "read 0 0", "put 0", "put 0 0 0", "clear", "clear 0 0", "shift 0", "shift 0 1 1", "commit 0", "abort 0"], "line 1: field count"),
    (["bench 2", "bench 2 0 0", "revise 0 0", "revise 0 0 1 1", "bench 0"], "line 1: field count"),
    (["expect 0", "expect 0 - 0", "cone 0", "cone 0 0 0", "push 0", "push 0 0 0"], "line 1: field count"),
    (["begin\nbegin"], "line 2: job order"),
    (["read x", "put 0 0", "clear x", "shift x 1", "bench x 0", "revise x 0 1", "commit", "bench 0 0\nbegin"], "line 1: job order"),
    (["expect x -", "cone x 0", "push x 0"], "line 1: job order"),
    (["begin\nabort\nabort"], "line 3: job order"),
    # The first fault ends it.
    (["fly\nbegin"], "line 1: unknown word"),
    (["begin\nfly"], "line 2: unknown word"),
    # The end, which is that of the text or the line of `EOF`.
    (["begin"], "line 2: job not ended"),
    (["begin\nread 0\n", "begin\nread 0\nEOF\ncommit\n"], "line 3: job not ended"),
]
# Behind the line of a begin: numbers from left to right, then the ranges, then the bench.
STEP_FAULTS = [
    (["read x", "put 9 x", b"put x \xff", "shift 0 +", "shift 0 --1", "bench x y", "revise 1 2 x", "revise 0 0 -inf"], "bad number"),
    (["expect x 0", "expect 9 x", "expect 9 --", "expect - 0", "expect 9 -0", "expect 9 +1", "cone 9 -", "push x 9"], "bad number"),
    ([b"read \xff", b"revise 1 2 \xff", b"expect 9 \xff", b"expect 9 \xe2\x88\x92", b"cone 9 \xff", b"push \xff x"], "not ascii"),
    ([f"read {LONG_NUMBER}"], "number too long"),
    (["put 4294967296 0", "shift 4 1001", "bench 1e12 0", "expect 4 4294967296", "cone 4 4294967296"], "number too large"),
    (["put 4 2", "read 4", "clear 4", "shift 4 -1000", "read 1000\n", "expect 4 2", "expect 4 -", "cone 4 2", "push 4 2"], "block out of range"),
    (["put 3 2", "bench 7 2", "revise 0 2 1", "expect 3 2", "cone 3 2", "push 3 2"], "period out of range"),
    (["bench 7 0", "bench 2.5 0"], "no such bench"),
    (["revise 1 2 1"], "resource out of range"),
]

for texts, why in FAULTS:
    for text in texts:
        add(f"a script, {why}", WORDS, refuses(f"script 1 {why}"), script=text)
for texts, why in STEP_FAULTS:
    for text in texts:
        step = text if isinstance(text, bytes) else text.encode()
        add(f"a step, {why}", WORDS, refuses(f"script 1 line 2: {why}"), script=b"begin\n" + step)
# The line of a fault is that of its script.
add("a fault of the second script", f"{WORDS} other", refuses("script 2 line 7: unknown word"), script="", other="begin\ncommit\n" * 3 + "fly")


# Scripts that are cut behind each byte, over the small pit with all that it has.
def stops(why):
    return refuses(f"script 1 {why}")


SHORT = "short 0 1 0.000000 1.000000\n"
NOTHING = prints("", 1, ZERO + SHORT)
READING = [
    (b"", NOTHING),
    (b"begi", stops("line 1: unknown word")),
    (b"n\n", stops("line 2: job not ended")),
    (b"rea", stops("line 2: unknown word")),
    (b"d ", stops("line 2: field count")),
    (b"0\n", stops("line 3: job not ended")),
    (b"commi", stops("line 3: unknown word")),
    (b"t\r\n", prints("", 1, reports("committed 1") + SHORT)),
    (b"begi", stops("line 4: unknown word")),
    (b"n\n", stops("line 5: job not ended")),
    (b"pu", stops("line 5: unknown word")),
    (b"t 1 ", stops("line 5: field count")),
    (b"1\n", stops("line 6: job not ended")),
    (b"abor", stops("line 6: unknown word")),
    (b"t\n", prints("", 1, reports("committed 1", "withdrawn") + SHORT)),
]

# Blocks 0 and 1 are worth -10 + 20.5, and load 4, which is all that may be loaded. Block 3, which loads 1, is worth 5 * 0.909090909091 in period 1.
PUT = "planner 1 job 1 committed 1 tries 1\n"
OVER = "planner 1 job 2 refused over 0 0 5.000000 4.000000 tries 1\n"
FELL_SHORT = f"value 10.500000000000000000\n{SHORT}"
PUTTING = [
    (b"", NOTHING),
    (b"begi", stops("line 1: unknown word")),
    (b"n\n", stops("line 2: job not ended")),
    (b"pu", stops("line 2: unknown word")),
    (b"t 0 ", stops("line 2: field count")),
    (b"0\n", stops("line 3: job not ended")),
    (b"pu", stops("line 3: unknown word")),
    (b"t 1 ", stops("line 3: field count")),
    (b"0\n", stops("line 4: job not ended")),
    (b"commi", stops("line 4: unknown word")),
    (b"t\n", prints("0 0\n1 0\n", 1, f"{PUT}{FELL_SHORT}")),
    (b"begi", stops("line 5: unknown word")),
    (b"n\n", stops("line 6: job not ended")),
    (b"pu", stops("line 6: unknown word")),
    (b"t 3 ", stops("line 6: field count")),
    (b"0\n", stops("line 7: job not ended")),
    (b"commi", stops("line 7: unknown word")),
    (b"t\n", prints("0 0\n1 0\n", 1, f"{PUT}{OVER}{FELL_SHORT}")),
    (b"begi", stops("line 8: unknown word")),
    (b"n\n", stops("line 9: job not ended")),
    (b"pu", stops("line 9: unknown word")),
    (b"t 3 ", stops("line 9: field count")),
    (b"1\n", stops("line 10: job not ended")),
    (b"commi", stops("line 10: unknown word")),
    (b"t\n", prints("0 0\n1 0\n3 1\n", 0, f"{PUT}{OVER}planner 1 job 3 committed 2 tries 1\nvalue 15.045454545455000000\n")),
]


def add_small(about, words, want, **files):
    """Adds a case over the whole small pit."""
    add(about, words, want, model=PIT["model"], prec=PIT["prec"], **files)


# Both begin so.
BEGUN = [b"begin\n"[:end] for end in range(7)]
CUTTING = "plan --in-turn --blocks blocks model prec script"
cuts("a script that reads", CUTTING, "script", b"begin\nread 0\ncommit\r\nbegin\nput 1 1\nabort\n", READING, add_small)
cuts("a script that puts", CUTTING, "script", b"begin\nput 0 0\nput 1 0\ncommit\nbegin\nput 3 0\ncommit\nbegin\nput 3 1\ncommit\n", PUTTING, add_small, BEGUN)

# A long script. Its blocks have each a height of its own, falling.
LOWERED = "".join(f"{b} 0 0 -{b}\n" for b in range(1000))
ALL = reports(*(f"committed {b + 1}" for b in range(1000)))
add("a long script", WORDS, prints("", 0, ALL), model=LONG, blocks=LOWERED, script="".join(f"begin\nread {b}\ncommit\n" for b in range(1000)))
shown, script = ("".join(line.format(b, b % 2) for b in range(1000)) for line in ("{} {}\n", "begin\nbench -{} {}\ncommit\n"))
add("a bench of each block", WORDS, prints(shown, 0, ALL), model=LONG, blocks=LOWERED, script=script)
