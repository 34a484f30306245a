"""Histories: worked examples byte for byte, texts that stand for a history and aren't its text, faults, and how deep a line may nest."""
import hashlib
import json

from case import Case
from texts import FILES as PIT, prints, refuses
from texts_cut import cuts
from tiny import LOADING, MEETING, REVISING

FILES = {**PIT, "script": b""}
CASES = []
REPLAY, LOG = "replay model prec history", "log --writes model prec history"
CONTINUE = "plan --in-turn --continue history model prec script"
ZERO = "value 0.000000000000000000\n"
SHORT = "short 0 1 0.000000 1.000000\n"


def add(about, words, want, left=None, **files):
    """Adds a case. A text among the files is its bytes in UTF-8. `left` is what the history's file holds at the end."""
    held = {name: it.encode() if isinstance(it, str) else it for name, it in files.items()}
    CASES.append(Case(about, words.split(), files=held, left={"history": left.encode()} if left else {}, **want))


MEETING_LOG = f"""entry 1 planner 0 job 0 start 0 reads 0 writes 1 revises 0 cause - committed 1
write 3 - 1
entry 2 planner 2 job 1 start 1 reads 0 writes 1 revises 0 cause - committed 2
write 3 1 -
entry 3 planner 1 job 1 start 1 reads 1 writes 1 revises 0 cause 2 refused moved 3 2
entry 4 planner 1 job 1 start 2 reads 1 writes 0 revises 0 cause - withdrawn
legal 4 2
{ZERO}"""
FIRST_LOG = "entry 1 planner 1 job 1 start 0 reads 0 writes 2 revises 0 cause - committed 1\nwrite 0 - 0\nwrite 1 - 0\n"
LOADING_LOG = f"""{FIRST_LOG}entry 2 planner 1 job 2 start 1 reads 0 writes 1 revises 0 cause - refused over 0 0 5.000000 4.000000
entry 3 planner 1 job 3 start 1 reads 0 writes 1 revises 0 cause - committed 2
write 3 - 1
legal 3 2
value 15.045454545455000000
"""
RAISED_LOG = "entry 2 planner 1 job 2 start 1 reads 0 writes 1 revises 1 cause - committed 2\nwrite 3 - 0\nrevise 0 0 4.000000 5.000000\n"
LOWERED_LOG = "entry 3 planner 1 job 3 start 2 reads 0 writes 0 revises 1 cause - refused over 0 0 5.000000 4.000000\n"
REVISING_LOG = f"{FIRST_LOG}{RAISED_LOG}{LOWERED_LOG}legal 3 2\nvalue 15.500000000000000000\n"
# A job that is given up, the only one that revises a limit.
GIVEN_UP = """{"format":2}
{"act":"commit","job":1,"planner":1,"reads":[],"reply":{"committed":1},"revises":[],"start":0,"writes":[]}
{"act":"withdraw","job":2,"planner":1,"reads":[],"reply":"withdrawn","revises":[[0,1,null]],"start":1,"writes":[]}
"""
GIVEN_UP_LOG = f"""entry 1 planner 1 job 1 start 0 reads 0 writes 0 revises 0 cause - committed 1
entry 2 planner 1 job 2 start 1 reads 0 writes 0 revises 1 cause - withdrawn
legal 2 1
{ZERO}"""
NO_LOG = f"legal 0 0\n{ZERO}"

# What is left of each by a planner who does nothing.
NO_BLOCK = prints("", 1, ZERO + SHORT)
LOADED = prints("0 0\n1 0\n3 1\n", 0, "value 15.045454545455000000\n")
REVISED = prints("0 0\n1 0\n3 0\n", 1, f"value 15.500000000000000000\n{SHORT}")

# A name, the text, what `log --writes` prints, and what is left.
EXAMPLES = [
    ("no entry", '{"format":1}\n', NO_LOG, NO_BLOCK),
    ("meeting", MEETING, MEETING_LOG, NO_BLOCK),
    ("loading", LOADING, LOADING_LOG, LOADED),
    ("revising", REVISING, REVISING_LOG, REVISED),
    ("given up", GIVEN_UP, GIVEN_UP_LOG, NO_BLOCK),
]

for about, text, log, left in EXAMPLES:
    add(f"{about} is read", LOG, prints(log), text, history=text)
    add(f"{about} is written", CONTINUE, left, text, history=text)

# Keys in another order, white space of each kind, ends of lines with a carriage return, keys twice, of which the last counts, escapes in keys and
# values, and no end of the last line.
OTHER = r""" {TAB"format" : 7 , "format":1 } CR
{"writes":[ [ 0 , 0 ] , [1,0]],"start":0,"reply":{"committed":9,"committed":1},"reads":[ ],"planner":1,"job":1,"act":"commit"}CR
{ "job":1,"job":2,"\u0061ct":"comm\u0069t","planner":1,"reads":[],"reply":{"over":[0,0,"500\u0030000","4000000"]},"start":1,"writes":[[3,0]]}
{"act":"withdraw","act":"commit","job":3,"planner":1,"reads":[],"reply":{"committed":2},"start":1,"writes":[[3,1]]}"""
OTHER = OTHER.replace("TAB", "\t").replace("CR", "\r")
# In format 2 no entry needs to have revisions.
SECOND = """{"format":2}
{"act":"commit","job":1,"planner":1,"reads":[],"reply":{"committed":1},"revises":[],"start":0,"writes":[[0,0],[1,0]]}
{"act":"commit","job":2,"planner":1,"reads":[],"reply":{"over":[0,0,"5000000","4000000"]},"revises":[],"start":1,"writes":[[3,0]]}
{"revises":[],"act":"commit","job":3,"planner":1,"reads":[],"reply":{"committed":2},"start":1,"writes":[[3,1]]}
"""

for about, text, same, log, left in [
    ("another form", OTHER, LOADING, LOADING_LOG, LOADED),
    ("format 2 without revisions", SECOND, LOADING, LOADING_LOG, LOADED),
    ("format 2 without an entry", '{"format":2}', '{"format":1}\n', NO_LOG, NO_BLOCK),
]:
    add(f"{about} is read", LOG, prints(log), text, history=text)
    add(f"{about} is written as its text", CONTINUE, left, same, history=text)


# The least and the greatest numbers, each other reply, and acts with the other's reply. All are read, but no pit has such blocks, periods and
# resources, and no such reply is due.
GREATEST = """{"format":2}
{"act":"commit","job":4294967295,"planner":0,"reads":[[0,4294967295],[4294967295,null]],"reply":{"ahead":[4294967295,0]},\
"revises":[[4294967295,0,null],[0,4294967295,"9223372036854775807"],[0,0,"-9223372036854775808"]],"start":4294967295,"writes":[]}
{"act":"commit","job":0,"planner":4294967295,"reads":[],"reply":{"misread":10},"revises":[],"start":0,"writes":[]}
{"act":"withdraw","job":0,"planner":0,"reads":[],"reply":{"precedence":[1,100]},"revises":[[9,99,"0"],[9,99,"-1"]],"start":0,"writes":[]}
{"act":"commit","job":0,"planner":0,"reads":[],"reply":{"over":[0,1,"170141183460469231731687303715884105727","-9223372036854775808"]},\
"revises":[],"start":0,"writes":[]}
{"act":"commit","job":0,"planner":0,"reads":[],"reply":{"over":[1,0,"-170141183460469231731687303715884105728","0"]},"revises":[],"start":0,"writes":[]}
{"act":"commit","job":0,"planner":0,"reads":[],"reply":"withdrawn","revises":[],"start":0,"writes":[]}
"""
GREATEST_LINES = GREATEST.splitlines(keepends=True)[1:]
for text in GREATEST, *('{"format":2}\n' + line for line in GREATEST_LINES):
    add("the greatest numbers", REPLAY, prints("illegal 1\n", 1), history=text)
add("the greatest numbers in no pit", "show model history", refuses("schedule: illegal 1"), history=GREATEST)

# The same with the greatest blocks, periods and resources that the small pit has. `show` doesn't ask whether a reply is due. Its sum tells each byte
# of what is read, in format 2, of the entries up to the last commit.
FITTING = [
    '{"act":"commit","job":4294967295,"planner":0,"reads":[[0,1],[3,null]],"reply":{"ahead":[4294967295,0]},'
    '"revises":[[0,1,"9223372036854775807"],[0,0,"-9223372036854775808"]],"start":4294967295,"writes":[]}\n',
    GREATEST_LINES[1],
    '{"act":"withdraw","job":0,"planner":0,"reads":[],"reply":{"precedence":[1,100]},"revises":[[0,1,"0"],[0,0,"-1"]],"start":0,"writes":[]}\n',
    '{"act":"withdraw","job":0,"planner":0,"reads":[],"reply":{"precedence":[1,100]},"revises":[[0,1,null]],"start":0,"writes":[]}\n',
    *GREATEST_LINES[3:],
]
COMMITTED = '{"act":"commit","job":1,"planner":1,"reads":[],"reply":{"committed":1},"revises":[],"start":0,"writes":[[3,1]]}\n'


def in_second(text):
    """The lines of a history's entries in format 2."""
    return [line if '"revises"' in line else line.replace(',"start"', ',"revises":[],"start"') for line in text.splitlines(keepends=True)[1:]]


def spaced(text):
    """The same lines by another hand: with a space behind each comma and colon, of which none stands in a text."""
    return text.replace(",", ", ").replace(":", ": ")


def turned(text):
    """The same entries with their keys in falling order, of which each comes before with another value."""
    lines = []
    for line in text.splitlines():
        fields = sorted(json.loads(line).items(), reverse=True)
        lines.append("{" + ",".join([f'"{key}":null' for key, _ in fields] + [f'"{key}":{json.dumps(value)}' for key, value in fields]) + "}\n")
    return "".join(lines)


def summed(about, entries, commits, shown, behind=""):
    """Adds cases of these entries, the last of them committed, and of what stands behind them, in three forms."""
    text = '{"format":2}\n' + "".join(entries) + behind
    wanted = prints(f"% commits {commits} sum {hashlib.sha256(''.join(entries).encode()).hexdigest()}\n{shown}")
    for form in text, spaced(text), turned(text):
        add(about, "show model history", wanted, history=form)


for line in FITTING:
    summed("an entry that fits", [line, COMMITTED], 1, "3 1\n")
summed("entries that fit", [*FITTING, COMMITTED], 1, "3 1\n")
# Of the last two parts each has two commits, and leaves blocks 0, 1 and 3, the last in period 0. Its last entry is refused. 20 times are past 8,192 bytes.
PARTS = [*FITTING, *in_second(LOADING), *in_second(REVISING)]
for times in 3, 20:
    *entries, last = PARTS * times
    summed("a long history", entries, 4 * times, "0 0\n1 0\n3 0\n", last)
# A legal one, of which each entry puts block 3 into period 1.
LONG = '{"format":1}\n' + "".join(
    f'{{"act":"commit","job":{k},"planner":1,"reads":[],"reply":{{"committed":{k + 1}}},"start":{k},"writes":[[3,1]]}}\n' for k in range(1000)
)
for text in LONG, spaced(LONG), turned(LONG):
    add("a long history is written", CONTINUE, prints("3 1\n", 0, "value 4.545454545455000000\n"), LONG, history=text)

# Planner and job as they are printed.
add("the greatest planner and job", LOG,
    prints(f"entry 1 planner 4294967295 job 4294967295 start 0 reads 0 writes 0 revises 0 cause - withdrawn\nlegal 1 0\n{ZERO}"),
    history='{"format":1}\n{"act":"withdraw","job":4294967295,"planner":4294967295,"reads":[],"reply":"withdrawn","start":0,"writes":[]}\n')


# Faults: texts, their line and their words.
def withdrawn(job=1, more="", revises=""):
    """The line of an entry that is read, whatever its reply."""
    return f'{{"act":"commit","job":{job},{more}"planner":1,"reads":[],"reply":"withdrawn",{revises}"start":0,"writes":[]}}\n'


NONE = '"revises":[],'
ONE, TWO = '{"format":1}\n', '{"format":2}\n'
FAULTS = [
    # A text without a byte has no line; an empty line is none of JSON, also where it is the first.
    ("line 1: not format 1 or 2", [""]),
    ("line 1: not json", ["\n", "\r\n"]),
    ("line 2: not json", [f"{ONE}\n", f"{ONE}\r\n"]),
    # The first line is JSON before it is of a format.
    ("line 1: not json", ['{"format":3', '{"format":1}{}\n', '{"format":1,}\n']),
    ("line 1: not json", [b"\xef\xbb\xbf" + ONE.encode(), f"\x0c{ONE}", f"\0{ONE}", '{"format":1} // one\n', b'{"form\xff":1}\n', '{"format":1e999}\n']),
    ("line 1: not format 1 or 2", ["{}\n", "1\n", '[{"format":1}]\n', '{"Format":1}\n', '{"format":1,"more":1}\n', '{"format":1,"format":0}\n']),
    ("line 1: not format 1 or 2", [f'{{"format":{it}}}\n' for it in "0 3 4294967297 18446744073709551617 1.0 1e0".split()]),
    ("line 1: not format 1 or 2", [f'{{"format":{it}}}\n' for it in '-1 "1" [1] null'.split()]),
    # A further line is JSON before it is an entry, and the first line that is neither counts.
    ("line 2: bad entry", [f"{TWO}null\n[\n", TWO + TWO]),
    ("line 2: not json", [f"{TWO}[1,]\nnull\n", TWO + '{"act":"\\ud800"}\n', TWO + '{"act":1e999}\n', TWO.encode() + b"\xff\n"]),
    # In format 1 no entry has revisions, and in format 2 each has its own.
    ("line 3: bad entry", [ONE + withdrawn() + withdrawn(revises=NONE), TWO + withdrawn(revises=NONE) + withdrawn()]),
    # A key that no entry has, a number that is too large, and a limit with a zero in front.
    ("line 2: bad entry", [ONE + withdrawn(more='"more":1,'), ONE + withdrawn(4294967296), TWO + withdrawn(revises='"revises":[[0,0,"01"]],')]),
    ("line 30: bad entry", [ONE + withdrawn() * 28 + "null\n"]),
]

for why, texts in FAULTS:
    for text in texts:
        add(f"a history, {why}", REPLAY, refuses(f"history {why}"), history=text)
# The entry of which these are made is read.
for text in ONE + withdrawn(), TWO + withdrawn(revises=NONE), TWO + withdrawn(revises='"revises":[[0,0,"1"]],'):
    add("an entry without its due reply", REPLAY, prints("illegal 1\n", 1), history=text)


def nested(depth):
    """So many brackets that open, and as many that close."""
    return "[" * depth + "]" * depth


# Up to 127 it is JSON, but none of a history.
for depth in 1, 100, 127, 128, 200, 10_000:
    first, later = ("not format 1 or 2", "bad entry") if depth <= 127 else ("not json", "not json")
    add(f"{depth} brackets in the first line", REPLAY, refuses(f"history line 1: {first}"), history=nested(depth))
    add(f"{depth} brackets in the second line", REPLAY, refuses(f"history line 2: {later}"), history=ONE + nested(depth))
# What stands side by side doesn't nest.
add("brackets side by side", REPLAY, refuses("history line 1: not format 1 or 2"), history=f"[{nested(126)},{nested(126)}]")


# A history that is cut behind each byte. Each line ends with the last bracket. Its format alone, and all of it, were read above.
LINES = REVISING.encode().splitlines(keepends=True)
LOGS = [NO_LOG, f"{FIRST_LOG}legal 1 1\nvalue 10.500000000000000000\n", f"{FIRST_LOG}{RAISED_LOG}legal 2 2\nvalue 15.500000000000000000\n", REVISING_LOG]
PIECES = [(b"", refuses("history line 1: not format 1 or 2"))]
for at, (line, log) in enumerate(zip(LINES, LOGS), 1):
    PIECES += [(line[:-2], refuses(f"history line {at}: not json")), (line[-2:], prints(log))]
cuts("a history", LOG, "history", REVISING.encode(), PIECES, add, [b'{"format":2}', REVISING.encode()])
