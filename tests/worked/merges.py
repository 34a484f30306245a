"""Merges into the small pit, worked by hand: what comes of several edits, and what is refused."""
import hashlib
import json

from case import Case
from tiny import EMPTY, LOADING, MODEL, PRECEDENCES

FILES = {"model": MODEL.encode(), "precedence": PRECEDENCES.encode()}

#: LOADING with another number of the last commit.
TURNED = LOADING.replace('"committed":2', '"committed":3')

#: What `show` writes first of LOADING after none, one and both of its commits. The sums are those of `sha256sum`.
MARK_0 = "% commits 0 sum e3b0c44298fc1c149afbf4c8996fb92427ae41e4649b934ca495991b7852b855"
MARK_1 = "% commits 1 sum 312518e8d523661db7defb163f322a349cecc0034f12ef03e4ebecba15d44317"
MARK_2 = "% commits 2 sum 067cbacbcebf1d0897baba929209ce0b79b9c0eeebed4d67337f33960cf5fece"
#: The sum of the first commit with the number of both.
MIXED = MARK_1.replace("commits 1", "commits 2")

PLAIN, HELD = "0 0\n1 0\n2 1\n", "0 0\n1 0\n3 1\n"
FIRST, SECOND = f"{MARK_1}\n{PLAIN}", f"{MARK_2}\n0 0\n1 0\n"
#: The edits of block 3 in period 1: it is moved; taken out for another one; and another one is added.
THREE = ["3 0\n", "0 0\n", "0 0\n3 1\n"]

#: Where period 1 has no block.
SHORT = "short 0 1 0.000000 1.000000\n"
ZERO = "0.000000000000000000\n"

MISSING = "edit 1: base missing"


def compact(value):
    return json.dumps(value, sort_keys=True, separators=(",", ":")) + "\n"


def commit(planner, start, reads, writes, job=1, revises=None, **reply):
    """The line of an entry, with revisions where it is one of format 2."""
    entry = {"act": "commit", "job": job, "planner": planner, "start": start, "reads": list(reads.items()), "writes": list(writes.items()), "reply": reply}
    return compact(entry if revises is None else entry | {"revises": revises})


def mark(history, commits):
    """What `show` writes first of a history after so many commits, where no entry before them was refused."""
    entries = [json.loads(line) for line in history.splitlines()[1 : commits + 1]]
    text = "".join(compact({"revises": []} | entry) for entry in entries)
    return f"% commits {commits} sum {hashlib.sha256(text.encode()).hexdigest()}\n"


# What a merge begins with: words, and files.
NOTHING, NO_HISTORY = (["--history", "kept"], {}), (["--continue", "kept"], {})


def schedule(text):
    return ["--start", "start", "--history", "kept"], {"start": text}


def history(text):
    return ["--continue", "kept"], {"kept": text}


def case_of(about, begins, edits, asked, kept, **wanted):
    """A merge of edits. `asked` is the number of `--from` or another word, `kept` what the history's file holds in the end."""
    words, files = begins
    words = words + ([] if asked is None else [asked] if asked == "--partial" else ["--from", str(asked)])
    edits = {f"edit{number}": text for number, text in enumerate(edits, 1)}
    files = {name: text.encode() for name, text in (files | edits).items()}
    left = {"kept": None if kept is None else kept.encode(), "kept.pit-new": None}
    return Case(about, ["merge", *words, "model", "precedence", *edits], files=files, left=left, **wanted)


def merged(about, begins, edits, solution, report, kept, asked=None, status=0):
    """A merge that ends with an answer: status 1 where an edit isn't merged whole."""
    return case_of(about, begins, edits, asked, kept, out=solution.encode(), err=report.encode(), status=status)


def refused(about, begins, edits, line, asked=None):
    """A merge that ends with a fault, and leaves the history as it was."""
    return case_of(about, begins, edits, asked, begins[1].get("kept"), err=f"pit: {line}\n".encode(), status=2)


# Several edits. First of block 3 in period 1, which was put there by an entry of planner 9, or is a solution.
MOVES = "edit 1 entry 2 changes 1 left 0 cause - committed 2\n"
MET = "conflict 2 3 base 1 now 0 entry 2 wanted -\n"
MINUS_5 = "value -5.000000000000000000\n" + SHORT
MEETS_REPORT = MOVES + "edit 2 entry 3 changes 2 left 0 cause 2 refused moved 3 2\n" + MET + "edit 3 entry 4 changes 1 left 0 cause - committed 3\n" + MINUS_5
LEFT_OUT_REPORT = MOVES + "edit 2 entry 3 changes 2 left 1 cause - committed 3\n" + MET + "edit 3 entry - changes 0 left 0 cause - nothing\n" + MINUS_5
MOVED = commit(1, 1, {3: 1}, {3: 0}, committed=2)
MEETS = MOVED + commit(2, 1, {0: None, 3: 1}, {0: 0, 3: None}, moved=[3, 2]) + commit(3, 1, {0: None}, {0: 0}, committed=3)
LEFT_OUT = MOVED + commit(2, 1, {0: None}, {0: 0}, committed=3)
BY_9, BY_START = (EMPTY + commit(planner, 0, {}, {3: 1}, job, committed=1) for planner, job in ((9, 1), (0, 0)))
MEETINGS = [
    merged("an edit meets a change of the one before it", schedule("3 1\n"), THREE, "0 0\n3 0\n", MEETS_REPORT, BY_START + MEETS, status=1),
    merged("what it meets is left out", schedule("3 1\n"), THREE, "0 0\n3 0\n", LEFT_OUT_REPORT, BY_START + LEFT_OUT, "--partial", status=1),
    merged("the same on a history", schedule(BY_9), THREE, "0 0\n3 0\n", MEETS_REPORT, BY_9 + MEETS, 1, status=1),
    merged(
        "left out on a history", schedule(BY_9), [mark(BY_9, 1) + text for text in THREE], "0 0\n3 0\n", LEFT_OUT_REPORT, BY_9 + LEFT_OUT,
        "--partial", status=1,
    ),
]

# Each edit has a base of its own.
RAISED = '{"format":2}\n' + commit(9, 0, {}, {0: 0, 1: 0}, revises=[], committed=1)
RAISED += commit(9, 1, {}, {3: 0}, revises=[[0, 0, "5000000"]], committed=2)
OTHERS = [
    merged(
        "three bases, of which the last one's edit meets a change", schedule(LOADING), [FIRST, SECOND, f"{MARK_1}\n0 0\n1 0\n3 0\n"], PLAIN,
        "edit 1 entry 4 changes 1 left 0 cause - committed 3\nedit 2 entry 5 changes 1 left 0 cause - committed 4\n"
        "edit 3 entry 6 changes 1 left 0 cause 5 refused moved 3 4\nconflict 3 3 base - now - entry 5 wanted 0\nvalue 37.772727272730000000\n",
        LOADING + commit(1, 1, {2: None}, {2: 1}, committed=3) + commit(2, 2, {3: 1}, {3: None}, committed=4)
        + commit(3, 1, {3: None}, {3: 0}, moved=[3, 4]), 9, status=1,
    ),
    merged(
        "what is held, and another period for block 3", schedule(RAISED), [mark(RAISED, 2) + "0 0\n1 0\n3 0\n", mark(RAISED, 1) + HELD], "0 0\n1 0\n3 0\n",
        "edit 1 entry - changes 0 left 0 cause - nothing\nedit 2 entry 3 changes 1 left 0 cause 2 refused moved 3 2\n"
        "conflict 2 3 base - now 0 entry 2 wanted 1\nvalue 15.500000000000000000\n" + SHORT,
        RAISED + commit(2, 1, {3: None}, {3: 1}, revises=[], moved=[3, 2]), status=1,
    ),
]

# Limits and precedences are judged on the merged schedule.
PRECEDED = "edit 1 entry 2 changes 1 left 0 cause - committed 2\nedit 2 entry 3 changes 1 left 0 cause 2 refused precedence 1 0\nvalue " + ZERO + SHORT
TAKEN = commit(1, 1, {0: 0}, {0: None}, committed=2) + commit(2, 1, {1: None}, {1: 0}, precedence=[1, 0])
ZERO_BY_9, ZERO_BY_START = (EMPTY + commit(planner, 0, {}, {0: 0}, job, committed=1) for planner, job in ((9, 1), (0, 0)))
RULES = [
    merged(
        "two blocks and a third one are too much", NOTHING, ["0 0\n1 0\n", "0 0\n3 0\n"], "0 0\n1 0\n",
        "edit 1 entry 1 changes 2 left 0 cause - committed 1\nedit 2 entry 2 changes 1 left 0 cause - refused over 0 0 5.000000 4.000000\n"
        "value 10.500000000000000000\n" + SHORT,
        EMPTY + commit(1, 0, {0: None, 1: None}, {0: 0, 1: 0}, committed=1) + commit(2, 0, {3: None}, {3: 0}, over=[0, 0, "5000000", "4000000"]), status=1,
    ),
    merged("what a block stands on was taken out", schedule("0 0\n"), ["", "0 0\n1 0\n"], "", PRECEDED, ZERO_BY_START + TAKEN, status=1),
    merged("taken out on a history", schedule(ZERO_BY_9), ["", "0 0\n1 0\n"], "", PRECEDED, ZERO_BY_9 + TAKEN, 1, status=1),
]

# There is nothing left to do, or nothing was there.
ADDED = EMPTY + commit(1, 0, {3: None}, {3: 1}, committed=1)
DONE = [
    merged(
        "an edit that is its base, and one that is made already", NOTHING, ["", "3 1\n", "3 1\n"], "3 1\n",
        "edit 1 entry - changes 0 left 0 cause - nothing\nedit 2 entry 1 changes 1 left 0 cause - committed 1\n"
        "edit 3 entry - changes 0 left 0 cause - nothing\nvalue 4.545454545455000000\n",
        EMPTY + commit(2, 0, {3: None}, {3: 1}, committed=1),
    ),
    merged(
        "a history that isn't there yet", NO_HISTORY, ["3 1\n"], "3 1\n",
        "history new\nedit 1 entry 1 changes 1 left 0 cause - committed 1\nvalue 4.545454545455000000\n", ADDED,
    ),
]

# More conflicts than are told one by one.
BLOCKS = 1_001
MANY_MODEL = f"TYPE: CPIT\nNBLOCKS: {BLOCKS}\nNPERIODS: 2\nNRESOURCE_SIDE_CONSTRAINTS: 0\nDISCOUNT_RATE: 0.1\n"
IN_0, IN_1 = ("".join(f"{block} {period}\n" for block in range(BLOCKS)) for period in (0, 1))
MANY = Case(
    "more conflicts than are told", ["merge", "model", "precedence", "edit1", "edit2"], IN_0.encode(),
    (
        "edit 1 entry 1 changes 1001 left 0 cause - committed 1\nedit 2 entry 2 changes 1001 left 0 cause 1 refused moved 0 1\n"
        + "".join(f"conflict 2 {block} base - now 0 entry 1 wanted 1\n" for block in range(BLOCKS - 1)) + "more 1\nvalue " + ZERO
    ).encode(),
    1, {"model": MANY_MODEL.encode(), "precedence": b"", "edit1": IN_0.encode(), "edit2": IN_1.encode()},
)

# Texts that are refused. `x` is an edit that comes too late to be.
TEXTS = [
    refused("a start out of range", schedule("0 2\n"), ["x"], "start line 1: period out of range"),
    refused("a start without a predecessor", schedule("1 0\n"), ["x"], "start: precedence 1 0"),
    refused("a start with another number of a commit", schedule(TURNED), ["x"], "start: illegal 3"),
    refused("a history with another number of a commit", history(TURNED), ["x"], "history: illegal 3"),
    refused("a solution is no history", history("3 1\n"), ["x"], "history line 1: not json"),
    refused("the first edit", NOTHING, ["x", "3 1\n"], "edit 1 line 1: field count"),
    refused("the second edit", NOTHING, ["3 1\n", "4 0\n"], "edit 2 line 1: block out of range"),
    refused("another format", NOTHING, ['{"format":3}\n'], "edit 1 line 1: not format 1 or 2"),
    refused("a block that the pit hasn't", NOTHING, [EMPTY + commit(1, 0, {}, {4: 0}, committed=1)], "edit 1: illegal 1"),
    refused("no base on a history", schedule(LOADING), ["3 1\n"], MISSING),
    refused("from more than a history that is carried on has", history(LOADING), ["3 1\n"], "edit 1: 2 commits", 3),
    refused("from more than nothing", NOTHING, ["3 1\n"], "edit 1: 0 commits", 1),
    refused("the second edit of another history", NOTHING, ["3 1\n", f"{MARK_1}\n3 1\n"], "edit 2: another history", 0),
    refused("the second edit with another sum", schedule(LOADING), [f"{MARK_1}\n3 1\n", f"{MIXED}\n3 1\n"], "edit 2: another history"),
    refused("a fault of a text before that of its base", schedule(LOADING), ["3 2\n"], "edit 1 line 1: period out of range"),
]


def unread(what, *words):
    """A folder can't be read; nor can those behind it, of which nothing is said."""
    return Case(f"{what} can't be read", ["merge", *words], err=f"pit: cannot read {what}\n".encode(), status=3, files={"edit1": b"3 1\n"})


DEVICES = [
    unread("model", ".", ".", "."),
    unread("precedence", "model", ".", "."),
    unread("start", "--start", ".", "model", "precedence", "."),
    unread("edit 1", "model", "precedence", ".", "."),
    unread("edit 2", "model", "precedence", "edit1", "."),
    Case(
        "a full disk", ["merge", "--start", "start", "--history", "/dev/full", "model", "precedence", "edit1", "edit2", "edit3"], b"0 0\n3 0\n",
        f"{MEETS_REPORT}pit: cannot write\n".encode(), 3,
        {"start": b"3 1\n"} | {f"edit{number}": text.encode() for number, text in enumerate(THREE, 1)},
    ),
]

CASES = [*MEETINGS, *OTHERS, *RULES, *DONE, MANY, *TEXTS, *DEVICES]
