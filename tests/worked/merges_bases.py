"""What an edit of a merge was made from: a commit, a history, a first line of any form, and nothing."""
import re

from case import Case
from merges import (
    FILES, FIRST, HELD, MARK_0, MARK_1, MARK_2, MISSING, MIXED, NOTHING, PLAIN, SECOND, SHORT, ZERO, commit, history, merged, refused, schedule,
)
from tiny import EMPTY, FRONT, LOADING, MEETING, REVISING, THIRD

#: LOADING without what was refused.
UNREFUSED = FRONT + THIRD
#: An edit behind the first line of no commit, and the sum of the first one behind another word.
ZEROTH, SPELT = f"{MARK_0}\n3 1\n", MARK_1.replace("sum", "Sum")


def based(about, old, asked, text, solution, end, made):
    """An edit of a history, or of nothing, that is committed: its start, what it read and what it wrote are those of its base."""
    begins = NOTHING if old is None else schedule(old)
    old = EMPTY if old is None else old
    lines, commits = old.count("\n"), old.count('"committed"') + 1
    kept = old + commit(1, *made, revises=[] if old == REVISING else None, committed=commits)
    report = f"edit 1 entry {lines} changes {len(made[2])} left 0 cause - committed {commits}\nvalue {end}"
    return merged(about, begins, [text], solution, report, kept, asked)


# What a solution was made from. `show` writes its first line.
MARKS = [
    Case(f"the first line behind {number} commits", ["show", "model", "old", "--at", str(number)], text.encode(), files={"old": LOADING.encode()})
    for number, text in enumerate([f"{MARK_0}\n", f"{MARK_1}\n0 0\n1 0\n", f"{MARK_2}\n{HELD}"])
]

FROM_FIRST = PLAIN + "3 1\n", "42.318181818185000000\n", (1, {2: None}, {2: 1})
SOLUTIONS = [
    based("from the first commit", LOADING, 1, PLAIN, *FROM_FIRST),
    based("from the second", LOADING, 2, PLAIN, PLAIN, "37.772727272730000000\n", (2, {2: None, 3: 1}, {2: 1, 3: None})),
    based("from none", LOADING, 0, PLAIN, PLAIN + "3 1\n", "42.318181818185000000\n", (0, {2: None}, {2: 1})),
    refused("from more than there are", schedule(LOADING), [PLAIN], "edit 1: 2 commits", 3),
    refused("no base", schedule(LOADING), [PLAIN], "edit 1: base missing"),
    based(
        "a first line without a sum", LOADING, 2, "% commits 1\n0 0\n",
        "0 0\n", "-10.000000000000000000\n" + SHORT, (2, {1: 0, 3: 1}, {1: None, 3: None}),
    ),
    based("a first line and a number", LOADING, 2, FIRST, *FROM_FIRST),
    based("a first line and too high a number", LOADING, 3, FIRST, *FROM_FIRST),
    based("the first line of the last commit", LOADING, 9, SECOND, "0 0\n1 0\n", "10.500000000000000000\n" + SHORT, (2, {3: 1}, {3: None})),
    # Of a later base, blocks 0 and 1 would be taken out.
    merged(
        "the first line of no commit", schedule(LOADING), [ZEROTH], HELD,
        "edit 1 entry - changes 0 left 0 cause - nothing\nvalue 15.045454545455000000\n", LOADING,
    ),
    refused("the sum of another commit", schedule(LOADING), [f"{MIXED}\n0 0\n"], "edit 1: another history"),
    refused("the sum of a commit that isn't there", schedule(LOADING), [MARK_1.replace("commits 1", "commits 3")], "edit 1: another history"),
    refused("a first line that is spelt otherwise", schedule(LOADING), [f"{SPELT}\n{PLAIN}"], "edit 1: 2 commits", 3),
    # Two histories that begin with one entry, and go on apart.
    based("a first line of both", REVISING, None, FIRST, PLAIN + "3 0\n", "42.772727272730000000\n", (1, {2: None}, {2: 1})),
    refused("a first line of the other", schedule(REVISING), [SECOND], "edit 1: another history", 2),
    refused("a first line of no other", schedule(MEETING), [FIRST], "edit 1: another history", 2),
    # Where a solution or nothing is begun with, the base is all of it.
    merged(
        "from a solution", schedule(HELD), [PLAIN], PLAIN, "edit 1 entry 2 changes 2 left 0 cause - committed 2\nvalue 37.772727272730000000\n",
        EMPTY + commit(0, 0, {}, {0: 0, 1: 0, 3: 1}, job=0, committed=1) + commit(1, 1, {2: None, 3: 1}, {2: 1, 3: None}, committed=2),
    ),
    based("from nothing", None, None, PLAIN, PLAIN, "37.772727272730000000\n", (0, {0: None, 1: None, 2: None}, {0: 0, 1: 0, 2: 1})),
    refused("more than nothing", NOTHING, [PLAIN], "edit 1: 0 commits", 1),
    based("the first line of nothing", None, None, ZEROTH, "3 1\n", "4.545454545455000000\n", (0, {3: None}, {3: 1})),
    refused("a first line where there is nothing", NOTHING, [FIRST], "edit 1: another history"),
]

# What a history was made from. An edit before it changes what is held, where its base couldn't be seen otherwise.
CLEARED = "edit 1 entry 4 changes 3 left 0 cause - committed 3\nedit 2 entry - changes 0 left 0 cause - nothing\nvalue 0.000000000000000000\n" + SHORT
HISTORIES = [
    merged(
        "a history of itself", schedule(LOADING), ["", LOADING], "", CLEARED,
        LOADING + commit(1, 2, {0: 0, 1: 0, 3: 1}, {0: None, 1: None, 3: None}, committed=3), 2,
    ),
    merged(
        "a history of itself, with a revised limit", schedule(REVISING), ["", REVISING], "", CLEARED,
        REVISING + commit(1, 2, {0: 0, 1: 0, 3: 0}, {0: None, 1: None, 3: None}, revises=[], committed=3), 2,
    ),
    merged(
        "a front of the history", schedule(LOADING), ["3 1\n", FRONT], "3 1\n",
        "edit 1 entry 4 changes 2 left 0 cause - committed 3\nedit 2 entry - changes 0 left 0 cause - nothing\nvalue 4.545454545455000000\n",
        LOADING + commit(1, 2, {0: 0, 1: 0}, {0: None, 1: None}, committed=3), 2,
    ),
    merged(
        "a history that went on", schedule(FRONT), [LOADING], HELD, "edit 1 entry 2 changes 1 left 0 cause - committed 2\nvalue 15.045454545455000000\n",
        FRONT + commit(1, 1, {3: None}, {3: 1}, committed=2),
    ),
    merged(
        "one without what was refused", schedule(LOADING), ["0 0\n1 0\n", UNREFUSED], "0 0\n1 0\n",
        "edit 1 entry 4 changes 1 left 0 cause - committed 3\nedit 2 entry 5 changes 1 left 0 cause 4 refused moved 3 3\n"
        "conflict 2 3 base - now - entry 4 wanted 1\nvalue 10.500000000000000000\n" + SHORT,
        LOADING + commit(1, 2, {3: 1}, {3: None}, committed=3) + commit(2, 1, {3: None}, {3: 1}, moved=[3, 3]), 2, status=1,
    ),
    merged(
        "one of which there is nothing", schedule(EMPTY), [LOADING], HELD, "edit 1 entry 1 changes 3 left 0 cause - committed 1\nvalue 15.045454545455000000\n",
        EMPTY + commit(1, 0, {0: None, 1: None, 3: None}, {0: 0, 1: 0, 3: 1}, committed=1),
    ),
    # Of a later base, blocks 0 and 1 would be taken out.
    merged(
        "the history of no entry", schedule(LOADING), [EMPTY], HELD,
        "edit 1 entry - changes 0 left 0 cause - nothing\nvalue 15.045454545455000000\n", LOADING,
    ),
    merged(
        "a history that shares no entry", schedule(LOADING), [MEETING], HELD,
        "edit 1 entry - changes 0 left 0 cause - nothing\nvalue 15.045454545455000000\n", LOADING, 2,
    ),
    merged(
        "histories that share entries", history(REVISING), [REVISING, LOADING], "0 0\n1 0\n3 0\n",
        "edit 1 entry - changes 0 left 0 cause - nothing\nedit 2 entry 4 changes 1 left 0 cause 2 refused moved 3 2\n"
        "conflict 2 3 base - now 0 entry 2 wanted 1\nvalue 15.500000000000000000\n" + SHORT,
        REVISING + commit(2, 1, {3: None}, {3: 1}, revises=[], moved=[3, 2]), status=1,
    ),
    refused("a limit that is revised behind what is shared", schedule(LOADING), [REVISING], "edit 1: revised limit"),
    refused("the same behind the history of no entry", schedule(EMPTY), [REVISING], "edit 1: revised limit"),
    refused("the same behind nothing", NOTHING, [REVISING], "edit 1: revised limit"),
    refused("the same behind one that is whole", schedule(LOADING), [LOADING, REVISING], "edit 2: revised limit"),
]

# First lines that are cut, of which a byte is another, and of other forms.
ANOTHER = "edit 1: another history"


def emptied(about, text):
    """An edit without blocks that was made from the first commit of LOADING."""
    return based(about, LOADING, None, text, "3 1\n", "4.545454545455000000\n", (1, {0: 0, 1: 0}, {0: None, 1: None}))


def line_fault(number, line):
    """What is wrong with a part of the first line that is no comment: it has no number in front, and mostly not 2 or 4 fields."""
    fields = re.findall("[^ \t:]+", line)
    return f"edit 1 line {number}: {'bad number' if len(fields) in (2, 4) else 'field count'}"


def with_byte(at, byte):
    """What is wrong with the first line where another byte stands there: of the number or the sum, it says another one; else it is none.

    A fault of a text goes before that of its base: where the line is no comment, or is broken into two.
    """
    if byte == "\n" and at < len(MARK_1) - 1:
        return line_fault(2, MARK_1[at + 1 :])
    if at == 0:
        return line_fault(1, byte + MARK_1[1:])
    is_number, is_sum = MARK_1[:at] == "% commits ", at >= MARK_1.index("sum ") + len("sum ")
    return ANOTHER if (byte == "0" and (is_number or is_sum)) or (byte == "f" and is_sum) else MISSING


PARTS = [refused(f"a first line cut behind {end} bytes", schedule(LOADING), [MARK_1[:end]], MISSING) for end in range(len(MARK_1))]
# A digit of a number and of a sum, one of a sum alone, three that are neither, and two ends of lines.
OTHER_BYTES = [
    refused(f"a first line with {byte!r} at {at}", schedule(LOADING), [MARK_1[:at] + byte + MARK_1[at + 1 :]], with_byte(at, byte))
    for at, was in enumerate(MARK_1)
    for byte in "0fFx \t\r\n"
    if byte != was
]
OTHER_LINES = [
    emptied("a whole line without its end", MARK_1),
    emptied("a comment behind it", f"{MARK_1}\n% commits 2\n"),
    emptied("a carriage return", f"{MARK_1}\r\n"),
    emptied("a carriage return at the text's end", f"{MARK_1}\r"),
    refused("two carriage returns", schedule(LOADING), [f"{MARK_1}\r\r\n"], MISSING),
    refused("another line before it", schedule(LOADING), [f"\n{MARK_1}\n"], MISSING),
    refused("a digit more", schedule(LOADING), [f"{MARK_1}0\n"], MISSING),
    refused("a blank more", schedule(LOADING), [f"{MARK_1} \n"], MISSING),
] + [
    refused(f"{number!r} for the number", schedule(LOADING), [MARK_1.replace("commits 1", f"commits {number}") + "\n"], line)
    for number, line in {"4294967295": ANOTHER, "4294967296": MISSING, "01": MISSING, "+1": MISSING, "": MISSING, "\u0661": MISSING}.items()
]


# The periods that schedules leave, beside those of no block.
def leaves(about, text, lines):
    files = {"old": text.encode(), "new": b""}
    return Case(about, ["diff", "model", "old", "new"], lines.encode(), status=1 if lines else 0, files=files)


LEFT = [
    leaves(
        "blocks 0 and 1, and block 3", LOADING, "block 0 0 -\nblock 1 0 -\nblock 3 1 -\nmoves 0 - 2\nmoves 1 - 1\n"
        "load 0 0 4.000000 0.000000\nload 0 1 1.000000 0.000000\nvalue 15.045454545455000000 " + ZERO,
    ),
    leaves(
        "the three in period 0", REVISING, "block 0 0 -\nblock 1 0 -\nblock 3 0 -\nmoves 0 - 3\n"
        "limit 0 0 5.000000 4.000000\nload 0 0 5.000000 0.000000\nvalue 15.500000000000000000 " + ZERO,
    ),
    leaves("none, since it was taken out", MEETING, ""),
    leaves("none, without an entry", EMPTY, ""),
    leaves(
        "what a solution says in any order", "2 1\n0 0\n1 0\n", "block 0 0 -\nblock 1 0 -\nblock 2 1 -\nmoves 0 - 2\nmoves 1 - 1\n"
        "load 0 0 4.000000 0.000000\nload 0 1 3.000000 0.000000\nvalue 37.772727272730000000 " + ZERO,
    ),
    leaves("one block", "3 1\n", "block 3 1 -\nmoves 1 - 1\nload 0 1 1.000000 0.000000\nvalue 4.545454545455000000 " + ZERO),
    leaves("none, without a line", "", ""),
]


def unfit(was, now, place):
    """A history of which an entry doesn't fit the pit, whether it makes a commit or not."""
    text = LOADING.replace(was, now)
    files = {"old": text.encode(), "new": b""}
    yield Case(f"{now} as old", ["diff", "model", "old", "new"], err=f"pit: old: illegal {place}\n".encode(), status=2, files=files)
    yield refused(f"{now} as an edit", NOTHING, [text], f"edit 1: illegal {place}")


UNFIT = [*unfit("[[3,1]]", "[[4,1]]", 3), *unfit("[[3,0]]", "[[3,2]]", 2), *unfit("[[0,0],[1,0]]", "[[1,0],[1,0]]", 1)]

CASES = [*MARKS, *SOLUTIONS, *HISTORIES, *PARTS, *OTHER_BYTES, *OTHER_LINES, *LEFT, *UNFIT]
