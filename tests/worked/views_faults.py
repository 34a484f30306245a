"""The faults of each view: their lines and statuses, and histories of which one thing is changed, or that are cut."""
from case import Case
from views import (
    FILES, LOADING, LOADING_CHECKED, LOADING_FINE, LOADING_TABLES, MEETING, REVISING, SOLUTION, TINY_MODEL, TINY_UNLIMITED, case, changed, fault,
)
from views_histories import LOADING_LEGAL, LOADING_SHOWN, MEETING_LEGAL, MEETING_LOGS

#: Each command, those that read precedences, and what reads a schedule behind a model.
COMMANDS = ["value", "check", "check --all", "table", "diff", "info --blocks last", "show --at 9", "log --writes", "replay"]
ORDERED = ["check", "check --all", "info --blocks last", "log --writes", "replay"]
VIEWS = ["check --all", "table", "show", "show --at 0", "show --at 9"]


def faults(about, commands, rows, **files):
    """Each of the commands on each last text, with its fault."""
    return [fault(about, command, last, line, **files) for last, line in rows for command in commands]


# Faults of models and precedences, and of what is read last.


def of_model(model, other, line):
    """The model's fault is the first, whatever the other texts are."""
    return faults("a model", COMMANDS, [(other, line)], model=model, prec=other, old=other)


#: Blanks and empty lines tell nothing of which of the two a schedule is.
SCHEDULES = [
    (b"x", b"pit: schedule line 1: field count"),
    (b"0 2\n", b"pit: schedule line 1: period out of range"),
    (b" \t\r\n0", b"pit: schedule line 2: field count"),
    (b"%{\n}", b"pit: schedule line 2: field count"),
    (b"{", b"pit: schedule line 1: not json"),
    (b" \t\r\n{", b"pit: schedule line 1: not json"),
    (b' \t\r\n{"format":1}\n', b"pit: schedule line 1: not json"),
    (b'{"format":3}\n', b"pit: schedule line 1: not format 1 or 2"),
    (b' \t{"format":3}\n', b"pit: schedule line 1: not format 1 or 2"),
    (b'{"format":1}\n{}\n', b"pit: schedule line 2: bad entry"),
    (
        b'{"format":1}\n{"act":"commit","job":1,"planner":1,"reads":[],"reply":{"committed":1},"start":0,"writes":[[4,0]]}\n',
        b"pit: schedule: illegal 1",
    ),
]

HISTORIES = [
    (b"x", b"pit: history line 1: not json"),
    (b"", b"pit: history line 1: not format 1 or 2"),
    (b'{"format":3}\n', b"pit: history line 1: not format 1 or 2"),
    (b'{"format":1}\n\n', b"pit: history line 2: not json"),
    (b'{"format":1}\n{}\n', b"pit: history line 2: bad entry"),
    (b'{"format":1}\n{"format":1}', b"pit: history line 2: bad entry"),
]

TEXTS = [
    *of_model(b"", b"x", b"pit: model line 1: missing TYPE"),
    *of_model(b"NAME: Tiny\nTYPE: PCPSP\n", b"", b"pit: model line 2: not cpit"),
    *of_model(b"TYPE: PCPSP\n", SOLUTION, b"pit: model line 1: not cpit"),
    *faults("precedences", ORDERED, [(b"x", b"pit: precedence line 1: predecessor count")], prec=b"2 3 0 1"),
    *faults("a solution", ["value", "check"], [(b"4 0", b"pit: solution line 1: block out of range")]),
    *faults("places", ["info --blocks last"], [(b"\n4 0 0 0", b"pit: blocks line 2: block out of range")]),
    *faults("a schedule, before that of too few commits", VIEWS, SCHEDULES),
    *faults("a history", ["log --writes", "replay"], HISTORIES),
]


def of_two(old, new, line):
    """Blocks and periods in range are those of the model."""
    return fault("the first fault of two schedules", "diff", new, line, old=old)


def of_few(last, at, line):
    return fault("more commits than there are", f"show --at {at}", last, line)


TWO = [
    of_two(b"x", b"x", b"pit: old line 1: field count"),
    of_two(b"0 0\n", b"0 1\n0 2\n", b"pit: new line 2: period out of range"),
    of_two(b"{", b"x", b"pit: old line 1: not json"),
    of_two(b'{"format":1}\n', b'\n{"format":3}\n', b"pit: new line 1: not json"),
    of_two(b"0 0\n", b'{"format":1}\n{}\n', b"pit: new line 2: bad entry"),
]

FEW = [
    of_few(LOADING, 3, b"pit: at: 2 commits"),
    of_few(LOADING, 4_294_967_295, b"pit: at: 2 commits"),
    of_few(MEETING, 4, b"pit: at: 2 commits"),
    of_few(SOLUTION, 2, b"pit: at: 1 commits"),
    of_few(b"0 0\n", 2, b"pit: at: 1 commits"),
    of_few(b"", 1, b"pit: at: 0 commits"),
]

#: Limits below zero in both periods.
UNMET = TINY_UNLIMITED + b"0 1 L -2\n0 0 L -1\n"

#: The history's own faults come first, but whether it is legal is never asked.
LIMITS = [
    (b'{"format":1}\n', b"pit: model: upper limit below zero 0 0"),
    (LOADING, b"pit: model: upper limit below zero 0 0"),
    (MEETING, b"pit: model: upper limit below zero 0 0"),
    (b'{"format":1}\nnull\n', b"pit: history line 2: bad entry"),
]

# Other lines, each with its status.


def of_words(about, words, line, status, **files):
    """All files stay as they are, and no new one is left."""
    left = {**FILES, **files, "model.pit-new": None}
    return Case(about, words.split(), err=line + b"\n", status=status, files=files, left=left)


#: It is refused in line 7.
ACCENT = changed(TINY_MODEL, (b"NAME: Tiny\n", b""), (b"0 -10\n", b"0 \xe9\n"))

OTHERS = [
    of_words("a byte above 127", "value model old", b"pit: model line 7: not ascii", 2, model=ACCENT),
    of_words("no model", "value missing old", b"pit: cannot read model", 3),
    of_words("no precedences", "check model missing old", b"pit: cannot read precedence", 3),
    of_words("no places", "info --blocks missing model prec", b"pit: cannot read blocks", 3),
    of_words("no solution", "value model missing", b"pit: cannot read solution", 3),
    of_words("no schedule", "table model missing", b"pit: cannot read schedule", 3),
    of_words("no history", "replay model prec missing", b"pit: cannot read history", 3),
    of_words("a folder can't be a history's file", "plan --history . model prec script", b"pit: cannot write", 3, script=b""),
    of_words("the model isn't overwritten", "plan --history model model prec script", b"pit: history is an input", 2, script=b""),
]

# Histories of which one thing is changed.

#: A limit is revised by one who gives up.
GIVING_UP = b"""\
{"format":2}
{"act":"withdraw","job":1,"planner":1,"reads":[],"reply":"withdrawn","revises":[[0,0,"5000000"]],"start":0,"writes":[]}
"""

#: What `REVISING` and `GIVING_UP` revise, and what `REVISING` can't.
RAISED = b'[[0,0,"5000000"]]'
LOWERED = b'[[0,0,"4000000"]]'

#: The reply of the second entry of `LOADING`, and of the third of `REVISING`.
OVER = b'{"over":[0,0,"5000000","4000000"]}'

#: The reply of the third entry of `MEETING`.
MOVED = b'{"moved":[3,2]}'

#: Replies that are not due: a history, a part of it, what stands in its place, and the place of the entry that is then wrong.
REPLIES = [
    (MEETING, MOVED, b'{"moved":[3,1]}', 3),
    (MEETING, MOVED, b'{"misread":3}', 3),
    (MEETING, MOVED, b'{"committed":3}', 3),
    (MEETING, b'"withdraw"', b'"commit"', 4),
    (MEETING, b'"withdrawn"', b'{"committed":3}', 4),
    (LOADING, b'{"committed":1}', b'{"committed":2}', 1),
    (LOADING, b'{"committed":1}', b'{"ahead":[0,0]}', 1),
    (LOADING, b'{"committed":1}', b'"withdrawn"', 1),
    (LOADING, OVER, b'{"committed":2}', 2),
    (LOADING, OVER, b'{"precedence":[3,0]}', 2),
    (LOADING, OVER, b'{"over":[0,1,"5000000","4000000"]}', 2),
    (LOADING, OVER, b'{"over":[0,0,"5000001","4000000"]}', 2),
    (LOADING, OVER, b'{"over":[0,0,"5000000","4000001"]}', 2),
    (LOADING, b'{"committed":2}', b'{"committed":3}', 3),
    (LOADING, b'{"committed":2}', OVER, 3),
    (REVISING, b'{"committed":2}', OVER, 2),
    (REVISING, OVER, b'{"committed":3}', 3),
]

#: Entries that don't fit the pit, whether they make a commit or not.
UNFIT = [
    (LOADING, b"[[0,0],[1,0]]", b"[[9,0]]", 1),
    (LOADING, b"[[0,0],[1,0]]", b"[[0,0],[0,1]]", 1),
    (LOADING, b"[[3,0]]", b"[[3,2]]", 2),
    (LOADING, b"[[3,1]]", b"[[4,1]]", 3),
    (MEETING, b'[[3,1]],"reply"', b'[[3,1],[3,1]],"reply"', 3),
    (MEETING, b'[[3,null]],"reply"', b'[[4,null]],"reply"', 4),
    (REVISING, RAISED, b'[[1,0,"5000000"]]', 2),
    (REVISING, RAISED, b'[[0,2,"5000000"]]', 2),
    (REVISING, RAISED, b'[[0,0,"1"],[0,0,"5000000"]]', 2),
    (REVISING, LOWERED, b'[[0,0,"1"],[0,0,"4000000"]]', 3),
    (GIVING_UP, RAISED, b'[[0,0,"1"],[0,0,"5000000"]]', 1),
    (GIVING_UP, RAISED, b'[[1,0,"5000000"]]', 1),
]


def illegal(about, history, place):
    """A replay tells the place."""
    return case(about, "replay", history, b"illegal %d\n" % place, 1)


def unfit(history, old, new, place):
    """How many commits are asked for says nothing of it. It comes before the faults of a new schedule."""
    about = "an entry that doesn't fit"
    text = changed(history, (old, new))
    return [
        illegal(about, text, place),
        *(fault(about, command, text, b"pit: schedule: illegal %d" % place) for command in VIEWS),
        fault(about, "diff", text, b"pit: new: illegal %d" % place, old=REVISING),
        fault(about, "diff", b"x", b"pit: old: illegal %d" % place, old=text),
    ]


def unseen(old, new):
    return case("what a view never looks at", "check --all", changed(LOADING, (old, new)), LOADING_FINE)


def unminded(history, old, new, out):
    return case("what no reply depends on", "replay", changed(history, (old, new)), out)


CHANGED = [
    *(illegal("a reply that isn't due", changed(history, (old, new)), place) for history, old, new, place in REPLIES),
    *(it for change in UNFIT for it in unfit(*change)),
    unseen(b'{"committed":2}', b'{"committed":3}'),
    unseen(b'{"committed":1}', b'{"committed":7}'),
    unseen(OVER, b'"withdrawn"'),
    unseen(b'"start":1,"writes":[[3,1]]', b'"start":9,"writes":[[3,1]]'),
    unminded(LOADING, b'"job":3,"planner":1', b'"planner":4294967295, "job":0', LOADING_LEGAL[3]),
    unminded(MEETING, b'"start":2', b'"start":9', MEETING_LEGAL[4]),
    unminded(GIVING_UP, b'"start":0', b'"start":4294967295', b"legal 1 0\nvalue 0.000000000000000000\n"),
]

# Histories that are cut.


def ends(history, step):
    """Each so many bytes, and around each line feed."""
    feeds = [at for at, byte in enumerate(history, 1) if byte == ord("\n")]
    near = {at + by for at in feeds for by in (-2, -1, 0, 1)}
    return [end for end in range(1, len(history) + 1) if end % step == 0 or end in near]


def entries(history, part):
    """How many entries a part has, where its last line is whole."""
    feeds = part.count(b"\n")
    if part.endswith(b"\n"):
        return feeds - 1
    return feeds if history[len(part) :].startswith(b"\n") else None


def cut(command, history, name, fine, fronts, end):
    """A history up to a byte is read as the entries whose lines are whole. With fewer than so many of them something falls short."""
    about = f"a history cut behind byte {end}"
    part = history[:end]
    count = entries(history, part)
    if count is None:
        return fault(about, command, part, b"pit: %s line %d: not json" % (name, part.count(b"\n") + 1), old=part)
    return case(about, command, part, fronts[count], 1 if count < fine else 0, old=part)


#: A command, a history, which input that is, how many entries it has at least where all is fine, what is written of its first entries, by how many
#: of them there are, and the bytes that it is cut behind. Nothing differs between a part and itself. Where both histories begin
#: alike, they are replayed once.
CUTS = [
    ("check --all", LOADING, b"schedule", 3, LOADING_CHECKED, ends(LOADING, 5)),
    ("table", LOADING, b"schedule", 0, LOADING_TABLES, ends(LOADING, 5)),
    ("diff", LOADING, b"old", 0, [b"", b"", b"", b""], ends(LOADING, 5)),
    ("show", LOADING, b"schedule", 0, LOADING_SHOWN, ends(LOADING, 1)),
    ("log --writes", MEETING, b"history", 0, MEETING_LOGS, ends(MEETING, 5)),
    ("replay", MEETING, b"history", 0, MEETING_LEGAL, ends(MEETING, 1)),
    ("replay", LOADING, b"history", 0, LOADING_LEGAL, [end for end in ends(LOADING, 5) if not MEETING.startswith(LOADING[:end])]),
]

CASES = [
    *TEXTS,
    *TWO,
    *FEW,
    *faults("limits that nothing meets", ["log --writes", "replay"], LIMITS, model=UNMET),
    *OTHERS,
    *CHANGED,
    *(cut(*row, end) for *row, cuts in CUTS for end in cuts),
]
