"""Files of histories: how they are written and carried on, by which names, through which links, with which permissions; and what stays as it was."""
import os

import tiny
from case import CLOSED, Fifo, Folder, Hard, Held, Link, Pipe, fault, says

HISTORY, THIRD = tiny.LOADING.encode(), tiny.REVISING.encode()
#: What one who plans the script is told, and what they leave.
PLANNED = "0 0\n1 0\n3 1\n"
REPORT = """\
planner 1 job 1 committed 1 tries 1
planner 1 job 2 refused over 0 0 5.000000 4.000000 tries 1
planner 1 job 3 committed 2 tries 1
value 15.045454545455000000
"""
#: What comes of HISTORY when block 2 takes the place of block 3: -10 + 20.5, and 30 * 0.909090909091.
CARRIED = HISTORY + b'{"act":"commit","job":1,"planner":1,"reads":[],"reply":{"committed":3},"start":2,"writes":[[2,1],[3,null]]}\n'
CARRIED_TO = "0 0\n1 0\n2 1\n"
REPORT_ON = "planner 1 job 1 committed 3 tries 1\nvalue 37.772727272730000000\n"
LEGAL = "legal 3 2\nvalue 15.045454545455000000\n"
#: Blocks 0, 1 and 3 in period 0, of which the first has a limit of 5.
HEAVY = "0 0\n1 0\n3 0\n"
REPORT_HEAVY = "value 15.500000000000000000\nshort 0 1 0.000000 1.000000\n"
#: The same three entries once more, behind themselves.
TWICE = HISTORY + b"".join(
    line.replace(b'"start":1', b'"start":3').replace(b'"start":0', b'"start":2').replace(b'{"committed":2}', b'{"committed":4}').replace(
        b'{"committed":1}', b'{"committed":3}')
    for line in HISTORY.splitlines(True)[1:]
)
#: A plan from a solution, which the first entry commits, and a limit that is revised.
SECOND = b"""\
{"format":2}
{"act":"commit","job":0,"planner":0,"reads":[],"reply":{"committed":1},"revises":[],"start":0,"writes":[[0,0],[1,0],[2,1]]}
{"act":"commit","job":1,"planner":1,"reads":[],"reply":{"committed":2},"revises":[[0,0,"5000000"]],"start":1,"writes":[[3,0]]}
{"act":"commit","job":2,"planner":1,"reads":[],"reply":{"committed":3},"revises":[],"start":2,"writes":[[2,null]]}
"""
#: A history that is not legal: its last commit is the second.
ILLEGAL = HISTORY.replace(b'{"committed":2}', b'{"committed":3}')
#: One block goes to and fro, which makes a history of more than 8 KiB.
MANY = b"begin\nput 3 1\ncommit\n" * 400
ROOM = 8192

FILES = {
    "model": tiny.MODEL.encode(), "precedence": tiny.PRECEDENCES.encode(), "solution": tiny.SOLUTION.encode(),
    "script": b"begin\nput 0 0\nput 1 0\ncommit\nbegin\nput 3 0\ncommit\nbegin\nput 3 1\ncommit\n",
    "work": b"begin\nput 2 1\nclear 3\ncommit\n", "nothing": b"begin\ncommit\n", "refused": b"no model\n", "empty": b"", "folder": Folder(),
    "unmeetable": tiny.MODEL.replace("0 0 L 4\n", "0 0 L -1\n").encode(),
}
OF = "model precedence"


def writes(about, words, left, files=None, **more):
    """The script is planned, and a file is left."""
    return says(about, words, PLANNED, REPORT, left=left, files=files or {}, **more)


KEPT = {"kept": HISTORY}

WRITTEN = [
    writes("a history", f"plan --history kept {OF} script", KEPT),
    writes("a history over a longer file", f"plan {OF} script --history=longer", {"longer": HISTORY}, {"longer": b"x" * 10000}),
    writes("a history over a file of another text, and a file that somebody left", f"plan --history kept {OF} script", {**KEPT, "kept.pit-new": None},
           {**KEPT, "kept.pit-new": b"left by a program that was killed"}),
    says("a history with revised limits", f"plan --start solution {OF} revised --history kept", HEAVY,
         "planner 1 job 1 committed 2 tries 1\nplanner 1 job 2 committed 3 tries 1\n" + REPORT_HEAVY, 1,
         files={"revised": b"begin\nrevise 0 0 5\nput 3 0\ncommit\nbegin\nclear 2\ncommit\n"},
         left={"kept": SECOND}),
    says("a limit is revised, and lowered in vain", f"plan {OF} revising --history kept", HEAVY,
         "planner 1 job 1 committed 1 tries 1\nplanner 1 job 2 committed 2 tries 1\nplanner 1 job 3 refused over 0 0 5.000000 4.000000 tries 1\n" + REPORT_HEAVY, 1,
         files={"revising": b"begin\nput 0 0\nput 1 0\ncommit\nbegin\nput 3 0\nrevise 0 0 5\ncommit\nbegin\nrevise 0 0 4\ncommit\n"},
         left={"kept": THIRD}),
    fault("a fault behind the opening", f"plan --history kept {OF} refused", "script 1 line 1: unknown word", files=KEPT),
    fault("a history that does not open", "plan --history folder refused refused refused", "cannot write"),
    fault("an input that does not open goes first", "plan --history folder refused refused missing", "cannot read script 1"),
    fault("an input that cannot be read goes first", "plan --history folder refused refused folder", "cannot read script 1"),
    fault("an input that does not open leaves no history", f"plan --history fresh {OF} missing", "cannot read script 1"),
    fault("the history is no input before it is made", f"plan --history fresh {OF} fresh", "cannot read script 1"),
    fault("no folder for the history", f"plan --history missing/kept {OF} script", "cannot write"),
    says("a full history", f"plan --history /dev/full {OF} script", PLANNED, REPORT + "pit: cannot write\n", 3),
    # A file that takes the first 8 KiB of a history, and no more: a write that is cut short is followed by another, which is refused.
    says("a new file that is full behind a part of the history", f"plan --history short {OF} many", "3 1\n", status=3, files={"many": MANY}, longest=ROOM,
         error_into="/dev/null"),
    fault("the same where a history is carried on", f"plan --continue kept {OF} many", "cannot write", files={"many": MANY, **KEPT}, longest=ROOM),
    says("the whole of a long history", f"plan --history kept {OF} many", "3 1\n",
         "".join(f"planner 1 job {n} committed {n} tries 1\n" for n in range(1, 401)) + "value 4.545454545455000000\n", files={"many": MANY},
         left={"kept": b'{"format":1}\n' + b"".join(
             b'{"act":"commit","job":%d,"planner":1,"reads":[],"reply":{"committed":%d},"start":%d,"writes":[[3,1]]}\n' % (n, n, n - 1) for n in range(1, 401))}),
    writes("a history to a pipe", f"plan --history kept {OF} script", {"kept": Pipe(HISTORY)}, {"kept": Pipe()}),
]

ENTRY_4 = HISTORY.replace(b"[3,0]", b"[4,0]")

REPLAYED = [
    says("revised limits", f"replay {OF} kept", "legal 3 3\nvalue 15.500000000000000000\n", files={"kept": SECOND}),
    says("a block that is not there", f"replay {OF} kept", "illegal 2\n", status=1, files={"kept": ENTRY_4}),
    says("white space", f"replay {OF} kept", LEGAL, files={"kept": HISTORY.replace(b",", b" , ").replace(b":", b"\t:").replace(b"\n", b"\r\n")}),
    fault("a history that is no JSON", f"replay {OF} refused", "history line 1: not json"),
    fault("an entry that is none", f"replay {OF} kept", "history line 3: bad entry",
          files={"kept": b"".join([*HISTORY.splitlines(True)[:2], b"{}\n{\n"])}),
    fault("a history that is cut", f"replay {OF} kept", "history line 4: not json", files={"kept": HISTORY[:-9]}),
    fault("a limit below zero, behind the history", "replay unmeetable precedence kept", "history line 3: bad entry",
          files={"kept": Pipe(b"".join([*HISTORY.splitlines(True)[:2], b"{}\n", HISTORY.splitlines(True)[3]]))}),
    fault("a limit below zero", "replay unmeetable precedence kept", "model: upper limit below zero 0 0", files=KEPT),
    fault("a bad model", "replay refused refused refused", "model line 2: missing TYPE"),
    fault("bad precedences", "replay model refused refused", "precedence line 1: bad number"),
    fault("no file at all", "replay missing missing missing", "cannot read model"),
    fault("no precedences", "replay refused missing missing", "cannot read precedence"),
    fault("no history", "replay refused refused missing", "cannot read history"),
    fault("the history is a folder", f"replay {OF} folder", "cannot read history"),
    says("three entries, and the fourth", f"replay {OF} kept", "legal 4 3\nvalue 37.772727272730000000\n", files={"kept": CARRIED}),
    says("the log of a history that is not legal", f"log {OF} kept", """\
entry 1 planner 1 job 1 start 0 reads 0 writes 2 revises 0 cause - committed 1
entry 2 planner 1 job 2 start 1 reads 0 writes 1 revises 0 cause - refused over 0 0 5.000000 4.000000
illegal 3
""", status=1, files={"kept": ILLEGAL}),
    fault("the log of no history", "log refused refused missing", "cannot read history"),
]


def carries(about, words, left, files, solution=CARRIED_TO, report=REPORT_ON, **more):
    """The work is planned behind a history."""
    return says(about, words, solution, report, left=left, files=files, **more)


REPORT_REVISED = "planner 1 job 1 committed 3 tries 1\n" + REPORT_HEAVY
PLANNERS = " ".join(["empty"] * 65)

# What is written has all entries, the old ones and the new ones.
CARRIED_ON = [
    carries("from a history to another", f"plan --start kept --history carried {OF} work", {"carried": CARRIED}, KEPT),
    carries("a history is carried on", f"plan --continue kept {OF} work", {"kept": CARRIED}, KEPT),
    carries("from a history that revised a limit", f"plan --start kept {OF} nothing", {}, {"kept": THIRD}, HEAVY, REPORT_REVISED, status=1),
    fault("from its solution", f"plan --start heavy {OF} nothing", "start: over 0 0 5.000000 4.000000", files={"heavy": HEAVY.encode()}),
    fault("from a history that is not legal", f"plan --start kept {OF} work", "start: illegal 3", files={"kept": ILLEGAL}),
    fault("a history that is not legal is carried on", f"plan --continue kept {OF} work", "history: illegal 3", files={"kept": ILLEGAL}),
    fault("a solution is carried on", f"plan --continue solution {OF} work", "history line 1: not json"),
    fault("a script is at fault behind the history", f"plan --continue kept {OF} refused", "script 1 line 1: unknown word", files={"kept": ILLEGAL}),
    fault("a limit below zero goes before a history that is not legal", "plan --continue kept unmeetable precedence work",
          "model: upper limit below zero 0 0", files={"kept": ILLEGAL}),
    fault("a history that is not legal goes before the count of planners", f"plan --continue kept {OF} {PLANNERS}", "history: illegal 3",
          files={"kept": ILLEGAL}),
    says("a history begins", f"plan --continue begun {OF} script", PLANNED, "history new\n" + REPORT, left={"begun": HISTORY}),
    says("and goes on", f"plan --continue begun {OF} script", PLANNED, REPORT.replace("committed 2", "committed 4").replace("committed 1", "committed 3"),
         files={"begun": HISTORY}, left={"begun": TWICE}),
    says("planners in turn", f"plan --start late --in-turn {OF} earlier cleared", "", """\
planner 1 job 1 committed 2 tries 1
planner 2 job 1 committed 3 tries 1
value 0.000000000000000000
short 0 1 0.000000 1.000000
""", 1, files={"late": b"3 1\n", "earlier": b"begin\nshift 3 -1\ncommit\n", "cleared": b"begin\nclear 3\ncommit\n"}),
    says("a refused job counts", f"plan --strict {OF} script", PLANNED, REPORT, 1),
    says("a withdrawn job does not count", f"plan --strict {OF} withdrawing", "3 1\n",
         "planner 1 job 1 committed 1 tries 1\nplanner 1 job 2 withdrawn tries 1\nvalue 4.545454545455000000\n",
         files={"withdrawing": b"begin\nput 3 1\ncommit\nbegin\nshift 3 1\ncommit\n"}),
    # One that is carried on is held before an input is opened, and read behind the blocks.
    fault("no file but what is carried on", "plan --continue fresh missing missing missing", "cannot read model"),
    fault("a folder is carried on", "plan --continue folder missing missing missing", "cannot write"),
    fault("what is carried on is in no folder", "plan --continue missing/kept missing missing missing", "cannot write"),
    fault("a stream is carried on", f"plan --continue /dev/full {OF} script", "cannot write"),
    fault("no blocks beside what is carried on", f"plan --continue fresh --blocks missing {OF} missing", "cannot read blocks"),
    fault("no script beside what is carried on", f"plan --continue kept {OF} missing", "cannot read script 1", files=KEPT),
    # It is written before the solution is.
    fault("a history is carried on to a full output", f"plan --continue kept {OF} work", "cannot write", into="/dev/full", files=KEPT, left={"kept": CARRIED}),
    fault("a history begins, to a full output", f"plan --continue begun {OF} script", "cannot write", into="/dev/full", left={"begun": HISTORY}),
    says("a history begins, to a full standard error", f"plan --continue begun {OF} script", PLANNED, status=3, error_into="/dev/full", left={"begun": HISTORY}),
]

# A history that is an input, by any of its names. Neither it nor its new file is written, or removed.
NAMED = [
    *(fault(f"the history is the model, {name}", f"plan --history {name} {OF} script", "history is an input", files={"hard": Hard("model"), "soft": Link("model")})
      for name in ("model", "hard", "soft", "./model")),
    *(fault(f"the model is carried on, {name}", f"plan --continue {name} {OF} script", "history is an input", files={"hard": Hard("model"), "soft": Link("model")})
      for name in ("hard", "soft")),
    fault("the history is the start", f"plan --history kept --start kept {OF} script", "history is an input", files=KEPT),
    fault("the history is the last script", f"plan --history work {OF} script work", "history is an input"),
    fault("an input that does not open goes before it", f"plan --history script {OF} script missing", "cannot read script 2"),
    fault("it goes before a fault of reading", f"plan --history model {OF} script folder", "history is an input"),
    *(fault(f"the new file is an input, {way}", f"plan {way} kept {OF} kept.pit-new", "history is an input", files={**KEPT, "kept.pit-new": FILES["work"]})
      for way in ("--history", "--continue")),
    fault("the new file is an input behind one that does not open", f"plan --continue kept {OF} missing kept.pit-new", "cannot read script 1",
          files={**KEPT, "kept.pit-new": FILES["work"]}),
    fault("the new file is another name of the history", f"plan --history both {OF} script", "cannot write",
          files={"both": FILES["model"], "both.pit-new": Hard("both")}),
]

# A history that another program writes. The lock is on the new file, which is that program's.
HELD = {**KEPT, "kept.pit-new": b""}
IN_USE = [
    fault("the history is in use", f"plan --history kept {OF} script", "history is in use", files=HELD, locked="kept.pit-new"),
    fault("what is carried on is in use", "plan --continue kept missing missing missing", "history is in use", files=HELD, locked="kept.pit-new"),
    fault("an input that does not open goes before a history in use", "plan --history kept missing missing missing", "cannot read model", files=HELD,
          locked="kept.pit-new"),
    fault("a merge has what is carried on in use", "merge --continue kept missing missing missing", "history is in use", files={"kept.pit-new": b""},
          locked="kept.pit-new"),
]

# The file that links lead to is replaced, and they stay.
AWAY = {"far": Folder(), "far/away": HISTORY, "near": Link("far/away")}
LINKS = [
    carries("a history behind a link", f"plan --continue near {OF} work", {"far/away": CARRIED}, AWAY),
    *(fault(f"a history behind a link to nothing, {way}", f"plan {way} lost {OF} script", "cannot write", files={**AWAY, "lost": Link("far/none")})
      for way in ("--history", "--continue")),
    *(fault(f"the new file can't be made beside {what}, {way}", f"plan {way} kept {OF} script", "cannot write",
            files={**AWAY, **KEPT, "kept.pit-new": it})
      for what, it in (("a link", Link("far/away")), ("a link to nothing", Link("far/none")), ("a folder", Folder()), ("a pipe", Fifo()))
      for way in ("--history", "--continue")),
]

# Permissions and the group are those of the file that is replaced; of a new one those of any new file. Only one who may do all can give a file to any group.
GROUP = 4711 if os.geteuid() == 0 else None
CLOSED_FOLDER = Folder(0o555)
PERMISSIONS = [
    writes("a history that a group may read", f"plan --history kept {OF} script", {"kept": Held(HISTORY, 0o640, GROUP)}, {"kept": Held(HISTORY, 0o640, GROUP)}),
    writes("a history that is new, where a new file was left", f"plan --history kept {OF} script", {"kept": Held(HISTORY, 0o640), "kept.pit-new": None},
           {"kept.pit-new": Held(b"", 0o600)}, umask=0o027),
    *(fault(f"a folder that may not be written, {way}", f"plan {way} closed/kept {OF} script", "cannot write",
            files={"closed": CLOSED_FOLDER, "closed/kept": Held(HISTORY, 0o777)}, plain_user=True) for way in ("--history", "--continue")),
    fault("a history that may not be written", f"plan --history closed/kept {OF} script", "cannot write",
          files={"closed": Folder(0o777), "closed/kept": Held(HISTORY, 0o444)}, plain_user=True),
    fault("what is carried on may be written and not read", f"plan --continue closed/kept {OF} script", "cannot read history",
          files={"closed": Folder(0o777), "closed/kept": Held(HISTORY, 0o222)}, plain_user=True),
]

# No file takes the place of a stream that is closed, and a history stays as it was where nothing can be printed.
OLD = {"kept": b"old\n"}
STREAMS = [
    fault("a full output", f"plan --history kept {OF} script", "cannot write", into="/dev/full", files=OLD),
    says("a full standard error", f"plan --history kept {OF} script", PLANNED, status=3, error_into="/dev/full", files=OLD),
    says("a closed standard error", f"plan --history kept {OF} script", PLANNED, status=3, error_into=CLOSED),
    fault("a closed output", f"plan --history kept {OF} script", "cannot write", into=CLOSED),
    says("no stream", f"plan --history kept {OF} script", status=3, given=CLOSED, into=CLOSED, error_into=CLOSED),
]

CASES = [*WRITTEN, *REPLAYED, *CARRIED_ON, *NAMED, *IN_USE, *LINKS, *PERMISSIONS, *STREAMS]
