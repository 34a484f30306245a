"""Merges of edits that are files: their bases, what is left out, the faults in their order, and the file of the history."""
import tiny
from case import fault, says

OF = "model precedence"
PLAIN = "0 0\n1 0\n2 1\n"
LOADED = "0 0\n1 0\n3 0\n"
#: Histories: block 3 is moved by another, two commits with a refusal between them, and a limit that is revised.
MOVED, HELD, REVISED = tiny.MEETING.encode(), tiny.LOADING.encode(), tiny.REVISING.encode()
TURNED = HELD.replace(b'{"committed":2}', b'{"committed":3}')
# What `show` writes first after none, one and both of the commits of HELD. The sums are those of `sha256sum`.
SUM_0 = "e3b0c44298fc1c149afbf4c8996fb92427ae41e4649b934ca495991b7852b855"
SUM_1 = "312518e8d523661db7defb163f322a349cecc0034f12ef03e4ebecba15d44317"
SUM_2 = "067cbacbcebf1d0897baba929209ce0b79b9c0eeebed4d67337f33960cf5fece"
SHORT = "short 0 1 0.000000 1.000000\n"

TEXTS = {
    "A": PLAIN, "C": "3 1\n", "pair": "0 0\n1 0\n", "other": "0 0\n3 0\n", "moved": "3 0\n", "first": "0 0\n", "both": "0 0\n3 1\n",
    "unknown": "4 0\n", "refused": "no model\n", "empty": "",
    "X": f"% commits 1 sum {SUM_1}\n{PLAIN}", "Y": f"% commits 2 sum {SUM_2}\n0 0\n1 0\n", "Z": f"% commits 1 sum {SUM_1}\n{LOADED}",
    "bare": f"% commits 1\n{PLAIN}", "none": f"% commits 0 sum {SUM_0}\n3 1\n", "one": f"% commits 1 sum {SUM_1}\n3 1\n",
    "wrong": f"% commits 2 sum {SUM_1}\n0 0\n", "spelt": f"% commits 1 Sum {SUM_1}\n{PLAIN}", "returned": f"% commits 1 sum {SUM_1}\r\n{PLAIN}",
}
FILES = {
    "model": tiny.MODEL.encode(), "precedence": tiny.PRECEDENCES.encode(), "h16": MOVED, "h17": HELD, "h33": REVISED, "h17x": TURNED,
    **{name: text.encode() for name, text in TEXTS.items()},
}


def merge(about, words, out, err, status=0, behind=None, entries="", **more):
    """A merge into the small pit. Where it writes a history, that has these entries behind those of another."""
    left = {} if behind is None else {"merged": behind + entries.encode()}
    return says(about, f"merge {OF} {words}", out, err, status, left=left, **more)


BEGUN = b"".join(MOVED.splitlines(True)[:2])

MERGED = [
    merge("a block that somebody else has changed", "--start C --history merged moved first both", "0 0\n3 0\n", f"""\
edit 1 entry 2 changes 1 left 0 cause - committed 2
edit 2 entry 3 changes 2 left 0 cause 2 refused moved 3 2
conflict 2 3 base 1 now 0 entry 2 wanted -
edit 3 entry 4 changes 1 left 0 cause - committed 3
value -5.000000000000000000
{SHORT}""", 1, BEGUN, """\
{"act":"commit","job":1,"planner":1,"reads":[[3,1]],"reply":{"committed":2},"start":1,"writes":[[3,0]]}
{"act":"commit","job":1,"planner":2,"reads":[[0,null],[3,1]],"reply":{"moved":[3,2]},"start":1,"writes":[[0,0],[3,null]]}
{"act":"commit","job":1,"planner":3,"reads":[[0,null]],"reply":{"committed":3},"start":1,"writes":[[0,0]]}
"""),
    merge("the same is left out", "--start C --partial --history merged moved first both", "0 0\n3 0\n", f"""\
edit 1 entry 2 changes 1 left 0 cause - committed 2
edit 2 entry 3 changes 2 left 1 cause - committed 3
conflict 2 3 base 1 now 0 entry 2 wanted -
edit 3 entry - changes 0 left 0 cause - nothing
value -5.000000000000000000
{SHORT}""", 1, BEGUN, """\
{"act":"commit","job":1,"planner":1,"reads":[[3,1]],"reply":{"committed":2},"start":1,"writes":[[3,0]]}
{"act":"commit","job":1,"planner":2,"reads":[[0,null]],"reply":{"committed":3},"start":1,"writes":[[0,0]]}
"""),
    merge("from a commit that is named", "--start h17 --from 1 --history merged A", "0 0\n1 0\n2 1\n3 1\n", """\
edit 1 entry 4 changes 1 left 0 cause - committed 3
value 42.318181818185000000
""", 0, HELD, '{"act":"commit","job":1,"planner":1,"reads":[[2,null]],"reply":{"committed":3},"start":1,"writes":[[2,1]]}\n'),
    merge("from the last commit", "--start h17 --from 2 A", PLAIN, "edit 1 entry 4 changes 2 left 0 cause - committed 3\nvalue 37.772727272730000000\n"),
    merge("the first line goes before --from", "--start h17 --from 2 X", "0 0\n1 0\n2 1\n3 1\n",
          "edit 1 entry 4 changes 1 left 0 cause - committed 3\nvalue 42.318181818185000000\n"),
    merge("a first line that show does not write", "--start h17 --from 2 bare", PLAIN,
          "edit 1 entry 4 changes 2 left 0 cause - committed 3\nvalue 37.772727272730000000\n"),
    merge("a limit of the merged schedule", "pair other", "0 0\n1 0\n", f"""\
edit 1 entry 1 changes 2 left 0 cause - committed 1
edit 2 entry 2 changes 1 left 0 cause - refused over 0 0 5.000000 4.000000
value 10.500000000000000000
{SHORT}""", 1),
    merge("a precedence of the merged schedule", "--start first empty pair", "", f"""\
edit 1 entry 2 changes 1 left 0 cause - committed 2
edit 2 entry 3 changes 1 left 0 cause 2 refused precedence 1 0
value 0.000000000000000000
{SHORT}""", 1),
    says("nothing that is new", f"merge --continue begun --from 1 {OF} C C", "3 1\n",
         "edit 1 entry - changes 0 left 0 cause - nothing\nedit 2 entry - changes 0 left 0 cause - nothing\nvalue 4.545454545455000000\n",
         files={"begun": b'{"format":1}\n{"act":"commit","job":1,"planner":1,"reads":[[3,null]],"reply":{"committed":1},"start":0,"writes":[[3,1]]}\n'}),
    merge("a history that shares no entry", "--start h17 --from 2 h16", "0 0\n1 0\n3 1\n",
          "edit 1 entry - changes 0 left 0 cause - nothing\nvalue 15.045454545455000000\n"),
    merge("histories that share entries", "--start h33 h33 h17", LOADED, f"""\
edit 1 entry - changes 0 left 0 cause - nothing
edit 2 entry 4 changes 1 left 0 cause 2 refused moved 3 2
conflict 2 3 base - now 0 entry 2 wanted 1
value 15.500000000000000000
{SHORT}""", 1),
    merge("edits of different bases", "--start h17 --from 9 --history merged X Y Z", PLAIN, """\
edit 1 entry 4 changes 1 left 0 cause - committed 3
edit 2 entry 5 changes 1 left 0 cause - committed 4
edit 3 entry 6 changes 1 left 0 cause 5 refused moved 3 4
conflict 3 3 base - now - entry 5 wanted 0
value 37.772727272730000000
""", 1, HELD, """\
{"act":"commit","job":1,"planner":1,"reads":[[2,null]],"reply":{"committed":3},"start":1,"writes":[[2,1]]}
{"act":"commit","job":1,"planner":2,"reads":[[3,1]],"reply":{"committed":4},"start":2,"writes":[[3,null]]}
{"act":"commit","job":1,"planner":3,"reads":[[3,null]],"reply":{"moved":[3,4]},"start":1,"writes":[[3,0]]}
"""),
    says("an edit of no commit", f"merge --continue begun {OF} none", "3 1\n",
         "history new\nedit 1 entry 1 changes 1 left 0 cause - committed 1\nvalue 4.545454545455000000\n",
         left={"begun": b'{"format":1}\n{"act":"commit","job":1,"planner":1,"reads":[[3,null]],"reply":{"committed":1},"start":0,"writes":[[3,1]]}\n'}),
    *(merge(f"from a history with a revised limit, {edit}", f"--start h33 {edit}", "0 0\n1 0\n2 1\n3 0\n",
            "edit 1 entry 4 changes 1 left 0 cause - committed 3\nvalue 42.772727272730000000\n") for edit in ("X", "returned")),
    merge("64 edits", " ".join(["pair"] * 64), "0 0\n1 0\n",
          "edit 1 entry 1 changes 2 left 0 cause - committed 1\n"
          + "".join(f"edit {n} entry - changes 0 left 0 cause - nothing\n" for n in range(2, 65)) + f"value 10.500000000000000000\n{SHORT}"),
    says("no history can be written", f"merge --history /dev/full {OF} pair", "0 0\n1 0\n",
         f"edit 1 entry 1 changes 2 left 0 cause - committed 1\nvalue 10.500000000000000000\n{SHORT}pit: cannot write\n", 3),
]

# Faults, in their order. No file is made.
FAULTS = [
    fault("from more commits than there are", f"merge {OF} --start h17 --from 3 A", "edit 1: 2 commits"),
    fault("a base that nothing tells", f"merge {OF} --start h17 A", "edit 1: base missing"),
    fault("an edit of a commit that is not there", f"merge --continue begun {OF} one", "edit 1: another history"),
    fault("the second edit of another history", f"merge {OF} --start h33 --from 2 X Y", "edit 2: another history"),
    fault("a sum of another commit", f"merge {OF} --start h17 wrong", "edit 1: another history"),
    fault("a limit that is revised elsewhere", f"merge {OF} --start h17 --from 2 X h33", "edit 2: revised limit"),
    fault("a limit that is revised, from nothing", f"merge {OF} h33", "edit 1: revised limit"),
    fault("a first line that is spelt otherwise", f"merge {OF} --start h17 --from 3 X spelt", "edit 2: 2 commits"),
    fault("a start that is not legal", f"merge {OF} --start h17x refused", "start: illegal 3"),
    fault("a history that is not legal", f"merge --continue h17x {OF} refused", "history: illegal 3"),
    fault("a text at fault behind one that is right", f"merge {OF} pair refused", "edit 2 line 1: bad number"),
    fault("a block that the pit has not", f"merge {OF} unknown", "edit 1 line 1: block out of range"),
    fault("a file that is not there goes before all", f"merge {OF} refused missing", "cannot read edit 2"),
    fault("a model at fault", "merge refused precedence pair", "model line 2: missing TYPE"),
    fault("an edit is the history", f"merge --history pair {OF} pair", "history is an input"),
    fault("an edit is what is carried on", f"merge --continue h17 {OF} h17", "history is an input"),
]

CASES = [*MERGED, *FAULTS]
