"""Plans of scripts that are files: their reports, starts, benches and counts, and faults in their order."""
import tiny
from case import CLOSED, Folder, fault, says

VALUE = "37.772727272730000000"
# What several planners leave depends on who comes first, so only one of them changes anything here.
PLANNED = "0 0\n1 0\n3 1\n"
REPORT = """\
planner 1 job 1 committed 1 tries 1
planner 1 job 2 refused over 0 0 5.000000 4.000000 tries 1
planner 1 job 3 committed 2 tries 1
value 15.045454545455000000
"""
NOTHING = "value 0.000000000000000000\nshort 0 1 0.000000 1.000000\n"

FILES = {
    "model": tiny.MODEL.encode(), "precedence": tiny.PRECEDENCES.encode(), "blocks": tiny.PLACES.encode(), "solution": tiny.SOLUTION.encode(),
    "early": b"2 0\n", "heavy": b"0 0\n1 0\n3 0\n", "empty": b"", "folder": Folder(), "refused": b"no model\n",
    "script": b"begin\nput 0 0\nput 1 0\ncommit\nbegin\nput 3 0\ncommit\nbegin\nput 3 1\ncommit\n",
    "second": b"begin\nbench 2 0\ncommit\nbegin\nread 0\nabort\nbegin\nshift 3 1\ncommit\nbegin\nshift 3 1\ncommit\nbegin\nput 2 0\ncommit\n",
    "unmeetable": tiny.MODEL.replace("0 0 L 4\n", "0 0 L -1\n").encode(),
}
OF = "model precedence"
MANY = " ".join(["empty"] * 64)

ANSWERS = [
    says("a plan", f"plan {OF} script", PLANNED, REPORT),
    says("options behind the scripts", f"plan {OF} script --retries 1000 --blocks blocks", PLANNED, REPORT),
    says("an empty second script", f"plan --retries=0 {OF} script empty", PLANNED, REPORT),
    says("an empty script", f"plan {OF} empty", "", NOTHING, 1),
    says("by benches", f"plan --blocks blocks {OF} empty second", "0 0\n3 1\n", """\
planner 2 job 1 committed 1 tries 1
planner 2 job 2 withdrawn tries 1
planner 2 job 3 committed 2 tries 1
planner 2 job 4 withdrawn tries 1
planner 2 job 5 refused precedence 2 1 tries 1
value -5.454545454545000000
"""),
    says("from a start", f"plan --start solution {OF} empty", tiny.SOLUTION, f"value {VALUE}\n"),
    says("a limit revised", f"plan --start solution {OF} revised", "0 0\n1 0\n3 0\n", """\
planner 1 job 1 committed 2 tries 1
planner 1 job 2 committed 3 tries 1
value 15.500000000000000000
short 0 1 0.000000 1.000000
""", 1, files={"revised": b"begin\nrevise 0 0 5\nput 3 0\ncommit\nbegin\nclear 2\ncommit\n"}),
    says("64 scripts", f"plan {OF} {MANY}", "", NOTHING, 1),
    fault("65 scripts", f"plan {OF} {MANY} empty", "planner count"),
]

FAULTS = [
    fault("a bad model", "plan refused refused refused --blocks refused --start refused", "model line 2: missing TYPE"),
    fault("bad precedences", "plan model refused refused --blocks refused --start refused", "precedence line 1: bad number"),
    fault("bad blocks", f"plan {OF} refused --blocks refused --start refused", "blocks line 1: field count"),
    fault("a bad start", f"plan {OF} refused --blocks blocks --start refused", "start line 1: bad number"),
    fault("a bad script", f"plan {OF} --blocks blocks --start solution script refused refused", "script 2 line 1: unknown word"),
    fault("a bench without blocks", f"plan {OF} second", "script 1 line 2: no such bench"),
    fault("a start that breaks a precedence, before the count of planners", f"plan {OF} --start early {MANY} empty", "start: precedence 2 0"),
    fault("a start above a limit", f"plan {OF} --start heavy empty", "start: over 0 0 5.000000 4.000000"),
    fault("a limit below zero", "plan unmeetable precedence --start heavy empty", "model: upper limit below zero 0 0"),
]

OPENED = [
    fault("no file at all", "plan missing missing missing --blocks missing --start missing", "cannot read model"),
    fault("the model alone", "plan model missing missing --blocks missing --start missing", "cannot read precedence"),
    fault("no blocks", f"plan {OF} missing --blocks missing --start missing", "cannot read blocks"),
    fault("no start", f"plan {OF} missing --blocks blocks --start missing", "cannot read start"),
    fault("no script", f"plan {OF} missing missing --blocks blocks --start solution", "cannot read script 1"),
    fault("no second script", f"plan {OF} script missing missing", "cannot read script 2"),
    fault("all files are opened before one is read", "plan folder folder script missing", "cannot read script 2"),
    fault("all files are read before one is parsed", "plan refused refused script folder", "cannot read script 2"),
    fault("the start is a folder", "plan refused refused --start folder folder", "cannot read start"),
]

OUTPUTS = [
    fault("a full output", f"plan {OF} script", "cannot write", into="/dev/full"),
    fault("a closed output", f"plan {OF} script", "cannot write", into=CLOSED),
    says("nothing to a closed output", f"plan {OF} empty", "", NOTHING, 1, into=CLOSED),
    says("a closed standard error", f"plan {OF} script", PLANNED, status=3, error_into=CLOSED),
    says("a full standard error", f"plan {OF} script", PLANNED, status=3, error_into="/dev/full"),
]

CASES = [*ANSWERS, *FAULTS, *OPENED, *OUTPUTS]
