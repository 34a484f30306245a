"""What a person at a terminal is told of files, pipes and a history that is in use; without a terminal, a fault is its own line alone."""
import dataclasses

import tiny
from case import Pipe, fault, says

MODEL = tiny.MODEL
FILES = {
    "model": MODEL.encode(), "precedence": tiny.PRECEDENCES.encode(), "solution": tiny.SOLUTION.encode(),
    "script": b"begin\nput 0 0\nput 1 0\ncommit\nbegin\nput 3 0\ncommit\nbegin\nput 3 1\ncommit\n", "open": b"begin\nread 0\n",
    "typex": MODEL.replace("TYPE:", "TYPEX:").encode(), "comma": MODEL.replace("20.5", "20,5").encode(),
    "three": MODEL.replace("NBLOCKS: 4", "NBLOCKS: 3").encode(),
    "passed": b"TYPE: CPIT\nNBLOCKS: 4\nNPERIODS: 2\nNRESOURCE_SIDE_CONSTRAINTS: 0\nDISCOUNT_RATE: 0\nOBJECTIV:\n1 20\n",
}
OF = "model precedence"
ZERO = "0.000000000000000000"


def told(about, words, line, *lines, **more):
    """A fault, and the lines behind its own that come at a terminal."""
    case = fault(about, words, line, terminal=True, **more)
    return dataclasses.replace(case, err=case.err + "".join(f"  {it}\n" for it in lines).encode())


TYPEX = "model line 7: missing TYPE"
CASES = [
    told("a misspelt key", "value typex solution", TYPEX, "typex:7: OBJECTIVE_FUNCTION:",
         "The header has no line TYPE. Line 2 begins with TYPEX, which no key is."),
    fault("a misspelt key, and no terminal", "value typex solution", TYPEX),
    told("a comma", "value comma solution", "model line 9: bad number", "comma:9: 1 20,5",
         "A number holds a comma: write a point, 20.5, and nothing between thousands."),
    told("a block of another pit", "value three solution", "model line 11: block out of range", "three:11: 3 5",
         "Blocks are numbered from 0 to 2: the model has NBLOCKS 3."),
    told("a model for a solution", "value model model", "solution line 1: bad number", "model:1: NAME: Tiny",
         "A line is `b t`, a block and its period, or `b d t y`, with a destination and the part of the block. A line of titles can't stand above them."),
    told("no such file", "value model nowhere", "cannot read solution", "nowhere", "There is no such file."),
    told("a folder", "value model .", "cannot read solution", ".", "It is a folder."),
    # What has come of a pipe can't be shown again.
    told("a pipe", "value model pipe", "solution line 1: field count", files={"pipe": Pipe(b"1\n")}),
    told("a job that never ends", f"plan {OF} open", "script 1 line 3: job not ended", "open:3:",
         "The job that begins in line 1 has no end: `commit` or `abort` goes below its lines."),
    told("another file for a history", f"replay {OF} script", "history line 1: not json", "script:1: begin",
         'A history begins with {"format":1} or {"format":2}, as `pit plan --history` writes it: is this another file?'),
    told("a folder for a history", f"plan --continue . {OF} script", "cannot write", ".", "It is a folder."),
    told("a history in no folder", f"plan --history nowhere/used {OF} script", "cannot write", "nowhere/used", "Its folder isn't there."),
    told("a history in use", f"plan --history used {OF} script", "history is in use", "used",
         "{who} has it open to write it: wait for that to end, or write another history.", files={"used.pit-new": b""}, locked="used.pit-new"),
    says("a value", "value model solution", "37.772727272730000000\n", terminal=True),
    says("a check", f"check {OF} solution", "value 37.772727272730000000\nfine\n", terminal=True),
    says("the value of a misspelt section", "value passed solution", f"{ZERO}\n", """\
  The model's lines 6 to 7 are passed over: OBJECTIV is no key.
  The model has no profit: each is 0.
  The model has no limit.
""", terminal=True),
    # `table` leaves its standard error empty.
    says("the table of a misspelt section", "table passed solution", f"period,blocks,value,cumulative\n0,2,{ZERO},{ZERO}\n1,1,{ZERO},{ZERO}\n", terminal=True),
    says("the value of a misspelt section, and no terminal", "value passed solution", f"{ZERO}\n"),
]
