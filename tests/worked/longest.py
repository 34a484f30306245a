"""Texts and reports of a million lines, or of a million pairs."""
import tiny
from case import Pipe, fault, says

MILLION = 10**6
JOB = b"begin\ncommit\n"
FILES = {"model": tiny.MODEL.encode(), "precedence": tiny.PRECEDENCES.encode()}

CASES = [
    # A script of as many jobs as there may be, and of one more.
    says("1,000,000 jobs", "plan model precedence script", "",
         "".join(f"planner 1 job {n} committed {n} tries 1\n" for n in range(1, MILLION + 1)) + "value 0.000000000000000000\nshort 0 1 0.000000 1.000000\n", 1,
         files={"script": JOB * MILLION}),
    fault("1,000,001 jobs", "plan model precedence script", "script 1 line 2000001: too many jobs", files={"script": JOB * (MILLION + 1)}),
    # A million pairs of a mined block and one that isn't: few are kept, and none is lost.
    says("a million pairs", "check --all square million later",
         "value 0.000000000000000000\n" + "".join(f"precedence 1000 {b} 0 -\n" for b in range(1000)) + "more 999000\nbroken 1000000 over 0 short 0\n", status=1,
         files={
             "square": b"TYPE: CPIT\nNBLOCKS: 2000\nNPERIODS: 1\nNRESOURCE_SIDE_CONSTRAINTS: 0\nDISCOUNT_RATE: 0\n",
             "million": "".join(f"{b} 1000 {' '.join(map(str, range(1000)))}\n" for b in range(1000, 2000)).encode(),
             "later": Pipe("".join(f"{b} 0\n" for b in range(1000, 2000)).encode()),
         }),
]
