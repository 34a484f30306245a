"""What a person at a terminal is told of a fault of a pit or a schedule, and of a model that was read; without a terminal, a fault is its own line alone."""
import dataclasses

from case import Case

HEAD = b"TYPE: CPIT\nNBLOCKS: 4\nNPERIODS: 2\nNRESOURCE_SIDE_CONSTRAINTS: 1\nDISCOUNT_RATE: 0.1\n"
PROFITS, COEFFICIENTS, LIMITS = b"OBJECTIVE_FUNCTION:\n", b"RESOURCE_CONSTRAINT_COEFFICIENTS:\n", b"RESOURCE_CONSTRAINT_LIMITS:\n"

# A pit of four blocks and two periods, with one resource.
MODEL = HEAD + PROFITS + b"1 20.5\n" + COEFFICIENTS + b"1 0 2\n" + LIMITS + b"0 1 I 1 4\n"

FILES = {"hill.cpit": MODEL, "hill.prec": b"2 1 1\n", "empty": b""}

COMMIT = '{"act":"commit","job":1,"planner":1,"reads":[],"reply":{"committed":%d},"start":%d,"writes":[[%d,0]]}\n'


def told(about, words, said, files=None, status=2, out=b""):
    """A run whose standard error is a terminal, and the lines that come there."""
    return Case(about, words.split(), out, "".join(f"{line}\n" for line in said).encode(), status, files or {}, terminal=True)


def of_file(words, name, rows):
    """A run for each row: what it shows, what the file holds, and the lines that come at a terminal."""
    return [told(about, words, said, {name: text}) for about, text, *said in rows]


def alone(case):
    """The same run without a terminal: the fault's line alone, or nothing where a model was read."""
    line = case.err.split(b"\n")[0] + b"\n"
    return dataclasses.replace(case, about=f"{case.about}, and no terminal", err=line if case.status else b"", terminal=False)


def both(*groups):
    """All runs of these groups, and the first of each without a terminal too."""
    return [case for group in groups for case in (*group, alone(group[0]))]


def history(*entries):
    """A history of these entries."""
    return "".join(['{"format":1}\n', *entries]).encode()


THREE = history(*(COMMIT % (number, number - 1, number) for number in (1, 2, 3)))

OF_MODEL = of_file("value hill.cpit empty", "hill.cpit", [
    ("a misspelt key", b"% a hill\nTYPEX: CPIT\nOBJECTIVE_FUNCTION:\n",
     "pit: model line 3: missing TYPE",
     "  hill.cpit:3: OBJECTIVE_FUNCTION:",
     "  The header has no line TYPE. Line 2 begins with TYPEX, which no key is."),
    ("no such key, behind a name", b"NAME: hill\nTYPE: CPIT\nNBLOCKS: 4\nOBJECTIVE_FUNCTION:\n",
     "pit: model line 4: missing NPERIODS",
     "  hill.cpit:4: OBJECTIVE_FUNCTION:",
     "  The header has no line NPERIODS."),
    ("an empty model", b"",
     "pit: model line 1: missing TYPE",
     "  hill.cpit:1:",
     "  The header has no line TYPE."),
    ("a byte order mark before a model", b"\xEF\xBB\xBFTYPE: CPIT\nOBJECTIVE_FUNCTION:\n",
     "pit: model line 2: missing TYPE",
     "  hill.cpit:2: OBJECTIVE_FUNCTION:",
     "  The file begins with a byte order mark, three bytes that editors don't show: save it without."),
    ("a model in UTF-16", b"\xFF\xFET\x00Y\x00",
     "pit: model line 2: missing TYPE",
     "  hill.cpit:2:",
     "  The file is UTF-16, or holds NUL: save it as plain text."),
    ("carriage returns alone", b"%\rTYPE: CPIT\r",
     "pit: model line 2: missing TYPE",
     "  hill.cpit:2:",
     "  Its lines end in carriage returns alone: save the file with line feeds."),
    ("no blocks", b"TYPE: CPIT\nNBLOCKS: 0\n",
     "pit: model line 2: bad NBLOCKS",
     "  hill.cpit:2: NBLOCKS: 0",
     "  NBLOCKS has one value, a whole number from 1 to 4194304."),
    ("a key twice", b"TYPE: CPIT\nNBLOCKS: 4\nTYPE: CPIT\n",
     "pit: model line 3: bad TYPE",
     "  hill.cpit:3: TYPE: CPIT",
     "  TYPE stands in line 1 already."),
    ("two values", b"TYPE: CPIT PCPSP\n",
     "pit: model line 1: bad TYPE",
     "  hill.cpit:1: TYPE: CPIT PCPSP",
     "  TYPE has one value, CPIT."),
    ("too many periods", b"NPERIODS: 1001\n",
     "pit: model line 1: bad NPERIODS",
     "  hill.cpit:1: NPERIODS: 1001",
     "  NPERIODS has one value, a whole number from 1 to 1000."),
    ("too many resources", b"NRESOURCE_SIDE_CONSTRAINTS: 65\n",
     "pit: model line 1: bad NRESOURCE_SIDE_CONSTRAINTS",
     "  hill.cpit:1: NRESOURCE_SIDE_CONSTRAINTS: 65",
     "  NRESOURCE_SIDE_CONSTRAINTS has one value, a whole number from 0 to 64."),
    ("a rate in percent", b"DISCOUNT_RATE: 10%\n",
     "pit: model line 1: bad DISCOUNT_RATE",
     "  hill.cpit:1: DISCOUNT_RATE: 10%",
     "  DISCOUNT_RATE has one value, a decimal from 0 to 1000; 0.1 is 10 % a period."),
    ("destinations that are no number", b"NDESTINATIONS: one\n",
     "pit: model line 1: bad NDESTINATIONS",
     "  hill.cpit:1: NDESTINATIONS: one",
     "  NDESTINATIONS has one value, 1."),
    ("general constraints without a number", b"NGENERAL_SIDE_CONSTRAINTS\n",
     "pit: model line 1: bad NGENERAL_SIDE_CONSTRAINTS",
     "  hill.cpit:1: NGENERAL_SIDE_CONSTRAINTS",
     "  NGENERAL_SIDE_CONSTRAINTS has one value, 0."),
    ("another problem", b"TYPE: PCPSP\n",
     "pit: model line 1: not cpit",
     "  hill.cpit:1: TYPE: PCPSP",
     "  It is a model of another problem, as UPIT or PCPSP: `pit` schedules CPIT."),
    ("two destinations", b"NDESTINATIONS: 2\n",
     "pit: model line 1: unsupported NDESTINATIONS",
     "  hill.cpit:1: NDESTINATIONS: 2",
     "  It is a model of several destinations: CPIT has one."),
    ("general constraints", b"NGENERAL_SIDE_CONSTRAINTS: 3\n",
     "pit: model line 1: unsupported NGENERAL_SIDE_CONSTRAINTS",
     "  hill.cpit:1: NGENERAL_SIDE_CONSTRAINTS: 3",
     "  General side constraints aren't scheduled: drop the key, or write 0."),
    ("a section twice", HEAD + PROFITS + b"1 2\n" + PROFITS,
     "pit: model line 8: section twice",
     "  hill.cpit:8: OBJECTIVE_FUNCTION:",
     "  The section begins in line 6 already: put all its lines behind one section line."),
    ("a comment behind a profit", HEAD + PROFITS + b"1 2 % two\n",
     "pit: model line 7: field count",
     "  hill.cpit:7: 1 2 % two",
     "  A line of the section OBJECTIVE_FUNCTION, which begins in line 6, is `b v`, a block and its profit."
     " A comment stands in a line of its own, which begins with %."),
    ("a coefficient with too few fields", HEAD + COEFFICIENTS + b"1 2\n",
     "pit: model line 7: field count",
     "  hill.cpit:7: 1 2",
     "  A line of the section RESOURCE_CONSTRAINT_COEFFICIENTS, which begins in line 6, is `b r v`,"
     " a block, a resource and how much of it the block takes."),
    ("a limit with too few fields", HEAD + LIMITS + b"1 2\n",
     "pit: model line 7: field count",
     "  hill.cpit:7: 1 2",
     "  A line of the section RESOURCE_CONSTRAINT_LIMITS, which begins in line 6, is `r t L v`, `r t G v` or `r t I lo hi`,"
     " limits of a resource in a period."),
    ("a decimal comma", HEAD + PROFITS + b"1 20,5\n",
     "pit: model line 7: bad number",
     "  hill.cpit:7: 1 20,5",
     "  A number holds a comma: write a point, 20.5, and nothing between thousands."),
    ("a word before a number", HEAD + PROFITS + b"limits 1\n",
     "pit: model line 7: bad number",
     "  hill.cpit:7: limits 1",
     "  A line of the section OBJECTIVE_FUNCTION, which begins in line 6, is `b v`, a block and its profit."
     " Is it a section line, misspelt or in small letters?"),
    ("an exponent of four digits", HEAD + PROFITS + b"1 1e1000\n",
     "pit: model line 7: number too long",
     "  hill.cpit:7: 1 1e1000",
     "  A number has too many digits: six behind the point are kept."),
    ("too great a profit", HEAD + PROFITS + b"1 1e12\n",
     "pit: model line 7: number too large",
     "  hill.cpit:7: 1 1e12",
     "  A whole number is below 2^32, a decimal below 10^12: take larger units, and number blocks from 0."),
    ("the block behind the last", HEAD + PROFITS + b"4 1\n",
     "pit: model line 7: block out of range",
     "  hill.cpit:7: 4 1",
     "  Blocks are numbered from 0 to 3: the model has NBLOCKS 4."),
    ("the resource behind the last", HEAD + COEFFICIENTS + b"1 1 1\n",
     "pit: model line 7: resource out of range",
     "  hill.cpit:7: 1 1 1",
     "  Resources are numbered from 0 to 0: the model has NRESOURCE_SIDE_CONSTRAINTS 1."),
    ("no resources", HEAD.replace(b"CONSTRAINTS: 1", b"CONSTRAINTS: 0") + COEFFICIENTS + b"1 0 1\n",
     "pit: model line 7: resource out of range",
     "  hill.cpit:7: 1 0 1",
     "  The model has none of them: NRESOURCE_SIDE_CONSTRAINTS is 0."),
    ("the period behind the last", HEAD + LIMITS + b"0 2 L 1\n",
     "pit: model line 7: period out of range",
     "  hill.cpit:7: 0 2 L 1",
     "  Periods are numbered from 0 to 1: the model has NPERIODS 2."),
    ("two profits of a block, behind its coefficient", HEAD + COEFFICIENTS + b"1 0 5\n" + PROFITS + b"1 2\n01 3\n",
     "pit: model line 10: repeated",
     "  hill.cpit:10: 01 3",
     "  Block 1 stands in line 9 already: add the two up, or drop one."),
    ("two coefficients of a block, behind another resource's",
     HEAD.replace(b"CONSTRAINTS: 1", b"CONSTRAINTS: 2") + COEFFICIENTS + b"1 1 5\n1 0 5\n1 0 6\n",
     "pit: model line 9: repeated",
     "  hill.cpit:9: 1 0 6",
     "  Block 1 stands in line 8 already: add the two up, or drop one."),
    ("bounds the wrong way round", HEAD + LIMITS + b"0 1 I 2 1\n",
     "pit: model line 7: empty interval",
     "  hill.cpit:7: 0 1 I 2 1",
     "  The lower bound is above the upper one."),
    ("no kind of limit", HEAD + LIMITS + b"0 1 < 2\n",
     "pit: model line 7: bad limit kind",
     "  hill.cpit:7: 0 1 < 2",
     "  The kind is L, G or I, in capitals: at most, at least, from .. to."),
    ("an accent", HEAD + PROFITS + b"1 \xC3\xA9\n",
     "pit: model line 7: not ascii",
     "  hill.cpit:7: 1 ??",
     "  It holds a byte above 127, as an accent, a hard space or a typographic minus: write plain ASCII."),
])

OF_PRECEDENCES = of_file("info hill.cpit hill.prec", "hill.prec", [
    ("a block alone", b"2\n",
     "pit: precedence line 1: field count",
     "  hill.prec:1: 2",
     "  A line is `b k p1 .. pk`: a block, how many predecessors it has, and these."),
    ("two predecessors for three", b"% two\n2 3 0 1\n",
     "pit: precedence line 2: predecessor count",
     "  hill.prec:2: 2 3 0 1",
     "  The line says 3 predecessors, and 2 follow."),
    ("a block's predecessors twice", b"2 1 0\n2 1 1\n",
     "pit: precedence line 2: repeated",
     "  hill.prec:2: 2 1 1",
     "  Block 2 stands in line 1 already: add the two up, or drop one."),
    ("precedences in UTF-16", b"\xFF\xFET\x00Y\x00",
     "pit: precedence line 1: field count",
     "  hill.prec:1: ??T?Y?",
     "  The file is UTF-16, or holds NUL: save it as plain text."),
])

OF_BLOCKS = of_file("info hill.cpit hill.prec --blocks hill.blocks", "hill.blocks", [
    ("two coordinates", b"0 1 2\n",
     "pit: blocks line 1: field count",
     "  hill.blocks:1: 0 1 2",
     "  A line is `id x y z`: a block and its place; what follows isn't read."),
    ("titles of columns", b"id x y z\n",
     "pit: blocks line 1: bad number",
     "  hill.blocks:1: id x y z",
     "  A line is `id x y z`: a block and its place; what follows isn't read. A line of titles can't stand above them."),
])

FORM = "  A line is `b t`, a block and its period, or `b d t y`, with a destination and the part of the block."

OF_SOLUTION = of_file("value hill.cpit hill.sol", "hill.sol", [
    ("three fields", b"1 0 0\n",
     "pit: solution line 1: field count",
     "  hill.sol:1: 1 0 0",
     FORM),
    ("a long line", b"1 0 " + b"x" * 120,
     "pit: solution line 1: field count",
     "  hill.sol:1: 1 0 " + "x" * 96,
     FORM),
    ("a tab and a minus", b"\t-1 0\n",
     "pit: solution line 1: bad number",
     "  hill.sol:1:  -1 0",
     FORM),
    ("a byte order mark before a solution", b"\xEF\xBB\xBF1 0\n",
     "pit: solution line 1: not ascii",
     "  hill.sol:1: ???1 0",
     "  The file begins with a byte order mark, three bytes that editors don't show: save it without."),
])

OF_SCHEDULES = [
    *of_file("plan hill.cpit hill.prec --start hill.sol empty", "hill.sol", [
        ("titles above a start", b"block period\r\n",
         "pit: start line 1: bad number",
         "  hill.sol:1: block period",
         FORM + " A line of titles can't stand above them."),
        ("a start that breaks a precedence", b"2 0\n",
         "pit: start: precedence 2 1",
         "  hill.sol",
         "  The schedule that is begun with breaks a rule: `pit check --all` tells of all that is wrong with it."),
    ]),
    *of_file("diff hill.cpit hill.sol empty", "hill.sol", [
        ("the period behind the last, in the old of two", b"1 0\n2 2\n",
         "pit: old line 2: period out of range",
         "  hill.sol:2: 2 2",
         "  Periods are numbered from 0 to 1: the model has NPERIODS 2."),
    ]),
    *of_file("diff hill.cpit empty hill.sol", "hill.sol", [
        ("another destination, in the new of two", b"1 1 0 1\n",
         "pit: new line 1: unsupported NDESTINATIONS",
         "  hill.sol:1: 1 1 0 1",
         "  CPIT has one destination, which is 0."),
    ]),
    *of_file("show hill.cpit hill.sol", "hill.sol", [
        ("half a block", b"1 0 0 0.5\n",
         "pit: schedule line 1: part of a block",
         "  hill.sol:1: 1 0 0 0.5",
         "  A part is 0 or 1: this is the solution of a relaxed problem. Give whole blocks."),
    ]),
    *of_file("show hill.cpit hill.history --at 4", "hill.history", [
        ("more commits than there are", THREE,
         "pit: at: 3 commits",
         "  `--at N` asks for the schedule after N commits, and there are no more than these."),
    ]),
]


def passed(about, model, *said):
    """A value of nothing at a terminal, and what is told of the model."""
    return told(about, "value hill.cpit empty", said, {"hill.cpit": model}, 0, b"0.000000000000000000\n")


OF_PASSED = [
    passed("lines that begin with no key",
        b"NAME: hill\nTYPEX: CPIT\nNBLOCKS: 4\nPROFIT:\n% one\n1 2\n" + HEAD.replace(b"NBLOCKS: 4\n", b"") + PROFITS + b"0 1\n",
        "  The model's line 2 is passed over: TYPEX is no key.",
        "  The model's lines 4 to 6 are passed over: PROFIT is no key.",
        "  The model has no limit."),
    passed("nothing is passed over", MODEL),
    passed("a section without a line", HEAD + PROFITS + LIMITS + b"0 0 L 1\nEOF\n",
        "  The model has no profit: each is 0."),
    passed("a byte that can't be printed", b"PROFIT\x1B:\n" + HEAD,
        "  The model's line 1 is passed over: PROFIT? is no key.",
        "  The model has no profit: each is 0.",
        "  The model has no limit."),
]

CASES = both(OF_MODEL, OF_PRECEDENCES, OF_BLOCKS, OF_SOLUTION, OF_SCHEDULES, OF_PASSED)
