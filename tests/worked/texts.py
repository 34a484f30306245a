"""Texts of a pit and of a schedule: what is read of them, and their faults."""
import tiny
from case import Case

HEADER, OBJECTIVE, COEFFICIENTS, LIMITS, MODEL, PRECEDENCES, PLACES, SOLUTION = (
    text.encode()
    for text in (tiny.HEADER, tiny.OBJECTIVE, tiny.COEFFICIENTS, tiny.LIMITS, tiny.MODEL, tiny.PRECEDENCES, tiny.PLACES, tiny.SOLUTION)
)
#: One of whole numbers is a million millionths.
ONE = 10**6
#: The profit and the coefficient of each of its blocks, in millionths.
AMOUNTS = [(-10 * ONE, 2 * ONE), (20_500_000, 2 * ONE), (30 * ONE, 3 * ONE), (5 * ONE, ONE)]
#: The factors of its periods: the second is 10^12 / 1.1, which is 909090909090.9.., rounded.
FACTORS = [10**12, 909_090_909_091]
ZERO = "0.000000000000000000"
#: The report of a planner with one job, where nothing is worth anything.
COMMITTED = f"planner 1 job 1 committed 1 tries 1\nvalue {ZERO}\n"

FILES = {"model": MODEL, "prec": PRECEDENCES, "blocks": PLACES, "sol": SOLUTION, "none": b"", "all": b"0 0\n1 0\n2 0\n3 0\n"}


def adds_to(cases):
    """What adds a case to these. A text among its files is its bytes in ASCII."""
    def add(about, words, want, **files):
        held = {name: it.encode() if isinstance(it, str) else it for name, it in files.items()}
        cases.append(Case(about, words.split(), files=held, **want))

    return add


def prints(out, status=0, err=""):
    """What has to come: this text."""
    return {"out": out.encode(), "status": status, "err": err.encode()}


def refuses(why):
    """What has to come: this fault."""
    return {"err": f"pit: {why}\n".encode(), "status": 2}


def number(n, places):
    """So many units of the last of these places, as they are printed."""
    return f"{'-' if n < 0 else ''}{abs(n) // 10**places}.{abs(n) % 10**places:0{places}}"


def columns(resources):
    """The first line of a table."""
    return "period,blocks,value,cumulative" + "".join(f",load_{r},lower_{r},upper_{r},room_{r}" for r in range(resources)) + "\n"


def table(*rows):
    """The table of a pit with one resource. A row has the number of blocks, and in millionths their profit, the load, and the limits or None."""
    text, sum_so_far = columns(1), 0
    for t, (blocks, profit, load, lower, upper) in enumerate(rows):
        sum_so_far += profit * FACTORS[t]
        loads = [load, lower, upper, None if upper is None else upper - load]
        cells = [str(t), str(blocks), number(profit * FACTORS[t], 18), number(sum_so_far, 18)]
        text += ",".join(cells + ["" if n is None else number(n, 6) for n in loads]) + "\n"
    return text


def info(pairs, roots, highest, places="", size="4 2 1", counts="4 4 1 2", more=""):
    """What `info` prints: the size is blocks, periods and resources, the counts are those of profits, coefficients, lower and upper limits."""
    heads = "".join(f"{name} {n}\n" for name, n in zip(["blocks", "periods", "resources"], size.split()))
    amounts = "".join(f"{name} {n}\n" for name, n in zip(["profits", "coefficients", "lower", "upper"], counts.split()))
    lying = "places {}\nbenches {}\n".format(*places.split()) if places else ""
    return f"{heads}rate 0.100000\n{amounts}pairs {pairs}\nroots {roots}\nhighest {highest}\n{lying}{more}"


CASES = []
add = adds_to(CASES)

# Models that are read.
OTHER_ENDS = b"""% a small pit\r
NAME: Tiny\r
TYPE: CPIT\r
NBLOCKS: 4\r
% TYPE: PCPSP\r
NPERIODS: 2\r
NRESOURCE_SIDE_CONSTRAINTS: 1\r
DISCOUNT_RATE: 0.1\r
  %\r
OBJECTIVE_FUNCTION:\r
0 -10\r
%0 -10\r
1 20.5\r
2 30\r
3 5\r
RESOURCE_CONSTRAINT_COEFFICIENTS:\r
0 0 2\r
1 0 2\r
\t%\r
2 0 3\r
3 0 1\r
RESOURCE_CONSTRAINT_LIMITS:\r
0 0 L 4\r
0 1 I 1 4\r"""

ORDERS = {
    "the small pit": MODEL,
    "in order": HEADER + OBJECTIVE + COEFFICIENTS + LIMITS,
    "limits before coefficients": HEADER + OBJECTIVE + LIMITS + COEFFICIENTS,
    "coefficients first": HEADER + COEFFICIENTS + OBJECTIVE + LIMITS,
    "objective last": HEADER + COEFFICIENTS + LIMITS + OBJECTIVE,
    "limits first": HEADER + LIMITS + OBJECTIVE + COEFFICIENTS,
    "in the other order": HEADER + LIMITS + COEFFICIENTS + OBJECTIVE,
    "comments, and other ends of lines": OTHER_ENDS,
    "the same limit twice": HEADER + OBJECTIVE + COEFFICIENTS + LIMITS + b"0 0 L 4",
}

for about, model in ORDERS.items():
    add(f"{about}: counts", "info model prec --blocks blocks", prints(info(3, 2, 2, "4 3")), model=model)
    for b, (profit, coef) in enumerate(AMOUNTS):
        for t in 0, 1:
            rows = [(0, 0, 0, None, 4 * ONE), (0, 0, 0, ONE, 4 * ONE)]
            rows[t] = (1, profit, coef, *rows[t][3:])
            add(f"{about}: block {b} in period {t}", "table model sol", prints(table(*rows)), model=model, sol=f"{b} {t}\n")

# A limit line, and the lower and the upper limit of the resource in period 0.
BOUNDS = [
    ("0 0 L inf", None, None),
    ("0 0 I -inf 3", None, 3 * ONE),
    ("0 0 G -2.5", -2_500_000, None),
    ("0 0 L 4", None, 4 * ONE),
    ("0 0 L +Infinity", None, None),
]

for line, lower, upper in BOUNDS:
    wanted = prints(table((0, 0, 0, lower, upper), (0, 0, 0, None, None)))
    add(f"the limits of {line}", "table model none", wanted, model=HEADER + b"RESOURCE_CONSTRAINT_LIMITS\n" + line.encode())


# Precedences, places and solutions that are read.
PAIRS = "precedence 1 0 1 -\nprecedence 2 0 0 -\nprecedence 2 1 0 1\n"
#: Block 1 in period 1 and block 2 in period 0: 20.5 * 0.909090909091 + 30.
PAIRS_TEXT = f"value 48.636363636365500000\n{PAIRS}broken 3 over 0 short 0\n"
CLEARING = "begin\nclear 0\ncommit\nbegin\nclear 1\ncommit\nbegin\nclear 0\nclear 1\ncommit\n"
CLEARED = """planner 1 job 1 refused precedence 1 0 tries 1
planner 1 job 2 refused precedence 2 1 tries 1
planner 1 job 3 refused precedence 2 0 tries 1
value 37.772727272730000000
"""

# A block isn't its own predecessor, and one that is listed twice counts once.
for prec in PRECEDENCES, b"1 2 0 1\r\n2 3 0 0 1\r\n":
    add("predecessors are counted", "info model prec", prints(info(3, 2, 2)), prec=prec)
    add("predecessors", "check --all model prec sol", prints(PAIRS_TEXT, 1), prec=prec, sol="1 1\n2 0\n")
    add("successors", "plan --in-turn --start sol model prec script", prints("0 0\n1 0\n2 1\n", 0, CLEARED), prec=prec, script=CLEARING)


def lying(about, blocks, places, benches):
    """Adds cases of a text of places: their number, and the blocks of each bench. A pit of a header alone has no limits."""
    counts = info(0, 4, "-", places, counts="0 0 0 0", more="unlimited 0\n")
    add(f"{about} are counted", "info model none --blocks blocks", prints(counts), model=HEADER, blocks=blocks)
    for z, there in benches.items():
        wanted = prints("".join(f"{b} 1\n" for b in there), 0, COMMITTED)
        words = "plan --in-turn --blocks blocks model none script"
        add(f"{about} at height {z}", words, wanted, model=HEADER, blocks=blocks, script=f"begin\nbench {z} 1\ncommit\n")


lying("four places", PLACES, "4 3", {"2": [0, 3], "1": [1], "0": [2]})
lying("no places", "", "0 0", {})
lying("a place with further fields", "0 0 0 2 ore 7", "1 1", {"2": [0]})

SOLUTIONS = [
    ("", ""),
    (SOLUTION, "0 0\n1 0\n2 1\n"),
    ("3 0\n2 1\n1 0", "1 0\n2 1\n3 0\n"),
    ("3 0 1 1.000000", "3 1\n"),
    ("3 0 1 0", ""),
    # Comments, lines without fields, a colon, a carriage return, and what stands behind the end.
    ("% a\n\n 0:1\r\nEOF\nd", "0 1\n"),
]

for text, shown in SOLUTIONS:
    add("a solution", "show model sol", prints(shown), sol=text)


# Faults: a text behind a front, its line and its words.
FRONT_LIMITS = HEADER + b"RESOURCE_CONSTRAINT_LIMITS\n"
SECTIONS = HEADER + OBJECTIVE + COEFFICIENTS + LIMITS

MODEL_FAULTS = {
    b"": [
        (b"", "line 1: missing TYPE"),
        (b"NAME: Tiny\nTYPE: PCPSP\n", "line 2: not cpit"),
        (b"NBLOCKS: 0", "line 1: bad NBLOCKS"),
        (b"NAME: Tiny\nTYPE: CPIT\nNBLOCKS: 4\nNPERIODS: 2\nNRESOURCE_SIDE_CONSTRAINTS: 1\n", "line 6: missing DISCOUNT_RATE"),
        (b"NDESTINATIONS: 2", "line 1: unsupported NDESTINATIONS"),
        # Each other key has its words.
        (b"NGENERAL_SIDE_CONSTRAINTS: 1", "line 1: unsupported NGENERAL_SIDE_CONSTRAINTS"),
        (b"TYPE:", "line 1: bad TYPE"),
        (b"NPERIODS: 0", "line 1: bad NPERIODS"),
        (b"NRESOURCE_SIDE_CONSTRAINTS: 65", "line 1: bad NRESOURCE_SIDE_CONSTRAINTS"),
        (b"DISCOUNT_RATE: -0.1", "line 1: bad DISCOUNT_RATE"),
        (b"NDESTINATIONS: x", "line 1: bad NDESTINATIONS"),
        (b"NGENERAL_SIDE_CONSTRAINTS: x", "line 1: bad NGENERAL_SIDE_CONSTRAINTS"),
    ],
    HEADER: [
        (b"OBJECTIVE_FUNCTION:\n0 -10\n0 -10\n1 20.5\n", "line 9: repeated"),
        (b"OBJECTIVE_FUNCTION\n0 \xff", "line 8: not ascii"),
        (b"OBJECTIVE_FUNCTION\n0 x", "line 8: bad number"),
        (b"OBJECTIVE_FUNCTION\n4 1", "line 8: block out of range"),
        (b"RESOURCE_CONSTRAINT_COEFFICIENTS\n3 1 2", "line 8: resource out of range"),
    ],
    FRONT_LIMITS: [
        (b"0 2 L 4", "line 8: period out of range"),
        (b"0 0 I 5 4", "line 8: empty interval"),
        (b"0 0 X 4", "line 8: bad limit kind"),
        (b"0 0 L -inf", "line 8: bad number"),
    ],
    HEADER + OBJECTIVE: [
        (b"RESOURCE_CONSTRAINT_COEFFICIENTS:\n0 0 2\n1 0 2\n2 0", "line 15: field count"),
        # A fact more, which is refused.
        (b"4 0.000001", "line 12: block out of range"),
        (b"0 0.000001", "line 12: repeated"),
    ],
    HEADER + OBJECTIVE + COEFFICIENTS: [
        (b"0 1 0.000001", "line 17: resource out of range"),
        (b"0 0 0.000001", "line 17: repeated"),
        (b"4 0 0.000001", "line 17: block out of range"),
    ],
    SECTIONS: [
        (b"OBJECTIVE_FUNCTION:\nEOF\n", "line 20: section twice"),
        (b"0 2 L inf", "line 20: period out of range"),
        (b"0 0 I 0.000002 0.000001", "line 20: empty interval"),
    ],
}

PRECEDENCE_FAULTS = {
    b"": [
        (b"2", "line 1: field count"),
        (b"2 3 0 1", "line 1: predecessor count"),
        (b"x 0", "line 1: bad number"),
        (b"2 2 0 4", "line 1: block out of range"),
        (b"0 2 2 4", "line 1: block out of range"),
        (b"2 0\n2 0", "line 2: repeated"),
    ],
    # Lists of blocks that have one.
    PRECEDENCES: [(b"1 1 4", "line 5: block out of range"), (b"1 0", "line 5: repeated")],
}

PLACE_FAULTS = {
    b"": [
        (b"0 0 2", "line 1: field count"),
        (b"0 0 \xff 0", "line 1: not ascii"),
        (b"4 0 0 0", "line 1: block out of range"),
        (b"0 0 0 2\n0 0 0 2", "line 2: repeated"),
    ],
    PLACES: [(b"0 0.000001 0.000001 0.000001", "line 5: repeated"), (b"4 0 0 0", "line 5: block out of range")],
}

SOLUTION_FAULTS = {
    b"": [
        (b"3", "line 1: field count"),
        (b"3 \xff", "line 1: not ascii"),
        (b"3 x", "line 1: bad number"),
        (b"4 0", "line 1: block out of range"),
        (b"3 2", "line 1: period out of range"),
        (b"3 1 1 1", "line 1: unsupported NDESTINATIONS"),
        (b"3 0 1 0.5", "line 1: part of a block"),
        (b"3 1\n3 1", "line 2: repeated"),
        # Lines that are skipped are counted.
        (b"% a\n\n b:c\r\nEOF\nd", "line 3: bad number"),
        (b"% a\n" * 1205 + b"3 1\n3 1\n", "line 1207: repeated"),
    ],
}

KINDS = [
    ("model", "model", "info model prec", MODEL_FAULTS),
    ("prec", "precedence", "info model prec", PRECEDENCE_FAULTS),
    ("blocks", "blocks", "info model prec --blocks blocks", PLACE_FAULTS),
    ("sol", "solution", "value model sol", SOLUTION_FAULTS),
]

for name, kind, words, fronts in KINDS:
    for front, rows in fronts.items():
        for text, why in rows:
            add(f"{kind}, {why}", words, refuses(f"{kind} {why}"), **{name: front + text})
