"""Texts of as many coefficients as there may be, of many predecessors, and past each doubling of what they are read into."""
from texts import COMMITTED, FILES, ZERO, adds_to, columns, info, prints

CASES = []
add = adds_to(CASES)

# As many resources as there may be, whose coefficients rise, of the blocks one behind the other: the list of each block grows after those of others.
LARGE = "TYPE: CPIT\nNBLOCKS: 300\nNPERIODS: 300\nNRESOURCE_SIDE_CONSTRAINTS: 64\nDISCOUNT_RATE: 0.1\nRESOURCE_CONSTRAINT_COEFFICIENTS\n"
LARGE_MODEL = LARGE + "".join(f"{b} {r} 0.{r + 1:06}\n" for r in range(64) for b in range(300))
row = f"1,{ZERO},{ZERO}" + "".join(f",0.{r + 1:06},,," for r in range(64)) + "\n"
add("as many coefficients as there may be", "table model sol", prints(columns(64) + "".join(f"{b},{row}" for b in range(300))),
    model=LARGE_MODEL, sol="".join(f"{b} {b}\n" for b in range(300)))

# The predecessors of twenty blocks are the first hundred, but the last of them first.
HUNDRED = " ".join(str(b) for b in range(100))
MANY = "".join(f"{b} 100 {' '.join(str(a) for a in range(99, -1, -1))}\n" for b in range(200, 220))
add("many predecessors are counted", "info model prec",
    prints(info(2000, 280, 219, size="300 300 64", counts="0 0 0 0", more="".join(f"unlimited {r}\n" for r in range(64)))), model=LARGE, prec=MANY)


def preceded(b, t=0):
    """What `check --all` prints where only a block behind the first hundred is mined."""
    return prints(f"value {ZERO}\n" + "".join(f"precedence {b} {a} {t} -\n" for a in range(100)) + "broken 100 over 0 short 0\n", 1)


for b in range(200, 220):
    add(f"many predecessors of block {b}", "check --all model prec sol", preceded(b), model=LARGE, prec=MANY, sol=f"{b} 0")

# A job takes out a block with the first of its successors. The next of them is then in the way.
TAKEN = [(a, k) for a in range(100) for k in ([0, 1, 10, 19] if 0 < a < 99 else range(20))]
script = "".join("begin\n" + "".join(f"clear {b}\n" for b in [a, *range(200, 200 + k)]) + "commit\n" for a, k in TAKEN)
report = "".join(f"planner 1 job {j} refused precedence {200 + k} {a} tries 1\n" for j, (a, k) in enumerate(TAKEN, 1))
mined = "".join(f"{b} 0\n" for b in [*range(100), *range(200, 220)])
add("many successors", "plan --in-turn --start sol model prec script", prints(mined, 0, f"{report}value {ZERO}\n"),
    model=LARGE, prec=MANY, sol=mined, script=script)


# Long texts, past 8,192 bytes and past each doubling of what they are read into.
LONG = "TYPE: CPIT\nNBLOCKS: 1500\nNPERIODS: 2\nNRESOURCE_SIDE_CONSTRAINTS: 3\nDISCOUNT_RATE: 0.1\n"
UNLIMITED = "unlimited 0\nunlimited 1\nunlimited 2\n"
LONG_MODEL = LONG + "RESOURCE_CONSTRAINT_COEFFICIENTS:\n" + "".join(f"{b} {r} 1\n" for r in range(3) for b in range(500))
LONG_ORDER = "".join(f"{b} 100 {HUNDRED}\n" for b in range(200, 240))
LONG_PLACES = "".join(f"{b} 1 2 3\n" for b in range(1500))
LONG_SOLUTION = "".join(f"{b} 1\n" for b in range(1500))


def threefold(about, sol, early, late):
    """Adds the table of a long model: the numbers of blocks in both periods, and their loads, which are the same of each resource."""
    rows = "".join(f"{t},{blocks},{ZERO},{ZERO}" + f",{load}.000000,,," * 3 + "\n" for t, (blocks, load) in enumerate([early, late]))
    add(about, "table model sol", prints(columns(3) + rows), model=LONG_MODEL, sol=sol)


threefold("a long model, block 0", "0 0", (1, 1), (0, 0))
threefold("a long model, the last block with coefficients", "499 0", (1, 1), (0, 0))
threefold("a long model, the first block without any", "500 0", (1, 0), (0, 0))
threefold("a long model, all blocks", LONG_SOLUTION, (0, 0), (1500, 500))
add("a long model is counted", "info model none", prints(info(0, 1500, "-", size="1500 2 3", counts="0 1500 0 0", more=UNLIMITED)), model=LONG_MODEL)
add("long precedences are counted", "info model prec", prints(info(4000, 1460, 239, size="1500 2 3", counts="0 0 0 0", more=UNLIMITED)),
    model=LONG, prec=LONG_ORDER)
for b in 200, 239:
    add(f"long precedences, block {b}", "check --all model prec sol", preceded(b, 1), model=LONG, prec=LONG_ORDER, sol=f"{b} 1")
add("long places are counted", "info model none --blocks blocks",
    prints(info(0, 1500, "-", "1500 1", size="1500 2 3", counts="0 0 0 0", more=UNLIMITED)), model=LONG, blocks=LONG_PLACES)
add("long places have one height", "plan --in-turn --blocks blocks model none script",
    prints(LONG_SOLUTION, 0, COMMITTED), model=LONG, blocks=LONG_PLACES, script="begin\nbench 3 1\ncommit\n")
add("a solution of all blocks", "show model sol", prints(LONG_SOLUTION), model=LONG, sol=LONG_SOLUTION)
for text in LONG_MODEL, LONG_ORDER, LONG_PLACES, LONG_SOLUTION:
    assert len(text) > 8_192
