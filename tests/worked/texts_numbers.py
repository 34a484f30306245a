"""Numbers of texts, as they are read and printed: decimals, whole numbers, the factors of periods, and long solutions."""
from texts import COMMITTED, FILES, HEADER, adds_to, columns, number, prints, refuses, table

CASES = []
add = adds_to(CASES)
#: A number of 39 digits, which is one too many.
LONG_NUMBER = "1" * 39

DECIMALS = [
    # The text, and its millionths, rounded half away from zero; or why it is none.
    ("0.0000005", 1),
    ("-0.0000005", -1),
    ("0.00000049", 0),
    ("1e3", 1_000_000_000),
    ("-0", 0),
    (".5", 500_000),
    ("5.", 5_000_000),
    ("1e-999", 0),
    ("999999999999.9999994", 999_999_999_999_999_999),
    ("999999999999.9999995", "number too large"),
    ("1e12", "number too large"),
    (".", "bad number"),
    ("1e", "bad number"),
    ("1e1000", "number too long"),
    (LONG_NUMBER, "number too long"),
]
FRONTS = [HEADER.decode() + it for it in ("OBJECTIVE_FUNCTION\n0 ", "RESOURCE_CONSTRAINT_COEFFICIENTS\n0 0 ", "RESOURCE_CONSTRAINT_LIMITS\n0 0 L ")]

for text, n in DECIMALS:
    if isinstance(n, str):
        for front in FRONTS:
            add(f"the decimal {text}", "info model prec", refuses(f"model line 8: {n}"), model=front + text)
        bench = f"begin\nbench {text} 0\ncommit\n"
        add(f"the height {text}", "plan --in-turn --blocks blocks model none script", refuses(f"script 1 line 2: {n}"), script=bench)
        add(f"the coordinate {text}", "info model prec --blocks blocks", refuses(f"blocks line 1: {n}"), blocks=f"0 0 {text} 0")
        continue
    facts = f"OBJECTIVE_FUNCTION\n0 {text}\nRESOURCE_CONSTRAINT_COEFFICIENTS\n0 0 {text}\nRESOURCE_CONSTRAINT_LIMITS\n0 0 I {text} {text}\n"
    wanted = prints(table((1, n, n, n, n), (0, 0, 0, None, None)))
    add(f"the decimal {text}", "table model sol", wanted, model=HEADER + facts.encode(), sol="0 0")
    # A bench by the number as it is printed, of a place by the text, and the other way round.
    for place, bench in (text, number(n, 6)), (number(n, 6), text):
        add(f"the height {text}", "plan --in-turn --blocks blocks model none script", prints("0 0\n", 0, COMMITTED),
            model=HEADER, blocks=f"0 0 0 {place}\n1 0 0 7", script=f"begin\nbench {bench} 0\ncommit\n")

EIGHT = "TYPE: CPIT\nNBLOCKS: 8\nNPERIODS: 8\nNRESOURCE_SIDE_CONSTRAINTS: 0\nDISCOUNT_RATE: 0.1\n"
WHOLES = [
    # The text, and the number; or why it is none.
    ("007", 7),
    ("4294967296", "number too large"),
    ("0" * 39, "number too long"),
    ("+1", "bad number"),
]

add("the greatest whole number as a block", "show model sol", refuses("schedule line 1: block out of range"), sol="4294967295 0")
add("the greatest whole number as a period", "show model sol", refuses("schedule line 1: period out of range"), sol="0 4294967295")
add("the greatest whole number as a count", "info model prec", refuses("precedence line 1: predecessor count"), prec="0 4294967295")
for text, n in WHOLES:
    block, period = f"{text} 1\n", f"1 {text}\n"
    if isinstance(n, str):
        for sol in block, period:
            add(f"the whole number {text}", "show model sol", refuses(f"schedule line 1: {n}"), model=EIGHT, sol=sol)
        add(f"the count {text}", "info model prec", refuses(f"precedence line 1: {n}"), model=EIGHT, prec=f"0 {text}")
        continue
    add(f"the block {text}", "show model sol", prints(f"{n} 1\n"), model=EIGHT, sol=block)
    add(f"the period {text}", "show model sol", prints(f"1 {n}\n"), model=EIGHT, sol=period)
    add(f"the size {text}", "show model sol", prints("6 6\n"), model=EIGHT.replace("8", text), sol="6 6")
    add(f"beyond the size {text}", "show model sol", refuses("schedule line 1: block out of range"), model=EIGHT.replace("8", text), sol="7 6")

# The factor of a period, in units of 10^-12, is the one before, divided by one plus the rate, rounded half up. 10^12 / 1.1 is 909090909090.9.., and
# 909090909091 / 1.1 is 826446280991.8... With a rate of 1 each is half of the one before: 10^12 / 2^12 is 244140625, and half of that 122070312.5. With
# a rate of 1000 each is divided by 1001: 999000999.0.., 998002.9.., 997.0.., 0.9.., and 0.0...
THOUSAND = "TYPE: CPIT\nNBLOCKS: 1\nNPERIODS: 1000\nNRESOURCE_SIDE_CONSTRAINTS: 0\nDISCOUNT_RATE: {}\nOBJECTIVE_FUNCTION\n0 {}\n"
VALUES = [
    # The rate, the profit of the only block, its period, and the value.
    ("0.1", "1", 0, "1.000000000000000000"),
    ("0.1", "1", 1, "0.909090909091000000"),
    ("0.1", "1", 2, "0.826446280992000000"),
    ("1", "1", 12, "0.000244140625000000"),
    ("1", "1", 13, "0.000122070313000000"),
    ("1000", "-1", 1, "-0.000999000999000000"),
    ("1000", "-1", 3, "-0.000000000997000000"),
    ("1000", "-0.000001", 4, "-0.000000000000000001"),
    ("1000", "-1", 5, "0.000000000000000000"),
    ("1000", "-1", 999, "0.000000000000000000"),
]

for rate, profit, t, value in VALUES:
    add(f"the factor of period {t} at a rate of {rate}", "value model sol", prints(f"{value}\n"), model=THOUSAND.format(rate, profit), sol=f"0 {t}")


# Numbers and solutions as they are printed.
add("the value of the small pit", "value model sol", prints("37.772727272730000000\n"))
add("a value below zero", "value model sol", prints("-9.090909090910000000\n"), sol="0 1")
add("no value", "value model none", prints("0.000000000000000000\n"))
add("the least value below zero, among words", "check model none sol", prints("value -0.000000000000000001\nfine\n"),
    model=THOUSAND.format(1000, "-0.000001"), sol="0 4")
add("loads", "table model sol", prints(columns(3) + "0,1,0.000000000000000000,0.000000000000000000,0.000001,,,,-0.500000,,,,0.000000,,,\n"),
    model="TYPE: CPIT\nNBLOCKS: 1\nNPERIODS: 1\nNRESOURCE_SIDE_CONSTRAINTS: 3\nDISCOUNT_RATE: 0\n"
          "RESOURCE_CONSTRAINT_COEFFICIENTS\n0 0 0.000001\n0 1 -0.5\n0 2 0\n", sol="0 0")
WIDE = "TYPE: CPIT\nNBLOCKS: 4000\nNPERIODS: 1000\nNRESOURCE_SIDE_CONSTRAINTS: 0\nDISCOUNT_RATE: 0.1\n"
add("a solution", "show model sol", prints("0 12\n1 0\n"), model=WIDE, sol="1 0\n0 12\n")
add("a late period", "show model sol", prints("1 1\n3 999\n"), model=WIDE, sol="1 1\n3 999\n")
# Each third block has no period. The text is past two chunks of 8,192 bytes.
lines = [f"{b} {b * 2_654_435_761 % 2**32 % 1000}\n" for b in range(4000) if b % 3 != 2]
assert len("".join(lines)) > 16_384
add("a long solution", "show model sol", prints("".join(lines)), model=WIDE, sol="".join(reversed(lines)))
