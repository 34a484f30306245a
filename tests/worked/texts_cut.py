"""Each text of the small pit, cut behind each byte."""
from texts import FILES, MODEL, ONE, PLACES, PRECEDENCES, SOLUTION, adds_to, info, prints, refuses, table

CASES = []
add = adds_to(CASES)


def cuts(about, words, name, whole, pieces, add, had=()):
    """A case for each front of a text but those that other cases have had.

    Where a front ends behind a byte of a piece, what comes is what stands beside it; the first piece has no byte.
    """
    text = b""
    for piece, want in pieces:
        for byte in [piece[at : at + 1] for at in range(len(piece))] or [b""]:
            text += byte
            if text not in had:
                add(f"{about}, cut behind {len(text)} bytes", words, want, **{name: text})
    assert text == whole


def told(profit, load=0, lower=None, upper=(None, None)):
    """The table of all four blocks in period 0."""
    return prints(table((4, profit, load, None, upper[0]), (0, 0, 0, lower, upper[1])))


def model_fault(why):
    return refuses(f"model {why}")


WHOLE_PROFIT = 45_500_000
MODEL_PIECES = [
    # Where a header ends before a key that is needed, the line is one more than the lines so far.
    (b"", model_fault("line 1: missing TYPE")),
    (b"NAME: Tiny\n", model_fault("line 2: missing TYPE")),
    (b"TYP", model_fault("line 3: missing TYPE")),
    (b"E: ", model_fault("line 2: bad TYPE")),
    (b"CPI", model_fault("line 2: not cpit")),
    (b"T\n", model_fault("line 3: missing NBLOCKS")),
    (b"NBLOCK", model_fault("line 4: missing NBLOCKS")),
    (b"S: ", model_fault("line 3: bad NBLOCKS")),
    (b"4\n", model_fault("line 4: missing NPERIODS")),
    (b"NPERIOD", model_fault("line 5: missing NPERIODS")),
    (b"S: ", model_fault("line 4: bad NPERIODS")),
    (b"2\n", model_fault("line 5: missing NRESOURCE_SIDE_CONSTRAINTS")),
    (b"NRESOURCE_SIDE_CONSTRAINT", model_fault("line 6: missing NRESOURCE_SIDE_CONSTRAINTS")),
    (b"S: ", model_fault("line 5: bad NRESOURCE_SIDE_CONSTRAINTS")),
    (b"1\n", model_fault("line 6: missing DISCOUNT_RATE")),
    (b"DISCOUNT_RAT", model_fault("line 7: missing DISCOUNT_RATE")),
    (b"E: ", model_fault("line 6: bad DISCOUNT_RATE")),
    (b"0.1\n", told(0)),
    # Before its last letter the section's name is a key that isn't listed.
    (b"OBJECTIVE_FUNCTION:\n", told(0)),
    (b"0 ", model_fault("line 8: field count")),
    (b"-", model_fault("line 8: bad number")),
    (b"1", told(-1_000_000)),
    (b"0\n", told(-10_000_000)),
    (b"1 ", model_fault("line 9: field count")),
    (b"2", told(-8_000_000)),
    (b"0.", told(10_000_000)),
    (b"5\n", told(10_500_000)),
    (b"2 ", model_fault("line 10: field count")),
    (b"3", told(13_500_000)),
    (b"0\n", told(40_500_000)),
    (b"3 ", model_fault("line 11: field count")),
    (b"5\n", told(WHOLE_PROFIT)),
    (b"RESOURCE_CONSTRAINT_COEFFICIENT", model_fault("line 12: field count")),
    (b"S:\n", told(WHOLE_PROFIT)),
    (b"0 0 ", model_fault("line 13: field count")),
    (b"2\n", told(WHOLE_PROFIT, 2 * ONE)),
    (b"1 0 ", model_fault("line 14: field count")),
    (b"2\n", told(WHOLE_PROFIT, 4 * ONE)),
    (b"2 0 ", model_fault("line 15: field count")),
    (b"3\n", told(WHOLE_PROFIT, 7 * ONE)),
    (b"3 0 ", model_fault("line 16: field count")),
    (b"1\n", told(WHOLE_PROFIT, 8 * ONE)),
    (b"RESOURCE_CONSTRAINT_LIMIT", model_fault("line 17: field count")),
    (b"S:\n", told(WHOLE_PROFIT, 8 * ONE)),
    (b"0 0 L ", model_fault("line 18: field count")),
    (b"4\n", told(WHOLE_PROFIT, 8 * ONE, None, (4 * ONE, None))),
    # An interval has two bounds, so a fifth field.
    (b"0 1 I 1 ", model_fault("line 19: field count")),
    (b"4\n", told(WHOLE_PROFIT, 8 * ONE, ONE, (4 * ONE, 4 * ONE))),
    (b"EO", model_fault("line 20: field count")),
    (b"F\n", told(WHOLE_PROFIT, 8 * ONE, ONE, (4 * ONE, 4 * ONE))),
]


def ordered(*counts):
    return prints(info(*counts))


PRECEDENCE_PIECES = [
    (b"", ordered(0, 4, "-")),
    (b"0 ", refuses("precedence line 1: field count")),
    (b"0\n", ordered(0, 4, "-")),
    (b"1 ", refuses("precedence line 2: field count")),
    (b"1 ", refuses("precedence line 2: predecessor count")),
    (b"0\n", ordered(1, 3, 1)),
    (b"2 ", refuses("precedence line 3: field count")),
    (b"2 0 ", refuses("precedence line 3: predecessor count")),
    (b"1\n", ordered(3, 2, 2)),
    (b"3 ", refuses("precedence line 4: field count")),
    (b"0\n", ordered(3, 2, 2)),
]


def placed(places):
    return prints(info(3, 2, 2, places))


PLACE_PIECES = [
    (b"", placed("0 0")),
    (b"0 0 0 ", refuses("blocks line 1: field count")),
    (b"2\n", placed("1 1")),
    (b"1 0 0 ", refuses("blocks line 2: field count")),
    (b"1\n", placed("2 2")),
    (b"2 0 0 ", refuses("blocks line 3: field count")),
    (b"0\n", placed("3 3")),
    (b"3 1 0 ", refuses("blocks line 4: field count")),
    (b"2\n", placed("4 3")),
]

SOLUTION_PIECES = [
    (b"", prints("")),
    (b"0 ", refuses("schedule line 1: field count")),
    (b"0\n", prints("0 0\n")),
    (b"1 ", refuses("schedule line 2: field count")),
    (b"0\n", prints("0 0\n1 0\n")),
    (b"2 ", refuses("schedule line 3: field count")),
    (b"1\n", prints("0 0\n1 0\n2 1\n")),
]

cuts("a model", "table model all", "model", MODEL, MODEL_PIECES, add)
cuts("precedences", "info model prec", "prec", PRECEDENCES, PRECEDENCE_PIECES, add, [PRECEDENCES])
cuts("places", "info model prec --blocks blocks", "blocks", PLACES, PLACE_PIECES, add, [PLACES])
cuts("a solution", "show model sol", "sol", SOLUTION, SOLUTION_PIECES, add, [b"", SOLUTION])
