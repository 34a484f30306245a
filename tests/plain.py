#!/usr/bin/env python3
"""Has a built `pit` read each text twice: with plain lines, which it reads in one pass, and with the same lines in other forms, which it reads field by
field. What it prints and its status have to be the same.

usage: tests/plain.py PIT [PITS [SEED]]      60 pits from seed 1, where these aren't said

Plain are digits with single blanks between and a line feed behind, in some texts a minus and a point. The other forms have doubled blanks, tabs, colons,
carriage returns, blanks at the ends of lines, or zeros before numbers. Whole numbers have 1 to 12 digits, on both sides of the nine that a plain line may
have, and decimals up to 16 and 7, on both sides of its twelve before a point and six behind it. Some texts have faults, and one pit's texts are cut behind
each byte. Ends with status 1 where there is a difference, and leaves the texts. Each pit is a case, and so is each text that is cut.
"""
import os
import random
import re
import subprocess
import sys
import tempfile

sys.dont_write_bytecode = True
sys.path.insert(0, os.path.dirname(os.path.abspath(__file__)))
import judge  # noqa: E402

if len(sys.argv) < 2 or not os.access(sys.argv[1], os.X_OK):
    sys.exit("usage: tests/plain.py PIT [PITS [SEED]]")
PROGRAM = os.path.abspath(sys.argv[1])
PITS = int(sys.argv[2]) if len(sys.argv) > 2 else 60
SEED = int(sys.argv[3]) if len(sys.argv) > 3 else 1


def each_line(text, change):
    """The text with each line changed that isn't empty. What ends a line stays."""
    return b"\n".join(change(line) if line else line for line in text.split(b"\n"))


def long_numbers(text):
    """The text with eleven zeros before each field that is a number."""
    return re.sub(rb"(?m)(^|(?<=[ ]))(-?)(?=[0-9.]+(?: |$))(?=\.?[0-9])", rb"\1\g<2>00000000000", text)


FORMS = {
    "doubled blanks": lambda text: text.replace(b" ", b"  "),
    "tabs": lambda text: text.replace(b" ", b"\t"),
    "colons": lambda text: text.replace(b" ", b":"),
    "carriage returns": lambda text: text.replace(b"\n", b"\r\n"),
    "blanks before": lambda text: each_line(text, lambda line: b" " + line),
    "blanks behind": lambda text: each_line(text, lambda line: line + b" "),
    "zeros": long_numbers,
}


def number(draw, n):
    """A number, at times with zeros before it."""
    return str(n).zfill(draw.choice([1, 1, 1, 2, 5, 8, 9, 10, 12]))


def value(draw):
    whole = draw.choice(["0", "7", "12", "345", "98765432", "123456789012", "0123456789012", "0000000000000001"])
    return draw.choice(["", "", "-"]) + whole + draw.choice(["", "", ".", ".5", ".000001", ".123456", ".1234567"])


WRONG = [
    "-", ".", "-.", "--1", "1-", "1-2", "1.2.3", "+4", "1e3", "4294967295", "4294967296", "9999999999", "18446744073709551616", "1" * 19, "1" * 20,
    "1" * 39, "999999999999.9999995", "x", "", "7 7", "%", "EOF", "-0", "00", "\x80",
]


def drawn_texts(draw):
    """Model, precedences, blocks and solution of a small pit, as lists of lines."""
    blocks, periods, resources = draw.randint(1, 9), draw.randint(1, 3), draw.randint(0, 2)
    model = [
        "NAME: drawn", "TYPE: CPIT", f"NBLOCKS: {blocks}", f"NPERIODS: {periods}", f"NRESOURCE_SIDE_CONSTRAINTS: {resources}", "DISCOUNT_RATE: 0.1",
        "OBJECTIVE_FUNCTION:",
    ]
    model += [f"{number(draw, b)} {value(draw)}" for b in range(blocks) if draw.random() < 0.9]
    model.append("RESOURCE_CONSTRAINT_COEFFICIENTS:")
    model += [f"{number(draw, b)} {r} {value(draw)}" for b in range(blocks) for r in range(resources) if draw.random() < 0.7]
    model.append("RESOURCE_CONSTRAINT_LIMITS:")
    model += [f"{r} {t} {draw.choice('LG')} {value(draw)}" for r in range(resources) for t in range(periods) if draw.random() < 0.5]
    precedences = []
    for b in range(blocks):
        before = [number(draw, a) for a in range(b) if draw.random() < 0.4]
        if before or draw.random() < 0.3:
            precedences.append(" ".join([number(draw, b), str(len(before)), *before]))
    places = [f"{number(draw, b)} {value(draw)} {value(draw)} {value(draw)}" for b in range(blocks)]
    solution = [f"{number(draw, b)} {number(draw, draw.randrange(periods))}" for b in range(blocks) if draw.random() < 0.8]
    return [model, precedences, places, solution]


def spoil(draw, texts):
    """Puts a wrong field, line or order into one of the texts."""
    text = draw.choice([it for it in texts if it])
    at = draw.randrange(len(text))
    fields = text[at].split(" ")
    how = draw.randrange(4)
    if how == 0:
        fields[draw.randrange(len(fields))] = draw.choice(WRONG)
        text[at] = " ".join(fields)
    elif how == 1:
        text.insert(at, text[at])
    elif how == 2:
        del fields[-1]
        text[at] = " ".join(fields)
    else:
        text.insert(at, draw.choice(["", "% no line", "0 0", "8 1 0", "  ", "EOF"]))


def written(draw, lines):
    """The bytes of a text, at times without the last line feed."""
    text = "\n".join(lines).encode("latin-1")
    return text + (b"\n" if lines and draw.random() < 0.9 else b"")


COMMANDS = [("value", "model", "solution"), ("check", "model", "precedences", "solution"), ("info", "model", "precedences", "--blocks", "places")]
NAMES = ["model", "precedences", "places", "solution"]


def said(folder, command):
    run = subprocess.run([PROGRAM, *command], cwd=folder, capture_output=True, stdin=subprocess.DEVNULL)
    return run.returncode, run.stdout, run.stderr


def put(folder, texts):
    for name, text in zip(NAMES, texts):
        with open(os.path.join(folder, name), "wb") as file:
            file.write(text)


class Differs(Exception):
    """A text of which something else is said in another form."""


def compare(texts, commands, forms):
    """Compares what is said of the texts with what is said of them in each other form, and returns the statuses."""
    with tempfile.TemporaryDirectory() as folder:
        put(folder, texts)
        plain = [said(folder, command) for command in commands]
        for form in forms:
            put(folder, [FORMS[form](text) for text in texts])
            for command, first in zip(commands, plain):
                # `info` shows the first field of a line in the header that nothing reads.
                if form == "zeros" and command[0] == "info":
                    continue
                other = said(folder, command)
                if other != first:
                    kept = tempfile.mkdtemp(prefix="plain-")
                    put(kept, texts)
                    raise Differs(f"{command[0]}, with {form}: {first} became {other}\nthe texts are in {kept}")
    return [it[0] for it in plain]


def of_seed(seed):
    """One drawn pit, and the statuses that its plain texts ended with."""
    draw = random.Random(seed)
    texts = drawn_texts(draw)
    for _ in range(draw.choice([0, 0, 1, 1, 2])):
        spoil(draw, texts)
    return compare([written(draw, it) for it in texts], COMMANDS, FORMS)


def cut(k, command):
    """The text at this place among those of the first pit, cut behind each byte."""
    whole = [("\n".join(it) + "\n").encode() for it in drawn_texts(random.Random(SEED))]
    for end in range(len(whole[k]) + 1):
        try:
            compare([it[:end] if at == k else it for at, it in enumerate(whole)], [command], ["doubled blanks", "zeros"])
        except Differs as differs:
            raise Differs(f"cut behind {end} bytes: {differs}") from None


def main():
    done, statuses = 0, set()
    for seed in range(SEED, SEED + PITS):
        try:
            statuses |= set(of_seed(seed))
            done += 1
        except Differs as differs:
            judge.wrong(f"a pit of seed {seed}", differs, f"tests/plain.py {sys.argv[1]} 1 {seed}")
    if done:
        judge.well(f"pits from seed {SEED}: {done} cases", done)
    again = f"tests/plain.py {sys.argv[1]} {PITS} {SEED}"
    for k, command in (0, COMMANDS[0]), (1, COMMANDS[1]), (2, COMMANDS[2]), (3, COMMANDS[0]):
        try:
            cut(k, command)
            judge.well(f"{NAMES[k]}, cut behind each byte")
        except Differs as differs:
            judge.wrong(f"{NAMES[k]}, cut behind each byte", differs, again)
    # Texts that are read and texts that are refused come up, so the draws are of use. One pit alone has not both.
    if PITS > 1:
        if {0, 2} <= statuses:
            judge.well("texts that are read and texts that are refused came up")
        else:
            judge.wrong("texts that are read and texts that are refused came up", f"only the statuses {sorted(statuses)} came up", again)
    judge.judged()


if __name__ == "__main__":
    main()
