"""For the python scripts beside it: each case prints a line, `ok`, `FAIL` or `skip`, and the last line says how many there were of each.

Its twin for shell scripts is judge.sh.
"""
import re
import sys

passed = failures = skipped = 0


def well(name, cases=1):
    """A case that is well, or so many of them that share a line."""
    global passed
    print(f"ok    {name}")
    passed += cases


def wrong(name, said, again):
    """A case that isn't: what is said of it, and the command that repeats it alone."""
    global failures
    print(f"FAIL  {name}")
    for line in [*str(said).splitlines(), f"again: {again}"]:
        print(f"      {line}")
    failures += 1


def skip(name, why):
    """A case that can't be judged here."""
    global skipped
    print(f"skip  {name}: {why}")
    skipped += 1


def judged():
    """Ends the script, with status 1 where a case failed, or none was there."""
    print(f"{passed} passed, {failures} failed, {skipped} skipped")
    sys.exit(1 if failures or not passed + skipped else 0)


def part_of(word):
    """The numbers of a part N/M, the Nth of M parts, or None where the word is no part."""
    found = re.fullmatch(r"([1-9]\d*)/([1-9]\d*)", word)
    part = found and (int(found[1]), int(found[2]))
    return part if part and part[0] <= part[1] else None
