#!/usr/bin/env python3
"""Chooses blocks whose numbers collide in the hash of the program's sets, of a pit of 4,194,304, and draws as many.

usage: bench/hostile.py PREFIX COUNT [MULTIPLIER]      writes PREFIX.chosen and PREFIX.drawn, a number in each line, rising

The lowest bits of a number's hash name the group of the table in which the number is looked for first; then come the groups behind it, as long as these
have overflowed. So blocks are chosen whose first groups lie as close together as can be, in a table that has just grown for COUNT of them. MULTIPLIER
is the hash's own; where none is said, the one that serves where none is drawn. The same words always make the same files.
"""
import random
import sys
from array import array

BLOCKS = 4_194_304
MULTIPLIER = 0x9E37_79B9_7F4A_7C15
# How many numbers a group has on average before the table grows, which doubles its groups.
LOAD = 9


def main():
    if len(sys.argv) not in (3, 4) or not 1 <= int(sys.argv[2]) <= BLOCKS:
        sys.exit(__doc__)
    prefix, count = sys.argv[1], int(sys.argv[2])
    multiplier = int(sys.argv[3], 0) if len(sys.argv) == 4 else MULTIPLIER
    write(prefix + ".chosen", chosen(count, multiplier))
    write(prefix + ".drawn", sorted(random.Random(1).sample(range(BLOCKS), count)))


def write(path, numbers):
    with open(path, "w", encoding="ascii", newline="\n") as file:
        file.writelines(f"{number}\n" for number in numbers)


def chosen(count, multiplier):
    groups = 1
    while LOAD * groups < count:
        groups *= 2
    firsts = array("I", (hash_of(block, multiplier) & (groups - 1) for block in range(BLOCKS)))
    in_group = [0] * groups
    for group in firsts:
        in_group[group] += 1
    begin, length = shortest_run(in_group, count)
    return [block for block, group in enumerate(firsts) if (group - begin) % groups < length][:count]


def hash_of(block, multiplier):
    """The hash of a number of four bytes, by `Keys` of `pit_keyed`."""
    return block * (multiplier | 1) % 2**64 >> 32


def shortest_run(in_group, count):
    """The first group and the length of the shortest run of groups, over the end if need be, that are first for so many blocks."""
    groups = len(in_group)
    best = (0, groups)
    end = held = 0
    for begin in range(groups):
        while held < count:
            held += in_group[end % groups]
            end += 1
        if end - begin < best[1]:
            best = (begin, end - begin)
        held -= in_group[begin]
    return best


main()
