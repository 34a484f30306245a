#!/usr/bin/env python3
"""Writes a made-up pit whose lines stand in no order of blocks, and a solution that gives every block a period.

usage: bench/orders.py PREFIX BLOCKS RESOURCES PERIODS SEED      writes PREFIX.cpit, PREFIX.prec, PREFIX.blocks and PREFIX.sol

The profits are shuffled, and the coefficients are listed resource by resource, one for each block and resource; with 0 resources there are
none. No block has a predecessor. The same words always make the same files.
"""
import random
import sys


def main():
    if len(sys.argv) != 6:
        sys.exit(__doc__)
    prefix = sys.argv[1]
    blocks, resources, periods, seed = (int(word) for word in sys.argv[2:])
    draw = random.Random(seed)
    shuffled = list(range(blocks))
    draw.shuffle(shuffled)
    with open(prefix + ".cpit", "w", encoding="ascii", newline="\n") as model:
        model.write(
            f"NAME: {blocks} in no order\nTYPE: CPIT\nNBLOCKS: {blocks}\nNPERIODS: {periods}\n"
            f"NRESOURCE_SIDE_CONSTRAINTS: {resources}\nDISCOUNT_RATE: 0.1\nOBJECTIVE_FUNCTION:\n"
        )
        for block in shuffled:
            model.write(f"{block} {draw.randrange(-900_000, 9_000_000) / 100:.2f}\n")
        model.write("RESOURCE_CONSTRAINT_COEFFICIENTS:\n")
        for resource in range(resources):
            for block in range(blocks):
                model.write(f"{block} {resource} {draw.randrange(8000, 16000)}\n")
        model.write("RESOURCE_CONSTRAINT_LIMITS:\nEOF\n")
    with open(prefix + ".prec", "w", encoding="ascii", newline="\n") as precedence:
        for block in range(blocks):
            precedence.write(f"{block} 0\n")
    with open(prefix + ".blocks", "w", encoding="ascii", newline="\n") as places:
        for block in range(blocks):
            places.write(f"{block} {block % 100} {block // 100 % 100} {block // 10_000}\n")
    with open(prefix + ".sol", "w", encoding="ascii", newline="\n") as solution:
        for block in range(blocks):
            solution.write(f"{block} {block * periods // blocks}\n")


main()
