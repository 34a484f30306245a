#!/usr/bin/env python3
"""Writes a made-up pit of NX by NY blocks on NZ benches, and a solution that mines it bench by bench.

usage: bench/generate.py PREFIX NX NY NZ PERIODS SEED [REACH]      writes PREFIX.cpit and PREFIX.sol

Each block has a profit, and coefficients for two resources: tonnes moved, and tonnes milled where it is ore. In each period the upper limits
are 2 % above what the solution takes, and in each but the last the mill wants half of that at least; so the limits bind: the solution meets
them, and few further blocks go into a period. With REACH it writes PREFIX.prec and PREFIX.blocks too: a block has to be mined after those of
the bench above that are at most REACH blocks away in either direction. The same words always make the same files.
"""
import random
import sys


def main():
    if len(sys.argv) not in (7, 8):
        sys.exit(__doc__)
    prefix = sys.argv[1]
    nx, ny, nz, periods, seed = (int(word) for word in sys.argv[2:7])
    blocks = nx * ny * nz
    draw = random.Random(seed)
    loads = [[0, 0] for _ in range(periods)]
    with open(prefix + ".cpit", "w", encoding="ascii", newline="\n") as model:
        model.write(
            f"NAME: {nx} by {ny} by {nz}\nTYPE: CPIT\nNBLOCKS: {blocks}\nNPERIODS: {periods}\n"
            "NRESOURCE_SIDE_CONSTRAINTS: 2\nDISCOUNT_RATE: 0.1\nOBJECTIVE_FUNCTION:\n"
        )
        tonnes = []
        for block in range(blocks):
            ore = draw.random() < 0.3
            tonnes.append((draw.randrange(8000, 16000), ore))
            cents = draw.randrange(500_000, 9_000_000) if ore else -draw.randrange(100_000, 900_000)
            model.write(f"{block} {cents / 100:.2f}\n")
        model.write("RESOURCE_CONSTRAINT_COEFFICIENTS:\n")
        for block, (mass, ore) in enumerate(tonnes):
            period = period_of(block, nx * ny, nz, periods)
            model.write(f"{block} 0 {mass}\n")
            if ore:
                model.write(f"{block} 1 {mass}\n")
            if period < periods:
                loads[period][0] += mass
                loads[period][1] += mass * ore
        model.write("RESOURCE_CONSTRAINT_LIMITS:\n")
        for period, (moved, milled) in enumerate(loads):
            least = 0 if period + 1 == periods else milled // 2
            model.write(f"0 {period} L {moved * 51 // 50}\n1 {period} I {least} {milled * 51 // 50}\n")
        model.write("EOF\n")
    with open(prefix + ".sol", "w", encoding="ascii", newline="\n") as solution:
        for block in range(blocks):
            period = period_of(block, nx * ny, nz, periods)
            if period < periods:
                solution.write(f"{block} {period}\n")
    if len(sys.argv) == 8:
        write_order(prefix, nx, ny, nz, int(sys.argv[7]))


def period_of(block, bench, nz, periods):
    """The period of a block, past the last one where it stays: the top bench has the highest number and goes first; the deepest tenth stays."""
    depth = nz - 1 - block // bench
    return depth * periods * 10 // (nz * 9)


def write_order(prefix, nx, ny, nz, reach):
    with open(prefix + ".prec", "w", encoding="ascii", newline="\n") as precedence, open(
        prefix + ".blocks", "w", encoding="ascii", newline="\n"
    ) as places:
        for z in range(nz):
            for y in range(ny):
                for x in range(nx):
                    block = (z * ny + y) * nx + x
                    places.write(f"{block} {x} {y} {z}\n")
                    above = [
                        ((z + 1) * ny + j) * nx + i
                        for j in range(max(0, y - reach), min(ny, y + reach + 1))
                        for i in range(max(0, x - reach), min(nx, x + reach + 1))
                        if z + 1 < nz
                    ]
                    precedence.write(" ".join(str(n) for n in [block, len(above), *above]) + "\n")


main()
