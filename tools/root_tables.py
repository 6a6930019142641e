#!/usr/bin/env python3
"""Prints the constants of `end_and_slope` and `bends` in crates/arith/src/square_root.rt.

For each sixteenth of two octaves a cubic goes through the root at four Chebyshev points. It is
written from the sixteenth's end: the root there, and by how much it falls towards the start, which
lies 2^19 significands before. All is 2^7 times the root, and the end has a half more, so that what is
cut off rounds; slope and bend are 2^6 times finer still, and the change 2^17 times. The proof asks
nothing of these numbers: they set how often the first guess is right.
"""
from decimal import Decimal, getcontext

getcontext().prec = 70
WIDTH = 1 << 19
ROOT_TWO = Decimal(2).sqrt()
COSINES = [(2 + ROOT_TWO).sqrt() / 2, (2 - ROOT_TWO).sqrt() / 2]
POINTS = [(1 - c) / 2 for c in COSINES] + [(1 + c) / 2 for c in reversed(COSINES)]


def coefficients(values):
    """The cubic through `values` at POINTS, by Newton's divided differences, lowest power first."""
    table = list(values)
    for order in range(1, 4):
        for i in range(3, order - 1, -1):
            table[i] = (table[i] - table[i - 1]) / (POINTS[i] - POINTS[i - order])
    powers = [table[3], Decimal(0), Decimal(0), Decimal(0)]
    for i in (2, 1, 0):
        powers = [table[i] - POINTS[i] * powers[0]] + [powers[j - 1] - POINTS[i] * powers[j] for j in (1, 2, 3)]
    return powers


def row(odd, part):
    end = (1 << 23) + (part + 1) * WIDTH
    root = lambda u: (Decimal(end) - u * WIDTH).sqrt() * (Decimal(2) ** (23 + odd)).sqrt() * 128
    at_end, slope, bend, change = coefficients([root(u) for u in POINTS])
    whole = lambda x: int(x.to_integral_value())
    return whole(at_end) + 64, whole(-slope * 2**6), whole(-bend * 2**6), whole(-change * 2**17)


def show(name, pairs):
    print(name)
    for at, (high, low) in enumerate(pairs):
        print(f"    {at if at < 31 else '_'} => 0x{high:08x}_{low:08x},")


rows = [row(odd, part) for odd in (0, 1) for part in range(16)]
show("end_and_slope", [(a, b) for a, b, _, _ in rows])
show("bends", [(c, d) for _, _, c, d in rows])
