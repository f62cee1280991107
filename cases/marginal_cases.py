#!/usr/bin/env python3
"""Prints the pairs of rows in parts per million, from the rounding rules, in exact whole numbers.

By fractions it sees that the pairs hold for both ends of every entry.
"""
from fractions import Fraction

from enclosure_cases import FULL, HALF, ONE, THIRD, ZERO, of_whole, plus, ppm, text


def finish(row):
    whole = ZERO
    for entry in row:
        whole = plus(whole, entry)
    return None if whole == ZERO else [ppm(entry, whole) for entry in row]


def value(end, exp):
    return Fraction(end) * Fraction(2) ** exp


def holds(row, pairs):
    """The pairs hold where every number is its lower end, its upper end, or one apart from the others."""
    low, high = ([value(e[end], e[2]) for e in row] for end in (0, 1))
    for k in range(len(row)):
        for x in (low, high, low[:k] + [high[k]] + low[k + 1:], high[:k] + [low[k]] + high[k + 1:]):
            whole, million = sum(x), 10**6
            assert all(lo * whole <= million * part <= hi * whole for (lo, hi), part in zip(pairs, x)), (row, pairs)


LOSS = 2**41 - 1
ROWS = [
    ("one cell", [of_whole(3)]),
    ("a half is exact, a third and a sixth are not", [of_whole(3), of_whole(2), ONE]),
    ("thirds that are rounded themselves", [THIRD, THIRD, THIRD]),
    ("zeros", [ZERO, of_whole(5), ZERO]),
    ("exponents far apart, in either order", [(HALF, HALF, -1000), ONE]),
    ("", [(FULL, FULL, 900), (HALF, HALF, -900), (FULL, FULL, 899)]),
    ("the greatest loss", [(HALF - LOSS, HALF, 0), (HALF - LOSS, HALF, 0), (HALF - LOSS, HALF, 1)]),
    ("a part near a whole number of parts per million", [of_whole(1), of_whole(10**6 - 1)]),
    ("", [of_whole(1), of_whole(10**6)]),
]

if __name__ == "__main__":
    for title, row in ROWS:
        pairs = finish(row)
        holds(row, pairs)
        assert all(hi <= lo + 3 for lo, hi in pairs) and sum(hi for _, hi in pairs) >= 10**6
        if title:
            print(f"// {title}")
        print(f"{[text(e) for e in row]}\n    {pairs}")
    assert finish([ZERO, ZERO]) is None
