#!/usr/bin/env python3
"""Prints the entries of a table after another, of what precedes an item, and of an item's context, each summed by itself from
the formulas, in exact whole numbers. The tables that they are made of follow a rule that spreads their digits."""
from enclosure_cases import LOW, ZERO, plus, times

# the number of cells, and how many entries of the first table, the second and the context may be other than zero
CASES = [(1, 1, 1, 1), (2, 3, 3, 2), (3, 6, 5, 6), (7, 27, 25, 28)]


def made(number):
    x = number * 0x9E3779B97F4A7C15 % 2**64
    if x % 7 == 0:
        return ZERO
    hi = LOW + x // 4
    return hi - x % 1024, hi, -62 - x // 2**61


def places(cells):
    return [(a, b) for a in range(cells) for b in range(a, cells)]


def table(cells, kept, first):
    return {at: made(first + k) if k < kept else ZERO for k, at in enumerate(places(cells))}


def total(terms):
    whole = ZERO
    for term in terms:
        whole = plus(whole, term)
    return whole


def then(cells, p, t):
    return [total(times(p[a, c], t[c, b]) for c in range(a, b + 1)) for a, b in places(cells)]


def back(cells, v, t):
    return [total(times(v[a, d], t[c, d]) for d in range(cells - 1, c - 1, -1)) for a, c in places(cells)]


def into_sequence(cells, p, v):
    return [total(times(p[a, c], v[a, d]) for a in range(c + 1)) for c, d in places(cells)]


def text(entry):
    lo, hi, exp = entry
    return "(0, 0, 0)" if entry == ZERO else f"({lo:#018x}, {hi:#018x}, {exp})"


if __name__ == "__main__":
    for cells, left, right, context in CASES:
        p, t, v = table(cells, left, 1300), table(cells, right, 1400), table(cells, context, 1500)
        calls = {"then": then(cells, p, t), "back": back(cells, v, t), "into_sequence": into_sequence(cells, p, v)}
        for name, entries in calls.items():
            print(f"{name} on {cells} cells")
            for entry in entries:
                print(f"    {text(entry)},")
