#!/usr/bin/env python3
"""Prints the posteriors of small models, by listing every list of cells that keeps the order rule and the exact years.

Each weighs one over the cells of its spans, multiplied over their events. Of a model, a grid and an event it prints the
parts of the whole over one number, and their floors and ceilings in parts per million; whole numbers are marked.
"""
from fractions import Fraction
from itertools import accumulate, product
from math import lcm

DATE, BOUNDARY = ("Date", None), ("Boundary", None)


def exact(year):
    return ("Date", year)


def group(kind):
    return lambda *members: (kind, members)


SEQUENCE, PHASE, AFTER, BEFORE = map(group, ("Sequence", "Phase", "After", "Before"))


def is_event(node):
    return node[0] in ("Date", "Boundary")


def events_of(node, path=()):
    """The path and the exact year of each event, in the order of the text."""
    if is_event(node):
        return [(path, node[1])]
    return [e for place, member in enumerate(node[1]) for e in events_of(member, path + ((node[0], place),))]


def is_not_later(first, second):
    """Whether the event at the first path must not be later than that at the second."""
    part = next((i for i, (s, t) in enumerate(zip(first, second)) if s != t), None)
    if part is None or first[part][0] != "Sequence" or first[part][1] > second[part][1]:
        return False
    below_first = [kind for kind, _ in first[part + 1 :]]
    below_second = [kind for kind, _ in second[part + 1 :]]
    return "Before" not in below_first and "After" not in below_second


def pairs_of(node, number, outer):
    """For each event from this number on, the numbers of the Boundaries around it, or None."""
    if is_event(node):
        return [outer]
    kind, members = node
    numbers = list(accumulate((len(events_of(m)) for m in members), initial=number))
    pairs = []
    for place, member in enumerate(members):
        inner = None if kind in ("After", "Before") else outer
        if kind == "Sequence" and member[0] != "Boundary":
            older = [numbers[i] for i in range(place) if members[i][0] == "Boundary"]
            younger = [numbers[i] for i in range(place + 1, len(members)) if members[i][0] == "Boundary"]
            if older and younger:
                inner = (older[-1], younger[0])
        pairs += pairs_of(member, numbers[place], inner)
    return pairs


def sums_with(top, rows, event):
    """The sum of the weights of all datings with the event at each cell, where each event has a row of weights."""
    root = ("Phase", top)
    cells = len(rows[event])
    events, pairs = events_of(root), pairs_of(root, 0, None)
    order = [(i, j) for i, (p, _) in enumerate(events) for j, (q, _) in enumerate(events) if is_not_later(p, q)]
    sums = [Fraction(0)] * cells
    for dating in product(*([cell for cell in range(cells) if row[cell]] for row in rows)):
        if any(dating[i] > dating[j] for i, j in order):
            continue
        weight = Fraction(1)
        for row, cell in zip(rows, dating):
            weight *= row[cell]
        for pair in pairs:
            if pair is not None:
                weight /= dating[pair[1]] - dating[pair[0]] + 1
        sums[dating[event]] += weight
    return sums


def sums_of(top, older, younger, event):
    """The same where no dating has an error: each event weighs 1 where it may be."""
    years = range(older, younger - 1, -1)
    return sums_with(top, [[int(exact in (None, year)) for year in years] for _, exact in events_of(("Phase", top))], event)


TWO, THREE, FOUR = (2001, 2000), (2002, 2000), (2003, 2000)

CASES = [
    ("one alone", [DATE], TWO, [0]),
    ("one alone", [DATE], THREE, [0]),
    ("two side by side", [DATE, DATE], THREE, [1]),
    ("a Phase of two in a Sequence", [SEQUENCE(DATE, PHASE(DATE, DATE), DATE)], THREE, [0, 1, 2, 3]),
    ("a Sequence in a Phase in a Sequence", [SEQUENCE(DATE, PHASE(SEQUENCE(DATE, DATE), DATE), DATE)], THREE, [1, 2, 3]),
    ("an After group", [SEQUENCE(DATE, AFTER(DATE), DATE)], TWO, [0, 1, 2]),
    ("a Before group", [SEQUENCE(DATE, BEFORE(DATE), DATE)], TWO, [0, 1, 2]),
    ("an After and a Before group of two", [SEQUENCE(DATE, AFTER(DATE, DATE), BEFORE(DATE, DATE), DATE)], THREE, [0, 1, 3, 5]),
    ("an After group first and a Before group last", [SEQUENCE(AFTER(DATE), DATE, BEFORE(DATE))], THREE, [0, 1, 2]),
    ("two Boundaries", [SEQUENCE(BOUNDARY, DATE, BOUNDARY)], TWO, [0, 1, 2]),
    ("two Boundaries alone", [SEQUENCE(BOUNDARY, BOUNDARY)], THREE, [0, 1]),
    ("one Boundary alone", [SEQUENCE(DATE, BOUNDARY, DATE)], THREE, [0, 1, 2]),
    ("dates around two Boundaries", [SEQUENCE(DATE, BOUNDARY, DATE, DATE, BOUNDARY, DATE)], THREE, [0, 1, 2, 4, 5]),
    ("three Boundaries", [SEQUENCE(BOUNDARY, DATE, BOUNDARY, DATE, DATE, BOUNDARY)], THREE, [0, 1, 2, 3, 5]),
    ("a date before a span and nothing in the next", [SEQUENCE(DATE, BOUNDARY, DATE, BOUNDARY, BOUNDARY)], FOUR, [0, 1, 2, 4]),
    ("spans side by side", [PHASE(SEQUENCE(BOUNDARY, DATE, BOUNDARY), SEQUENCE(BOUNDARY, DATE, DATE, BOUNDARY))], TWO, [0, 4, 6]),
    ("nested spans", [SEQUENCE(BOUNDARY, SEQUENCE(BOUNDARY, DATE, BOUNDARY), BOUNDARY)], TWO, [0, 1, 2]),
    ("a span in a Phase in a span", [SEQUENCE(BOUNDARY, PHASE(SEQUENCE(BOUNDARY, DATE, BOUNDARY), DATE), BOUNDARY)], THREE, [0, 1, 2, 4, 5]),
    ("a Boundary of a nested Sequence", [SEQUENCE(BOUNDARY, SEQUENCE(DATE, BOUNDARY, DATE), BOUNDARY)], THREE, [0, 1, 2, 3, 4]),
    ("an After and a Before group in a span", [SEQUENCE(BOUNDARY, AFTER(DATE), DATE, BEFORE(DATE), BOUNDARY)], THREE, [0, 1, 2, 3, 4]),
    ("a span in an After group in a span", [SEQUENCE(BOUNDARY, AFTER(SEQUENCE(BOUNDARY, DATE, BOUNDARY), DATE), BOUNDARY)], TWO, [0, 1, 4, 5]),
    ("groups without members", [SEQUENCE(DATE, PHASE(), AFTER(), BEFORE(), SEQUENCE(), DATE), PHASE()], THREE, [0, 1]),
    ("nothing in a span", [SEQUENCE(BOUNDARY, PHASE(), BOUNDARY, DATE)], THREE, [0, 1, 2]),
    ("an exact year in a span", [SEQUENCE(BOUNDARY, exact(2001), DATE, BOUNDARY)], THREE, [0, 2, 3]),
    ("a Boundary in front, and a Phase beside", [SEQUENCE(BOUNDARY, DATE, DATE), PHASE(DATE)], THREE, [1]),
    ("a Boundary behind both dates", [SEQUENCE(BOUNDARY, DATE, DATE, BOUNDARY), PHASE(DATE)], THREE, [1]),
    ("the Boundary moved between them", [SEQUENCE(BOUNDARY, DATE, BOUNDARY, DATE), PHASE(DATE)], THREE, [1]),
    ("exact years in the wrong order", [SEQUENCE(exact(2000), exact(2001)), DATE], TWO, [2]),
]


def shares(sums):
    """What each part is of the whole, over one number; over 0 where no dating is allowed."""
    whole = sum(sums)
    if not whole:
        return [], 0
    over = lcm(*((part / whole).denominator for part in sums))
    return [int(part / whole * over) for part in sums], over


def pair(share, over):
    low, rest = divmod(10**6 * share, over)
    return f"({low}, {low + 1})" if rest else f"({low}, {low})!"


def main():
    for name, top, (older, younger), events in CASES:
        print(f"{name}, {older} to {younger}")
        for event in events:
            parts, over = shares(sums_of(top, older, younger, event))
            print(f"    {event}: {parts} of {over}:", ", ".join(pair(part, over) for part in parts) or "impossible")


if __name__ == "__main__":
    main()
