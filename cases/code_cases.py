#!/usr/bin/env python3
"""Prints the codes of rows, tables and marginals in hexadecimal, from the rules of their bytes.

Nodes have names here, which leave no trace in a code.
"""
from struct import pack

FREE = ("D",)
BOUNDARY = ("B",)


def exact(year):
    return ("X", year)


def normal(year, error):
    return ("N", year, error)


def carbon(age, error):
    return ("C", age, error)


def group(letter):
    return lambda *members: (letter, members)


SEQUENCE, PHASE, AFTER, BEFORE = map(group, "SPAF")


def year_bytes(year):
    """A year in cal BP; `>H` is two bytes, the high one first, and `>I` four."""
    return pack(">H", year + 1000)


def node_bytes(node):
    letter, *values = node
    front = letter.encode()
    if letter == "X":
        return front + year_bytes(values[0])
    if letter == "N":
        return front + year_bytes(values[0]) + pack(">I", values[1])
    if letter == "C":
        return front + pack(">I", values[0] + 2_000_000) + pack(">I", values[1])
    if letter in "SPAF":
        members = values[0]
        return front + pack(">H", len(members)) + b"".join(map(node_bytes, members))
    return front


def code(letter, grid, curve, content):
    older, younger = grid
    return (letter.encode() + year_bytes(older) + year_bytes(younger) + bytes([curve]) + content).hex()


def marginal(grid, curve, event, *top):
    return code("M", grid, curve, node_bytes(PHASE(*top)) + pack(">H", event))


GRID = (2001, 1999)
DATINGS = [
    ("free", FREE),
    ("exact, the oldest and the youngest year", exact(60_000)),
    ("", exact(-1_000)),
    ("normal, the least and the greatest error", normal(60_000, 1_000)),
    ("", normal(-1_000, 10_000_000)),
    ("carbon, the least and the greatest age", carbon(-2_000_000, 1_000)),
    ("", carbon(60_000_000, 10_000_000)),
    ("thousandths", carbon(2_340_125, 30_500)),
]
GRIDS = [(60_000, 59_489), (-489, -1_000), (-1_000, -1_000), (2_001, 1_999)]
SITE = [
    SEQUENCE(BOUNDARY, PHASE(FREE, exact(2_000), AFTER(carbon(2_340_000, 30_000))), BOUNDARY),
    BEFORE(normal(2_010, 5_000)),
    FREE,
]

if __name__ == "__main__":
    print("marginal code of the first event of a Sequence")
    print(marginal(GRID, 0, 0, SEQUENCE(FREE, normal(1_999, 5_000))))
    print("rows")
    for title, dating in DATINGS:
        print(f"// {title}\n{code('R', GRID, 1, node_bytes(dating))}")
    print("grids and curves")
    for curve, grid in zip((0, 1, 4, 255), GRIDS):
        print(f"{grid} {curve}: {code('R', grid, curve, node_bytes(FREE))}")
    print("tables of the nodes of the site, in the order of the text")
    nodes = list(SITE)
    while nodes:
        node, *nodes = nodes
        if node[0] in "SPAF":
            nodes = list(node[1]) + nodes
        print(code("T", GRID, 4, node_bytes(node)))
    print("marginals of the site")
    for event in (0, 6):
        print(marginal(GRID, 4, event, *SITE))
    print("a model of one event, and one at all limits in pieces")
    print(marginal(GRID, 4, 0, FREE))
    deep = FREE
    for _ in range(15):
        deep = PHASE(deep)
    pieces = ["4d0bb90bb700500091", "500001" * 15, "44" * 100, "410000" * 45, "0063"]
    assert marginal(GRID, 0, 99, deep, *[FREE] * 99, *[AFTER()] * 45) == "".join(pieces)
    print(pieces)
    assert marginal(GRID, 0, 0, SEQUENCE(FREE, normal(1_999, 5_000))) == "4d0bb90bb700500001530002444e0bb7000013880000"
