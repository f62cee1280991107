#!/usr/bin/env python3
"""Prints the entries of triangular tables, from the formulas, each summed by itself, in exact whole numbers.

By fractions it sees that both ends of every entry stand on either side of the exact value.
"""
from fractions import Fraction

from enclosure_cases import ONE, THIRD, THREE, TWO, ZERO, of_whole, over, plus, text, times

CELLS = 3
PLACES = [(a, b) for a in range(CELLS) for b in range(a, CELLS)]


def table(f):
    return {(a, b): f(a, b) for a, b in PLACES}


def total(terms):
    whole = ZERO
    for term in terms:
        whole = plus(whole, term)
    return whole


def upto(x, a, b):
    return total(x[a, c] for c in range(a, b + 1))


def power(s, n):
    return ONE if n == 0 else times(power(s, n - 1), over(ONE, of_whole(s)))


def then(p, t):
    return table(lambda a, b: total(times(p[a, c], t[c, b]) for c in range(a, b + 1)))


def then_row(p, w):
    return table(lambda a, b: times(upto(p, a, b), w[b]))


def beside(s, t):
    def at(a, b):
        second = times(s[a, b], upto(t, a, b))
        return second if a == b else plus(times(upto(s, a, b - 1), t[a, b]), second)
    return table(at)


def after_group(t):
    return table(lambda a, b: upto(t, 0, a) if a == b else t[0, b])


def before_group(t):
    return table(lambda a, b: upto(t, a, CELLS - 1) if a == b else ZERO)


def spanned(m, n):
    return table(lambda a, b: times(upto(m, a, b), power(b - a + 1, n)))


P = dict(zip(PLACES, [ONE, THIRD, ZERO, TWO, of_whole(5), THIRD]))
T = dict(zip(PLACES, [THREE, ZERO, THIRD, of_whole(7), ONE, TWO]))
W = [THIRD, of_whole(11), ZERO]


def value(e):
    """The exact value that an operand stands for."""
    return Fraction(1, 3) if e == THIRD else Fraction(e[0]) * Fraction(2) ** e[2]


def exact(f):
    return {k: f(*k) for k in PLACES}


def holds(enclosed, wanted):
    for k, e in enclosed.items():
        unit = Fraction(2) ** e[2]
        assert e[0] * unit <= wanted[k] <= e[1] * unit, (k, e, wanted[k])


if __name__ == "__main__":
    p, t, w = ({k: value(e) for k, e in x.items()} for x in (P, T, dict(enumerate(W))))
    r = range

    def sums(x, a, b):
        return sum(x[a, c] for c in r(a, b + 1))

    cases = {
        "IDENTITY": (table(lambda a, b: ONE if a == b else ZERO), exact(lambda a, b: int(a == b))),
        "ROW": (table(lambda a, b: W[b]), exact(lambda a, b: w[b])),
        "THEN": (then(P, T), exact(lambda a, b: sum(p[a, c] * t[c, b] for c in r(a, b + 1)))),
        "THEN_ROW": (then_row(P, W), exact(lambda a, b: sums(p, a, b) * w[b])),
        "BESIDE": (beside(P, T), exact(lambda a, b: sums(p, a, b) * sums(t, a, b) - sums(p, a, b - 1) * sums(t, a, b - 1))),
        "AFTER": (after_group(P), exact(lambda a, b: sums(p, 0, a) if a == b else p[0, b])),
        "BEFORE": (before_group(P), exact(lambda a, b: sums(p, a, CELLS - 1) if a == b else 0)),
        "SPANNED": (spanned(P, 2), exact(lambda a, b: sums(p, a, b) / (b - a + 1) ** 2)),
    }
    for name, x in ("P", P), ("T", T):
        print(f"static {name}: [Ends; 6] = [{', '.join(text(e) for e in x.values())}];\n")
    print(f"static W: [Ends; 3] = [{', '.join(map(text, W))}];\n")
    for name, (enclosed, wanted) in cases.items():
        holds(enclosed, wanted)
        print(f"static {name}: [Ends; 6] = [{', '.join(text(e) for e in enclosed.values())}];\n")
    print("total", text(total(T[0, b] for b in r(CELLS))))
