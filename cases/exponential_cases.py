#!/usr/bin/env python3
"""Prints bounds of e^-z, from the rules of their recipe, in exact whole numbers; a chain goes by its index's parity.

By fractions it sees that the start encloses both Taylor sums and that the result has the stated loss, and by
decimals of 60 digits that e^-z lies between the ends.
"""
from decimal import Decimal, localcontext
from fractions import Fraction
from math import ceil, factorial, floor

LOW, TOP = 2**62, 2**63
S = 2**62
MOST = 2**28


def up(n, d):
    return -(-n // d)


def norm(lo, hi, e):
    if hi < LOW:
        s = next(s for s in range(63) if LOW <= hi << s < TOP)
        return lo << s, hi << s, e - s
    if hi < TOP:
        return lo, hi, e
    s = next(s for s in range(hi.bit_length() + 1) if up(hi, 2**s) < TOP)
    return lo // 2**s, up(hi, 2**s), e + s


def chain(y, last, even_rounds_down):
    """S times the Taylor sum up to this term, rounded on the one side where the index is even, else on the other."""
    below, above = floor(y * S), ceil(y * S)
    value = S
    for j in range(last, 0, -1):
        if ((j - 1) % 2 == 0) == even_rounds_down:
            value = S - ceil(Fraction(above * value, S * j))
        else:
            value = S - floor(Fraction(below * value, S * j))
    return value


def taylor(y, last):
    return sum((-y) ** k / factorial(k) for k in range(last + 1))


def exp_neg(p, q):
    z = Fraction(p, q)
    h = next(h for h in range(31) if z / 2**h <= Fraction(1, 4))
    y = z / 2**h
    low, high = chain(y, 17, True), chain(y, 16, False)
    if q < 2**20:
        assert Fraction(low, S) <= taylor(y, 17) <= taylor(y, 16) <= Fraction(high, S)
    lo, hi, e = norm(low, high, -62)
    assert (hi - lo) * 2**62 <= 6 * hi
    for _ in range(h):
        lo, hi, e = norm(lo * lo, hi * hi, 2 * e)
    assert (hi - lo) * 2**62 <= 9 * 2**h * hi and abs(e) <= 2**31
    return lo, hi, e


def encloses_true_value(p, q):
    """The logarithms of both ends stand on the two sides of -p/q."""
    lo, hi, e = exp_neg(p, q)
    with localcontext() as context:
        context.prec = 60
        two, slack = Decimal(2).ln(), Decimal(10) ** -45
        z = Decimal(p) / Decimal(q)
        below, above = Decimal(lo).ln() + e * two, Decimal(hi).ln() + e * two
        return below <= -z + slack and -z - slack <= above


MERSENNE = 2**89 - 1
CASES = [
    (0, 1), (0, 2**96 - 1), (1, 2**96 - 1), (1, 4), (1, 3), (1, 2), (1, 1), (3, 2), (10, 1), (100, 1), (MOST, 1),
    (MOST - 1, 1), (10**6 + 3, 10**5 + 3),
    # where a quotient rounded to the wrong side shows in both ends
    (3, 5), (3, 20),
    # the greatest parts
    ((2**96 - 1) * MOST, 2**96 - 1), ((2**96 - 1) * MOST - 1, 2**96 - 1), ((2**96 - 1) // 4, 2**96 - 1),
    ((2**96 - 1) // 4 + 1, 2**96 - 1), (2**96 - 2, 2**96 - 1), (2**123 - 3, 2**96 - 17),
    # large parts without a common divisor
    (MERSENNE * 3**10 + 2, MERSENNE), (2 * MERSENNE // 7, MERSENNE), (MERSENNE * 17 + 1, MERSENNE * 4),
    # a gap of 1,000 and a distance of 9,000 years, in thousandths
    ((9_000_000 * 1000) ** 2, 2 * ((30_000 * 1000) ** 2 + (25_000 * 1000 + 7) ** 2)),
]


def digits(x):
    return str(x) if abs(x) < 2**33 else f"{x:#_x}"


if __name__ == "__main__":
    for p, q in CASES:
        assert 0 <= p <= q * MOST and 1 <= q < 2**96
        assert encloses_true_value(p, q), (p, q)
        lo, hi, e = exp_neg(p, q)
        print(f"    (({digits(p)}, {digits(q)}), ({digits(lo)}, {digits(hi)}, {e})),")
