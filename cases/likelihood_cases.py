#!/usr/bin/env python3
"""Prints rows of weights, from the rules of their recipe and the rows of a curve file, in exact whole numbers.

By decimals of 60 digits it sees that the likelihood itself lies between the ends.
"""
from decimal import Decimal, localcontext
from fractions import Fraction

from curve_cases import at, rows_of, thousandths
from enclosure_cases import ZERO, margin, of_whole, over, root, times
from exponential_cases import digits, exp_neg

ONE = of_whole(1)
FAR = 16_384


def distance(given, curve, year):
    """The distance in years, the variance of both errors, and the three numbers p, q and gap; None outside the curve."""
    kind, value, error = given
    if kind == "Normal":
        apart = 1000 * (year - value)
        return Fraction(apart, 1000), Fraction(error**2), (apart**2, error**2, 1)
    point = at(curve, year)
    if point is None:
        return None
    age, sigma, gap = point
    p, q = (value * gap - age) ** 2, (error * gap) ** 2 + sigma**2
    return Fraction(value * gap - age, 1000 * gap), Fraction(q, gap**2), (p, q, gap)


def covers(given, curve, older, younger):
    if given[0] in ("Free", "Exact"):
        return "covered", 0
    if given[0] == "Carbon" and curve is None:
        return "no curve", 0
    for year in range(older, younger - 1, -1):
        found = distance(given, curve, year)
        if found is None:
            return "uncovered", year
        if abs(found[0]) > FAR:
            return "far", year
    return "covered", 0


def encloses_true_value(ends, years, variance):
    """The logarithms of both ends stand on the two sides of that of e^(-d^2 / 2v) / sqrt(v)."""
    lo, hi, e = ends
    with localcontext() as context:
        context.prec = 60
        two, slack = Decimal(2).ln(), Decimal(10) ** -40
        d = Decimal(1000 * years.numerator) / Decimal(years.denominator)
        v = Decimal(variance.numerator) / Decimal(variance.denominator)
        true = -d * d / (2 * v) - v.ln() / 2
        return Decimal(lo).ln() + e * two <= true + slack and true - slack <= Decimal(hi).ln() + e * two


def weight(given, curve, year):
    if given[0] == "Free":
        return ONE
    if given[0] == "Exact":
        return ONE if year == given[1] else ZERO
    years, variance, (p, q, gap) = distance(given, curve, year)
    assert p <= q * 2**28 and q < 2**96
    ends = margin(root(over(times(exp_neg(p, q), of_whole(gap * gap)), of_whole(q))))
    assert encloses_true_value(ends, years, variance)
    assert (ends[1] - ends[0]) * 2**62 <= (9 * 2**30 + 16) * ends[1] and abs(ends[2]) <= 2**31
    return ends


FLAT = "2010,2500,0\n2000,2500,0"
BROAD = "2010,2500,20\n2000,2500,20"
LINE = "2002,2010,0\n2000,1990,0.5"
EARLY = "2010,2000,20\n2000,2000,20"
SHARP = "2010,2000,0\n2000,2000,0"
WIDE = "3000,1990,25\n2000,10,7.5"
BELOW = "2010,-1000,5\n2000,-1000.5,5"
ABOVE = "2010,59000,300\n2000,58900,310.125"
LONG = "2600,2500,15\n2000,2000,10"


def carbon(age, error):
    return "Carbon", thousandths(age), thousandths(error)


def normal(year, error):
    return "Normal", year, thousandths(error)


FREE = ("Free", None, None)

# the curve file or none, the older and the younger year, and the dating
COVERED = [
    ("", 2002, 2000, FREE), ("", 60000, 59999, ("Exact", 0, None)), ("", 2002, 2000, normal(2001, "5")),
    ("", 2002, 2000, carbon("2500", "30")), (FLAT, 2010, 2000, carbon("2500", "30")),
    # outside the rows: at the first year, in the middle, and before a year that is too far
    (FLAT, 2011, 2009, carbon("2500", "30")), (FLAT, 2001, 1998, carbon("2500", "30")), (FLAT, 2011, 2009, carbon("60000", "30")),
    # an earlier year that is too far
    (FLAT, 2000, 1999, carbon("60000", "30")),
    # at the limit, and one thousandth past it
    (SHARP, 2005, 2000, carbon("18384", "1")), (SHARP, 2005, 2000, carbon("18384.001", "1")),
    (BELOW, 2010, 2010, carbon("15384", "1")), (BELOW, 2010, 2009, carbon("15384", "1")),
    ("", 3616, 3616, normal(20000, "5")), ("", 3616, 3615, normal(20000, "5")), ("", 18385, 18384, normal(2001, "1")),
    ("", 18386, 18385, normal(2001, "1")),
    # on the straight line of a wide gap: 1,000 years of age at 2500
    (WIDE, 2500, 2500, carbon("17384", "1")), (WIDE, 2500, 2500, carbon("17384.001", "1")), (WIDE, 2501, 2499, carbon("17384", "1")),
    # of any value
    (FLAT, 2010, 2000, carbon("-999999999999.999", "0")), (FLAT, 2010, 2000, carbon("2500", "999999999999.999")),
]

# the same, and the cells that are looked at
WEIGHED = [
    ("", 2002, 2000, FREE, [0, 1, 2]), ("", 2002, 2000, ("Exact", 2001, None), [0, 1, 2]), ("", 2002, 2000, ("Exact", 1999, None), [0, 1, 2]),
    (FLAT, 2010, 2009, carbon("2500", "30"), [0, 1]), (FLAT, 2010, 2010, carbon("2490.125", "30.5"), [0]),
    (BROAD, 2010, 2009, carbon("2490", "30"), [0, 1]), (LINE, 2002, 2000, carbon("2000", "30"), [0, 1, 2]),
    ("", 2010, 1995, normal(2000, "5"), [0, 9, 10, 15]), ("", 2010, 2010, normal(2000, "10000"), [0]),
    (EARLY, 2010, 2010, carbon("17000", "1"), [0]), (SHARP, 2010, 2010, carbon("18384", "1"), [0]),
    (WIDE, 2501, 2499, carbon("17000", "30"), [0, 1, 2]), (WIDE, 2001, 2001, carbon("10", "10000"), [0]),
    (BELOW, 2001, 2001, carbon("-2000", "50"), [0]), (ABOVE, 2009, 2009, carbon("60000", "300"), [0]),
    (LONG, 2511, 2000, carbon("2300", "30"), [0, 255, 272, 511]),
]


def curve_of(text):
    return rows_of(text) if text else None


def name(text):
    names = {FLAT: "FLAT", BROAD: "BROAD", LINE: "LINE", EARLY: "EARLY", SHARP: "SHARP", WIDE: "WIDE", BELOW: "BELOW", ABOVE: "ABOVE", LONG: "LONG"}
    return names.get(text, 'b""')


def case(given):
    return given[0] if given[0] == "Free" else f"{given[0]}({', '.join(str(x) for x in given[1:] if x is not None)})"


if __name__ == "__main__":
    for text, older, younger, given in COVERED:
        print(f"    ({name(text)}, ({older}, {younger}), {case(given)}, {covers(given, curve_of(text), older, younger)}),")
    for text, older, younger, given, cells in WEIGHED:
        curve = curve_of(text)
        assert covers(given, curve, older, younger) == ("covered", 0)
        for cell in cells:
            lo, hi, e = weight(given, curve, older - cell)
            print(f"    (({name(text)}, ({older}, {younger}), {case(given)}), {cell}, ({digits(lo)}, {digits(hi)}, {e})),")
