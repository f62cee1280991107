#!/usr/bin/env python3
"""Prints sums, products, quotients, roots and margins of enclosures, from the rounding rules, in exact whole numbers.

Powers of two are searched for, divisions are Python's, and roots are `math.isqrt`.
"""
from math import isqrt

ZERO = (0, 0, 0)
LOW, TOP = 2**62, 2**63


def up(n, d):
    return -(-n // d)


def norm(lo, hi, e):
    assert 0 <= lo <= hi and hi >= 1
    if hi < LOW:
        s = next(s for s in range(63) if LOW <= hi << s < TOP)
        return lo << s, hi << s, e - s
    if hi < TOP:
        return lo, hi, e
    s = next(s for s in range(hi.bit_length() - 63, hi.bit_length() + 1) if up(hi, 2**s) < TOP)
    return lo // 2**s, up(hi, 2**s), e + s


def of_whole(n):
    return ZERO if n == 0 else norm(n, n, 0)


def shifted(lo, hi, d):
    """Both ends over 2^d, without ever making a power of more than 200 digits."""
    return (lo >> d, up(hi, 2**d)) if d <= 200 else (0, 1)


def plus(a, b):
    if a == ZERO or b == ZERO:
        return b if a == ZERO else a
    if a[2] < b[2]:
        a, b = b, a
    lo, hi = shifted(b[0], b[1], a[2] - b[2])
    return norm(a[0] + lo, a[1] + hi, a[2])


def times(a, b):
    return ZERO if ZERO in (a, b) else norm(a[0] * b[0], a[1] * b[1], a[2] + b[2])


def over(a, b):
    if a == ZERO:
        return ZERO
    s = max(s for s in range(64) if up(a[1] << s, b[0]) < TOP)
    return (a[0] << s) // b[1], up(a[1] << s, b[0]), a[2] - b[2] - s


def root(a):
    if a == ZERO:
        return ZERO
    t = 62 + a[2] % 2
    high = isqrt(a[1] << t)
    return norm(isqrt(a[0] << t), high + (high * high < a[1] << t), (a[2] - t) // 2)


def margin(a):
    return ZERO if a == ZERO else norm(max(a[0] - 1, 0), a[1] + 1, a[2])


def ppm(n, d):
    j, million = n[2] - d[2], 10**6
    if n == ZERO:
        return 0, 0
    if j > 200:
        return (million if n[0] else 0), million
    if j < -200:
        return 0, 1
    p, q = 2 ** max(j, 0), 2 ** max(-j, 0)
    return min(million, million * n[0] * p // (d[1] * q)), min(million, up(million * n[1] * p, d[0] * q))


HALF, FULL, FAR = LOW, TOP - 1, 2**60
ONE, TWO, THREE = of_whole(1), of_whole(2), of_whole(3)
WIDE = (0, FULL, 7)
THIRD = over(ONE, THREE)


def at(exp):
    return HALF, HALF, exp


WHOLES = [0, 1, 2, 3, LOW - 1, LOW, TOP - 1, TOP, TOP + 1, 2**64 - 2, 2**64 - 1, 2**64 + 3, 2**125 - 1, 2**128 - 2**65,
          2**128 - 1]
BOUNDS = [(1, 1, 0), (0, 1, 5), (0, FULL, 0), (3, 5, 4), (HALF - 1, HALF - 1, 0), (HALF - 1, HALF, 9), (FULL, FULL, FAR),
          (1, 1, -FAR), (HALF // 2 - 1, HALF // 2, -62)]
PLUS = [(ZERO, THIRD), (THIRD, ZERO), (ONE, ONE), (ONE, THIRD), (THIRD, ONE),
        (at(0), (HALF, FULL, -1)), ((FULL, FULL, 0), (FULL, FULL, 0)), ((FULL, FULL, 0), (HALF + 1, HALF + 1, -1)),
        (at(3), (FULL - 1, FULL, -59)), (at(3), (FULL - 1, FULL, -60)), (at(3), (FULL, FULL, -61)),
        ((FULL, FULL, 3), at(-97)), (at(-4 * 10**9), at(4 * 10**9)), (at(FAR), at(-FAR)), (WIDE, WIDE), (WIDE, (FULL, FULL, 6))]
TIMES = [(ZERO, ONE), (ONE, ZERO), (ONE, THIRD), (THIRD, THIRD), ((FULL, FULL, 0), (FULL, FULL, 0)),
         ((HALF + 1, HALF + 1, 0), (FULL - 1, FULL - 1, 0)), ((HALF + 1, HALF + 1, 0), (HALF + 1, HALF + 1, 0)),
         ((1, HALF, 0), (1, FULL, 0)), (WIDE, ONE), (at(-FAR), at(-FAR)), ((FULL, FULL, FAR), (HALF, FULL, FAR))]
OVER = [(ZERO, THREE), (ONE, ONE), (ONE, THREE), (TWO, THIRD), ((FULL, FULL, 0), (1, HALF, 0)), (at(0), (1, HALF, 0)),
        (at(0), (2, HALF, 0)), (at(0), (FULL, FULL, 0)), ((FULL, FULL, 5), at(-5)), ((HALF, FULL, 0), (HALF - 1, FULL, 0)),
        (WIDE, THREE), (at(-FAR), (HALF, FULL, FAR))]
ROOT = [ZERO, ONE, TWO, at(0), at(1), at(-1), at(-2), at(-3), (FULL, FULL, 0), (FULL, FULL, 1), (FULL, FULL, -1), WIDE,
        (HALF, HALF + 1, FAR), (HALF, HALF + 1, 1 - FAR), THIRD]
MARGIN = [ZERO, ONE, (HALF, HALF + 1, -FAR), (1, HALF, 0), WIDE, (FULL - 1, FULL - 1, 0), (FULL, FULL, FAR)]
PPM = [(ZERO, ONE), (ONE, ONE), (ONE, THREE), (TWO, THREE), (THREE, TWO), (ONE, of_whole(10**6)), (ONE, of_whole(10**6 + 1)),
       ((HALF, FULL, 0), (HALF, FULL, 0)), ((HALF, FULL, 0), (HALF, FULL, 2)), (WIDE, at(7)), (WIDE, at(107)), (WIDE, at(-93)),
       (at(0), (1, HALF, 62)), (at(0), (1, HALF, 83)), ((1, HALF, 0), at(-44)), ((1, HALF, 0), at(-62)), (at(0), at(-64)),
       (at(FAR), at(-FAR)), (at(-FAR), at(FAR)), (at(0), at(4 * 10**9))]


def near(x, names):
    """`x` by a name that it is near to, else in digits."""
    for name, base in names:
        if abs(x - base) <= 2:
            return name if x == base else f"{name} {'+' if x > base else '-'} {abs(x - base)}"
    return digits(x)


def digits(x):
    return str(x) if abs(x) < 2**33 else f"{x:#_x}"


def text(x):
    """A row as the tests write it."""
    if not isinstance(x, tuple):
        return near(x, [("FULL", FULL), ("HALF", HALF)])
    if len(x) == 3 and not isinstance(x[0], tuple):
        return f"({text(x[0])}, {text(x[1])}, {near(x[2], [('FAR', FAR), ('-FAR', -FAR)])})"
    return f"({', '.join(map(text, x))})"


def show(title, rows):
    print(f"// {title}")
    for row in rows:
        print(f"    {row if isinstance(row, str) else text(row)},")
    print()


if __name__ == "__main__":
    show("of_whole: a number and its enclosure", [f"({digits(n)}, {text(of_whole(n))})" for n in WHOLES])
    show("of_bounds: three numbers and their normal form", [(b, norm(*b)) for b in BOUNDS])
    show("plus: two operands and the sum", [(a, b, plus(a, b)) for a, b in PLUS])
    show("times: two operands and the product", [(a, b, times(a, b)) for a, b in TIMES])
    show("over: two operands and the quotient", [(a, b, over(a, b)) for a, b in OVER])
    show("root: an operand and its root", [(a, root(a)) for a in ROOT])
    show("margin: an operand and the wider one", [(a, margin(a)) for a in MARGIN])
    show("ppm: a part, a whole and the bounds", [(n, d, ppm(n, d)) for n, d in PPM])
