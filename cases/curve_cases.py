#!/usr/bin/env python3
"""Prints the points of curve files and their first faults, from the form of the files, in exact whole numbers.

Lines and fields are split by regular expressions, and a year is looked up by going over all rows.
"""
import re


def thousandths(field):
    m = re.fullmatch(r"([+-]?)0*(\d{0,12})(?:\.(\d{0,3}?)0*)?", field)
    if not m or not re.fullmatch(r"[+-]?\d+(\.\d+)?", field):
        return None
    n = int(m[2] or 0) * 1000 + int((m[3] or "").ljust(3, "0"))
    return -n if m[1] == "-" else n


def rows_of(text):
    """The rows of a curve file, or its first fault with the line."""
    lines = re.split(r"\r?\n", text)
    rows = []
    for number, line in enumerate(lines, 1):
        if re.fullmatch(r"[ \t]*", line) or line[0] in "#!":
            continue
        fields = [f for f in re.split(r"[, \t]+", line) if f][:3]
        values = [thousandths(f) for f in fields]
        if len(values) < 3 or None in values or values[0] % 1000:
            return f"BadRow({number})"
        year, age, sigma = values[0] // 1000, *values[1:]
        if not (-10_000_000 <= age <= 70_000_000 and 0 <= sigma <= 10_000_000):
            return f"OutOfRange({number})"
        pairs = [(r[0], s[0]) for r, s in zip(rows[:1], rows[1:2])] + [(r[0], year) for r in rows[-1:]]
        steps = {(b > a) - (b < a) for a, b in pairs}
        if 0 in steps or len(steps) > 1:
            return f"Order({number})"
        if rows and abs(rows[-1][0] - year) > 1000:
            return f"Gap({number})"
        if len(rows) == 20_000:
            return f"TooMany({number})"
        rows.append((year, age, sigma))
    return rows if len(rows) >= 2 else "TooFew"


def at(rows, year):
    """Age and sigma at a year, in thousandths times the gap, and the gap."""
    rows = sorted(rows, reverse=True)
    for row in rows:
        if row[0] == year:
            return row[1], row[2], 1
    for older, younger in zip(rows, rows[1:]):
        if older[0] > year > younger[0]:
            gap, passed = older[0] - younger[0], older[0] - year
            return tuple(o * (gap - passed) + y * passed for o, y in zip(older[1:], younger[1:])) + (gap,)
    return None


FAULTS = [
    "", "2000,1,1", "# remark\n! remark\n\n \t\r\n2000,1,1\n", "3000,1", "3000.5,1,1", "3000,1,1.2345", "3000,1,1\r",
    "1000000000000,1,1", " #", ",,,", "\n\n# remark\r\n2000,1", "2000,70001,1", "2000,70000.001,1", "2000,-10000.001,1",
    "2000,1,10001", "2000,1,-0.001", "2000,1,1\n2000,1,1", "2000,1,1\n1990,1,1\n1995,1,1", "2000,1,1\n2010,1,1\n1995,1,1",
    "2000,1,1\n1990,1,1\n1990,1,1", "3000,1,1\n1999,1,1", "1999,1,1\n3000,1,1", "2000,1,1\nx\n1000,70001,1",
    "2000,1,1\n2000,70001,1", "2000,1,1\n1990,1,1\n4000,1,1", "2000,1,1\n\n900,1,1\nx",
    "2000,1,1\n1990,1,1\n1980 1 1 1 x\n-5x",
]
SAME = [
    "2002,2010,0\n2000,1990,0.5", "2000,1990,0.5\n2002,2010,0\n", "2002,2010,0\r\n2000,1990,0.5\r\n",
    "# remark\r\n! remark\r\n \t\r\n2002,2010,0\r\n\r\n2000,1990,0.5", " 2002 2010\t0\n,2000 ,, 1990,\t0.5,",
    "+2002.000,02010,-0,9,x\n2000,1990,0.50,,#",
]
REAL = "##a curve\n#header\n" + "".join(f"{47500 - 5 * i},{47400 - 5 * i},12.5,-{i}.25,1.5\n" for i in range(9501))
LINES = [
    ("2002,2010,0\n2000,1990,0", [2001]),
    ("1000,70000,10000\n0,-10000,0\n-1000,-10000,1", [2**31 - 1, 1001, 1000, 999, 1, 0, -1, -1000, -1001, -(2**31)]),
    (REAL, [47501, 47500, 47497, 20000, 1, 0, -1]),
]

if __name__ == "__main__":
    for text in FAULTS:
        print(repr(text), rows_of(text))
    for text in SAME:
        print(repr(text), [at(rows_of(text), year) for year in (2003, 2002, 2001, 2000, 1999)])
    for text, years in LINES:
        print(repr(text[:50]), [(year, at(rows_of(text), year)) for year in years])
