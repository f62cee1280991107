#!/usr/bin/env python3
"""Prints the sizes and the SHA-256 of the texts that belong to a number, and what two of them begin with, from the rules
of the draws and the texts."""
from hashlib import sha256

NUMBERS = [0, 7, 1_000_000, 4_294_967_295]


class Draws:
    def __init__(self, number):
        self.x = number

    def below(self, m):
        self.x = (6364136223846793005 * self.x + 1442695040888963407) % 2**64
        return self.x // 2**33 % m


def curve(draws):
    lines = ["# generated"]
    for bp in range(3000, 1999, -10):
        age = bp - 70 + draws.below(41)
        sigma = 10 + draws.below(11)
        lines.append(f"{bp},{age},{sigma}")
    return lines


def dates(draws, names, least):
    lines = []
    for name in names:
        age = least + draws.below(40)
        error = 20 + draws.below(31)
        lines.append(f'  R_Date("{name}",{age},{error});')
    return lines


def phase(draws, name, numbers, least):
    return [f' Phase("{name}"){{', *dates(draws, [f"d{n}" for n in numbers], least), " };"]


def model(draws):
    return [
        'Curve("C.14c");',
        'Sequence("s"){',
        ' Boundary("b0");',
        *phase(draws, "p0", range(10), 2690),
        ' Boundary("b1");',
        *phase(draws, "p1", range(10, 20), 2570),
        ' Boundary("b2");',
        "};",
    ]


def script(draws, k):
    event, age, error = draws.below(20), 2570 + draws.below(160), 20 + draws.below(31)
    return [
        "open main",
        "grid 2799 2600",
        *(f'print "d{n}"' for n in range(5 * k, 5 * k + 5)),
        f'set "d{event}" R_Date({age},{error});',
        'ranges "b1"',
        "commit main",
        "work",
    ]


def texts(number):
    draws = Draws(number)
    made = [curve(draws), model(draws)] + [script(draws, k) for k in range(4)]
    return ["".join(line + "\n" for line in lines) for lines in made]


if __name__ == "__main__":
    for number in NUMBERS:
        made = texts(number)
        print(number)
        for name, text in zip(["curve", "model", "script 0", "script 1", "script 2", "script 3"], made):
            print(f"  {name}: {len(text)} bytes, {sha256(text.encode()).hexdigest()}")
        print("  " + repr("".join(made[0].splitlines(True)[:3])))
        print("  " + repr("".join(made[1].splitlines(True)[:5])))
        print("  " + repr(made[2]))
