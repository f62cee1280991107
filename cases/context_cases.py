#!/usr/bin/env python3
"""Prints marginals of small models by their recipe: tables from the events up, contexts from the root down to the event.

It keeps whole tables and multiplies each entry by itself; a term with a factor of zero adds nothing and is left out. It sees that
each pair holds the parts that the listing of all datings gives for the lower ends of the weights, and for their upper ends.
"""
import re
from fractions import Fraction

from curve_cases import rows_of, thousandths
from enclosure_cases import ONE, ZERO, of_whole, over, plus, times
from likelihood_cases import weight
from listing_cases import sums_with
from marginal_cases import finish, value

GROUPS = ("Sequence", "Phase", "After", "Before")


class Node:
    """A statement: its command and name, a dating where it is an event, its members, and the number of its first event."""

    def __init__(self, command, name, dating, members):
        self.command, self.name, self.dating, self.members, self.number = command, name, dating, members, None

    def is_boundary(self):
        return self.command == "Boundary"

    def is_event(self):
        return self.command not in GROUPS

    def events(self):
        return [self] if self.is_event() else [event for member in self.members for event in member.events()]


def bp(year):
    """The cal BP of a calendar year: there is no year 0."""
    return 1950 - int(year) if int(year) > 0 else 1949 - int(year)


def dating_of(command, values):
    if command == "R_Date":
        return "Carbon", thousandths(values[0]), thousandths(values[1])
    if command == "C_Date":
        return ("Normal", bp(values[0]), thousandths(values[1])) if len(values) > 1 else ("Exact", bp(values[0]), None)
    return "Free", None, None


def model_of(text):
    """The nameless root of a text in which each word is a command of a statement."""
    tokens = re.findall(r'"[^"]*"|-?[\d.]+|\w+|[(){};,]', text)
    place = 0

    def statements():
        nonlocal place
        found = []
        while place < len(tokens) and tokens[place] != "}":
            command, place = tokens[place], place + 2
            given = []
            while tokens[place] != ")":
                if tokens[place] != ",":
                    given.append(tokens[place])
                place += 1
            place += 1
            name = given.pop(0).strip('"') if given and given[0].startswith('"') else ""
            members = []
            if command in GROUPS:
                place += 1
                members = statements()
                place += 1
            if place < len(tokens) and tokens[place] == ";":
                place += 1
            found.append(Node(command, name, None if command in GROUPS else dating_of(command, given), members))
        return found

    root = Node("Phase", "", None, statements())
    for number, event in enumerate(root.events()):
        event.number = number
    return root


def has(node, event):
    return any(e.number == event for e in node.events())


def open_events(node):
    """How many of its events take a pair of Boundaries from further out."""
    if node.is_event():
        return 1
    if node.command in ("After", "Before"):
        return 0
    if node.command == "Phase":
        return sum(map(open_events, node.members))
    at = [i for i, member in enumerate(node.members) if member.is_boundary()]
    return sum(1 if m.is_boundary() else open_events(m) for i, m in enumerate(node.members)
               if m.is_boundary() or not (at and at[0] < i < at[-1]))


def items_of(members):
    """Members by themselves, and pairs of a segment and the Boundary that closes it."""
    at = [i for i, member in enumerate(members) if member.is_boundary()]
    if len(at) < 2:
        return list(members)
    spans = [(members[i + 1:j], members[j]) for i, j in zip(at, at[1:])]
    return list(members[:at[0] + 1]) + spans + list(members[at[-1] + 1:])


class Recipe:
    """Of a grid of so many cells, and a row of weights for each event."""

    def __init__(self, cells, rows):
        self.cells, self.rows = cells, rows
        self.shares = {}

    def table(self, f):
        return [[f(a, b) if a <= b else ZERO for b in range(self.cells)] for a in range(self.cells)]

    def zeros(self):
        return self.table(lambda a, b: ZERO)

    def identity(self):
        return self.table(lambda a, b: ONE if a == b else ZERO)

    def share(self, span, n):
        """One over the span, n times over."""
        if (span, n) not in self.shares:
            self.shares[span, n] = ONE if n == 0 else times(self.share(span, n - 1), over(ONE, of_whole(span)))
        return self.shares[span, n]

    def then(self, p, t):
        r = self.zeros()
        for a in range(self.cells):
            for c in range(a, self.cells):
                if p[a][c] != ZERO:
                    for b in range(c, self.cells):
                        if t[c][b] != ZERO:
                            r[a][b] = plus(r[a][b], times(p[a][c], t[c][b]))
        return r

    def then_row(self, p, w):
        r = self.zeros()
        for a in range(self.cells):
            reached = ZERO
            for b in range(a, self.cells):
                reached = plus(reached, p[a][b])
                r[a][b] = times(reached, w[b])
        return r

    def beside(self, s, t):
        r = self.zeros()
        for a in range(self.cells):
            left, right = ZERO, ZERO
            for b in range(a, self.cells):
                right = plus(right, t[a][b])
                r[a][b] = plus(times(left, t[a][b]), times(s[a][b], right))
                left = plus(left, s[a][b])
        return r

    def after_group(self, t):
        r = self.zeros()
        for a in range(self.cells):
            for b in range(a, self.cells):
                r[a][b] = t[0][b]
            r[a][a] = self.upward(t[0][c] for c in range(a + 1))
        return r

    def before_group(self, t):
        return self.table(lambda a, b: self.upward(t[a][a:]) if a == b else ZERO)

    def spanned(self, m, n):
        r = self.zeros()
        for a in range(self.cells):
            reached = ZERO
            for b in range(a, self.cells):
                reached = plus(reached, m[a][b])
                r[a][b] = times(reached, self.share(b - a + 1, n))
        return r

    @staticmethod
    def upward(terms):
        whole = ZERO
        for term in terms:
            whole = plus(whole, term)
        return whole

    def row_table(self, w):
        return self.table(lambda a, b: w[b])

    def table_of(self, node):
        if node.is_event():
            return self.row_table(self.rows[node.number])
        if node.command == "Sequence":
            return self.folded(items_of(node.members))
        phase = self.side_by_side(node.members)
        if node.command == "After":
            return self.after_group(phase)
        return self.before_group(phase) if node.command == "Before" else phase

    def side_by_side(self, members):
        r = self.identity()
        for member in members:
            r = self.beside(r, self.table_of(member))
        return r

    def item_table(self, item):
        if isinstance(item, Node):
            return self.table_of(item)
        segment, _ = item
        return self.spanned(self.folded(segment), sum(map(open_events, segment)))

    def folded(self, items):
        r = self.identity()
        for item in items:
            if isinstance(item, Node) and item.is_event():
                r = self.then_row(r, self.rows[item.number])
            else:
                r = self.then(r, self.item_table(item))
        return r

    def into_phase(self, x, q):
        r = self.zeros()
        for a in range(self.cells):
            cumulated = []
            for b in range(a, self.cells):
                cumulated.append(plus(cumulated[-1] if cumulated else ZERO, q[a][b]))
            further = ZERO
            for d in range(self.cells - 1, a - 1, -1):
                r[a][d] = plus(times(x[a][d], cumulated[d - a]), further)
                further = plus(further, times(x[a][d], q[a][d]))
        return r

    def into_after(self, x):
        r = self.zeros()
        for c in range(self.cells):
            earlier = self.upward(x[a][c] for a in range(c))
            r[0][c] = plus(earlier, self.upward(x[a][a] for a in range(self.cells - 1, c - 1, -1)))
        return r

    def into_before(self, x):
        return self.table(lambda a, b: x[a][a])

    def back(self, v, t):
        r = self.zeros()
        for a in range(self.cells):
            for d in range(self.cells - 1, a - 1, -1):
                if v[a][d] != ZERO:
                    for c in range(a, d + 1):
                        if t[c][d] != ZERO:
                            r[a][c] = plus(r[a][c], times(v[a][d], t[c][d]))
        return r

    def back_row(self, v, w):
        r = self.zeros()
        for a in range(self.cells):
            further = ZERO
            for c in range(self.cells - 1, a - 1, -1):
                further = plus(further, times(v[a][c], w[c]))
                r[a][c] = further
        return r

    def into_sequence(self, p, v):
        r = self.zeros()
        for c in range(self.cells):
            for a in range(c + 1):
                if p[a][c] != ZERO:
                    for d in range(c, self.cells):
                        if v[a][d] != ZERO:
                            r[c][d] = plus(r[c][d], times(p[a][c], v[a][d]))
        return r

    def into_span(self, x, n):
        r = self.zeros()
        for a in range(self.cells):
            further = ZERO
            for c in range(self.cells - 1, a - 1, -1):
                further = plus(further, times(x[a][c], self.share(c - a + 1, n)))
                r[a][c] = further
        return r

    def at_member(self, p, v):
        cumulated = [[ZERO] * self.cells for _ in range(self.cells)]
        for a in range(self.cells):
            for b in range(a, self.cells):
                cumulated[a][b] = plus(cumulated[a][b - 1] if b > a else ZERO, p[a][b])
        return [self.upward(times(cumulated[a][y], v[a][y]) for a in range(y + 1)) for y in range(self.cells)]

    def at_leaf(self, x):
        return [self.upward(x[a][y] for a in range(y + 1)) for y in range(self.cells)]

    def at_end(self, x, k):
        return [self.upward(times(x[a][y], k[a][y]) for a in range(y + 1)) for y in range(self.cells)]

    def weighed(self, r, event):
        return [times(x, w) for x, w in zip(r, self.rows[event])]

    def parts(self, node, event, x):
        """N, by the context of a node that has the event."""
        if node.is_event():
            return self.weighed(self.at_leaf(x), event)
        if node.command == "Sequence":
            return self.parts_in_order(items_of(node.members), event, x)
        if node.command == "After":
            x = self.into_after(x)
        if node.command == "Before":
            x = self.into_before(x)
        own = next(member for member in node.members if has(member, event))
        others = self.side_by_side([member for member in node.members if member is not own])
        return self.parts(own, event, self.into_phase(x, others))

    def parts_in_order(self, items, event, x):
        def has_item(item):
            return has(item, event) if isinstance(item, Node) else any(has(n, event) for n in [*item[0], item[1]])

        k = next(k for k, item in enumerate(items) if has_item(item))
        v = x
        for item in reversed(items[k + 1:]):
            if isinstance(item, Node) and item.is_event():
                v = self.back_row(v, self.rows[item.number])
            else:
                v = self.back(v, self.item_table(item))
        p, item = self.folded(items[:k]), items[k]
        if isinstance(item, Node):
            if item.is_event():
                return self.weighed(self.at_member(p, v), event)
            return self.parts(item, event, self.into_sequence(p, v))
        segment, closing = item
        inner = self.into_sequence(p, v)
        if closing.number == event:
            return self.at_end(inner, self.item_table(item))
        return self.parts_in_order(segment, event, self.into_span(inner, sum(map(open_events, segment))))

    def root(self):
        return self.table(lambda a, b: ONE if a == 0 else ZERO)


def recipe_of(root, curve, older, younger):
    rows = [[weight(event.dating, curve, year) for year in range(older, younger - 1, -1)] for event in root.events()]
    return Recipe(older - younger + 1, rows)


def listed(node):
    """The node as the listing of all datings takes it."""
    if node.is_event():
        return (node.command if node.is_boundary() else "Date", node.dating[1] if node.dating[0] == "Exact" else None)
    return node.command, tuple(map(listed, node.members))


def hold(root, rows, event, pairs):
    """Whether the pairs hold for the lower ends of all weights, and for their upper ends."""
    for end in (0, 1):
        weights = [[value(entry[end], entry[2]) for entry in row] for row in rows]
        parts = sums_with(tuple(map(listed, root.members)), weights, event)
        whole = sum(parts, Fraction(0))
        if pairs is None:
            if whole:
                return False
        elif not all(lo * whole <= 10**6 * part <= hi * whole for part, (lo, hi) in zip(parts, pairs)):
            return False
    return True


SLOPE = "2010,2560,20\n2000,2440,15.5"

# name, text, curve or none, older and younger year
CASES = [
    ("each kind of group",
     'Sequence(){Date("a");Phase(){Date("b");Date("c");};After(){Date("d");Date("e");};Before(){Date("f");};Date("g");};', "", 2004, 2000),
    ("a span in a span",
     'Sequence(){Boundary("a");Date("b");Sequence(){Boundary("c");Date("d");Date("e");Boundary("f");};Boundary("g");Date("h");};', "", 2003, 2000),
    ("a segment of a Phase and an After group",
     'Sequence(){Date("a");Boundary("b");Phase(){Date("c");Date("d");};After(){Date("e");};Boundary("f");Date("g");Boundary("h");};', "", 2002, 2000),
    ("spans side by side",
     'Phase(){Sequence(){Boundary("a");Date("b");Boundary("c");};Sequence(){Boundary("d");Date("e");Date("f");Boundary("g");};};', "", 2002, 2000),
    ("exact years in a Before group", 'Sequence(){C_Date("a",-53);Before(){Date("b");C_Date("c",-52);};Date("d");};Date("e");', "", 2003, 2000),
    ("a Phase in a span",
     'Sequence(){Boundary("a");Phase(){R_Date("b",2500,30);R_Date("c",2489.5,25);};Boundary("d");};', SLOPE, 2008, 2003),
    ("a Sequence in an After group",
     'Sequence(){After(){Sequence(){R_Date("a",2530,30);R_Date("b",2475,40);};Date("c");};R_Date("d",2510,20);};R_Date("e",2600,30);', SLOPE, 2008, 2003),
    ("a span in a span, on a curve",
     'Sequence(){Boundary("a");R_Date("b",2520,30);Sequence(){Boundary("c");R_Date("d",2480,25);Boundary("e");};Boundary("f");};', SLOPE, 2007, 2003),
]


def main():
    for name, text, curve, older, younger in CASES:
        root = model_of(text)
        print(f"{name}, {older} to {younger}: {text}")
        recipe = recipe_of(root, rows_of(curve) if curve else None, older, younger)
        for event in range(len(root.events())):
            pairs = finish(recipe.parts(root, event, recipe.root()))
            assert hold(root, recipe.rows, event, pairs), (name, event)
            print(f"    {event}: {[lo for lo, _ in pairs]} to {[hi for _, hi in pairs]}" if pairs else f"    {event}: impossible")


if __name__ == "__main__":
    main()
