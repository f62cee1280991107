#!/usr/bin/env python3
"""Works out what OxCal's model files say, or their first faults, from the rules of the format, and compares the tables
of tests_cql with it.

Tokens are found by regular expressions, blocks are read by recursion, and the arguments of a command by the set of
argument lists that still fit.
"""
import re

PIECE = re.compile(
    rb"(?P<gap>[ \t\r\n]|//[^\n]*|/\*.*?\*/)"
    rb"|(?P<word>[A-Za-z_][A-Za-z0-9_]*)"
    rb"|(?P<number>[+\-0-9][0-9.]*)"
    rb"|\"(?P<text>[^\"\x00-\x1f\x7f]*)\""
    rb"|(?P<mark>[(){},;=])", re.DOTALL)
DECIMAL = re.compile(r"([+-]?)([0-9]+)(?:\.([0-9]+))?")


class Fault(Exception):
    pass


def decimal(text):
    """The thousandths that a decimal says, or None."""
    m = DECIMAL.fullmatch(text)
    if not m or len(m[2].lstrip("0")) > 12 or (m[3] or "")[3:].strip("0"):
        return None
    n = int(m[2]) * 1000 + int((m[3] or "")[:3].ljust(3, "0"))
    return -n if m[1] == "-" else n


def tokens(data):
    """Each token with its line, and what is no token as the last."""
    at = 0
    while at < len(data):
        line = data.count(b"\n", 0, at) + 1
        m = PIECE.match(data, at)
        kind, value = (m.lastgroup, m[m.lastgroup]) if m else ("bad", None)
        if kind in ("word", "mark"):
            value = value.decode()
        if kind == "number":
            value = decimal(value.decode())
            kind = "bad" if value is None else kind
        if kind == "text":
            try:
                value.decode()
            except UnicodeDecodeError:
                kind = "bad"
        if kind != "gap":
            yield kind, value, line
        if kind == "bad":
            return
        at = m.end()
    yield "end", None, data.count(b"\n") + 1


def is_name(text):
    return len(text) <= 120 and not text.startswith(b"=")


def file_of(text):
    name = text if text.lower().endswith(b".14c") else text + b".14c"
    return name if text and len(name) <= 120 else None


def is_year(z):
    return z % 1000 == 0 and z != 0 and -58051000 <= z <= 2950000


def is_age(z):
    return -2000000 <= z <= 60000000


def is_error(z):
    return 1000 <= z <= 10000000


NAME = ("text", is_name)
FILE = ("text", file_of)
YEAR, AGE, ERROR = ("number", is_year), ("number", is_age), ("number", is_error)
SOME = ("number", lambda z: z == 0 or is_error(z))
PLAIN = [[], [NAME]]
LISTS = {
    "Date": PLAIN, "Boundary": PLAIN, "Sequence": PLAIN, "Phase": PLAIN, "After": PLAIN, "Before": PLAIN, "Plot": PLAIN,
    "Options": [[]], "Curve": [[FILE], [NAME, FILE]],
    "C_Date": [[YEAR], [NAME, YEAR], [YEAR, SOME], [NAME, YEAR, SOME]],
    "R_Date": [[AGE, ERROR], [NAME, AGE, ERROR]],
}
GROUPS = ("Sequence", "Phase", "After", "Before")
FALSE = ("Cubic", "UniformSpanPrior", "UseF14C", "Intercept")
IGNORED = ("BCAD", "PlusMinus", "SD1", "SD2", "SD3", "RawData", "ConvergenceData", "kIterations", "Ensembles")


class Reader:
    def __init__(self, data):
        self.tokens = list(tokens(data))
        self.place = 0
        self.curve = None
        self.events = self.groups = 0

    def peek(self):
        kind, value, line = self.tokens[self.place]
        if kind == "bad":
            raise Fault(line, "token")
        return kind, value, line

    def next(self):
        token = self.peek()
        self.place += 1
        return token

    def mark(self, mark):
        kind, value, line = self.next()
        if (kind, value) != ("mark", mark):
            raise Fault(line, "syntax")

    def arguments(self, command):
        self.mark("(")
        comma, close = ("mark", ","), ("mark", ")")
        pattern = [[slot for s in parts for slot in (s, comma)][:-1] + [close] for parts in LISTS[command]]
        given = []
        while True:
            kind, value, line = self.next()
            if kind == "end":
                raise Fault(line, "syntax")
            fitting = []
            for slots in pattern:
                want, test = slots[0]
                if kind == want and (value == test if kind == "mark" else test(value)):
                    fitting.append(slots[1:])
            if not fitting and command == "Curve" and (kind, value) == ("mark", ")") and len(given) == 1:
                raise Fault(self.tokens[self.place - 2][2], "argument")
            if not fitting:
                raise Fault(line, "argument")
            if (kind, value) == ("mark", ")"):
                return given
            if kind != "mark":
                given.append(value)
            pattern = fitting

    def room_for_curve(self, line):
        if self.curve is not None:
            raise Fault(line, "limit curves")

    def options(self):
        while True:
            kind, word, line = self.next()
            if (kind, word) == ("mark", "}"):
                return
            if kind != "word":
                raise Fault(line, "syntax")
            if word not in FALSE + IGNORED + ("Resolution", "Curve"):
                raise Fault(line, "option " + word[:120])
            if word == "Curve":
                self.room_for_curve(line)
            self.mark("=")
            kind, value, line = self.next()
            if kind not in ("word", "number", "text"):
                raise Fault(line, "syntax")
            if word == "Curve" and kind == "text":
                self.curve = file_of(value)
                if self.curve is None:
                    raise Fault(line, "argument")
            elif word == "Curve" or (word in FALSE and (kind, value) != ("word", "FALSE")) \
                    or (word == "Resolution" and (kind, value) != ("number", 1000)):
                raise Fault(line, "option " + word)
            self.mark(";")

    def statement(self, word, line, place, parent, depth):
        if word not in LISTS:
            raise Fault(line, "command " + word[:120])
        top = parent is None and place != "alone"
        if (word == "Plot" and not (top and place == "script")) or (word in ("Options", "Curve") and not top) \
                or (word == "Boundary" and not (parent == "Sequence" or (place == "alone" and parent is None))):
            raise Fault(line, "place")
        if word in ("Date", "Boundary", "C_Date", "R_Date"):
            if self.events == 100:
                raise Fault(line, "limit events")
            self.events += 1
        if word in GROUPS:
            if self.groups == 60:
                raise Fault(line, "limit groups")
            self.groups += 1
        if word not in ("Plot", "Options", "Curve") and depth > 16:
            raise Fault(line, "limit depth")
        if word == "Curve":
            self.room_for_curve(line)
        given = self.arguments(word)
        if word in GROUPS + ("Plot", "Options"):
            self.mark("{")
        else:
            self.mark(";")
        if word == "Options":
            self.options()
            return []
        if word == "Plot":
            return self.block("plot", None, 1)
        if word == "Curve":
            self.curve = file_of(given[-1])
            return []
        name = given.pop(0).decode() if given and isinstance(given[0], bytes) else ""
        if word in GROUPS:
            return [(word, name, self.block(place, word, depth + 1))]
        return [(word, name, given)]

    def block(self, place, parent, depth):
        """The nodes of a block, up to its brace, or to the end at the top."""
        nodes, brace, read = [], False, 0
        while True:
            kind, value, line = self.next()
            if (kind, value) == ("mark", ";") and brace:
                brace = False
                continue
            alone = place == "alone" and parent is None
            if kind == "word" and not (alone and read):
                nodes += self.statement(value, line, place, parent, depth)
                brace = self.tokens[self.place - 1][1] == "}"
                read += 1
            elif kind == "end" and parent is None and place != "plot" and not (alone and not read):
                return nodes
            elif (kind, value) == ("mark", "}") and (parent is not None or place == "plot"):
                return nodes
            else:
                raise Fault(line, "syntax")


def bp(thousandths):
    year = thousandths // 1000
    return 1950 - year if year > 0 else 1949 - year


def shown(node):
    """The nodes from this one on, each with its number of members."""
    word, name, rest = node
    if word in GROUPS:
        return [f"{word} {name} of {len(rest)}"] + [s for n in rest for s in shown(n)]
    if word == "Boundary":
        return [f"Boundary {name}"]
    if word == "Date":
        return [f"{name} free"]
    if word == "R_Date":
        return [f"{name} aged {rest[0]} by {rest[1]}"]
    return [f"{name} {bp(rest[0])}" + (f" by {rest[1]}" if rest[1:] and rest[1] else "")]


def said(data, alone=False):
    """What the bytes say, or the line and the cause of their fault."""
    reader = Reader(data)
    try:
        nodes = reader.block("alone" if alone else "script", None, 1)
    except Fault as fault:
        return fault.args
    if alone:
        return shown(nodes[0])[0]
    curve = [] if reader.curve is None else ["curve " + reader.curve.decode()]
    return "; ".join(curve + [s for n in nodes for s in shown(n)])


def counted(data):
    """How many events and nodes the bytes have, or the line and the cause of their fault."""
    reader = Reader(data)
    try:
        reader.block("script", None, 1)
    except Fault as fault:
        return "%d %s" % fault.args
    return f"{reader.events} of {reader.events + reader.groups}"


ESCAPES = {"n": "\n", "t": "\t", "r": "\r"}


def literal(text):
    """A literal of a test, as the text that it stands for."""
    return re.sub(r"\\(?:u\{(\w+)\}|(.))", lambda m: chr(int(m[1], 16)) if m[1] else ESCAPES.get(m[2], m[2]), text)


def rows_of(file, name):
    """The rows of a table of the tests."""
    text = open(f"../crates/tests_cql/src/{file}.rt").read()
    types, body = re.search(rf"static {name}: \[\((.*?)\); \d+\] = \[\n(.*?)\n\];", text, re.DOTALL).groups()
    items = re.findall(r'"((?:[^"\\]|\\.)*)"|\b(\d+)\b', body)
    values = [int(number) if number else literal(text) for text, number in items]
    width = types.count(",") + 1
    return [values[i:i + width] for i in range(0, len(values), width)]


def compare(file, name, value):
    """Prints how many rows of a table have the value of the rules, and those that don't."""
    rows = rows_of(file, name)
    other = [(row, value(row)) for row in rows if value(row) != row]
    print(f"{file} {name}: {len(rows) - len(other)} of {len(rows)}")
    for row, want in other:
        print("    ", row, want)


def file_row(row, alone=False):
    result = said(row[0].encode(), alone)
    return [row[0], *result] if isinstance(result, tuple) else [row[0], result]


def repeated_row(row):
    return row[:6] + [counted("".join(row[i] * row[i + 1] for i in (0, 2, 4)).encode())]


def beginnings():
    """Prints of how many rows of the table of beginnings the first length and the value are those of the rules."""
    source = open("../crates/tests_cql/src/beginnings.rt").read()
    body = re.search(r'static MODEL: &str = "((?:[^"\\]|\\.)*)";', source, re.DOTALL)[1]
    data = literal(re.sub(r"\\x(\w\w)", lambda m: chr(int(m[1], 16)), re.sub(r"\\\n", "", body))).encode()
    rows = [[int(n), said] for n, said in re.findall(r'    \((\d+), "([^"]*)"\),', source)]
    want = []
    for n in range(len(data) + 1):
        value = counted(data[:n])
        if not want or want[-1][1] != value:
            want.append([n, value])
    print(f"beginnings BEGINNINGS: {sum(row in want for row in rows)} of {len(want)}")


if __name__ == "__main__":
    for name in ("TOKENS", "SYNTAX", "COMMANDS", "OPTIONS", "PLACES"):
        compare("faults", name, file_row)
    for name in ("ARGUMENTS", "CURVES"):
        compare("arguments", name, file_row)
    compare("models", "FILES", file_row)
    for name in ("FAULTS", "STATEMENTS"):
        compare("statements", name, lambda row: file_row(row, True))
    for name in ("NAMES", "LIMITS"):
        compare("limits", name, repeated_row)
    beginnings()
