#!/usr/bin/env python3
"""Works out what the program writes for its words, by the rules of sessions and the recipe of a marginal.

With the words behind `./chron` it prints all transcripts, read from real files; without words it compares each example of
README.md with its expected.txt.
"""
import hashlib
import re
import sys
from pathlib import Path

from context_cases import GROUPS, Node, bp, recipe_of
from cql_cases import Fault, Reader
from curve_cases import rows_of
from likelihood_cases import covers
from marginal_cases import finish
from script_cases import FIELDS, statement_of

TOP = Path(__file__).parent.parent
TARGETS = (("68.3", 683000), ("95.4", 954000), ("99.7", 997000))
SAME = {"Date": "Leaf", "C_Date": "Leaf", "R_Date": "Leaf"}


class Refused(Exception):
    pass


def decimal(thousandths):
    sign, n = "-" if thousandths < 0 else "", abs(thousandths)
    return sign + (f"{n // 1000}.{n % 1000:03}".rstrip("0").rstrip("."))


def text_of(node, depth=0):
    """A line for each statement, behind one blank for each group around it."""
    word, name, rest = node
    quoted = [f'"{name}"'] if name else []
    if word in GROUPS:
        inner = "".join(text_of(member, depth + 1) for member in rest)
        return f"{' ' * depth}{word}({''.join(quoted)}){{\n{inner}{' ' * depth}}};\n"
    values = [decimal(v) for v in (rest if word != "C_Date" or rest[1:] != [0] else rest[:1])] if word != "Boundary" else []
    return f"{' ' * depth}{word}({','.join(quoted + values)});\n"


def dating(node):
    word, _, values = node
    if word == "R_Date":
        return "Carbon", *values
    if word == "C_Date":
        year = bp(values[0] // 1000)
        return ("Normal", year, values[1]) if values[1:] and values[1] else ("Exact", year, None)
    return "Free", None, None


def tree_of(node):
    word, name, rest = node
    if word in GROUPS:
        return Node(word, name, None, [tree_of(member) for member in rest])
    return Node(word, name, dating(node), [])


def root_of(nodes):
    root = Node("Phase", "", None, [tree_of(node) for node in nodes])
    for number, event in enumerate(root.events()):
        event.number = number
    return root


def places(nodes, parent="Phase"):
    """Each node with the list in which it stands, its place there and the word of its parent."""
    for place, node in enumerate(nodes):
        yield node, nodes, place, parent
        if node[0] in GROUPS:
            yield from places(node[2], node[0])


def copied(nodes):
    return [(word, name, copied(rest) if word in GROUPS else rest) for word, name, rest in nodes]


def found(nodes, name):
    all_of_name = [at for at in places(nodes) if at[0][1] == name]
    if len(all_of_name) != 1:
        raise Refused(f"ambiguous {len(all_of_name)}" if all_of_name else "no name")
    return all_of_name[0]


def limits(nodes):
    words = [node[0] for node, *_ in places(nodes)]
    depth = lambda ns: 1 + max((depth(n[2]) for n in ns if n[0] in GROUPS and n[2]), default=0)
    if sum(word not in GROUPS for word in words) > 100:
        raise Refused("limit events")
    if sum(word in GROUPS for word in words) > 60:
        raise Refused("limit groups")
    if nodes and depth(nodes) > 16:
        raise Refused("limit depth")


def changed(nodes, command, name, rest):
    """The statements after a change."""
    nodes = copied(nodes)
    node, among, place, parent = found(nodes, name)
    if command == "set":
        if node[0] not in SAME:
            raise Refused(f"wrong kind {node[0]}")
        among[place] = (rest[0], node[1], rest[2])
    elif command == "add":
        if node[0] not in GROUPS:
            raise Refused(f"wrong kind {SAME.get(node[0], node[0])}")
        if rest[0] == "Boundary" and node[0] != "Sequence":
            raise Refused(f"wrong kind {node[0]}")
        node[2].append(rest)
    elif command == "insert":
        if rest[0] == "Boundary" and parent != "Sequence":
            raise Refused(f"wrong kind {parent}")
        among.insert(place, rest)
    elif command == "drop":
        del among[place]
    else:
        among[place] = (node[0], rest, node[2])
    limits(nodes)
    return nodes


def label(year):
    return f"{year - 1949} BC" if year > 1949 else f"AD {1950 - year}"


class Book:
    def __init__(self, models):
        self.versions = [(None, nodes, curve) for _, nodes, curve in models]
        self.heads = {name: number for number, (name, _, _) in enumerate(models)}


class Session:
    def __init__(self, number, script, book, curves):
        self.number, self.book, self.curves = number, book, curves
        self.lines = [f"session {number}"]
        self.left, self.version, self.grid, self.bases = script, None, None, {}

    def tell(self, *lines):
        self.lines += lines

    def marginal(self, name):
        if self.version is None:
            raise Refused("not open")
        if self.grid is None:
            raise Refused("no grid")
        _, nodes, named = self.book.versions[self.version]
        node = found(nodes, name)[0]
        if node[0] in GROUPS:
            raise Refused(f"wrong kind {node[0]}")
        curve = next((rows for given, rows in self.curves if named is None or given.lower() == named.lower()), None)
        root = root_of(nodes)
        for event in root.events():
            cause, year = covers(event.dating, curve, *self.grid)
            if cause != "covered":
                raise Refused({"no curve": "no curve", "uncovered": f"uncovered {year}", "far": f"far date {year}"}[cause])
        recipe = recipe_of(root, curve, *self.grid)
        event = next(event.number for event in root.events() if event.name == name)
        return finish(recipe.parts(root, event, recipe.root()))

    def year(self, cell):
        return f"{self.grid[0] - cell} {label(self.grid[0] - cell)}"

    def pairs(self, pairs):
        return [f"{self.year(cell)} {lo} {hi}" for cell, (lo, hi) in enumerate(pairs)]

    def ranges(self, pairs):
        lines = []
        for target, least in TARGETS:
            taken, total = set(), 0
            for cell in sorted(range(len(pairs)), key=lambda cell: (-pairs[cell][0], cell)):
                if total >= least:
                    break
                taken.add(cell)
                total += pairs[cell][0]
            lines.append(f"{target} {total}")
            first = [cell for cell in sorted(taken) if cell - 1 not in taken]
            last = [cell for cell in sorted(taken) if cell + 1 not in taken]
            lines += [f"{self.year(a)} to {self.year(b)}" for a, b in zip(first, last)]
        return lines

    def printed(self, command, name):
        pairs = self.marginal(name)
        if pairs is None:
            self.tell(f'impossible "{name}" v{self.version}')
        else:
            word = "marginal" if command == "print" else "ranges"
            self.tell(f'{word} "{name}" v{self.version}', *(self.pairs(pairs) if command == "print" else self.ranges(pairs)))

    def go_to(self, number):
        self.version = number
        self.tell(f"at v{number}")

    def model(self):
        _, nodes, curve = self.book.versions[self.version]
        text = (f'Curve("{curve}");\n' if curve else "") + "".join(map(text_of, nodes))
        data = text.encode()
        self.tell(f"model v{self.version} {len(data)} {hashlib.sha256(data).hexdigest()}", *text.splitlines())

    def set_grid(self, older, younger):
        cells = older - younger + 1
        if not 1 <= cells <= 512:
            raise Refused(f"grid limit {cells}")
        self.grid = older, younger
        self.tell(f"grid {older} {younger}")

    def act(self, command, fields):
        """Does a command; whether it asked the book."""
        book = self.book
        if command not in ("grid", "open", "take", "work", "print", "ranges") and self.version is None:
            raise Refused("not open")
        if command == "grid":
            self.set_grid(*map(int, fields))
        elif command in ("print", "ranges"):
            self.printed(command, fields[0])
        elif command == "model":
            self.model()
        elif command == "work":
            self.tell("work claims 0 hits 0 mine 0 busy 0 noroom 0 published 0")
        elif command == "open":
            if fields[0] not in book.heads:
                raise Refused("no model")
            self.bases[fields[0]] = book.heads[fields[0]]
            self.go_to(book.heads[fields[0]])
        elif command == "take":
            if int(fields[0]) >= len(book.versions):
                raise Refused(f"no version {len(book.versions)}")
            self.go_to(int(fields[0]))
        elif command == "undo":
            if book.versions[self.version][0] is None:
                raise Refused("no parent")
            self.go_to(book.versions[self.version][0])
        elif command == "commit":
            if fields[0] not in book.heads:
                raise Refused("no model")
            if book.heads[fields[0]] != self.bases.get(fields[0]):
                raise Refused(f"moved v{book.heads[fields[0]]}")
            book.heads[fields[0]] = self.bases[fields[0]] = self.version
            self.tell(f"committed v{self.version}")
        else:
            rest = statement_of(fields[1].encode()) if command in ("set", "add", "insert") else (fields[1:] or [None])[0]
            _, nodes, curve = book.versions[self.version]
            book.versions.append((self.version, changed(nodes, command, fields[0], rest), curve))
            self.version = len(book.versions) - 1
            self.tell(f"made v{self.version}")

    def asks(self, command):
        """Whether a command is an act of the book, here."""
        return command in ("open", "take") or (command in ("undo", "set", "add", "insert", "drop", "rename", "commit") and self.version is not None)

    def advance(self):
        """One act, and what stands before it in the script; whether there was one."""
        while self.left:
            number, command, fields = self.left.pop(0)
            asks = self.asks(command)
            try:
                self.act(command, fields)
            except Refused as cause:
                self.tell(f"refused {number} {cause}")
            if asks:
                return True
        return False


def commands_of(data):
    """The commands of a script that can be read, with their lines."""
    for number, line in enumerate(re.split(rb"\r?\n", data), 1):
        if line.strip(b" \t") and not line.startswith(b"#"):
            line = line.strip(b" \t")
            word = re.match(rb"[^ \t]*", line)[0]
            fields = re.fullmatch(FIELDS[word.decode()] + rb"[ \t]*", line[len(word):], re.DOTALL).groups()
            yield number, word.decode(), [field.decode() for field in fields]


def model_of(data):
    reader = Reader(data)
    nodes = reader.block("script", None, 1)
    return nodes, reader.curve and reader.curve.decode()


def transcripts(models, scripts, curves, turns):
    """What sessions of these scripts write, which take these turns."""
    book = Book([(name, *model_of(data)) for name, data in models])
    known = [(name, rows_of(data.decode())) for name, data in curves]
    sessions = [Session(k, list(commands_of(data)), book, known) for k, data in enumerate(scripts, 1)]
    for turn in turns:
        sessions[turn - 1].advance()
    for session in sessions:
        while session.advance():
            pass
        session.tell(f"end {session.number}")
    return "".join(line + "\n" for session in sessions for line in session.lines)


def output_of(words):
    """What the program writes for words whose files are all accepted."""
    given = dict(zip(words[1::2], words[2::2]))
    named = lambda option: [part.split("=", 1) for part in given.get(option, "").split(",") if part]
    read = lambda path: (TOP / path).read_bytes()
    turns = [int(turn) for turn in given.get("--turns", "").split(",") if turn]
    files = lambda option: [(name, read(path)) for name, path in named(option)]
    return transcripts(files("--models"), [read(path) for path in given["--sessions"].split(",")], files("--curves"), turns)


def compare():
    """Prints of each command that README.md shows whether the example's output is the one of the rules."""
    text = re.sub(r"\\\n", " ", (TOP / "README.md").read_text())
    for command in re.findall(r"^(?:\$ |    )\./chron (alone .*)$", text, re.MULTILINE):
        example = TOP / re.search(r"--models main=(examples/[^/]*)/", command)[1]
        if not (example / "status.txt").exists():
            print(example.name, output_of(command.split()) == (example / "expected.txt").read_text())


if __name__ == "__main__":
    if sys.argv[1:]:
        print(output_of(sys.argv[1:]), end="")
    else:
        compare()
