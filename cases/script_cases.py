#!/usr/bin/env python3
"""Works out what session scripts say, or their first faults, from the rules of the format, and compares the tables of
tests_scripts with it.

Each command's line is one regular expression; statements are read by cql_cases.
"""
import re
from cql_cases import Fault, Reader, literal

WORDS = "grid open take undo set add insert drop rename commit print ranges model work".split()
NAME = rb"([A-Za-z0-9_.-]{1,64})"
QUOTED = rb'"([^"\x00-\x1f\x7f]{1,120})"'
MAYBE = rb'"([^"\x00-\x1f\x7f]{0,120})"'
WHOLE = rb"([+-]?[0-9]+)"
GAP = rb"[ \t]+"
FIELDS = {
    "grid": GAP + WHOLE + GAP + WHOLE, "open": GAP + NAME, "take": GAP + rb"v([0-9]{1,7})", "undo": rb"",
    "set": GAP + QUOTED + GAP + rb"([^ \t].*)", "add": GAP + QUOTED + GAP + rb"([^ \t].*)",
    "insert": GAP + QUOTED + GAP + rb"([^ \t].*)", "drop": GAP + QUOTED, "rename": GAP + QUOTED + GAP + MAYBE,
    "commit": GAP + NAME, "print": GAP + QUOTED, "ranges": GAP + QUOTED, "model": rb"", "work": rb"",
}


def is_text(data):
    try:
        data.decode()
    except UnicodeDecodeError:
        return False
    return True


def cut(word):
    return word[:120].decode(errors="ignore")


def statement_of(data):
    """The one node that a statement says, or the cause of its fault."""
    try:
        return Reader(data).block("alone", None, 1)[0]
    except Fault as fault:
        return fault.args[1]


def cause_of(line, commands, prints):
    """Why a line says no command, behind so many commands and prints, or None."""
    word = re.match(rb"[ \t]*([^ \t]*)", line)[1]
    if is_text(word) and word.decode() not in WORDS:
        return "unknown " + cut(word)
    if commands == 1000:
        return "limit commands"
    if prints == 200 and word in (b"print", b"ranges"):
        return "limit prints"
    if not is_text(word):
        return "syntax"
    fields = re.fullmatch(FIELDS[word.decode()] + rb"[ \t]*", line.lstrip(b" \t")[len(word):], re.DOTALL)
    if not fields or (word.decode() in ("drop", "rename", "print", "ranges", "set", "add", "insert") and not all(map(is_text, fields.groups()[:1]))):
        return "syntax"
    if word == b"rename" and not is_text(fields[2]):
        return "syntax"
    if word in (b"set", b"add", b"insert"):
        node = statement_of(fields[2])
        if isinstance(node, str):
            return "statement: " + node
        if word == b"set" and (node[0] not in ("Date", "C_Date", "R_Date") or node[1]):
            return "syntax"
    if word == b"grid" and not all(-1000 <= int(year) <= 60000 for year in fields.groups()):
        return "limit years"
    return None


def said(data):
    """The number of commands that the bytes say, or the line and the cause of their fault."""
    commands = prints = 0
    lines = data.split(b"\n")
    for number, line in enumerate(lines, 1):
        if number < len(lines) and line.endswith(b"\r"):
            line = line[:-1]
        if not line.strip(b" \t") or line.startswith(b"#"):
            continue
        cause = cause_of(line, commands, prints)
        if cause:
            return number, cause
        commands += 1
        prints += line.split()[0] in (b"print", b"ranges")
    return commands


def told(data):
    """The line of a status for the fault of the bytes, or how many commands they say."""
    result = said(data)
    return "session 1 line %d: %s\n" % result if isinstance(result, tuple) else f"{result} commands\n"


def rows_of(file, name):
    text = open(f"../crates/tests_scripts/src/{file}.rt").read()
    types, body = re.search(rf"static {name}: \[\((.*?)\); \d+\] = \[\n(.*?)\n\];", text, re.DOTALL).groups()
    items = re.findall(r'"((?:[^"\\]|\\.)*)"|\b(\d+)\b', body)
    values = [int(number) if number else literal(text) for text, number in items]
    width = types.count(",") + 1
    return [values[i:i + width] for i in range(0, len(values), width)]


def compare(file, name, value):
    rows = rows_of(file, name)
    other = [(row, value(row)) for row in rows if value(row) != row]
    print(f"{file} {name}: {len(rows) - len(other)} of {len(rows)}")
    for row, want in other:
        print("    ", row, want)


def repeated_row(row):
    return row[:4] + [told((row[0] * row[1] + row[2] * row[3]).encode())]


if __name__ == "__main__":
    for name in ("WORDS", "FIELDS", "STATEMENTS", "YEARS"):
        compare("faults", name, lambda row: [row[0], told(row[0].encode())])
    compare("scripts", "SCRIPTS", lambda row: [row[0], told(row[0].encode())])
    compare("limits", "REPEATED", repeated_row)
