#!/usr/bin/env python3
"""Counts the places of older forms in crates/*/src: by point, as docs/DESIGN-PASS.md lists them.

usage: python3 tools/places.py [-v] [ROOT]        -v prints each place; ROOT is a checkout, this one if none is given

Each place is a line (or, for clauses and parameters, a text that recurs) that one of the patterns below finds. A pattern
finds what may be an older form: which of these are, and why one stays, is for a reader to say.
"""
import collections
import difflib
import glob
import itertools
import os
import re
import sys

# what each pattern looks for, by point
LINES = {
    "1 enums": r"^\s*(pub(\(crate\))? )?enum ",
    "1 refusals as Option": r"Option<Fault>",
    "1 numbers for kinds": r"=> [0-9]+,|^\s+[0-9]+ =>|kind: [0-9]|kind: u8",
    "1 numbers for none": r"u16::MAX|u32::MAX|65535|\bEMPTY\b",
    "1 flags": r"\bmade\b|[a-z_]+: bool\b|: Option<usize>$|let mut found\b|let mut fewest\b",
    "3 loops by index": r"for .* in [^{]*\.\.|\bwhile ",
    "4 conversions by hand": r"fn (number|of|of_number|fault|words_of|name_of|rises|closer_than|status_of)\b",
    "6 buffers and searches": r"\[[A-Za-z0-9_]+; ?[0-9A-Z]+\]|\bmiddle = |pub.*: (&'a (mut )?\[u(16|32)\]|Vec<u(16|32)>),",
    "7 switches": r", (true|false)\)|bool\) ->|\bdyn\b|\bfn\(",
}


def sources(root):
    for path in sorted(glob.glob(os.path.join(root, "crates/*/src/**/*.rt"), recursive=True)):
        if not path.endswith("tests.rt"):
            yield path, open(path, encoding="utf-8").read()


def code(line):
    """The line without its comment; nothing of a clause's line."""
    line = line.split("//")[0]
    return "" if re.match(r"\s*(ghost|requires|ensures)\b", line) else line


def by_line(root, pattern):
    for path, text in sources(root):
        for number, line in enumerate(text.split("\n"), 1):
            if re.search(pattern, code(line)):
                yield f"{os.path.relpath(path, root)}:{number}: {line.strip()}"


def functions(root):
    """Each function: its name, its parameters but for self, and its clauses."""
    for path, text in sources(root):
        crate = os.path.relpath(path, root).split("/")[1]
        for m in re.finditer(r"\bfn (\w+)(<[^(]*>)?\(([^{;]*?)\)( ->[^{\n]*)?((?:\n\s*(?:requires|ensures).*)*)", text):
            parts = re.split(r",\s*(?![^<]*>)", m.group(3))
            given = [re.sub(r"\s+", " ", re.sub(r"'\w+ |'_", "", p)).strip() for p in parts]
            given = [p for p in given if p and "self" not in p.split(":")[0]]
            clauses = re.findall(r"(requires|ensures)[^{]*\{ (.*) \}", m.group(5))
            yield f"{crate}/{m.group(1)}", given, clauses


def recurring(root):
    clauses = collections.defaultdict(set)
    pairs = collections.defaultdict(set)
    for name, given, said in functions(root):
        for kind, text in said:
            text = re.sub(r"\.(now|old|new)\b", "", text)
            text = re.sub(r"\b(turn|rows|land|self|survey|map|from|row)\.", "", text)
            clauses[f"{kind} {text}"].add(name)
        for a, b in itertools.combinations(sorted(set(given)), 2):
            pairs[f"{a}, {b}"].add(name)
    return clauses, pairs


def bodies(root):
    """Each function of four lines or more: where it stands, its name, its body."""
    for path, text in sources(root):
        for m in re.finditer(r"^( *)(?:pub(?:\(crate\))? )?fn (\w+)[^\n]*", text, re.M):
            indent = m.group(1)
            whole = m.group(0).rstrip().endswith("{")
            begin = m.end() - 1 if whole else text.find(f"\n{indent}{{\n", m.start())
            end = text.find(f"\n{indent}}}\n", m.start())
            lines = [line.strip() for line in text[begin:end].split("\n")[1:] if line.strip()]
            if end > 0 and len(lines) > 3:
                yield os.path.relpath(path, os.path.join(root, "crates")), m.group(2), "\n".join(lines)


def twins(root):
    """Pairs of functions whose bodies are alike in three parts of four."""
    for (f, a, x), (g, b, y) in itertools.combinations(list(bodies(root)), 2):
        if difflib.SequenceMatcher(None, x, y).ratio() > 0.75:
            yield f"{f} {a} | {g} {b}"


def say(title, found, loud):
    print(f"{len(found):4}  {title}")
    if loud:
        for line in found:
            print("        " + line)


def main(words):
    loud = "-v" in words
    roots = [w for w in words if w != "-v"]
    root = roots[0] if roots else os.path.join(os.path.dirname(os.path.abspath(__file__)), "..")
    for title, pattern in LINES.items():
        if title.startswith("3"):
            say("2 twins", list(twins(root)), loud)
        say(title, list(by_line(root, pattern)), loud)
    for title, table in zip(("5 clauses of three functions or more", "5 parameters of three functions or more"), recurring(root)):
        found = [f"{len(names)} {text}  ({', '.join(sorted(names))})" for text, names in sorted(table.items()) if len(names) > 2]
        say(title, found, loud)


main(sys.argv[1:])
