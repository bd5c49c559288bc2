#!/usr/bin/env python3
"""Refuses a promise that is written out too often, or in a line that is too long to read: tests/texts/clauses.py

Where an `ensures` clause stands word for word at more than three functions, what they share is a record with a name, a trait's
contract or one function. Clauses and definitions keep within 120 columns; imports, comments, attributes and texts in quotes may be
longer. Prints each such clause or line with the places where it stands, and ends with 1 where there is one.
"""

import collections
import glob
import os
import re
import sys

MOST = 3
WIDTH = 120

# An import, a comment or an attribute: the formatter keeps each on one line.
ON_ONE_LINE = re.compile(r"\s*((pub )?(ghost )?use |//|--|#)")
QUOTED = re.compile(r'"[^"]*"')


def clauses_of(text):
    """Each `ensures` clause of a source, on one line, with the number of its first line."""
    clause, first, depth = [], 0, 0
    for number, line in enumerate(text.split("\n"), 1):
        line = line.strip()
        if not clause:
            if not line.startswith("ensures"):
                continue
            first = number
        clause.append(line)
        depth += line.count("{") - line.count("}")
        if depth <= 0:
            yield " ".join(clause), first
            clause, depth = [], 0


def sources(top, folder):
    """The path below `top` and the text of each file of this pattern in a crate."""
    for path in sorted(glob.glob(f"{top}/crates/*/{folder}", recursive=True)):
        with open(path, encoding="utf-8") as file:
            yield os.path.relpath(path, top), file.read()


def places_of_clauses(top):
    """Each `ensures` clause of the sources, with the places where it stands."""
    places = collections.defaultdict(list)
    for path, text in sources(top, "src/**/*.rt"):
        for clause, number in clauses_of(text):
            places[clause].append(f"{path}:{number}")
    return places


def is_too_long(line):
    """Whether this line of a source or of a definition is one that WIDTH bounds, and passes it."""
    return len(QUOTED.sub('""', line)) > WIDTH and not ON_ONE_LINE.match(line)


def long_lines(top):
    """The place of each line of the program that is too long; what only tests holds long rows."""
    return [f"{path}:{number}" for folder in ("src/**/*.rt", "specs/**/*.antt") for path, text in sources(top, folder)
            if not path.startswith("crates/check_") for number, line in enumerate(text.split("\n"), 1) if is_too_long(line)]


def test_itself():
    wide = "x" * WIDTH
    for line, expected in [(wide, False), (wide + "x", True), (f"ghost use {wide}", False), (f'    "{wide}",', False),
                           (f"    ensures {{ {wide} ≡ result }}", True), (f"    -- {wide}", False)]:
        if is_too_long(line) != expected:
            raise SystemExit(f"clauses: the check itself fails: {line}")
    if list(clauses_of("fn f()\n    ensures a { P\n        → Q }\n    ensures { R }\n{\n")) != [("ensures a { P → Q }", 2), ("ensures { R }", 4)]:
        raise SystemExit("clauses: the check itself fails: clauses")


def main():
    test_itself()
    top = os.path.dirname(os.path.dirname(os.path.dirname(os.path.abspath(__file__))))
    places, long = places_of_clauses(top), long_lines(top)
    often = {clause: found for clause, found in places.items() if len(found) > MOST}
    for clause, found in often.items():
        print(f"clauses: {clause}", *found, sep="\n  ")
    for place in long:
        print(f"clauses: {place}: more than {WIDTH} columns")
    print(f"clauses: {sum(map(len, places.values()))} clauses, {len(often)} of them at more than {MOST} functions, {len(long)} lines too long")
    return 1 if often or long else 0


if __name__ == "__main__":
    sys.exit(main())
