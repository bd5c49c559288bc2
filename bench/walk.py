#!/usr/bin/env python3
"""Measures searches over coded lists beside plain C that merges the same lists and beside SQLite's FTS5, in the same run and in turns.

usage: bench/walk.py [--program PATH] [--before PATH] [--documents N] [--least SECONDS] [--turns N] [--only LETTERS] [--write FOLDER]

Makes DOCUMENTS documents (60,000) of 64 words each from a fixed seed: `half` stands in every second one, `other` in a half that chance
gives, `every` in all, `rare` in one of a thousand, `pa` and `pb` in about a half each, side by side in a tenth, one of the 200 words
`pre0` to `pre199` in each, and else words of 5,000 others. PATH is the program of crates/bench_walk, which `rt run` builds there
(crates/bench_walk/out/bench_walk by default); it reads the lists of these words as they are coded in a level, and walks the documents' ends
as their rows have them, as an index does. bench/walk.c is compiled by `gcc -O2` in a temporary folder, and decodes the same streams. FTS5
indexes the same documents in memory: a contentless table by `unicode61`, optimized, and for the names a table by number beside it.

Asks nine queries, or those whose letters are given, of all three, which have to find the same number of documents. A program is run for one
round, and for so many more that these take SECONDS (0.1) of processor time or more; the least time of some turns of the one is taken off
that of the other. Prints for each query the milliseconds of processor time of one search:

    count     the program's count over lists that were checked before, and how many times C's and FTS5's time that is
    checked   the same with a check of copies of its lists in each round
    search    its search, with the name of each answer read
    C         the merge in C, which writes the ends of the documents it finds, and counts them
    FTS5      SQLite's `count(*)`, and with names the sum of the lengths of their names

With `--before` it also times the count of another build of the program in the same turns, and prints it, and how many times FTS5's
time and this program's that is, behind the rest. With `--write` it writes the lists of 130 documents into a folder, as for the program's stored run.
"""

import argparse
import os
import random
import sqlite3
import subprocess
import sys
import tempfile
import time

from decode import BLOCK, number
from rounds import seconds

WORDS = 64
CELLS = WORDS + 1
PREFIXES = 200

# A letter and a title, the query, what the C does with which words (none: all with the prefix), and the query for FTS5.
QUERIES = [
    ("a half", "half", "one", ["half"], "half"),
    ("b all", "every", "one", ["every"], "every"),
    ("c AND", "half other", "both", ["half", "other"], "half AND other"),
    ("d phrase", '"pa pb"', "phrase", ["pa", "pb"], '"pa pb"'),
    ("e NEAR/5", "pa NEAR/5 pb", "near", ["pa", "pb"], "NEAR(pa pb, 4)"),
    ("f rare AND", "rare half", "both", ["rare", "half"], "rare AND half"),
    ("g OR", "half OR other", "either", ["half", "other"], "half OR other"),
    ("h NOT", "NOT half", "without", ["half"], "every NOT half"),
    ("i prefix", "pre*", "many", [], "pre*"),
]


def posting(locations):
    """The stream and the summary of a list."""
    stream, rows, before = bytearray(), [], 0
    for index, location in enumerate(locations):
        if index % BLOCK == 0:
            rows.append([location, locations[min(index + BLOCK, len(locations)) - 1], len(stream)])
        stream += number(location - before)
        before = location
    if len(rows) < 2:
        return stream, b""
    fields = [field for row in rows for field in row]
    fields += [rows[min(first + BLOCK, len(rows)) - 1][1] for first in range(0, len(rows), BLOCK)]
    return stream, b"".join(field.to_bytes(8, "big") for field in fields)


def write(folder, name, locations):
    """The files of a list."""
    paths = [os.path.join(folder, name), os.path.join(folder, name + ".summary")]
    for path, content in zip(paths, posting(locations)):
        with open(path, "wb") as file:
            file.write(content)
    return paths


def free(chance, places, before=None):
    """A free place, none behind the word `before`."""
    while True:
        at = chance.randrange(WORDS)
        if places[at] is None and (before is None or at == 0 or places[at - 1] != before):
            return at


def document(chance, k, prefixes):
    """The words of the document with the index k."""
    places = [None] * WORDS
    if chance.random() < 0.1:
        at = chance.randrange(WORDS - 1)
        places[at], places[at + 1] = "pa", "pb"
    else:
        if chance.random() < 0.444:
            places[free(chance, places)] = "pa"
        if chance.random() < 0.444:
            places[free(chance, places, "pa")] = "pb"
    if k % 2 == 0:
        places[free(chance, places)] = "half"
    if chance.random() < 0.5:
        places[free(chance, places)] = "other"
    places[free(chance, places)] = "every"
    if chance.random() < 0.001:
        places[free(chance, places)] = "rare"
    places[free(chance, places)] = f"pre{chance.randrange(prefixes)}"
    return [f"z{min(int(chance.expovariate(1 / 700)), 4999)}" if word is None else word for word in places]


def documents(count, prefixes):
    chance = random.Random(7)
    return [document(chance, k, prefixes) for k in range(count)]


def lists(texts):
    """The locations of each term but the filling words, by term."""
    found = {"D": [CELLS * (k + 1) for k in range(len(texts))]}
    for k, words in enumerate(texts):
        for at, word in enumerate(words):
            if word[0] != "z":
                found.setdefault("W" + word, []).append(CELLS * k + at + 1)
    return found


def write_all(folder, texts):
    """Writes lists, terms and documents, as the program reads them; answers the terms."""
    found = lists(texts)
    for term, locations in found.items():
        write(folder, term, locations)
    terms = sorted(found)
    for name, lines in [("terms", terms), ("documents", [f"{CELLS} d{k}" for k in range(len(texts))])]:
        with open(os.path.join(folder, name), "w") as file:
            file.writelines(line + "\n" for line in lines)
    return terms


def index(texts):
    """The documents in FTS5, by number, with their names beside."""
    base = sqlite3.connect(":memory:")
    base.execute("create virtual table texts using fts5(body, content = '', tokenize = 'unicode61')")
    base.execute("create table names(number integer primary key, name text)")
    base.executemany("insert into texts(rowid, body) values (?, ?)", ((k + 1, " ".join(words)) for k, words in enumerate(texts)))
    base.executemany("insert into names values (?, ?)", ((k + 1, f"d{k}") for k in range(len(texts))))
    base.execute("insert into texts(texts) values ('optimize')")
    base.commit()
    return base


COUNT = "select count(*) from texts where texts match ?"
NAMES = "select count(*), sum(length(name)) from texts join names on number = texts.rowid where texts match ?"


def run(command, rounds, found):
    """The processor time of so many rounds of a command, which has to find these numbers in each."""
    spent, answer = seconds(command(str(rounds)))
    if answer != [rounds * number for number in found]:
        sys.exit(f"{command(str(rounds))} finds {answer} in {rounds} rounds in place of {found} in each")
    return spent


class Command:
    """A command for a number of rounds, what each round has to find, and the least times."""

    def __init__(self, command, found, least):
        self.command, self.found, self.more = command, found, 4
        self.one = run(command, 1, found)
        self.all = run(command, 1 + self.more, found)
        while self.all - self.one < least:
            self.more *= 4
            self.all = run(command, 1 + self.more, found)

    def turn(self):
        self.one = min(self.one, run(self.command, 1, self.found))
        self.all = min(self.all, run(self.command, 1 + self.more, self.found))

    def milliseconds(self):
        return 1000 * (self.all - self.one) / self.more


class Question:
    """A question to FTS5, and the least time of the rounds of a turn."""

    def __init__(self, base, ask, query, least):
        self.base, self.ask, self.query, self.rounds = base, ask, query, 4
        self.least = self.spent()
        while self.least < least:
            self.rounds *= 4
            self.least = self.spent()

    def spent(self):
        begun = time.process_time()
        for _ in range(self.rounds):
            self.base.execute(self.ask, (self.query,)).fetchone()
        return time.process_time() - begun

    def turn(self):
        self.least = min(self.least, self.spent())

    def milliseconds(self):
        return 1000 * self.least / self.rounds


def main():
    top = os.path.dirname(os.path.dirname(os.path.abspath(__file__)))
    parser = argparse.ArgumentParser(description=__doc__, formatter_class=argparse.RawDescriptionHelpFormatter)
    parser.add_argument("--program", default=os.path.join(top, "crates/bench_walk/out/bench_walk"))
    parser.add_argument("--before")
    parser.add_argument("--documents", type=int, default=60_000)
    parser.add_argument("--least", type=float, default=0.1)
    parser.add_argument("--turns", type=int, default=5)
    parser.add_argument("--only", default="abcdefghi")
    parser.add_argument("--write")
    options = parser.parse_args()
    if options.write:
        write_all(options.write, documents(130, 3))
        return
    with tempfile.TemporaryDirectory() as folder:
        loop = os.path.join(folder, "walk")
        subprocess.run(["gcc", "-O2", "-o", loop, os.path.join(top, "bench/walk.c")], check=True)
        texts = documents(options.documents, PREFIXES)
        terms = write_all(folder, texts)
        base = index(texts)
        head = "query        found     count  of C  of FTS5  checked  of FTS5   search  of FTS5      C     FTS5  FTS5 with names"
        print(head + ("   before  of FTS5  of this" if options.before else ""))
        for title, query, form, words, theirs in QUERIES:
            if title[0] not in options.only:
                continue
            names = ["W" + word for word in words] or [term for term in terms if term.startswith("Wpre")]
            (found,), (_, letters) = (base.execute(ask, (theirs,)).fetchone() for ask in [COUNT, NAMES])
            build = lambda program, mode, checks: lambda rounds: [program, mode, checks, rounds, folder, query]
            ours = lambda mode, checks: build(options.program, mode, checks)
            merge = lambda rounds: [loop, form, rounds, folder, str(options.documents), str(CELLS)] + names
            timed = [
                Command(ours("count", "once"), [found, 0], options.least),
                Command(ours("count", "each"), [found, 0], options.least),
                Command(ours("search", "once"), [found, letters or 0], options.least),
                Command(merge, [found], options.least),
                Question(base, COUNT, theirs, options.least),
                Question(base, NAMES, theirs, options.least),
            ]
            if options.before:
                timed.append(Command(build(options.before, "count", "once"), [found, 0], options.least))
            for _ in range(options.turns):
                for one in timed:
                    one.turn()
            count, checked, search, plain, fts, named, *before = (one.milliseconds() for one in timed)
            print(
                f"{title:10}  {found:6}  {count:8.3f}  {count / plain:4.1f}  {count / fts:7.2f}"
                f"  {checked:7.3f}  {checked / fts:7.2f}  {search:7.3f}  {search / named:7.2f}"
                f"  {plain:5.3f}  {fts:7.3f}  {named:15.3f}"
                + "".join(f"  {old:7.3f}  {old / fts:7.2f}  {old / count:7.2f}" for old in before),
                flush=True,
            )


if __name__ == "__main__":
    main()
