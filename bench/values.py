#!/usr/bin/env python3
"""Measures what numbers cost: an add, the bytes of a level, and searches by value beside a numeric column next to SQLite's full-text index.

usage: bench/values.py [--program PATH] [--before PATH] --lines FILE [--count N] [--repeat N]

FILE has `add` lines, as `bunco packages - /var/lib/dpkg/status` or `bunco mail` write them. The first N documents go into a
new index of the program, with a `merge` behind them; with --before also into one of a program that has no values, by turns, three
times each. Prints of both the processor time of an add and the bytes of the level; of the program's level the part of the terms
of ranges, in its table of terms and in its lists; and how many numbers the documents have.

Then each of four values is counted so many times in one run of the program, and as often by SQLite in a table of a document's number and
its number words with an index over both, which stands beside an FTS5 table on disk; the processor time of a run without lines is taken off. Prints
the milliseconds a count of both, and what both count; the counts differ where letters beyond ASCII join digits.
"""

import argparse
import os
import subprocess
import sys
import tempfile
import time

TOP = os.path.dirname(os.path.dirname(os.path.abspath(__file__)))
sys.path.insert(0, os.path.join(TOP, "tests"))

from model import segments
from model.answers import NUMBER, NUMBERS, RUN
from peer import table_of, texts_of
from model.reading import read_roots
from rounds import spent

VALUES = [(1990, 1999), (0, NUMBERS - 1), (7, 7), (1, NUMBERS - 2)]
TURNS = 3


def made(program, path, lines):
    """An index of these lines: the processor seconds of the adds alone, and its one level."""
    subprocess.run([program, path, "init"], check=True)
    seconds, _ = spent([program, path, "run"], b"".join(lines))
    spent([program, path, "run"], b"merge\n")
    with open(path, "rb") as file:
        content = file.read()
    (extent,) = read_roots(content)[1].levels
    return seconds, content[extent.place : extent.place + extent.length]


def parts(level):
    """The bytes that the terms have in the table and in the lists, those of ranges and all: how many, table, lists."""
    _, terms, document_bytes, term_bytes = segments.read_head(level)
    at = 32 + document_bytes
    end = at + term_bytes
    sums = {True: [0, 0, 0], False: [0, 0, 0]}
    term = b""
    for _ in range(terms):
        begun = at
        shared, at = segments.number(level, at, end)
        length, at = segments.number(level, at, end)
        term = term[:shared] + level[at : at + length]
        at += length
        _, at = segments.number(level, at, end)
        stream, at = segments.number(level, at, end)
        summary, at = segments.number(level, at, end)
        for index, size in enumerate((1, at - begun, stream + summary)):
            sums[term.startswith(b"X\xff")][index] += size
    return sums[True], [a + b for a, b in zip(*sums.values())]


def numbers_of(text):
    """The numbers among the words of a text, ASCII or not: a run of digits that no letter joins."""
    return [int(word) for word in RUN.findall(text) if NUMBER.fullmatch(word) and int(word) < NUMBERS]


def with_numbers(lines, path):
    """An FTS5 table of the documents, and beside it a table of their numbers with an index; the bytes that the second adds, and how many."""
    texts = texts_of(lines)
    base = table_of(texts, path)
    pages = base.execute("pragma page_count").fetchone()[0]
    rows = [(row, number) for row, text in enumerate(texts, 1) for part in text for number in numbers_of(part)]
    base.execute("create table numbers(document integer, number integer)")
    base.executemany("insert into numbers values (?, ?)", rows)
    base.execute("create index by_number on numbers(number, document)")
    base.commit()
    size = (base.execute("pragma page_count").fetchone()[0] - pages) * base.execute("pragma page_size").fetchone()[0]
    return base, size, len(rows)


def compared(program, path, base, repeat):
    """Counts of values by the program and by SQLite."""
    words = [program, path, "run"]
    opening = min(spent(words, b"")[0] for _ in range(5))
    print(f"opening {opening * 1e3:.1f} ms")
    for low, high in VALUES:
        seconds, out = spent(words, f"count value:{low}..{high}\n".encode() * repeat)
        begun = time.process_time()
        for _ in range(repeat):
            (found,) = base.execute("select count(distinct document) from numbers where number between ? and ?", (low, high)).fetchone()
        peer = time.process_time() - begun
        mine = (seconds - opening) / repeat
        counted = out.split(b"\n")[0].decode()
        print(f"value:{low}..{high}: {mine * 1e3:.3f} ms ({counted}), SQLite {peer / repeat * 1e3:.3f} ms (found {found})")


def main():
    parser = argparse.ArgumentParser(description=__doc__, formatter_class=argparse.RawDescriptionHelpFormatter)
    parser.add_argument("--program", default=os.path.join(TOP, "crates", "alta_cli", "out", "alta_cli"))
    parser.add_argument("--before")
    parser.add_argument("--lines", required=True)
    parser.add_argument("--count", type=int, default=10000)
    parser.add_argument("--repeat", type=int, default=100)
    options = parser.parse_args()
    with open(options.lines, "rb") as file:
        lines = file.readlines()[: options.count]
    programs = [("with values", options.program)] + ([("without", options.before)] if options.before else [])
    with tempfile.TemporaryDirectory() as folder:
        base, size, numbers = with_numbers(lines, os.path.join(folder, "x.db"))
        print(f"{len(lines)} documents, {sum(map(len, lines))} bytes of input, {numbers} numbers")
        adds = {called: [] for called, _ in programs}
        levels = {}
        for turn in range(TURNS):
            for called, program in programs:
                seconds, levels[called] = made(program, os.path.join(folder, f"{called} {turn}"), lines)
                adds[called].append(seconds)
        for called, _ in programs:
            print(f"{called}: {min(adds[called]) / len(lines) * 1e6:.1f} microseconds an add, a level of {len(levels[called])} bytes")
        ranges, whole = parts(levels["with values"])
        for what, part, total in zip(("terms", "bytes of the table of terms", "bytes of lists"), ranges, whole):
            print(f"{what} of ranges: {part} of {total}")
        print(f"SQLite's numbers and their index: {size} bytes")
        compared(options.program, os.path.join(folder, "with values 0"), base, options.repeat)
    return 0


if __name__ == "__main__":
    sys.exit(main())
