#!/usr/bin/env python3
"""Measures how large an index is beside its text, and how long opening it takes, beside SQLite's full-text index.

usage: bench/opening.py [--program PATH] [--before PATH] [--count N] [--word WORD] [--turns N] [--merge] --lines FILE

FILE has `add` lines, as `bunco packages - /var/lib/dpkg/status` writes them. The first N go into a new index of the
program, with `flush` (or `merge`) behind them, and into a new FTS5 table on disk that keeps no texts and is optimized. Sizes are those of
the files, the program's without its slots and journal, so that gaps between levels count. A time is the processor time of one
process: that which opens the index and counts the word, less that of a process that opens nothing. The least of all turns
counts; all take turns in one run. Beside an opening alone (one `stats`) stands opening.c, compiled by `gcc -O2`, which does the same
reads and tests. With --before that of a program of before is printed too.
"""

import argparse
import os
import subprocess
import sys
import tempfile

from peer import table_of, texts_of
from rounds import spent

LEVELS_START = 2_105_344

# Connects, and asks FTS5 for one count: prints the processor seconds of both, and the count.
FIRST_QUERY = """
import sqlite3, sys, time
begun = time.process_time()
(found,) = sqlite3.connect(sys.argv[1]).execute("select count(*) from mail where mail match ?", sys.argv[2:]).fetchone()
print(time.process_time() - begun, found)
"""


def compiled(folder):
    """The opening in C."""
    program = os.path.join(folder, "opening")
    subprocess.run(["gcc", "-O2", "-o", program, os.path.join(os.path.dirname(os.path.abspath(__file__)), "opening.c")], check=True)
    return program


def first_query(table, word):
    words = [sys.executable, "-c", FIRST_QUERY, table, word]
    seconds, found = subprocess.run(words, stdout=subprocess.PIPE, check=True).stdout.split()
    return float(seconds), f"found {int(found)}"


def main():
    top = os.path.dirname(os.path.dirname(os.path.abspath(__file__)))
    parser = argparse.ArgumentParser(description=__doc__, formatter_class=argparse.RawDescriptionHelpFormatter)
    parser.add_argument("--program", default=os.path.join(top, "crates", "alta_cli", "out", "alta_cli"))
    parser.add_argument("--before")
    parser.add_argument("--lines", required=True)
    parser.add_argument("--count", type=int, default=60000)
    parser.add_argument("--word", default="library")
    parser.add_argument("--turns", type=int, default=9)
    parser.add_argument("--merge", action="store_const", const=b"merge\n", default=b"flush\n", dest="last")
    options = parser.parse_args()
    with open(options.lines, "rb") as file:
        lines = file.readlines()[: options.count]
    documents = texts_of(lines)
    text = sum(len(part.encode()) for document in documents for part in document)
    print(f"{len(documents)} documents, {text} bytes of text")
    with tempfile.TemporaryDirectory() as folder:
        path, table = os.path.join(folder, "x.alta"), os.path.join(folder, "x.db")
        subprocess.run([options.program, path, "init"], check=True)
        subprocess.run([options.program, path, "run"], input=b"".join(lines) + options.last, stdout=subprocess.DEVNULL, check=True)
        base = table_of(documents, table)
        base.execute("vacuum")
        base.close()
        for name, size in ("index", os.path.getsize(path) - LEVELS_START), ("FTS5", os.path.getsize(table)):
            print(f"{name}: {size} bytes, {size / text:.3f} of the text")
        in_c = compiled(folder)
        programs = {"index": options.program} | ({"before": options.before} if options.before else {})
        times = {}
        for _ in range(options.turns):
            for name, program in programs.items():
                started = spent([program], b"", check=False, stderr=subprocess.DEVNULL)[0]
                for line in (f"count {options.word}", "stats"):
                    seconds, said = spent([program, path, "run"], f"{line}\n".encode())
                    times.setdefault(f"{name}, {line}", []).append((seconds - started, said.decode().strip()))
            started = spent([in_c], b"", check=False)[0]
            seconds, said = spent([in_c, path])
            times.setdefault("C, the opening alone", []).append((seconds - started, said.decode().strip()))
            times.setdefault("FTS5, its first query", []).append(first_query(table, options.word))
        for name, spans in times.items():
            seconds, said = min(spans)
            print(f"{name}: {seconds * 1e3:.1f} ms ({said})")
    return 0


if __name__ == "__main__":
    sys.exit(main())
