#!/usr/bin/env python3
"""Runs the programs of examples/, and compares what each prints: tests/examples.py --program PATH"""

import argparse
import os
import subprocess
import sys
import tempfile

from support import CLIENT, PATIENCE, TOP

# Each program, what it is given on its command line behind the index, and what it prints on either stream.
RUNS = [
    (
        "add_and_search.py",
        [],
        "fox NOT red -> second\n"
        '"lazy dog" -> first\n'
        "dog* -> first, third\n"
        "title:fox -> first, second\n"
        "(fox -> fault at byte 4 of the query: Paren\n",
    ),
    (
        "pages.py",
        [],
        "page 1: note-1, note-2, note-3\n"
        "page 2: note-4, note-5, note-6\n"
        "page 3: note-7\n"
        "the best of 8: note-1, note-2\n",
    ),
    ("dates.py", [], "value:20240101..20241231\ndiary-2024-01-01\ndiary-2024-02-29\n"),
    ("own_import.py", ["lines.txt"], "lines: 2 documents: 2 added\n"),
    ("own_import.py", ["lines.txt"], "lines: 2 documents: 0 added, 2 unchanged\n"),
    ("lines.py", [], "added 1\nfound 200\n200 n199\nfound 1\nthe program ended with 0\n"),
    ("shared.py", [], "the other finds [(1, 'note')]\nthe server ended with 0\n"),
]


def printed(script, words, folder, program):
    """What a program prints over the index that is named as it is; it has to end with status 0."""
    done = subprocess.run(
        [sys.executable, os.path.join(TOP, "examples", script), script[:-3] + ".alta", *words],
        cwd=folder,
        env={**os.environ, "BUNCOCEDAR_PROGRAM": program, "PYTHONPATH": CLIENT},
        stdin=subprocess.DEVNULL,
        stdout=subprocess.PIPE,
        stderr=subprocess.STDOUT,
        text=True,
        timeout=PATIENCE,
    )
    if done.returncode != 0:
        raise SystemExit(f"examples: {script} ended with {done.returncode}: {done.stdout}")
    return done.stdout


def main():
    parser = argparse.ArgumentParser(description=__doc__)
    parser.add_argument("--program", default=os.path.join(TOP, "crates", "alta_cli", "out", "alta_cli"))
    program = os.path.abspath(parser.parse_args().program)
    there = {name for name in os.listdir(os.path.join(TOP, "examples")) if name.endswith(".py")}
    if there != {script for script, _, _ in RUNS}:
        raise SystemExit(f"examples: not each of these is run: {sorted(there)}")
    with tempfile.TemporaryDirectory() as folder:
        with open(os.path.join(folder, "lines.txt"), "w", encoding="utf-8") as file:
            file.write("the first line\nthe second line\n")
        for script, words, wanted in RUNS:
            found = printed(script, words, folder, program)
            if found != wanted:
                raise SystemExit(f"examples: {script} prints\n{found}in place of\n{wanted}")
    print(f"examples: {len(there)} programs run")


if __name__ == "__main__":
    main()
