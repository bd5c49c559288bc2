#!/usr/bin/env python3
"""Runs the program over indexes with levels, which tests/model spells by docs/FORMAT.md and by nothing of the program's.

usage: tests/levels.py [--program PATH] [--rounds N] [--seed N]

Each round makes random documents, deletes and names that are used again. The program answers the same lines twice: over an index
that it wrote itself, all in its journal, and over one that has most of the documents in levels, some of them in its deletion list,
and the rest in a half of the journal. Each reply has to be the same, also in the middle of a join, behind a merge and after the
next start. Then a list of a level is broken: a search that loads it ends with status 6 and the place, what was answered before is
given, and other words are found; and a byte of a level's head is broken, so that nothing is answered. Ends with status 0 where all
of that holds.
"""

import argparse
import os
import random
import subprocess
import sys
import tempfile

from model.changes import asking, made, split
from model.segments import read_head, read_terms
from support import answered, run_lines


def fail(message):
    raise SystemExit(f"levels: {message}")


def compare(program, folder, chance):
    """One round: the same replies over both indexes, and again after the lines between."""
    changes = made(chance, 40)
    plain, levelled = os.path.join(folder, "plain"), os.path.join(folder, "levelled")
    subprocess.run([program, plain, "init"], check=True)
    answered(program, plain, [f"delete {c}" if isinstance(c, str) else "add " + "\t".join(c) for c in changes])
    content, places, levels = split(chance, changes, chance.randrange(20, len(changes) + 1))
    with open(levelled, "wb") as file:
        file.write(content)
    names = [c for c in changes if isinstance(c, str)] + [c[0] for c in changes if not isinstance(c, str)]
    between = [f"delete {name}" for name in chance.sample(names, 8)] + [f"add {name}\tOver red\tfox" for name in chance.sample(names, 8)]
    sliced = ["step 1", *between, f"step {chance.choice([1, 20, 1000000])}", *asking(3)]
    for lines in (asking(chance.randrange(1, 30)), sliced, asking(5), ["merge", *asking(5)], asking(7)):
        wanted, given = answered(program, plain, lines), answered(program, levelled, lines)
        if wanted != given:
            at = next((i for i, (a, b) in enumerate(zip(wanted, given)) if a != b), min(len(wanted), len(given)))
            fail(f"reply {at} is {given[at:at + 1]} in place of {wanted[at:at + 1]}")
    return content, places, levels


def broken_lists(program, folder, content, places, levels):
    """A list of the longest level is broken, and then its head."""
    path = os.path.join(folder, "broken")
    level_, place = max(zip(levels, places), key=lambda pair: len(pair[0]))
    _, count, document_bytes, term_bytes = read_head(level_)
    middle = 32 + document_bytes
    terms = read_terms(level_, middle, middle + term_bytes, count)
    at = place + next(bounds[0] for term, _, bounds in terms if term == b"Wred")
    for bad, lines, status, replies in (
        (at, ["count fox", "search red", "count fox"], 6, 1),
        (at, ["count fox", "explain red", "search dog OR red"], 6, None),
        (at, ["count fox", "open qui*", "fetch 1 1000", "stats", "search re d"], 0, None),
        (place + 16, ["count fox"], 6, 0),
    ):
        with open(path, "wb") as file:
            file.write(content)
            file.seek(bad)
            file.write(b"\0" if bad == at else b"\xff")
        ended, given, said = run_lines(program, path, lines)
        if ended != status or (replies is not None and len(given) != replies):
            fail(f"a broken byte at {bad} ends with status {ended} behind {len(given)} replies")
        if status == 6 and said != f"alta: damaged at {bad}\n":
            fail(f"a broken byte at {bad} is told as {said.strip()}")


def main():
    parser = argparse.ArgumentParser()
    parser.add_argument("--program", default="./alta")
    parser.add_argument("--rounds", type=int, default=20)
    parser.add_argument("--seed", type=int, default=1)
    words = parser.parse_args()
    chance = random.Random(words.seed)
    for _ in range(words.rounds):
        with tempfile.TemporaryDirectory() as folder:
            broken_lists(words.program, folder, *compare(words.program, folder, chance))
    print(f"levels: {words.rounds} rounds over levels answered as over the journal")


if __name__ == "__main__":
    sys.exit(main())
