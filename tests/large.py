#!/usr/bin/env python3
"""Opens and merges an index of much text under fixed limits on memory: tests/large.py --program PATH [--megabytes N] [--share SHARE]

Each limit is on the address space of a run (`ulimit -v`), and is of so much text, 100 MB if nothing else is asked for; of less the limits
are the same. The text is made from a seed: sentences of common words, as texts have them, and in each document some words of its own, so
that tables and level have about the part of the text that those of documentation have. It goes in as the importing commands bring it in,
with a `merge` wherever there are sixteen levels and one more in the journal.

The program of version 0.5.0 takes 39 MiB for the opening, and 235 for the merge. tests/memory_limits.py says the same in multiples of what is
read, for less text and more levels of one size. With --share each limit is this share of what it is: with 0.8 that program keeps none of
them. All takes some 30 processor seconds, and 300 MB in memory for the file.
"""

import argparse
import os
import random
import tempfile
from itertools import accumulate

from memory_limits import LETTERS, MIB, NO_MEMORY, Index, levels_of
from support import TOP, with_merges_of_levels

WORDS = 20_000
SENTENCES = 4_000
OWN = 5  # words of a document that no other has

OPENING = 48 * MIB
MERGE = 256 * MIB
TOO_LITTLE = 8 * MIB  # in which nothing of this size is opened, so that a limit is seen to be in force


def documents(size):
    """`add` lines of so many bytes, each with its own words behind some of the same sentences."""
    chance = random.Random(90)
    words = ["".join(chance.choices(LETTERS, k=chance.randint(2, 10))) for _ in range(WORDS)]
    chances = list(accumulate(1 / place for place in range(1, WORDS + 1)))
    numbers = lambda: [str(chance.randrange(10 ** chance.randint(1, 7)))]
    sentences = [" ".join(chance.choices(words, cum_weights=chances, k=15) + numbers()) for _ in range(SENTENCES)]
    number = 0
    while size > 0:
        number += 1
        own = " ".join(f"{chance.getrandbits(40):x}" for _ in range(OWN))
        line = f"add doc/{number:06}.txt\t{words[number % WORDS]}\t{' '.join(chance.choices(sentences, k=6))} {own}\n".encode()
        size -= len(line)
        yield line


def main():
    parser = argparse.ArgumentParser(description=__doc__, formatter_class=argparse.RawDescriptionHelpFormatter)
    parser.add_argument("--program", default=os.path.join(TOP, "crates", "alta_cli", "out", "alta_cli"))
    parser.add_argument("--megabytes", type=int, default=100)
    parser.add_argument("--share", type=float, default=1.0)
    options = parser.parse_args()
    place = "/dev/shm" if os.access("/dev/shm", os.W_OK) else None
    with tempfile.TemporaryDirectory(dir=place) as folder:
        index = Index(os.path.abspath(options.program), os.path.join(folder, "large.alta"), options.share)
        index.run(with_merges_of_levels(documents(options.megabytes * 1_000_000)))
        levels = levels_of(index.path)
        tables = sum(tables for _, tables in levels)
        reply = index.run([b"stats\n"])[1]
        print(f"large: {reply}, in {len(levels)} levels of {sum(length for length, _ in levels):,} bytes, {tables:,} of them tables")
        kept = [index.holds("opening", [b"stats\n"], OPENING, reply), index.holds("merging", [b"merge\n"], MERGE, "ok")]
        kept.append(index.holds("opening one level", [b"stats\n"], OPENING, reply))
        status, _ = index.run([b"stats\n"], TOO_LITTLE)
    if status != NO_MEMORY:
        raise SystemExit(f"large: {TOO_LITTLE} bytes are too little, and the run ended with status {status}")
    if not all(kept):
        raise SystemExit("large: a limit is not kept")


if __name__ == "__main__":
    main()
