#!/usr/bin/env python3
"""Opens and merges an index under limits on memory: tests/memory_limits.py --program PATH [--share SHARE]

Each limit is on the address space of the run (`ulimit -v`), and is said by what the run reads: an opening may take a fixed part and a multiple
of the bytes of the tables (head, documents and terms), and a merge a fixed part and a multiple of the bytes of the level that it makes. Each
limit is 1.15 to 1.27 times what a build without proof takes now. The text is made from a seed: 24,000 documents of some 540 bytes, in each of
which eight words are its own. It is opened and merged at its half and whole, so that neither part alone decides.

With --share each limit is this share of what it is. With 0.75 the one of 0.4.0 keeps none. The one of 0.2.0 keeps none as they stand, and the one
of 0.3.0 no limit of an opening.
"""

import argparse
import os
import random
import resource
import subprocess
import tempfile
from itertools import accumulate

from model.reading import read_roots
from model.segments import read_head

COUNT = 24_000
WORDS = 4_000
OWN = 8
LETTERS = "abcdefghijklmnopqrstuvwxyz"
NO_MEMORY = 5  # the status of a run that wants memory
MIB = 1 << 20

# A fixed part, and a multiple of the bytes that are read or made.
OPENING = (4 * MIB, 3.2)
MERGE = (5 * MIB, 5.2)


def documents():
    """An `add` line for each document: common words first, as texts have them, and then its own."""
    chance = random.Random(75)
    words = ["".join(chance.choices(LETTERS, k=chance.randint(2, 10))) for _ in range(WORDS)]
    chances = list(accumulate(1 / place for place in range(1, WORDS + 1)))
    for number in range(1, COUNT + 1):
        title, *body = chance.choices(words, cum_weights=chances, k=chance.randint(40, 80))
        own = ("".join(chance.choices(LETTERS, k=9)) for _ in range(OWN))
        yield f"add doc/{number:06}.txt\t{title}\t{' '.join([*body, *own])}\n".encode()


def levels_of(path):
    """The bytes of each level of an index, and those of its tables."""
    with open(path, "rb") as file:
        content = file.read()
    found = []
    for place, length in read_roots(content)[1].levels:
        _, _, rows, terms = read_head(content[place : place + length])
        found.append((length, 32 + rows + terms))
    return found


class Index:
    """An index in a file, and the program over it."""

    def __init__(self, program, path, share):
        self.program, self.path, self.share = program, path, share
        subprocess.run([program, path, "init"], check=True)

    def run(self, lines, limit=None):
        """Status and last reply of a run over these lines, which may take so much memory."""
        bound = (lambda: resource.setrlimit(resource.RLIMIT_AS, (int(limit * self.share),) * 2)) if limit else None
        done = subprocess.run([self.program, self.path, "run"], input=b"".join(lines), stdout=subprocess.PIPE, stderr=subprocess.DEVNULL, preexec_fn=bound)
        return done.returncode, done.stdout.decode().rstrip("\n").rpartition("\n")[2]

    def holds(self, what, lines, limit, reply):
        """Whether a run gives this reply within a limit."""
        status, said = self.run(lines, limit)
        print(f"{what} within {limit * self.share / MIB:.1f} MiB: status {status}, {said!r}")
        return (status, said) == (0, reply)

    def try_limits(self, count):
        """Whether one level is opened, and levels and journal are merged, within their limits."""
        reply = self.run([b"stats\n"])[1]
        levels = levels_of(self.path)
        if not reply.startswith(f"documents {count} ") or len(levels) < 2:
            raise SystemExit(f"memory_limits: {reply} in {len(levels)} levels")
        with open(self.path, "rb") as file:
            loaded = file.read()
        self.run([b"merge\n"])
        ((length, tables),) = levels_of(self.path)
        opening = OPENING[0] + OPENING[1] * tables
        is_opened = self.holds(f"opening one level of {length} bytes, {tables} of them tables,", [b"stats\n"], opening, reply)
        # The fixed part alone is too little for any program that holds the tables, so that a limit is seen to be in force.
        status, _ = self.run([b"stats\n"], OPENING[0])
        if status != NO_MEMORY:
            raise SystemExit(f"memory_limits: the fixed part alone ends with status {status}")
        with open(self.path, "wb") as file:
            file.write(loaded)
        merge = MERGE[0] + MERGE[1] * length
        return self.holds(f"merging {len(levels)} levels and the journal", [b"merge\n", b"stats\n"], merge, reply) and is_opened


def main():
    parser = argparse.ArgumentParser(description=__doc__, formatter_class=argparse.RawDescriptionHelpFormatter)
    parser.add_argument("--program", default="crates/alta_cli/out/alta_cli")
    parser.add_argument("--share", type=float, default=1.0)
    options = parser.parse_args()
    lines = list(documents())
    # Each add costs a sync, and of a folder in memory these are cheap.
    place = "/dev/shm" if os.access("/dev/shm", os.W_OK) else None
    with tempfile.TemporaryDirectory(dir=place) as folder:
        kept = []
        for count in (COUNT // 2, COUNT):
            index = Index(os.path.abspath(options.program), os.path.join(folder, f"{count}.alta"), options.share)
            status, said = index.run(lines[:count])
            if (status, said) != (0, f"added {count}"):
                raise SystemExit(f"memory_limits: the adds ended with status {status} and {said!r}")
            kept.append(index.try_limits(count))
    if not all(kept):
        raise SystemExit("memory_limits: a limit is not kept")


if __name__ == "__main__":
    main()
