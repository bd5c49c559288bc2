#!/usr/bin/env python3
"""Counts what each line costs of the disk: writes and syncs, seen by strace.

usage: bench/syncs.py [--program PATH] [--folder FOLDER]

One run in FOLDER (a new one in the current folder by default) takes each line once the reply to the one before has come, so that no
line stands behind another. A second one is handed its lines at once, and what stands between two replies counts for the second of
them. Counts hang on no load. Prints a table in Markdown: a line and where it stands, its writes (`pwrite64`), their bytes, and its syncs
(`fdatasync`). A line that cost the disk anything else fails the bench.
"""

import argparse
import os
import re
import shutil
import subprocess
import sys
import tempfile
from typing import NamedTuple

TOP = os.path.dirname(os.path.dirname(os.path.abspath(__file__)))
sys.path[:0] = [os.path.join(TOP, "tests"), os.path.join(TOP, "client")]

from buncocedar.fileformat import HALF, LEVELS

# All calls that change a file or make it firm, and those that give a reply.
CALLS = "write,pwrite64,pwritev,ftruncate,fallocate,fsync,fdatasync,sync_file_range,syncfs,msync"
CALL = re.compile(r"(\w+)\((\d+).* = (\d+)")
BODY = " ".join(f"w{number}" for number in range(100))
ROOM = " ".join(f"long{number}" for number in range(20_000))  # some 190 kB of a line: five of them, and the journal is full
FULL = HALF // len(ROOM)


class Cost(NamedTuple):
    """What a line cost: its writes, their bytes, and its syncs."""

    writes: int = 0
    bytes: int = 0
    syncs: int = 0

    def and_call(self, name, size):
        if name == "pwrite64":
            return Cost(self.writes + 1, self.bytes + size, self.syncs)
        if name == "fdatasync":
            return self._replace(syncs=self.syncs + 1)
        raise SystemExit(f"syncs: a line made the call {name}")


def costs_of(report):
    """The cost of each reply of a traced run, that of the opening with the first one left out."""
    costs, cost = [], Cost()
    with open(report, encoding="ascii", errors="replace") as file:
        for name, handle, size in map(re.Match.groups, filter(None, map(CALL.search, file))):
            if (name, handle) == ("write", "1"):
                costs.append(cost)
                cost = Cost()
            else:
                cost = cost.and_call(name, int(size))
    return costs


class Traced:
    """A run of the program over a new index, under strace."""

    def __init__(self, program, folder, name):
        self.report, path = os.path.join(folder, f"{name}.calls"), os.path.join(folder, f"{name}.alta")
        subprocess.run([program, path, "init"], check=True)
        words = ["strace", "-e", f"trace={CALLS}", "-o", self.report, program, path, "run"]
        self.process = subprocess.Popen(words, stdin=subprocess.PIPE, stdout=subprocess.PIPE)

    def send(self, lines):
        """Hands lines over at once, and takes their replies, each of one line."""
        self.process.stdin.write("".join(f"{line}\n" for line in lines).encode())
        self.process.stdin.flush()
        return [self.process.stdout.readline() for _ in lines]

    def costs(self):
        """Ends the run, and answers the cost of each line of it."""
        self.process.stdin.close()
        self.process.stdout.close()
        if self.process.wait() != 0:
            raise SystemExit("syncs: the program failed")
        return costs_of(self.report)


def add(name, body=BODY):
    return f"add {name}\tA title\t{body}"


def fill(name):
    """Lines that fill the journal, the last of which is the one that finds it full."""
    return [add(f"{name}{number}", ROOM) for number in range(FULL + 1)]


# Each line is sent alone. Those with a text are told.
ALONE = [
    ("", "stats"),
    ("the first `add` of a run", add("a")),
    ("an `add`", add("b")),
    ("an `add` in the place of a document", add("a")),
    ("a `delete`", "delete b"),
    ("a `delete` that is refused", "delete nobody"),
    ("a `count`", "count w7"),
    ("a `step` where there is nothing to join", "step 1000"),
    ("the first `flush` of a file", "flush"),
    ("a `flush` where there is nothing new", "flush"),
    ("", add("c")),
    ("a `flush`", "flush"),
    ("", add("d")),
    ("a `merge` of two levels and the journal", "merge"),
    ("", add("d")),
    ("", "flush"),
    ("a `step` that begins a join, or goes on with it", "step 1"),
    ("the `step` that ends it", "step 1000000"),
    ("a `merge` where there is one level", "merge"),
    *(("", line) for line in fill("e")[:-1]),
    ("an `add` that finds the journal full", fill("e")[-1]),
    *((("", line) for level in range(LEVELS) for line in (add(f"f{level}"), "flush"))),
    *(("", line) for line in fill("g")[:-1]),
    ("an `add` that finds it full and sixteen levels", fill("g")[-1]),
]
TOGETHER = [
    *(("", add(f"h{number}")) for number in range(4)),
    ("an `add` behind another change, with one more line behind it", add("i")),
    ("a `delete` behind another change, with one more line behind it", "delete i"),
    ("", add("j")),
    ("a `count` among them", "count w7"),
    ("", add("k")),
    ("an `add` behind another change, the last line that has come", add("l")),
]


def rows(program, folder):
    """Each line that is told, with its cost."""
    alone = Traced(program, folder, "alone")
    for _, line in ALONE:
        alone.send([line])
    together = Traced(program, folder, "together")
    together.send([line for _, line in TOGETHER])
    for told, costs in ((ALONE, alone.costs()), (TOGETHER, together.costs())):
        if len(told) != len(costs):
            raise SystemExit(f"syncs: {len(told)} lines, and {len(costs)} replies")
        yield from ((text, cost) for (text, _), cost in zip(told, costs) if text)


def main():
    parser = argparse.ArgumentParser(description=__doc__, formatter_class=argparse.RawDescriptionHelpFormatter)
    parser.add_argument("--program", default=os.path.join(TOP, "crates", "alta_cli", "out", "alta_cli"))
    parser.add_argument("--folder", default=".")
    options = parser.parse_args()
    if not shutil.which("strace"):
        raise SystemExit("syncs: strace is missing")
    print("| Line | Writes | Bytes | Syncs |\n|---|---|---|---|")
    with tempfile.TemporaryDirectory(dir=options.folder) as folder:
        for text, cost in rows(os.path.abspath(options.program), folder):
            print(f"| {text} | {cost.writes} | {cost.bytes:,} | {cost.syncs} |")


if __name__ == "__main__":
    main()
