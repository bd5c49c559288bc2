#!/usr/bin/env python3
"""Measures how the costs of an index grow with its text, beside SQLite's full-text index and Xapian.

usage: /usr/bin/python3 bench/sizes.py [--program PATH] [--before PATH ..] [--texts FOLDER ..] [--megabytes N,N,..] [--folder FOLDER]
                                       [--fast | --shards N] [--record FILE]

Documents are cut from the text files below the FOLDERs (/usr/share/doc, /usr/share/man) as bench/bulk.py cuts them, up to so many megabytes of
lines (10, 30, 100). Where these texts end they come again, each with four words more that no other has. They go into a new index of each program, with a `merge` wherever there are sixteen levels and one more in the journal and one
`flush` at the end, as the importing scripts do. With --fast there are adds alone. Then an opening with one `stats`, a `merge` of what is left, an
opening of the one level, and a `dump` each run alone.

The peers take the same documents and keep no texts: FTS5 in one transaction and with a commit for each document (left out with --fast), each
optimized, its file behind a `vacuum`, and Xapian in one commit, compacted (left out with --fast, and where Debian's python3-xapian is not there, which is for
/usr/bin/python3). They run in Python, which is in their times and peaks.

With --shards the documents go into so many indexes, by their names as those of a folder of shards do, one index after the other. There is no `dump`
and no peer then. Seconds and megabytes are those of all together, and memory that of the index that takes most.

A small parent in C starts each, since a peak (`ru_maxrss`) begins with that of whoever starts a process; `gcc` compiles it. Prints a table in Markdown:
megabytes of text (titles and bodies), of the index (of the program its level), and of the level's tables on the disk (head, documents and terms);
then for each step processor seconds, MiB at most, and the bytes that it handed to the system to write for each byte of text. With --record they go
into a file of figures, from which bench/plot.py draws them.
"""

import argparse
import contextlib
import os
import sqlite3
import subprocess
import sys
import tempfile
from itertools import chain, count
from typing import NamedTuple, Optional

TOP = os.path.dirname(os.path.dirname(os.path.abspath(__file__)))
sys.path[:0] = [os.path.join(TOP, "tests"), os.path.join(TOP, "client")]

import peer
from buncocedar.shards import shard_of
from bulk import FILL, lines_below, with_merges_of_levels
from model.reading import read_roots
from model.segments import read_head
from recorded import machine, record

# Runs a command, and tells of it: microseconds of the processor, KiB at most, bytes that it handed to the system to write.
PARENT = r"""
#include <stdio.h>
#include <sys/resource.h>
#include <sys/wait.h>
#include <unistd.h>

int main(int count, char **words) {
    char path[64];
    long written = -1;
    int status;
    siginfo_t ended;
    struct rusage usage;
    pid_t child = fork();
    if (child == 0) {
        execv(words[1], words + 1);
        _exit(127);
    }
    if (count < 2 || child < 0 || waitid(P_PID, child, &ended, WEXITED | WNOWAIT) != 0) return 126;
    snprintf(path, sizeof path, "/proc/%d/io", (int) child);
    FILE *told = fopen(path, "r");
    if (told == NULL || fscanf(told, "rchar: %*d wchar: %ld", &written) != 1) return 126;
    if (wait4(child, &status, 0, &usage) != child) return 126;
    long microseconds = (usage.ru_utime.tv_sec + usage.ru_stime.tv_sec) * 1000000L + usage.ru_utime.tv_usec + usage.ru_stime.tv_usec;
    fprintf(stderr, "%ld %ld %ld\n", microseconds, usage.ru_maxrss, written);
    return WIFEXITED(status) ? WEXITSTATUS(status) : 125;
}
"""
# Makes a database of Xapian of the `add` lines of a file.
DATABASE = """
import sys
sys.path.insert(0, sys.argv[1])
import peer
with open(sys.argv[3], "rb") as lines:
    peer.make_database(map(peer.text_of, lines), sys.argv[2])
"""
STEPS = ["import", "opening as loaded", "merge", "opening", "dump"]
COLUMNS = ["Text, MB", "Documents", "", "Index, MB", "Its tables, MB", *(f"{step}: s, MiB, bytes a byte" for step in STEPS)]
OURS = "Buncocedar"
PEERS = {"bulk": "SQLite FTS5, one transaction", "commits": "SQLite FTS5, a commit each", "xapian": "Xapian, one commit"}


class Cost(NamedTuple):
    """What a step took: processor seconds, MiB at most, and bytes written for each byte of text."""

    seconds: float
    memory: float
    written: float

    def __str__(self):
        return f"{self.seconds:.2f}, {self.memory:.1f}, {self.written:.2f}"


class Costs(NamedTuple):
    """What an index took: megabytes, those of its tables, and the cost of each step that it has."""

    size: float
    tables: Optional[float]
    steps: dict

    def cells(self):
        tables = "" if self.tables is None else f"{self.tables:.2f}"
        return [f"{self.size:.2f}", tables, *(str(self.steps.get(step, "")) for step in STEPS)]


class Measured:
    """Commands that the small parent starts, in a folder of their own. Text has so many bytes."""

    def __init__(self, folder, text):
        self.parent, self.output = os.path.join(folder, "parent"), os.path.join(folder, "output")
        self.text = text
        subprocess.run(["gcc", "-O1", "-x", "c", "-", "-o", self.parent], input=PARENT.encode(), check=True)

    def cost(self, words, source=os.devnull):
        """The cost of a command that has to end with status 0 over this file."""
        with open(source, "rb") as given, open(self.output, "wb") as taken:
            done = subprocess.run([self.parent, *words], stdin=given, stdout=taken, stderr=subprocess.PIPE, check=True)
        microseconds, kibibytes, written = map(int, done.stderr.split()[-3:])
        return Cost(microseconds / 1e6, kibibytes / 1024, (written - os.path.getsize(self.output)) / self.text)


def texts(folders):
    """The texts of the documents below these folders, with their titles; once they end each of them again, with four words of its own."""
    known = []
    for line in chain.from_iterable(map(lines_below, folders)):
        known.append(line.partition(b"\t")[2])
        yield known[-1]
    for turn in count(1) if known else ():
        for number, text in enumerate(known):
            yield text.rstrip(b"\n") + b"".join(b" x%d%c%d" % (turn, letter, number) for letter in b"abcd") + b"\n"


def documents(folders):
    """An `add` line for each of these texts, numbered through."""
    return (b"add d%d\t" % number + text for number, text in enumerate(texts(folders), 1))


def within(lines, most):
    """The first of these lines, of so many bytes at most."""
    size = 0
    for line in lines:
        size += len(line)
        if size > most:
            return
        yield line


def level_of(path):
    """The megabytes of the one level of an index, and those of its tables, as `Costs` has them."""
    with open(path, "rb") as file:
        content = file.read()
    ((place, length),) = read_roots(content)[1].levels
    _, _, rows, terms = read_head(content[place : place + length])
    return {"size": length / 1e6, "tables": (32 + rows + terms) / 1e6}


def file_of(folder, name, lines):
    """A file of lines."""
    path = os.path.join(folder, name)
    with open(path, "wb") as file:
        file.writelines(lines)
    return path


def of_program(program, folder, lines, measured, is_fast, steps=STEPS):
    """What the steps of an index of these lines cost by the program."""
    path = os.path.join(folder, "index")
    run = [program, path, "run"]
    given = file_of(folder, "given", lines if is_fast else chain(with_merges_of_levels(lines), [b"flush\n"]))
    asked = {word: file_of(folder, word, [f"{word}\n".encode()]) for word in ("stats", "merge", "dump")}
    subprocess.run([program, path, "init"], check=True)
    sources = (given, asked["stats"], asked["merge"], asked["stats"], asked["dump"])
    costs = Costs(steps={step: measured.cost(run, source) for step, source in zip(steps, sources)}, **level_of(path))
    os.remove(path)
    return costs


def of_shards(program, folder, lines, measured, shards):
    """What so many indexes cost, into which these lines go by the names of their documents."""
    parts = [[] for _ in range(shards)]
    for line in lines:
        parts[shard_of(line[4:].partition(b"\t")[0].decode(), shards)].append(line)
    found = [of_program(program, folder, part, measured, False, STEPS[:-1]) for part in parts]
    steps = {step: together([costs.steps[step] for costs in found]) for step in STEPS[:-1]}
    return Costs(sum(costs.size for costs in found), sum(costs.tables for costs in found), steps)


def together(costs):
    """The cost of a step of several indexes, one after the other."""
    seconds, memory, written = zip(*costs)
    return Cost(sum(seconds), max(memory), sum(written))


def of_peer(name, folder, source, measured):
    """What a peer's index of the lines of this file costs."""
    path = os.path.join(folder, name)
    if name == "xapian":
        cost = measured.cost([sys.executable, "-c", DATABASE, os.path.join(TOP, "bench"), path, source])
        size = sum(entry.stat().st_size for entry in os.scandir(path))
    else:
        cost = measured.cost([sys.executable, "-c", FILL, path, source, name])
        with contextlib.closing(sqlite3.connect(path)) as base:
            base.execute("vacuum")
            base.execute("pragma wal_checkpoint(truncate)")
        size = os.path.getsize(path)
    return Costs(size / 1e6, None, {"import": cost})


def panels_of(grown):
    """The panels of a picture of how costs grow: of each size of text in megabytes those of ours and of each peer."""
    kinds = [("processor time", "s", "seconds"), ("memory at most", "MiB", "memory"), ("bytes written for a byte of text", "", "written")]
    shown = [("import", kind) for kind in kinds] + [(step, kind) for step in ("opening", "merge", "dump") for kind in kinds[:2]]
    names = [OURS, *(name for name in PEERS.values() if any(name in costs for costs in grown.values()))]

    def value(costs, name, step, field):
        cost = costs[name].steps.get(step) if name in costs else None
        return None if cost is None else round(getattr(cost, field), 3)

    return [
        {
            "title": f"{step}: {title}",
            "kind": "lines",
            "unit": unit,
            "across": "megabytes of text",
            "series": names if step == "import" else [OURS],
            "rows": [
                [text, *(value(costs, name, step, field) for name in (names if step == "import" else [OURS]))]
                for text, costs in sorted(grown.items())
            ],
        }
        for step, (title, unit, field) in shown
    ]


def peers_wanted(is_fast):
    """The names of the peers that are measured."""
    if is_fast:
        return ["bulk"]
    return [name for name in PEERS if name != "xapian" or peer.xapian]


def main():
    parser = argparse.ArgumentParser(description=__doc__, formatter_class=argparse.RawDescriptionHelpFormatter)
    parser.add_argument("--program", default=os.path.join(TOP, "crates", "alta_cli", "out", "alta_cli"))
    parser.add_argument("--before", action="append", default=[])
    parser.add_argument("--texts", nargs="+", default=["/usr/share/doc", "/usr/share/man"])
    parser.add_argument("--megabytes", type=lambda text: [float(word) for word in text.split(",")], default=[10, 30, 100])
    parser.add_argument("--folder", default="/dev/shm" if os.access("/dev/shm", os.W_OK) else ".")
    kinds = parser.add_mutually_exclusive_group()
    kinds.add_argument("--fast", action="store_true")
    kinds.add_argument("--shards", type=int)
    parser.add_argument("--record", metavar="FILE")
    options = parser.parse_args()
    programs = {OURS: options.program, **{f"{OURS}, before{n or ''}": path for n, path in enumerate(options.before)}}
    lines = list(within(documents(options.texts), max(options.megabytes) * 1e6))
    print(machine() + "\n\n| " + " | ".join(COLUMNS) + " |\n" + "|---" * len(COLUMNS) + "|", flush=True)
    grown = {}
    for most in options.megabytes:
        part = list(within(lines, most * 1e6))
        text = sum(len(line.partition(b"\t")[2]) - 2 for line in part)
        costs = grown.setdefault(round(text / 1e6, 1), {})
        with tempfile.TemporaryDirectory(dir=options.folder) as folder:
            measured = Measured(folder, text)
            if options.shards:
                wanted = {name: (of_shards, program, folder, part, measured, options.shards) for name, program in programs.items()}
            else:
                wanted = {name: (of_program, program, folder, part, measured, options.fast) for name, program in programs.items()}
                source = file_of(folder, "lines", part)
                wanted.update({PEERS[name]: (of_peer, name, folder, source, measured) for name in peers_wanted(options.fast)})
            for name, (measure, *given) in wanted.items():
                costs[name] = measure(*given)
                print("| " + " | ".join([f"{text / 1e6:.1f}", f"{len(part):,}", name, *costs[name].cells()]) + " |", flush=True)
    if options.record:
        record(options.record, "How the costs of an index grow with its text", panels_of(grown))
    return 0


if __name__ == "__main__":
    sys.exit(main())
