#!/usr/bin/env python3
"""Runs random scripts with flushes, merges and steps over several runs, and compares the file behind each run byte by byte.

usage: tests/work.py [--program PATH] [--seconds S] [--seed N]

Each round makes an index, now and then one of version 1, as programs made it before, and runs scripts of adds, replaces, deletes,
flushes, merges, steps, searches, cursors and stats over it. Each
reply has to be that of `answers.py`, which tries each document, also between the slices of a join. Behind each run the file has
to be the one of `held.py`, which works on levels as docs/FORMAT.md says: what is written anew stands at the first gap that holds
it, the levels in their order and then the deletion list, all else stays where it was, and a join in progress ends with its run.
Some rounds fill the journal, one of them three times in two runs, so that an add or a delete flushes first; some have as many levels as a root may, so that a flush
joins the oldest two, by the join in progress or by a new one. A root of version 1 is raised before the first replace or long text.
Ends with status 0 where all of that holds.
"""

import argparse
import os
import random
import subprocess
import sys
import tempfile
import time
from typing import NamedTuple

from model.answers import Machine, spelled
from damage import QUERIES, difference
from model.held import Held, empty_file
from model.reading import NoIndex, opened
from model.segments import Broken
from support import PATIENCE

WORDS = ["red", "Fox", "quick", "brown", "dog", "lazy", "Over", "fox", "7", "1996", "4294967295", "007"]
NAMES = "abcdefghijkl"
COUNTED = ("flush", "merge", "step")


# ---- the comparison


def where(held, file):
    """In what of its meaning a file differs from the one that has to be, or the first byte that differs."""
    try:
        found = opened(file)
    except NoIndex:
        return "has no index"
    except Broken as broken:
        return f"is damaged at {broken.place}"
    pairs = {
        "slot": (found.slot, held.slot),
        "version": (found.root.version, held.root.version),
        "sequence": (found.root.sequence, held.root.sequence),
        "next number": (found.root.next_number, held.root.next_number),
        "next location": (found.root.next_location, held.root.next_location),
        "extents of the levels": (found.root.levels, held.root.levels),
        "extent of the deletion list": (found.root.deletions, held.root.deletions),
        "deleted ends": (found.ends, held.ends),
        "entries": (found.entries, held.entries),
    }
    for what, (came, wanted) in pairs.items():
        if came != wanted:
            return f"has the {what} {came} in place of {wanted}"
    return "is " + difference(bytes(held.file), file)


class Round:
    """One index, and the runs over it."""

    def __init__(self, program, path, version=2):
        self.program, self.path = program, path
        self.machine = Machine(QUERIES)
        self.lines, self.runs, self.done = [], 0, dict.fromkeys(COUNTED, 0)
        if version == 2:
            subprocess.run([program, path, "init"], check=True)
        else:
            with open(path, "wb") as file:
                file.write(empty_file(version))
        self.held = Held(empty_file(version))
        self.compare()

    def fail(self, message):
        """Ends with the message and the lines of the last run."""
        text = "\n".join(f"  {line[:200]}" for line in self.lines)
        raise SystemExit(f"work: {message}, in run {self.runs} of an index, behind these lines:\n{text}")

    def compare(self):
        with open(self.path, "rb") as file:
            content = file.read()
        if content != self.held.file:
            self.fail(f"the file {where(self.held, content)}")

    def wanted(self, lines):
        """The replies that have to come."""
        self.machine.cursors = {}
        given = []
        for line in lines:
            given.append(self.machine.reply(line))
            root, job = self.held.root, self.held.job
            self.held.work(line, self.machine.entry)
            word = line.partition(" ")[0]
            if word in COUNTED and (root, job) != (self.held.root, self.held.job):
                self.done[word] += 1
        self.held.end_run()
        return given

    def run(self, lines):
        self.lines, self.runs = lines, self.runs + 1
        given = "".join(self.wanted(lines))
        text = "".join(line + "\n" for line in lines).encode()
        done = subprocess.run([self.program, self.path, "run"], input=text, capture_output=True, timeout=PATIENCE)
        if done.returncode != 0 or done.stderr:
            self.fail(f"status {done.returncode} with {done.stderr.decode()!r}")
        if done.stdout.decode() != given:
            self.fail(f"the replies are {done.stdout.decode()!r} in place of {given!r}")
        self.compare()


# ---- the scripts


class Style(NamedTuple):
    """How scripts are made: which part of the lines works on levels, which part of these are no flushes, which part of these
    are no steps, which part of the changes deletes, how many bytes a large text has, and the greatest number of lines."""

    works: float
    joins: float
    merges: float
    deletes: float
    large: int
    lines: int


STYLES = [
    Style(works=0.1, joins=0.3, merges=0.3, deletes=0.3, large=0, lines=40),
    Style(works=0.04, joins=0.3, merges=0.3, deletes=0.45, large=0, lines=40),
    # the journal is full before it is flushed
    Style(works=0.01, joins=0.3, merges=0.3, deletes=0.1, large=60000, lines=40),
    Style(works=0.03, joins=0.5, merges=0.1, deletes=0.5, large=65400, lines=90),
    Style(works=0.03, joins=0.5, merges=0.1, deletes=0.2, large=262000, lines=20),
    # a root with as many levels as it may have
    Style(works=0.45, joins=0, merges=0, deletes=0.2, large=0, lines=90),
    Style(works=0.45, joins=0.1, merges=0.05, deletes=0.2, large=0, lines=90),
    # joins in slices, with changes and searches between them
    Style(works=0.4, joins=0.6, merges=0.02, deletes=0.3, large=0, lines=90),
]


def change(chance, style):
    """An add, of a name that is live or not, or a delete. A large text is one word that is too long to be found, so that it fills the journal alone."""
    name = chance.choice(NAMES)
    if chance.random() < style.deletes:
        return f"delete {name}"
    title, body = (" ".join(chance.choice(WORDS) for _ in range(chance.randrange(most))) for most in (4, 40))
    return f"add {name}\t{title}\t{body} {'y' * (style.large - len(title) - len(body))}"


def asked(chance):
    return f"{chance.choice(['search', 'count', 'open', f'top {chance.randrange(1, 9)}'])} {spelled(chance.choice(QUERIES))}"


def work(chance, style):
    """A flush, a merge or a step."""
    if chance.random() >= style.joins:
        return "flush"
    if chance.random() < style.merges:
        return "merge"
    return f"step {chance.choice([1, 1, 2, 5, 9, 14, 20, 1000, 1000000])}"


def script(chance, style):
    """The lines of a run."""
    lines = []
    for _ in range(chance.randrange(1, style.lines)):
        kind = chance.random()
        if kind < style.works:
            lines.append(work(chance, style))
        elif kind < style.works + 0.8 * (1 - style.works):
            lines.append(change(chance, style))
        else:
            fetch = f"fetch {chance.randrange(1, 4)} {chance.randrange(1, 9)}"
            lines.append(chance.choice([asked(chance), "stats", "dump", fetch, "close 1"]))
    return lines


FIRST, SECOND = "add a\tRed Fox\tthe quick red fox", "add b\tFox\tquick brown dog"
LEVELLED = [FIRST, "flush", SECOND, "flush"]
# runs over one index each, with the number of levels that has to stand behind them
STEADY = [
    # nothing to do
    ([["merge", "step 1", "flush", "stats"]], 0),
    ([LEVELLED[:2] + ["merge", "step 1", "flush", "merge"]], 1),
    # a cursor over a merge, and changes between the slices of a join
    ([[FIRST, SECOND, "open NOT fox", "open red", "delete a", "merge", "fetch 2 1", "fetch 2 1", "fetch 1 5", "search NOT fox"]], 1),
    ([LEVELLED + ["step 1", "delete a", "step 1000000", "search red", "count fox", "merge"]], 1),
    ([LEVELLED + ["delete a", "step 1", "delete b", "step 1000000", "stats", "add a\t\tred", "count red"]], 1),
    ([LEVELLED + ["step 1", "flush", "delete a", "flush", "step 3", "add a\t\tred dog", "flush", "step 1000", "count red", "step 1000"]], 1),
    # the two levels have thirteen terms
    ([LEVELLED + ["step 12", "count fox", "step 1", "count fox"]], 1),
    ([LEVELLED + ["step 11", "count fox", "step 1", "count fox"]], 2),
    # the best first, from memory and from levels, and all words again
    ([[FIRST, SECOND, "top 1 red", "top 2 fox", "top 9 NOT fox", "flush", "top 1 red", "top 2 fox", "dump"], ["dump"]], 1),
    # all documents are gone
    ([LEVELLED + ["delete a", "delete b", "flush", "merge", "stats"]], 0),
    ([LEVELLED + ["delete a", "delete b", "step 1000", "stats", "add a\t\tred", "count red"]], 0),
    # a merge gives a join up, and so does the end of a run
    ([LEVELLED + ["step 9", "merge", "add c\t\tred dog", "flush", "step 9", "delete a", "step 1000", "count red"]], 1),
    ([LEVELLED + ["step 9"], ["delete a", "step 9", "flush"], ["step 9", "count fox", "step 1000"]], 1),
]


LONG = f"add l\tred\t{'y' * 65600}"
# the same over an index of version 1, with the number of levels and how often its root was raised
RAISED = [
    # short adds and deletes stay under version 1, and a flush leaves version 2
    ([[FIRST, SECOND], ["delete a", "add c\t\tred", "count red"]], 0, 0),
    ([[FIRST, "flush", FIRST, "count red"]], 1, 0),
    # a replace, and a long text, with entries in the journal, with none, and with none that is live
    ([[FIRST, "add a\t\tblue", "count fox", "search red", "stats"]], 1, 1),
    ([[LONG, "count red", "delete l"]], 0, 1),
    ([[FIRST, LONG, "count red"], [LONG, "count red"]], 1, 1),
    ([[FIRST, "delete a", LONG, FIRST, FIRST]], 0, 1),
]


def steady(path, program, runs, levels, version=2, raised=0):
    """These runs over a new index, how many levels stand behind them, and how often its root was raised."""
    tried = Round(program, path, version)
    for lines in runs:
        tried.run(lines)
    if len(tried.held.levels) != levels:
        tried.fail(f"{len(tried.held.levels)} levels stand in place of {levels}")
    if tried.held.raised != raised:
        tried.fail(f"the root was raised {tried.held.raised} times in place of {raised}")
    return tried


def seventeen():
    """Seventeen times an add and a flush, each a run of its own, or with a join in progress: sixteen levels stand."""
    pairs = [[f"add n{number}\tred\tfox dog n{number}", "flush"] for number in range(1, 18)]
    yield [["merge"], *pairs], 16
    yield [["merge"], *pairs, ["count red", "merge", "count red"]], 1
    yield [[line for pair in pairs[:16] for line in pair] + ["step 2", "delete n1", "delete n9", *pairs[16], "step 1", "count red"]], 16


def three_halves():
    """A text over three halves of the journal, added in two runs, and then each search: three levels stand."""
    texts = [" ".join(WORDS[number * place % 8] for place in range(1, 2 + number % 7)) for number in range(60)]
    lines = [f"add d{number}\t{WORDS[number % 5]}\t{text} {'y' * 60000}" for number, text in enumerate(texts)]
    yield [lines[:30], lines[30:] + [f"{word} {spelled(query)}" for query in QUERIES for word in ("search", "count")]], 3


def many():
    """Each query over 150 documents in memory, in levels with some in memory, with every third deleted, and in one level, first with its gaps."""
    texts = [" ".join(WORDS[number * place % 11] for place in range(1, 2 + number % 9)) for number in range(150)]
    adds = [f"add d{number}\t{WORDS[number % 7]}\t{text}" for number, text in enumerate(texts)]
    asks = [f"{word} {spelled(query)}" for query in QUERIES for word in ("count", "search", "top 3")]
    deletes = [f"delete d{number}" for number in range(0, 150, 3)]
    levelled = [*adds[:70], "flush", *adds[70:140], "flush", *adds[140:]]
    yield [adds + asks + ["flush"] + asks, deletes + asks + ["merge"] + asks], 1
    yield [levelled + asks + deletes + asks, asks], 2


def try_round(path, program, chance, style):
    """Some runs over a new index."""
    tried = Round(program, path, chance.choice([1, 2, 2]))
    for _ in range(chance.randrange(2, 6)):
        tried.run(script(chance, style))
    return tried


class Sums:
    """What was tried: indexes, runs, lines that changed levels or moved a join on, flushes by a full journal, raised roots, and the
    greatest number of levels."""

    def __init__(self):
        self.indexes = self.runs = self.unasked = self.raised = self.levels = 0
        self.done = dict.fromkeys(COUNTED, 0)

    def add(self, tried):
        self.indexes += 1
        self.runs += tried.runs
        self.unasked += tried.held.unasked
        self.raised += tried.held.raised
        self.levels = max(self.levels, tried.held.most)
        for word in COUNTED:
            self.done[word] += tried.done[word]


def main():
    parser = argparse.ArgumentParser(description=__doc__, formatter_class=argparse.RawDescriptionHelpFormatter)
    top = os.path.dirname(os.path.dirname(os.path.abspath(__file__)))
    parser.add_argument("--program", default=os.path.join(top, "alta"))
    parser.add_argument("--seconds", type=float, default=20.0)
    parser.add_argument("--seed", type=int, default=None)
    options = parser.parse_args()
    seed = options.seed if options.seed is not None else random.randrange(1 << 32)
    chance = random.Random(seed)
    program = os.path.abspath(options.program)
    memory = "/dev/shm" if os.access("/dev/shm", os.W_OK) else None
    sums = Sums()
    with tempfile.TemporaryDirectory(dir=memory) as folder:
        path = os.path.join(folder, "index")
        for runs, levels in (*STEADY, *seventeen(), *three_halves(), *many()):
            sums.add(steady(path, program, runs, levels))
            os.remove(path)
        for runs, levels, raised in RAISED:
            sums.add(steady(path, program, runs, levels, 1, raised))
            os.remove(path)
        stop = time.monotonic() + options.seconds
        while time.monotonic() < stop:
            sums.add(try_round(path, program, chance, STYLES[sums.indexes % len(STYLES)]))
            os.remove(path)
    done = ", ".join(f"{count} by a {word}" for word, count in sums.done.items())
    print(
        f"work: {sums.indexes} indexes hold what the lines of {sums.runs} runs say, with work {done}, {sums.unasked} by a full "
        f"journal, {sums.raised} by a raise of the root, {sums.levels} levels at most (seed {seed})"
    )


if __name__ == "__main__":
    sys.exit(main())
