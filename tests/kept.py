#!/usr/bin/env python3
"""Asks the same searches again and again between lines that change an index: tests/kept.py [--program PATH]

A search keeps the longer lists that it read and tested, until the root is switched: what is added or deleted leaves them. So each search of
one long run has to answer as in a run of its own over the same documents, whatever was asked before, also behind an add that finds the journal
full, and so switches the root. A list that is broken has to be told at the same place, in the same order, whatever was kept before. A list that
is kept is not read again, which a change of its bytes by another hand shows. The rows compare runs of the program with one another; its answers
are compared with the models by `work.py`.
"""

import argparse
import os
import subprocess
import tempfile

from support import answered, run_lines
from worked import Index

MANY = 400  # documents, so that the list of a word in each is kept
LEVELS = 16  # as many as an index may have
LONG = 250_000  # bytes of a text; the journal has no room for five such


def document(number, word="common"):
    """The line of a document: its word, one of two in every second document twice, a rare one, and a title."""
    half = "half half" if number % 2 else "other"
    return f"add d{number}\tAlpha {half}\t{word} {half} {'rare' if number % 97 == 5 else 'plain'}"


QUERIES = (
    "count common",
    "count rare AND common",
    "count half AND common",
    "count rare NOT half",
    'count "common half"',
    "count half NEAR/2 common",
    "count title:alpha",
    "count com* OR half",
    "search rare AND common",
    "top 3 common",
    "top 2 rare OR half",
    "dump",
)

# Lines that change the index or may: one step behind another, from an empty index on.
CHANGES = (
    [*map(document, range(1, MANY + 1)), "flush"],
    ["add one\tAlpha\tcommon rare"],
    [*map(document, range(MANY, 2 * MANY)), "flush"],
    ["delete d7"],
    [document(9, "uncommon")],
    ["add bad name"],
    ["flush"],
    ["flush"],
    ["step 1"],
    ["step 3"],
    ["step 1000000"],
    [document(9), "delete d102"],
    ["merge"],
    ["merge"],
    ["step 5"],
    ["delete d11", "merge"],
    [f"delete d{number}" for number in range(1, MANY)],
    ["merge"],
)


def again(make):
    """Each search asked twice behind each change, in one run and in runs of their own."""
    whole, changed = [], []
    for at, change in enumerate(CHANGES):
        file = make()
        replies = file.run(*(line for each in CHANGES[: at + 1] for line in each))
        whole += replies[len(changed) :] + 2 * file.run(*QUERIES)
        changed = replies
    found = make().run(*(line for change in CHANGES for line in [*change, *QUERIES, *QUERIES]))
    if found != whole:
        place = next(at for at, (one, other) in enumerate(zip(found, whole)) if one != other)
        raise SystemExit(f"kept: {found[place]!r} in place of {whole[place]!r}, the reply {place}")


def full(make):
    """Searches between adds of which the last flushes: of sixteen levels the two oldest are joined, so each has another number."""
    levels = [line for level in range(LEVELS) for line in (*(document(number + level * MANY) for number in range(level, MANY)), "flush")]
    texts = [f"add long{number}\tAlpha\t{'a' * LONG}" for number in range(5)]
    file = make()
    file.run(*levels)
    with open(file.path, "rb") as opened:
        content = opened.read()
    before = len(file.root()[1])
    found = file.run(*(line for text in texts for line in (text, *QUERIES)))
    after = len(file.root()[1])
    if (before, after) != (LEVELS, LEVELS):
        raise SystemExit(f"kept: {before} levels, and then {after}")
    whole = []
    for at, text in enumerate(texts):
        file = make(content)
        file.run(*texts[:at])
        whole += file.run(text) + file.run(*QUERIES)
    if found != whole:
        raise SystemExit("kept: searches behind an add that flushes answer as before it")


def broken_at(make, content, extent, word, others):
    """The content with a byte changed that breaks the list of this word, and none of the others. Lists stand behind the tables."""
    begin, length = extent
    for at in range(begin + length - 1, begin, -5):
        changed = content[:at] + bytes([content[at] ^ 0x55]) + content[at + 1 :]
        path = make(changed).path
        asked = [run_lines(make.program, path, [f"count {each}"])[0] for each in (word, *others)]
        if asked == [6, *[0] * len(others)]:
            return changed
    raise SystemExit(f"kept: no byte breaks the list of {word} alone")


def broken(make):
    """Broken lists beside lists that are kept."""
    words = ("one", "two", "three")
    file = make()
    answered(make.program, file.path, [*(f"add d{number}\t\t{' '.join(words)}" for number in range(MANY)), "flush"])
    (extent,) = file.root()[1]
    with open(file.path, "rb") as opened:
        whole = opened.read()
    content = broken_at(make, whole, extent, "two", ("one", "three"))
    read_once(make, whole, content)
    alone = run_lines(make.program, make(content).path, ["count two"])
    both = broken_at(make, content, extent, "three", ("one",))
    rows = ((content, "count two", alone), (content, "count one AND two", alone), (content, "top 1 two AND three", alone), (both, "count three AND one AND two", None))
    for bytes_, query, want in rows:
        path = make(bytes_).path
        want = want or run_lines(make.program, path, [query])
        before = run_lines(make.program, path, ["count one", "top 1 one"])
        status, replies, said = run_lines(make.program, path, ["count one", "top 1 one", "count one", query])
        if (status, said) != (want[0], want[2]) or status != 6 or replies != [*before[1], before[1][0]]:
            raise SystemExit(f"kept: {status} {said!r} in place of {want}: {query}")


def read_once(make, content, changed):
    """A kept list is not read again until the root is switched: meanwhile another hand breaks it on the disk."""
    file = make(content)
    ((at, byte),) = ((at, new) for at, (old, new) in enumerate(zip(content, changed)) if old != new)
    with subprocess.Popen([make.program, file.path, "run"], stdin=subprocess.PIPE, stdout=subprocess.PIPE, stderr=subprocess.PIPE, text=True, bufsize=1) as process:

        def ask(*lines):
            process.stdin.write("".join(f"{line}\n" for line in lines))
            return [process.stdout.readline().strip() for _ in lines]

        found = ask("count two")
        with open(file.path, "r+b") as opened:
            opened.seek(at)
            opened.write(bytes([byte]))
        found += ask("add other\t\ttwo", "count two", "add d7\t\ttwo", "count two", "delete d9", "count two", "flush")
        found += process.communicate("count two\n")
        found.append(process.returncode)
    counts = [f"found {MANY + more}" for more in (0, 1, 1, 0)]
    if found[:7:2] != counts or found[7:9] != ["ok", ""] or found[10] != 6:
        raise SystemExit(f"kept: {found}, while a list that is kept is broken on the disk")


class Make:
    """Makes indexes of the program in one folder."""

    def __init__(self, program, folder):
        self.program, self.folder = program, folder

    def __call__(self, content=None):
        return Index(self.program, self.folder, content)


def main():
    parser = argparse.ArgumentParser()
    parser.add_argument("--program", default="./alta")
    program = os.path.abspath(parser.parse_args().program)
    # Each line costs syncs, and of a folder in memory these are cheap.
    place = "/dev/shm" if os.access("/dev/shm", os.W_OK) else None
    with tempfile.TemporaryDirectory(dir=place) as folder:
        make = Make(program, folder)
        again(make)
        full(make)
        broken(make)
    print(f"kept: {len(CHANGES)} changes, {len(QUERIES)} searches")


if __name__ == "__main__":
    main()
