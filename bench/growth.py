#!/usr/bin/env python3
"""Tells how many bytes an index writes for each byte of its text, by the rule that says when levels are joined.

usage: bench/growth.py [--sizes MB,MB,..]

No index is made: the sizes of levels are followed, one full journal after the other. A full journal holds 1 MB of text
(`crates/alta_layout/src/layout.rt`), and its flush writes one level. An index has sixteen levels at most. A flush that finds sixteen
joins the oldest two first, a `step` joins the oldest two, and a `merge` joins all, and takes the journal with it. These are the rules:

- flushes alone: no line asks for a join;
- steps: a client that waits sends `step` until twelve levels are left, as `client/buncocedar/server.py` does;
- a merge each 12 MB: a client sends `merge` behind twelve flushes;
- a merge at sixteen levels: a client sends `merge` where there are sixteen levels and one more in the journal, as the importing scripts
  do. No rule that today's lines allow writes less: each join has the oldest level in it, and this rule joins once in 16 MB;
- the newest levels: at sixteen levels the longest run of newest levels of which each is shorter than all behind it is joined. No line
  asks for this. It tells what the rule of the oldest level costs.

A level of T MB of text is taken to have 0.911 T + 0.179 T^0.7 MB, which fits levels of 1 and of 100 MB of the text files of a Debian
machine (`bench/bulk.py`). The text is written once to the journal. Slots and the file's rounding are left out, as are the syncs.
Prints a table in Markdown: a line for each rule, and in it the bytes written for a byte of text at each size (100, 1,000 and 10,000 MB).
"""

import argparse
import re

LEVELS = 16  # most levels of an index
KEPT = 12  # levels that the steps of a server leave


def level_bytes(text):
    """MB on the disk of a level with so many MB of text."""
    return 0.911 * text + 0.179 * text**0.7


class Index:
    """The levels of an index, the oldest first, each by its MB of text, and the MB that were written for levels."""

    def __init__(self):
        self.levels = []
        self.written = 0.0

    def flush(self):
        """The journal, which holds 1 MB of text, becomes the last level."""
        self.levels.append(1.0)
        self.written += level_bytes(1.0)

    def join(self, first, end, journal=0.0):
        """The levels from the index `first` to before `end`, with so many MB of the journal, become one."""
        text = sum(self.levels[first:end]) + journal
        self.levels[first:end] = [text]
        self.written += level_bytes(text)


def flush_alone(index):
    if len(index.levels) == LEVELS:
        index.join(0, 2)
    index.flush()


def flush_and_step(index):
    flush_alone(index)
    while len(index.levels) > KEPT:
        index.join(0, 2)


def merge_at_twelve(index):
    index.flush()
    if len(index.levels) > 12:
        index.join(0, len(index.levels))


def merge_when_full(index):
    if len(index.levels) == LEVELS:
        index.join(0, LEVELS, journal=1.0)
    else:
        index.flush()


def newest_run(levels):
    """The index at which the longest run of newest levels begins, each of them shorter than all behind it."""
    first, behind = len(levels) - 2, levels[-1] + levels[-2]
    while first > 0 and levels[first - 1] < behind:
        first -= 1
        behind += levels[first]
    return first


def join_newest(index):
    if len(index.levels) == LEVELS:
        index.join(newest_run(index.levels), LEVELS)
    index.flush()


RULES = {
    "flushes alone": flush_alone,
    "steps": flush_and_step,
    "a merge each 12 MB": merge_at_twelve,
    "a merge at sixteen levels": merge_when_full,
    "the newest levels (no line asks for it)": join_newest,
}


def written_for_a_byte(fill, size):
    """The bytes that an index of `size` MB of text has written for each byte of it, where `fill` takes a full journal in."""
    index = Index()
    for _ in range(size):
        fill(index)
    return 1.0 + index.written / size


def read_sizes(text):
    words = text.split(",")
    if not all(re.fullmatch("[1-9][0-9]{0,6}", word) for word in words):
        raise argparse.ArgumentTypeError("sizes are whole MB from 1 to 9,999,999, as 100,1000")
    return [int(word) for word in words]


def main():
    parser = argparse.ArgumentParser(description=__doc__, formatter_class=argparse.RawDescriptionHelpFormatter)
    parser.add_argument("--sizes", type=read_sizes, default=[100, 1000, 10000], metavar="MB,MB,..", help="whole MB of text, from 1")
    sizes = parser.parse_args().sizes
    print(f"| Rule | {' | '.join(f'{size:,} MB' for size in sizes)} |")
    print("|---" * (1 + len(sizes)) + "|")
    for name, fill in RULES.items():
        print(f"| {name} | {' | '.join(f'{written_for_a_byte(fill, size):,.1f}' for size in sizes)} |")


if __name__ == "__main__":
    main()
