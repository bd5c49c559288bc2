"""What the tests of shards share: a folder that is taken away, texts, and a look into the shelf of this process."""

import os
import unittest
from tempfile import TemporaryDirectory

import fake
from support import PATIENCE

from buncocedar.shards import ShardedIndex, Shelf, make, shard_of
from buncocedar.shards.places import Here

FAKE = fake.installed()
EVERY = "NOT name:! OR name:!"
TEXTS = [(f"n{number}", f"title {number}", f"red fox {number} {'blue' if number % 3 else 'grey'}") for number in range(300)]


class Case(unittest.TestCase):
    """Runs over `fake.py` where no program was given."""

    program = None

    def setUp(self):
        self.runs = Case.program or FAKE
        # A program that was still being started when its index was killed may write there until it ends.
        self.top = TemporaryDirectory(ignore_cleanup_errors=True)
        self.addCleanup(self.top.cleanup)
        self.folder = os.path.join(self.top.name, "a.shards")

    def make(self, folder, shards, **words):
        return make(folder, shards, program=self.runs, **words)

    def open(self, folder=None, patience=PATIENCE, **words):
        return ShardedIndex.here(folder or self.folder, program=self.runs, patience=patience, **words)

    def filled(self, shards=4):
        """An open index with the texts."""
        self.make(self.folder, shards)
        index = self.open()
        self.assertEqual([name for name, _ in index.add_all(TEXTS)], [name for name, _, _ in TEXTS])
        return index

    def shelf(self, *folders):
        return [Here(Shelf(folder, program=self.runs)) for folder in folders]

    def needs_the_program(self):
        if Case.program is None:
            self.skipTest("no program")


def shelf_of(index):
    return index.places[0].shelf


def process_of(index, shard):
    return shelf_of(index)._shards[shard]._index._exchange.link.process


def ours(shard, shards=4, count=300):
    """How many of the texts stand in a shard."""
    return sum(shard_of(name, shards) == shard for name, _, _ in TEXTS[:count])


def give(index, seconds):
    """Gives the shards so many seconds, and has those asked again now that rest, or whose places were looked at a moment ago."""
    index._where.patience = shelf_of(index).patience = seconds
    for shard in shelf_of(index)._shards.values():
        shard.patience = seconds
        shard.wakes()
    index._where._looked = 0.0


def take_program(path):
    Case.program = path
