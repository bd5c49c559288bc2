#!/usr/bin/env python3
"""Tests of the names that an import gives, and of what it says at its end, by tables of cases: tests/naming.py"""

import io
import os
import tempfile
import unittest

# It lets the others find the client of the checkout.
from support import run_tests  # isort: skip

from buncocedar.document import Document, Text
from buncocedar.errors import Ended, Full
from buncocedar.imports.log import Log
from buncocedar.imports.naming import FORM, Naming, content_of
from buncocedar.imports.stamps import Source, Stamp, digest, name_of
from buncocedar.imports.summary import Summary

HERE, THERE, GONE = "aaaaaaaa", "bbbbbbbb", "cccccccc"  # sources: this run's, one that stands, and one that is not there any more
LONG = "x" * 64


class Records:
    """The stamps of earlier runs."""

    def __init__(self, stamps, folder):
        self.of = stamps
        self.sources = {
            HERE: Source("folder", os.path.join(folder, "here")),
            THERE: Source("folder", folder),
            GONE: Source("folder", os.path.join(folder, "gone")),
        }

    def repeats(self, sources):
        return []

    def marks(self, sources, form):
        return {}


def stamp(number, content, source=HERE, place="", text="", parts=1):
    """The stamp of a document whose parts have the numbers from this one on."""
    return Stamp(tuple(range(number, number + parts)), digest(FORM + content), source, place, text)


def message(wanted, content, place="", former=()):
    """A document that is the same wherever it stands."""
    return Document(wanted, content, lambda: Text("", ""), place, former=former)


def file(wanted, content, place=None, text=""):
    """A document that is known by its place, its size and its time."""
    return Document(wanted, content, lambda: Text("", text), wanted if place is None else place, exact=False)


TEXT = content_of(Text("", "text"))

# Of each case the stamps of earlier runs, the names in the index with their numbers, the documents of this run, and for each the
# name that it gets and what becomes of it.
CASES = {
    "a new one": ({}, {}, [message("a", b"1")], [("a", "added")]),
    "one that is known": ({"a": stamp(1, b"1")}, {"a": 1}, [message("a", b"1")], [("a", "unchanged")]),
    "one that has changed": ({"a": stamp(1, b"1")}, {"a": 1}, [message("a", b"2")], [("a", "changed")]),
    "one that the index has lost": ({"a": stamp(1, b"1")}, {}, [message("a", b"1")], [("a", "added")]),
    "one without its stamp": ({}, {"a": 1}, [message("a", b"1")], [("a", "added again")]),
    "one under another number": ({"a": stamp(1, b"1")}, {"a": 2}, [message("a", b"1")], [("a", "added again")]),
    "one of which a part is lost": (
        {"a": stamp(1, b"1", parts=2)},
        {"a": 1},
        [message("a", b"1")],
        [("a", "added again")],
    ),
    "one of which all parts stand": (
        {"a": stamp(1, b"1", parts=2)},
        {"a": 1, "a~p2": 2},
        [message("a", b"1")],
        [("a", "unchanged")],
    ),
    "the same twice": ({}, {}, [message("a", b"1"), message("a", b"1")], [("a", "added"), ("a", "repeated")]),
    "another of the same name": ({}, {}, [message("a", b"1"), message("a", b"2")], [("a", "added"), ("a~2", "added")]),
    "a third, and the second again": (
        {},
        {},
        [message("a", b"1"), message("a", b"2"), message("a", b"3"), message("a", b"2")],
        [("a", "added"), ("a~2", "added"), ("a~3", "added"), ("a~2", "repeated")],
    ),
    "two that come in the other order": (
        {"a": stamp(1, b"1"), "a~2": stamp(2, b"2")},
        {"a": 1, "a~2": 2},
        [message("a", b"2"), message("a", b"1")],
        [("a~2", "unchanged"), ("a", "unchanged")],
    ),
    "a name that another source has": (
        {"a": stamp(1, b"1", THERE)},
        {"a": 1},
        [message("a", b"2")],
        [("a~2", "added")],
    ),
    "the same message of another source": (
        {"a": stamp(1, b"1", THERE)},
        {"a": 1},
        [message("a", b"1")],
        [("a", "unchanged")],
    ),
    "one whose stamp was made otherwise before": (
        {"a": stamp(1, b"old", THERE)},
        {"a": 1},
        [message("a", b"1", former=(b"old",))],
        [("a", "changed")],
    ),
    "a name that breaks the rule": ({}, {}, [message("a b", b"1")], [(name_of("a b"), "added")]),
    "names too long for their number": (
        {},
        {},
        [message(LONG, b"1"), message(LONG, b"2")],
        [(LONG, "added"), ("x" * 62 + "~2", "added")],
    ),
    "a file that has changed": ({"a": stamp(1, b"1", place="a")}, {"a": 1}, [file("a", b"2")], [("a", "changed")]),
    "files of one size and time": ({}, {}, [file("a", b"1"), file("b", b"1")], [("a", "added"), ("b", "added")]),
    "the file of another folder that stands": (
        {"a": stamp(1, b"1", THERE, "a", TEXT)},
        {"a": 1},
        [file("a", b"1", text="text")],
        [("a~2", "added")],
    ),
    "the file of a folder that has moved": (
        {"a": stamp(1, b"1", GONE, "a", TEXT)},
        {"a": 1},
        [file("a", b"1", text="text")],
        [("a", "unchanged")],
    ),
    "another text of that size and time": (
        {"a": stamp(1, b"1", GONE, "a", TEXT)},
        {"a": 1},
        [file("a", b"1", text="other")],
        [("a~2", "added")],
    ),
}

# Of each case what a run did, and the lines that it says.
SAID = {
    "nothing": (lambda done: None, ["0 documents: 0 added"]),
    "some of each": (
        lambda done: done.counts.update({"added": 1200, "changed": 2, "repeated": 1}),
        ["1,203 documents: 1,200 added, 2 changed, 1 repeated"],
    ),
    "what is passed over": (
        lambda done: done.pass_over("a", "binary"),
        ["1 document: 0 added, 1 passed over", "what is passed over is no text; --verbose lists it"],
    ),
    "an end": (
        lambda done: (setattr(done, "end", Ended(-9)), setattr(done, "is_doubtful", True), done.leave("a")),
        [
            "1 document: 0 added",
            "the program ended: ended by signal 9, Killed (status -9): what was answered is stored",
            "1 document not stored, the first of them a (which may be stored: the next run finds out)",
            "run this again, and it goes on from here",
        ],
    ),
    "a full index": (
        lambda done: (setattr(done, "end", Full(8, "alta: full, need 3, greatest gap 2")), setattr(done, "is_doubtful", True), done.leave("a")),
        [
            "1 document: 0 added",
            f"the program ended: {Full(8, 'alta: full, need 3, greatest gap 2')}",
            "1 document not stored, the first of them a",
            "the rest needs an index of its own; run again when there is room, this one goes on from here",
        ],
    ),
    "what is gone": (
        lambda done: (done.counts.update({"added": 1}), done.gone.extend("abc"), setattr(done, "pruned", 1)),
        [
            "1 document: 1 added",
            "1 document of earlier runs not seen any more, and deleted",
            "2 documents of earlier runs not seen any more, and still in the index; --prune deletes such",
        ],
    ),
}


class Names(unittest.TestCase):
    def test_cases(self):
        with tempfile.TemporaryDirectory() as folder:
            # What stands in a source that is there.
            open(os.path.join(folder, "a"), "w").close()
            for case, (stamps, live, documents, wanted) in CASES.items():
                with self.subTest(case):
                    naming = Naming(Records(stamps, os.path.realpath(folder)), live, HERE, {HERE})
                    chosen = [naming.choose(document) for document in documents]
                    self.assertEqual([(one.name, one.kind) for one in chosen], wanted)

    def test_moves(self):
        # An unchanged document is this source's from now on, at the place where it was found.
        naming = Naming(Records({"a": stamp(1, b"1", THERE, "old")}, "/"), {"a": 1}, HERE, {HERE})
        self.assertEqual(naming.choose(message("a", b"1", "new")).moved, stamp(1, b"1", HERE, "new"))
        naming = Naming(Records({"a": stamp(1, b"1", HERE, "new")}, "/"), {"a": 1}, HERE, {HERE})
        self.assertIsNone(naming.choose(message("a", b"1", "new")).moved)


class Summaries(unittest.TestCase):
    def test_cases(self):
        for case, (work, wanted) in SAID.items():
            with self.subTest(case):
                said = io.StringIO()
                done = Summary(Log("x", said))
                work(done)
                done.report()
                self.assertEqual(said.getvalue().splitlines(), [f"x: {line}" for line in wanted])


if __name__ == "__main__":
    run_tests("naming")
