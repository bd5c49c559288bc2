#!/usr/bin/env python3
"""Tests what is said of an index with much text in one file, and the words that make shards of it: tests/growing.py [--program PATH]

Each test hands in a bound of its own, which some documents reach. Without --program the tests of the real program are left out, and
that is said.
"""

import contextlib
import io
import os
import re
import shlex
import signal
import subprocess
import sys
from unittest import mock

# It lets the others find the client of the checkout.
from support import BUNCO, CLIENT, PATIENCE, run_tests  # isort: skip

from buncocedar import Index, growth
from buncocedar.imports import bringing, folder, mail
from buncocedar.shards import command, shard_of, shards_in
from buncocedar.tools import shell, status
from cases import LETTER, Case

PROGRAM = None
# `bunco` with a bound of its own.
BOUNDED = """\
import runpy, sys
bunco, client, bound = sys.argv[1:4]
sys.path.insert(0, client)
from buncocedar import growth
growth.LARGE = int(bound)
sys.argv[:4] = [bunco]
runpy.run_path(bunco, run_name="__main__")
"""


def bound(size):
    return mock.patch.object(growth, "LARGE", size)


class Growing(Case):
    """A folder of notes, brought in under a bound."""

    def setUp(self):
        super().setUp()
        for number in range(30):
            self.write(f"notes/{number:03}.txt", f"text {number} of these notes")
        self.notes = self.at("notes")

    def proposed(self, said, path=None):
        """The words of the command that is proposed for an index, which is said once."""
        ((named, words),) = re.findall(r": (\S+) has about [\d,]+ MB of text, .*`(bunco shards split .*)` makes 8 files of it\n", said)
        self.assertEqual(named, path or self.path)
        return shlex.split(words)


class Imports(Growing):
    def test_once_a_run(self):
        boxes = [self.write(f"{word}.mbox", LETTER % ((word.encode(),) * 3)) for word in ("one", "two")]
        with bound(60):
            said = self.main(mail, self.path, *boxes)
        self.assertEqual(self.proposed(said), ["bunco", "shards", "split", self.path, self.at("x.shards"), "8"])

    def test_of_little_text(self):
        self.assertNotIn("shards", self.main(folder, self.path, self.notes))

    def test_where_nothing_goes_in(self):
        with bound(300):
            self.proposed(self.main(folder, self.path, self.notes))
            self.assertNotIn("shards", self.main(folder, self.path, self.notes))

    def test_made_in_memory(self):
        # The index is named by the place where it will stand.
        with bound(300), mock.patch.object(bringing, "MEMORY", self.place.name):
            with mock.patch.object(bringing, "put_copy", lambda built, beside, path: os.rename(beside, path)):
                self.proposed(self.main(folder, "--fast", self.path, self.notes))

    def test_shards_by_a_word(self):
        shards = self.at("x.shards")
        with bound(300):
            said = self.main(folder, "--shards", "4", shards, self.notes)
            self.assertEqual(said, "folder: 30 documents: 30 added\n")
            self.assertEqual(shards_in(shards), [0, 1, 2, 3])
            said = self.main(folder, "--shards", "4", shards, self.notes)
        self.assertEqual(said, f"folder: {shards} is there already, so it is added to where it stands\nfolder: 30 documents: 0 added, 30 unchanged\n")

    def test_words_that_are_wrong(self):
        for words in (("--shards", "0"), ("--shards", "x"), ("--shards", "65537"), ("--shards", "2", "--fast")):
            self.assertIn("usage: bunco folder", self.run_script("folder", *words, self.path, self.notes, expect=2))
        self.assertFalse(os.path.exists(self.path))


class RealProgram(Growing):
    def setUp(self):
        if PROGRAM is None:
            self.skipTest("no program")
        super().setUp()
        self.program = PROGRAM
        self.main(folder, self.path, self.notes)
        with Index(self.path, program=PROGRAM) as index:
            index.flush()
        self.text = growth.text_in(self.path)

    def said(self, tool, *words, given="", expect=0):
        """What another command of `bunco` says, for which the index has just as much text as it may have."""
        told, lines = io.StringIO(), io.TextIOWrapper(io.BytesIO(given.encode()))
        environment = mock.patch.dict(os.environ, {"BUNCOCEDAR_PROGRAM": PROGRAM})
        with bound(self.text), environment, contextlib.redirect_stderr(told):
            with contextlib.redirect_stdout(io.TextIOWrapper(io.BytesIO())), mock.patch.object(sys, "stdin", lines):
                self.assertEqual(tool.main(list(words)), expect, told.getvalue())
        return told.getvalue()

    def test_what_stands_there_counts(self):
        self.write("notes/more.txt", "x")
        with bound(self.text + 1):
            self.proposed(self.main(folder, self.path, self.notes))

    def test_status(self):
        self.proposed(self.said(status, self.path))
        self.text += 1
        self.assertEqual(self.said(status, self.path), "")

    def test_shell(self):
        self.proposed(self.said(shell, self.path, given="add a\t\tx\nadd b\t\ty\n"))
        self.assertEqual(self.said(shell, self.path, given="count x\n"), "")

    def test_server(self):
        words = [sys.executable, "-c", BOUNDED, BUNCO, CLIENT, str(self.text), "serve", self.path]
        server = subprocess.Popen(words, env={**os.environ, "BUNCOCEDAR_PROGRAM": PROGRAM}, stderr=subprocess.PIPE, text=True)
        try:
            said = next(server.stderr)
            while "listening at" not in said:
                said += next(server.stderr)
            # Others may change it meanwhile, so that nothing is split.
            self.assertIn("open in", self.said(command, "split", self.path, self.at("x.shards"), "2", "--wait", "0", expect=3))
        finally:
            server.send_signal(signal.SIGTERM)
            server.communicate(timeout=PATIENCE)
        self.proposed(said)

    def test_the_command_that_is_proposed(self):
        words = self.proposed(self.said(status, self.path))
        before = self.read(self.path)
        said = self.said(command, *words[2:])
        self.assertEqual(said, f"shards: {words[4]}: 30 documents in 8 shards; {self.path} stays as it is\n")
        self.assertEqual(self.read(self.path), before)
        files = [os.path.join(words[4], f"{shard:05}.alta") for shard in range(8)]
        for shard, path in enumerate(files):
            with Index(path, program=PROGRAM) as index:
                rows = list(index.search("NOT name:!"))
            # Each has its own documents, with their numbers, and nothing of the others.
            own = [number for number in range(30) if shard_of(f"{number:03}.txt", 8) == shard]
            self.assertEqual(rows, [(number + 1, f"{number:03}.txt") for number in own])
            self.assertEqual(growth.text_in(path) > 0, bool(own))
        self.assertLess(sum(map(os.path.getsize, files)), 8 * os.path.getsize(self.path))
        # The stamps go with them, and of shards nothing is proposed.
        self.write("notes/more.txt", "x")
        self.assertEqual(self.said_of_import(words[4]), "folder: 31 documents: 1 added, 30 unchanged\n")
        self.assertEqual(self.said(status, words[4]), "")

    def said_of_import(self, path):
        with bound(1):
            return self.main(folder, path, self.notes)

    def test_an_index_that_is_open(self):
        shards = self.at("x.shards")
        with Index(self.path, program=PROGRAM):
            self.assertIn("open", self.said(command, "split", self.path, shards, "2", "--wait", "0", expect=3))
        self.assertFalse(os.path.exists(os.path.join(shards, "shards.json")))

    def test_words_of_a_split(self):
        for words in (["split", self.path, self.at("y")], ["split", self.path, self.at("y"), "x"]):
            self.assertIn("usage: bunco shards", self.said(command, *words, expect=2))
        self.assertIn("1 to 65,536", self.said(command, "split", self.path, self.at("y"), "0", expect=3))
        self.assertFalse(os.path.exists(self.at("y")))


def take_program(path):
    global PROGRAM
    PROGRAM = path


if __name__ == "__main__":
    run_tests("growing", take_program)
