#!/usr/bin/env python3
"""Tests of what is done with a folder of shards: moved, split, copied, checked, imported into, asked by commands, served.

usage: tests/shards_commands.py [--program PATH]

Without --program the cases run over `fake.py`, those that need the real one are left out, and that is said.
"""

import contextlib
import io
import json
import os
import shutil
import signal
import subprocess
import sys
import unittest.mock
from concurrent.futures import Future

# It lets the others find the client of the checkout.
from support import BUNCO, PATIENCE, TOP, run_tests  # isort: skip

from asking import compared, documents_of_texts, queries
from sharding import EVERY, FAKE, TEXTS, Case, ours, take_program

from buncocedar import Error, Index
from buncocedar.shards import ShardedIndex, Shelf, command, number_of, settings_of, shard_of, shard_path
from buncocedar.shards.moving import moved, moves
from buncocedar.shards.places import Fixed, Here


class Silent:
    """A place that gives no answer."""

    name = "silent"
    is_apart = False

    def call(self, method, *args):
        future = Future()
        future.set_exception(Error("gone"))
        return future

    def close(self):
        pass


class Commands(Case):
    def bunco(self, *words, status=0):
        """What the command prints, and says."""
        environment = {**os.environ, "BUNCOCEDAR_PROGRAM": self.runs}
        done = subprocess.run([sys.executable, BUNCO, *words], env=environment, capture_output=True, text=True, timeout=PATIENCE)
        self.assertEqual(done.returncode, status, done.stderr)
        return done.stdout, done.stderr


class Moving(Commands):
    def test_a_plan(self):
        spread = {"a": {0, 2, 4, 6}, "b": {1, 3, 5, 7}, "c": ()}
        self.assertEqual(moves(spread), [(6, "a", "c"), (7, "b", "c")])
        self.assertEqual(moves({"a": range(4), "b": range(4, 9)}), [])
        self.assertEqual(moves({"a": range(7)}), [])
        self.assertEqual(len(moves({"a": range(8), "b": (), "c": ()})), 5)

    def test_a_plan_without_a_place_that_does_not_answer(self):
        self.filled().close()
        index = ShardedIndex(Fixed([*self.shelf(self.folder), Silent()], "both"))
        printed, said = io.StringIO(), io.StringIO()
        with unittest.mock.patch("buncocedar.shards.command.opened", return_value=index):
            with contextlib.redirect_stdout(printed), contextlib.redirect_stderr(said):
                self.assertEqual(command.main(["plan", "both"]), 0)
        self.assertEqual(printed.getvalue(), "")
        self.assertEqual(said.getvalue(), "shards: silent is left out: silent: gone\n")

    def test_a_shard_moves(self):
        self.filled().close()
        other = self.folder + "-other"
        self.assertIn("shard 1, ", self.bunco("shards", "move", self.folder, "1", other)[1])
        self.assertEqual(sorted(os.listdir(other)), ["00001.alta", "shards.json"])
        self.assertIn("00001.alta.released", os.listdir(self.folder))
        printed, _ = self.bunco("shards", "stats", self.folder, status=1)
        self.assertIn(f"    1 missing: shard 1 is nowhere\n{settings_of(self.folder).name}: {300 - ours(1)} documents in 3 of 4 shards\n", printed)
        with ShardedIndex(Fixed(self.shelf(self.folder, other), "both")) as index:
            self.assertEqual(index.count("fox"), 300)
        self.assertIn("not in", self.bunco("shards", "move", self.folder, "1", other, status=3)[1])

    def test_a_move_that_fails(self):
        # At its end the shard is where it was.
        self.filled().close()
        places = [Here(Shelf(self.folder, [], self.runs)) for _ in range(2)]
        places[1].call = lambda method, *args: failed(method)
        with self.assertRaisesRegex(Error, "could not be brought"):
            moved(1, *places, 20.0)
        places[0].close()
        with self.assertRaisesRegex(Error, "shard 1 is open in"), Index(shard_path(self.folder, 1), program=self.runs):
            moved(1, *places, 20.0)
        with self.open() as index:
            self.assertEqual(index.count("fox"), 300)

    def test_a_shard_that_is_there_already(self):
        self.filled().close()
        shelf = Shelf(self.folder, [], self.runs)
        before = os.path.getsize(shard_path(self.folder, 1))
        shelf.receive(1, 0, b"other")
        with self.assertRaisesRegex(Error, "there already"):
            shelf.adopt(1)
        with self.assertRaisesRegex(Error, "0 to 3"):
            shelf.receive(4, 0, b"other")
        self.assertEqual(os.path.getsize(shard_path(self.folder, 1)), before)

    def test_twice_as_many(self):
        self.needs_the_program()
        texts = documents_of_texts()
        self.make(self.folder, 3)
        with Index(os.path.join(self.top.name, "one.alta"), create=True, program=self.runs) as one:
            with self.open() as index:
                for each in (one, index):
                    self.assertEqual(each.add_many(texts), (len(texts), []))
            new = self.folder + "-new"
            self.assertIn(f"{len(texts):,} documents in 6 shards", self.bunco("shards", "split", self.folder, new)[1])
            with self.open(new) as index:
                compared(self, one, index, queries(texts, 90, seed=7))
                self.assertEqual(index.stats()[:2], one.stats()[:2])
            self.assertIn("there already", self.bunco("shards", "split", self.folder, new, status=3)[1])

    def test_an_import_goes_on_behind_a_split(self):
        self.needs_the_program()
        source = os.path.join(self.top.name, "texts")
        shutil.copytree(os.path.join(TOP, "docs"), source, ignore=shutil.ignore_patterns("*.png"))
        self.make(self.folder, 3)
        self.bunco("folder", self.folder, source)
        count = sum(len(names) for _, _, names in os.walk(source))
        self.assertIn(f"{count} documents: 0 added, {count} unchanged", self.bunco("folder", self.folder, source)[1])
        new = self.folder + "-new"
        self.bunco("shards", "split", self.folder, new)
        self.assertIn(f"{count} documents: 0 added, {count} unchanged", self.bunco("folder", new, source)[1])

    def test_a_backup_of_an_open_index(self):
        self.needs_the_program()
        with self.filled() as index:
            rows = index.search(EVERY)
            next(rows)
            size, missing = index.copy(self.folder + "-copy")
            self.assertEqual((missing, sum(1 for _ in rows)), ({}, 299))
            self.assertGreater(size, 4 * 2_000_000)
            index.add("later", "", "fox")
        with self.open(self.folder + "-copy") as index:
            self.assertEqual((index.count("fox"), index.name), (300, settings_of(self.folder).name))
        self.assertIn("there already", self.bunco("shards", "copy", self.folder, self.folder + "-copy", status=3)[1])

    def test_a_check(self):
        self.needs_the_program()
        self.filled().close()
        self.assertEqual(self.bunco("shards", "check", self.folder)[0].count(": no damage found: "), 4)
        with open(shard_path(self.folder, 2), "r+b") as file:
            file.truncate(100_000)
        self.assertIn("00002.alta: ", self.bunco("shards", "check", self.folder, status=1)[0])
        os.remove(shard_path(self.folder, 2))
        self.assertIn("1 of 4 shards are not here", self.bunco("shards", "check", self.folder, status=1)[0])

    def test_words_that_are_wrong(self):
        for words in (["make", self.folder, "x"], ["make", self.folder], ["make", self.folder, "0"], ["make", self.folder, "4", "--of", "0/2"]):
            self.assertIn("usage: bunco shards", self.bunco("shards", *words, status=2)[1])
        for part in ("2/2", "a/b", "1"):
            self.bunco("shards", "make", self.folder, "4", "--name", "x", "--of", part, status=2)
        self.assertFalse(os.path.exists(self.folder))
        self.assertIn("no such file", self.bunco("shards", "stats", self.folder, status=3)[1])


def failed(method):
    future = Future()
    future.set_exception(Error(f"no {method}"))
    return future


class Importing(Commands):
    """The importing commands and find over a folder of shards."""

    def setUp(self):
        super().setUp()
        self.source = os.path.join(self.top.name, "texts")
        os.makedirs(self.source)
        for number in range(40):
            with open(os.path.join(self.source, f"text{number:02}.txt"), "w") as file:
                file.write(f"red fox {number} {'blue' if number % 3 else 'grey'}\n")
        with open(os.path.join(self.source, "long.txt"), "w") as file:
            file.write("a fox and so many words more " * 20_000)
        self.make(self.folder, 4)

    def test_a_folder(self):
        self.assertIn("41 documents: 41 added", self.bunco("folder", self.folder, self.source)[1])
        self.assertIn("41 documents: 0 added, 41 unchanged", self.bunco("folder", self.folder, self.source)[1])
        # A document in parts is one, though others stand between its parts.
        self.assertEqual(self.bunco("find", self.folder, "fox", "--count")[0], "41\n")
        self.assertEqual(self.bunco("find", self.folder, "fox", "--names")[0].count("long.txt"), 1)
        self.assertEqual(len(self.bunco("find", self.folder, "grey", "--names")[0].split()), 14)
        self.assertIn("text03.txt", self.bunco("find", self.folder, "grey", "--top", "40", "--names")[0])
        os.remove(os.path.join(self.source, "text00.txt"))
        self.assertIn("1 document of earlier runs not seen", self.bunco("folder", self.folder, self.source, "--prune")[1])
        self.assertEqual(self.bunco("find", self.folder, "fox", "--count")[0], "40\n")
        if self.program is not None:
            self.assertEqual(self.bunco("dump", self.folder)[0].count("add "), 42)

    def test_a_shard_that_is_missing(self):
        kept = self.folder + "-kept"
        os.rename(shard_path(self.folder, 1), kept)
        self.assertIn("no answer of 1 shard (1)", self.bunco("folder", self.folder, self.source, status=3)[1])
        self.assertIn("no answer of 1 shard (1)", self.bunco("find", self.folder, "fox", status=3)[1])
        os.rename(kept, shard_path(self.folder, 1))
        self.bunco("folder", self.folder, self.source)
        self.assertEqual(self.bunco("find", self.folder, "fox", "--count")[0], "41\n")

    def test_a_shard_whose_program_dies(self):
        # What it was given and did not answer is told as left, and the next run adds it.
        dying = os.path.join(self.top.name, "dying")
        with open(dying, "w") as file:
            file.write(
                f'#!/bin/sh\ncase "$1" in *00001.alta) exec env FAKE=\'{{"end": [4, -9]}}\' {FAKE} "$@";; esac\nexec {FAKE} "$@"\n'
            )
        os.chmod(dying, 0o755)
        with unittest.mock.patch.dict(os.environ, {"FAKE": "{}"}):
            for shard in range(4):
                os.remove(shard_path(self.folder, shard))
                Index(shard_path(self.folder, shard), create=True, program=FAKE).close()
            done = subprocess.run(
                [sys.executable, BUNCO, "folder", self.folder, self.source],
                env={**os.environ, "BUNCOCEDAR_PROGRAM": dying},
                capture_output=True,
                text=True,
                timeout=PATIENCE,
            )
            self.assertEqual(done.returncode, 3, done.stderr)
            self.assertRegex(done.stderr, "not stored, the first of them .*which may be stored: the next run finds out")
            self.assertIn("run this again, and it goes on from here", done.stderr)
            done = subprocess.run(
                [sys.executable, BUNCO, "folder", self.folder, self.source],
                env={**os.environ, "BUNCOCEDAR_PROGRAM": FAKE},
                capture_output=True,
                text=True,
                timeout=PATIENCE,
            )
            self.assertEqual(done.returncode, 0, done.stderr)
            with ShardedIndex.here(self.folder, program=FAKE) as index:
                self.assertEqual(index.count("fox"), 43)


class Status(Commands):
    def test_a_folder(self):
        self.needs_the_program()
        self.filled().close()
        printed, _ = self.bunco("status", self.folder)
        self.assertRegex(printed, f"{self.folder}: 300 documents of [0-9,]+ words in 4 of 4 shards\n")
        self.assertRegex(printed, r": 8,[0-9,]+ bytes, of which [0-9,]+ are free room; levels: 0\n")
        known = json.loads(self.bunco("status", self.folder, "--json")[0])
        self.assertEqual((known["shards"], known["missing"], known["documents"], known["holder"]), (4, {}, 300, None))

    def test_a_shard_that_is_missing(self):
        self.filled().close()
        os.rename(shard_path(self.folder, 1), self.folder + "-kept")
        printed, _ = self.bunco("status", self.folder, status=3)
        self.assertRegex(printed, f"{self.folder}: {300 - ours(1)} documents of [0-9,]+ words in 3 of 4 shards\n")
        self.assertIn(f"{self.folder}: shard 1 is missing: shard 1 is nowhere\n", printed)
        self.assertEqual(json.loads(self.bunco("status", self.folder, "--json", status=3)[0])["missing"], {"1": "shard 1 is nowhere"})

    def test_shards_that_are_open(self):
        with self.filled():
            printed, _ = self.bunco("status", self.folder, status=3)
            self.assertRegex(printed, f"{self.folder}: open in process [0-9]+.*, and 3 more shards by others\n")


class Typed(Commands):
    def piped(self, *lines, status=0):
        """What the shell prints for these lines, and says."""
        done = subprocess.run(
            [sys.executable, BUNCO, "shell", self.folder],
            input="".join(f"{line}\n" for line in lines).encode(errors="surrogateescape"),
            env={**os.environ, "BUNCOCEDAR_PROGRAM": self.runs},
            capture_output=True,
            timeout=PATIENCE,
        )
        self.assertEqual(done.returncode, status, done.stderr)
        return done.stdout.decode(), done.stderr.decode()

    def test_every_command(self):
        self.make(self.folder, 4)
        first, second, replaced = (number_of(own, shard_of(name, 4)) for own, name in ((1, "a"), (1, "b"), (2, "a")))
        for line, reply in [
            ("add a\tRed Fox\tthe quick\tred fox", f"added {first}"),
            ("add b\t\tbrown fox", f"added {second}"),
            ("add a\tRed Fox\tthe slow red fox", f"replaced {first} by {replaced}"),
            ("count fox", "found 2"),
            ("search brown", f"{second} b\nfound 1"),
            ("open brown\nfetch 1 5\nclose 1", f"cursor 1\n{second} b\nend\nclosed 1"),
            ("open NOT name:!\nopen brown\nfetch 1 1\nclose 1\nopen brown", f"cursor 1\ncursor 2\n{second} b\nmore\nclosed 1\ncursor 1"),
            ("stats", f"documents 2 words 8 next {max(number_of(3, shard_of('a', 4)), number_of(2, shard_of('b', 4)))}"),
            ("flush\nstep 5\nmerge", "ok\nok\nok"),
            ("delete b", f"deleted {second}"),
        ]:
            self.assertEqual(self.piped(*line.split("\n")), (reply + "\n", ""), line)
        if self.program is not None:
            self.assertEqual(self.piped("top 3 red"), (f"{replaced} a 5\nfound 1\n", ""))
            self.assertEqual(self.piped("dump"), ("add a\tred fox\tthe slow red fox\ndumped 1\n", ""))
            self.assertEqual(self.piped("explain fox")[0].split("\n")[0], '"fox"')

    def test_what_is_refused(self):
        # As by the program over one file.
        self.make(self.folder, 4)
        one = os.path.join(self.top.name, "one.alta")
        Index(one, create=True, program=self.runs).close()
        lines = ["quit", "delete b", "close 7", "fetch 1 1", "fetch 1", "top 0 x", "top 1001 x", f"top {'9' * 5_000} x", "step 0", "stats ", "search"]
        lines += ["step 1000001", "delete \udce9", "what \udce9", "count \udce9", "add a\tcaf\udce9\t", "add \t\t", "add a\tb", "flush now", "close 01"]
        for line in lines:
            with Index(one, program=self.runs) as index:
                (reply,) = index.answer(line.encode(errors="surrogateescape"))
            printed, said = self.piped(line, "count x", status=1)
            self.assertEqual(printed, "found 0\n", line)
            self.assertEqual(said.split(":")[0].rstrip("\n"), reply, line)

    def test_cursors(self):
        self.make(self.folder, 2)
        printed, said = self.piped(*["open x"] * 65, "close 3", "open x", status=1)
        self.assertEqual(printed.split("\n")[-4:], ["cursor 64", "closed 3", "cursor 3", ""])
        self.assertEqual(said, "! too many cursors\n")

    def test_a_shard_that_is_missing(self):
        self.filled().close()
        os.rename(shard_path(self.folder, 1), self.folder + "-kept")
        lost = next(name for name, _, _ in TEXTS if shard_of(name, 4) == 1)
        printed, said = self.piped("count fox", "open fox", "fetch 1 1000", "search fox", f"delete {lost}", "top 1 fox", status=3)
        found = 300 - ours(1)
        self.assertEqual(printed.split("\n")[:2], [f"found {found}", "cursor 1"])
        self.assertEqual(printed.count("\n"), 2 + found + 1 + found + 2)
        self.assertEqual(said.count("shell: no answer of 1 shard (1): shard 1 is nowhere\n"), 4)
        self.assertEqual(said.count("shell: shard 1 is nowhere\n"), 1)


class Served(Case):
    def test_a_folder_of_shards(self):
        self.filled().close()
        environment = {**os.environ, "BUNCOCEDAR_PROGRAM": self.runs}
        server = subprocess.Popen([sys.executable, BUNCO, "serve", self.folder], env=environment, stderr=subprocess.PIPE, text=True)
        try:
            self.assertIn("listening for 4 shards", server.stderr.readline())
            with self.open() as first, self.open() as second:
                self.assertEqual((first.count("fox"), second.count("fox")), (300, 300))
                first.add("more", "", "fox")
                self.assertEqual((second.count("fox"), len(list(second.search(EVERY)))), (301, 301))
                copied, missing = second.copy(self.folder + "-copy")
                self.assertEqual((copied, missing.keys()), (0, {0, 1, 2, 3}))
        finally:
            server.send_signal(signal.SIGTERM)
            said = server.stderr.read()
        self.assertEqual((server.wait(PATIENCE), said), (0, ""))
        server.stderr.close()
        with self.open() as index:
            self.assertEqual(index.count("fox"), 301)


if __name__ == "__main__":
    run_tests("shards_commands", take_program)
