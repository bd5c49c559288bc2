#!/usr/bin/env python3
"""Tests of `buncocedar.shards` on one machine: single cases, each on new shards of the program, and answers beside those of one index.

usage: tests/shards.py [--program PATH]

Without --program the cases run over `fake.py`, those that need the real one are left out, and that is said.
"""

import itertools
import multiprocessing
import os
import shutil
import signal
import time
import unittest
import unittest.mock
import warnings

# It lets the others find the client of the checkout.
from support import PATIENCE, run_tests  # isort: skip

from asking import compared, documents_of_texts, queries
from sharding import EVERY, TEXTS, Case, give, ours, process_of, shelf_of, take_program

from buncocedar import (
    Added,
    BadLine,
    BadName,
    Damaged,
    Error,
    Index,
    LineTooLong,
    NoFile,
    NoSuchDocument,
    QueryFault,
    TooManyCursors,
)
from buncocedar.holders import holder
from buncocedar.imports.stamps import part_name
from buncocedar.shards import (
    Missing,
    NotAnswered,
    NotHere,
    ShardedIndex,
    Stale,
    age,
    number_of,
    open_index,
    own_number,
    settings_of,
    shard_of,
    shard_path,
)
from buncocedar.shards.folder import write_settings
from buncocedar.shards.places import Fixed

HANGING = 3.0  # seconds that shards have where one hangs: the others answer in far less, also on a busy machine
LATE = 60  # seconds in which a call over a shard that hangs is back: without an end it takes more


class Names(unittest.TestCase):
    def test_a_shard_hangs_on_the_name_alone(self):
        # Another function would lose each document that is there.
        names = ("a", "first@example.org", "notes/sub/todo.txt", "x" * 64)
        self.assertEqual([shard_of(name, 64) for name in names], [47, 28, 19, 56])
        spread = [0] * 8
        for number in range(8000):
            spread[shard_of(f"name-{number}", 8)] += 1
        self.assertTrue(all(900 < count < 1100 for count in spread), spread)

    def test_parts_stand_together(self):
        self.assertEqual(len({shard_of(name, 64) for name in ("a", "a~p2", "a~p17")}), 1)
        for name in ("b" * 58, "c" * 59, "d" * 64):
            self.assertEqual(len({shard_of(part_name(name, part), 4096) for part in (1, 2, 30)}), 1)

    def test_twice_as_many_shards(self):
        self.assertTrue(all(shard_of(f"{number}", 16) % 8 == shard_of(f"{number}", 8) for number in range(100)))

    def test_numbers(self):
        self.assertEqual(own_number(number_of(7, 65_535)), (7, 65_535))
        self.assertTrue(age(1, 10) < age(2, 10) < age(19, 20) < 1 << 32)
        self.assertEqual(age(4_294_967_295, 4_294_967_296), (1 << 32) - 1)


class Making(Case):
    def test_folders(self):
        self.make(self.folder, 3)
        self.assertEqual(settings_of(self.folder).shards, 3)
        self.assertEqual(sorted(os.listdir(self.folder)), ["00000.alta", "00001.alta", "00002.alta", "shards.json"])
        with self.assertRaises(FileExistsError):
            self.make(self.folder, 3)
        for shards in (0, 65_537):
            with self.assertRaises(ValueError):
                self.make(self.folder + "2", shards)
        with self.assertRaises(ValueError):
            self.make(self.folder + "2", 3, only=[3])
        with self.assertRaises(NoFile):
            self.open(self.folder + "3")

    def test_a_making_that_was_stopped(self):
        # Its shards are no index, and no other making takes them for its own.
        self.make(self.folder, 2)
        os.remove(os.path.join(self.folder, "shards.json"))
        with self.assertRaises(NoFile):
            self.open()
        with self.assertRaises(FileExistsError):
            self.make(self.folder, 2)

    def test_settings_that_are_none(self):
        os.makedirs(self.folder)
        for text in ("", "[]", '{"form": 1}', '{"form": 2, "name": "a", "shards": 3}', '{"form": 1, "name": "a", "shards": 0}'):
            with open(os.path.join(self.folder, "shards.json"), "w") as file:
                file.write(text)
            with self.assertRaisesRegex(Error, "shards.json"):
                self.open()

    def test_open_index(self):
        self.make(self.folder, 2)
        os.environ["BUNCOCEDAR_PROGRAM"] = self.runs
        self.addCleanup(os.environ.pop, "BUNCOCEDAR_PROGRAM")
        with open_index(self.folder) as index:
            self.assertEqual((index.shards, index.path), (2, self.folder))
        with open_index(os.path.join(self.top.name, "one.alta"), create=True) as index:
            self.assertIsInstance(index, Index)

    def test_several_machines_know_each_other_by_name(self):
        folders = [os.path.join(self.top.name, name) for name in "ab"]
        for number, folder in enumerate(folders):
            self.make(folder, 4, only=range(number, 4, 2), name="mail")
        with ShardedIndex(Fixed(self.shelf(*folders), "both")) as index:
            self.assertEqual((index.name, index.stats().documents), ("mail", 0))
            self.assertEqual(index.add_many(TEXTS), (300, []))
            self.assertEqual(index.count("fox"), 300)


class Calls(Case):
    def test_refusals(self):
        with self.filled() as index:
            for kind, call in [
                (BadName, lambda: index.add("a b", "", "")),
                (BadName, lambda: index.delete("")),
                (LineTooLong, lambda: index.add("long", "", "x " * 140_000)),
                (NoSuchDocument, lambda: index.delete("nobody")),
                (TypeError, lambda: index.count(None)),
                (TypeError, lambda: index.top("fox", "3")),
                (BadLine, lambda: index.top("fox", 1001)),
            ]:
                with self.assertRaises(kind):
                    call()
            outcomes = dict(index.add_all([("ok", "", "fox"), ("not ok", "", "fox"), ("ok2", "", "fox")]))
            self.assertEqual([type(outcome) for outcome in outcomes.values()], [Added, BadName, Added])
            self.assertEqual(index.count("fox"), 302)
            self.assertEqual(index.add("cut", "", "x " * 140_000, cut=True).dropped, 280_000 - 262_133)

    def test_faults_of_queries(self):
        with self.filled() as index:
            for ask in (index.count, index.search, index.explain, index.cursor, lambda query: index.top(query, 3)):
                with self.assertRaises(QueryFault) as raised:
                    ask("fault 8 Paren )" if self.program is None else "12 fox )")
                self.assertEqual((raised.exception.place, raised.exception.cause), (8 if self.program is None else 7, "Paren"))
            self.assertEqual(index.count("fox"), 300)

    def test_replacing_and_deleting(self):
        with self.filled() as index:
            before = {name: number for number, name in index.search(EVERY)}
            again = index.add("n7", "", "green")
            self.assertEqual((again.replaced, own_number(again)[1]), (before["n7"], shard_of("n7", 4)))
            self.assertEqual((index.delete("n8"), index.stats().documents), (before["n8"], 299))

    def test_a_query_sees_what_was_sent(self):
        with self.filled() as index:
            changes = [index.send_add(f"more-{number}", "", "violet") for number in range(50)]
            self.assertFalse(any(change.settled for change in changes))
            self.assertEqual(index.under_way(), 50)
            self.assertEqual((index.count("violet"), index.under_way()), (50, 0))
            self.assertTrue(all(change.answered for change in changes))
            self.assertTrue(index.send_add("one", "", "violet").result())
            self.assertTrue(index.send_delete("one").result())

    def test_order(self):
        with self.filled() as index:
            rows = list(index.search(EVERY))
            following = {shard: stats.next for shard, stats in index.stats_of_shards().items()}
            ages = [age(own, following[shard]) for own, shard in (own_number(number) for number, _ in rows)]
            self.assertEqual((ages, len({number for number, _ in rows})), (sorted(ages), 300))

    def test_numbers_that_were_given(self):
        with self.filled() as index:
            numbers = sorted(number for number, _ in index.search(EVERY))
            self.assertLess(numbers[-1], index.stats().next)
            index.delete("n3")
            self.assertEqual(index.gave(numbers), numbers)
            self.assertEqual(index.gave([0, 3, number_of(10_000, 1), number_of(1, 9)]), [])

    def test_cursors_come_back(self):
        with self.filled() as index:
            for taken in range(200):
                rows = index.search(EVERY)
                if taken % 2:
                    next(rows)
                rows.close()
            shelf = shelf_of(index)
            held = [shelf.begin([0, 1, 2, 3], EVERY)[1] for _ in range(64)]
            for _ in range(3):
                with self.assertRaises(TooManyCursors):
                    index.search(EVERY)
            self.assertEqual(index.count("fox"), 300)
            self.assertEqual(len(shelf.more(held[0], 1000)[1]), 300)
            self.assertEqual(len(list(index.search(EVERY))), 300)
            for key in held:
                shelf.end(key)

    def test_rows_that_outlive_their_index(self):
        # They begin no program anew as they go.
        for words in ({}, {"processes": 2}):
            self.filled().close()
            with self.open(**words) as index:
                rows, begun, cursor = index.search(EVERY), index.search(EVERY), index.cursor(EVERY)
                next(begun)
            del rows
            begun.close()
            cursor.close()
            self.assertEqual(multiprocessing.active_children(), [])
            for shard in range(4):
                self.assertIsNone(holder(shard_path(self.folder, shard)))
            shutil.rmtree(self.folder)

    def test_a_cursor_that_no_shard_could_open(self):
        # One shard has no more cursors: what the others have opened for this query comes back.
        with self.filled() as index:
            shard = shelf_of(index)._shards[3]
            held = [shard._index.cursor(EVERY) for _ in range(64)]
            for _ in range(70):
                with self.assertRaises(TooManyCursors):
                    index.search(EVERY)
            held[0].close()
            self.assertEqual(len(list(index.search(EVERY))), 300)

    def test_rows_that_nobody_asks_for(self):
        with self.filled() as index:
            shelf = shelf_of(index)
            key = shelf.begin([0], EVERY)[1]
            shelf._streams[key].used -= 601
            shelf.begin([0], EVERY)
            with self.assertRaisesRegex(Error, "gone"):
                shelf.more(key, 10)

    def test_pages(self):
        self.make(self.folder, 3)
        with self.open() as index:
            self.assertEqual(index.add_many((f"p{number}", "", "fox") for number in range(7000)), (7000, []))
            rows = index.search("fox")
            first = list(itertools.islice(rows, 1500))
            cursor = index.cursor("fox")
            index.add("later", "", "fox")
            index.delete("p6999")
            self.assertEqual(len(first) + sum(1 for _ in rows), 7000)
            self.assertEqual((cursor.page(2).rows, cursor.page(1).rows), (first[:2], first[2:3]))
            self.assertEqual([len(page.rows) for page in cursor.pages(3000)], [3000, 3000, 997])
            self.assertEqual(cursor.page(5), ([], False))

    def test_a_dump_adds_again(self):
        with self.filled() as index:
            self.make(self.folder + "-7", 7)
            with self.open(self.folder + "-7") as other:
                self.assertTrue(all(isinstance(number, Added) for _, number in other.add_all(index.dump())))
                for query in ("fox", "grey", "red fox"):
                    self.assertEqual(index.count(query), other.count(query))
                    scores = [[row.score for row in each.top(query, 9).answers] for each in (index, other)]
                    self.assertEqual(scores[0], scores[1])

    def test_upkeep(self):
        with self.filled() as index:
            for call in (index.flush, index.merge, lambda: index.step(1000)):
                self.assertIsNone(call())
            self.assertEqual(index.count("fox"), 300)

    def test_levels_are_joined_by_themselves(self):
        import buncocedar.shards.shelf as shelf

        self.make(self.folder, 2)
        self.addCleanup(setattr, shelf, "MERGE_BYTES", shelf.MERGE_BYTES)
        shelf.MERGE_BYTES = 1000
        for merges, most in ((True, 1000), (False, 1 << 20)):
            with self.open() as index:
                index.merges = merges
                done = []
                upkeep = shelf_of(index).upkeep
                shelf_of(index).upkeep = lambda shards, line: done.append(line) or upkeep(shards, line)
                self.assertEqual(index.add_many(TEXTS), (300, []))
                self.assertEqual((set(done), index.count("fox")), ({"merge"} if merges else set(), 300))
                self.assertTrue(all(shard.unmerged <= most for shard in shelf_of(index)._shards.values()))

    def test_a_change_whose_answer_nobody_took(self):
        with self.assertRaisesRegex(NoSuchDocument, "2 changes that went wrong"):
            with self.filled() as index:
                index.send_delete("nobody")
                index.send_delete("nobody-else")
        with self.open() as index:
            with self.assertRaises(NoSuchDocument):
                index.send_delete("nobody").result()

    def test_a_block_that_breaks(self):
        with self.assertWarnsRegex(RuntimeWarning, "no such document"), self.assertRaises(ValueError):
            with self.filled() as index:
                index.send_add("last", "", "fox")
                index.send_delete("nobody")
                raise ValueError
        with self.assertRaises(KeyboardInterrupt):
            with self.open() as index:
                raise KeyboardInterrupt
        with self.open() as index:
            self.assertEqual(index.count("fox"), 301)


class Failures(Case):
    def test_a_program_is_killed(self):
        with self.filled() as index:
            process_of(index, 2).kill()
            self.assertEqual(index.count("fox"), 300)
            process_of(index, 2).kill()
            process_of(index, 2).wait()
            outcomes = dict(index.add_all((f"more-{number}", "", "fox") for number in range(100)))
            lost = {name for name, outcome in outcomes.items() if isinstance(outcome, NotAnswered)}
            self.assertLessEqual(lost, {name for name in outcomes if shard_of(name, 4) == 2})
            self.assertIn(index.count("fox"), range(400 - len(lost), 401))
            self.assertTrue(all(isinstance(number, Added) for _, number in index.add_all((name, "", "fox") for name in lost)))
            self.assertEqual(index.count("fox"), 400)

    def test_a_program_is_killed_in_a_search(self):
        self.make(self.folder, 3)
        with self.open() as index:
            index.add_many((f"p{number}", "", "fox") for number in range(9000))
            rows = index.search("fox")
            first = list(itertools.islice(rows, 10))
            process_of(index, 1).kill()
            process_of(index, 1).wait()
            with self.assertRaises(Missing) as raised:
                first.extend(rows)
            self.assertEqual((list(raised.exception.shards), raised.exception.answer), ([1], None))
            others = sum(shard_of(f"p{number}", 3) != 1 for number in range(9000))
            self.assertGreaterEqual(len(first), others)
            self.assertEqual(len({name for _, name in first if shard_of(name, 3) != 1}), others)
            cursor = index.cursor("fox")
            cursor.page(10)
            process_of(index, 1).kill()
            process_of(index, 1).wait()
            with self.assertRaises(Missing) as raised:
                cursor.page(9000)
            self.assertFalse(raised.exception.answer.more)

    def test_a_program_hangs(self):
        index = self.filled()
        give(index, HANGING)
        process = process_of(index, 1)
        process.send_signal(signal.SIGSTOP)
        begun = time.monotonic()
        with self.assertRaises(Missing) as raised:
            index.count("fox")
        self.assertEqual((list(raised.exception.shards), raised.exception.answer), ([1], 300 - ours(1)))
        self.assertLess(time.monotonic() - begun, LATE)
        begun = time.monotonic()
        with self.assertRaises(Missing):
            list(index.search("fox"))
        outcomes = dict(index.add_all((f"more-{number}", "", "fox") for number in range(40)))
        lost = {name for name, outcome in outcomes.items() if isinstance(outcome, NotAnswered)}
        self.assertLessEqual({name for name in outcomes if shard_of(name, 4) == 1}, lost)
        self.assertLess(time.monotonic() - begun, LATE)
        process.send_signal(signal.SIGCONT)
        give(index, PATIENCE)
        self.assertEqual(index.count("fox"), 340 - len(lost))
        index.close()

    def test_a_program_that_hangs_in_changes(self):
        # More lines than may be under way: nothing waits for it without an end, and no line is sent behind one that was not answered.
        index = self.filled()
        give(index, HANGING)
        process = process_of(index, 1)
        process.send_signal(signal.SIGSTOP)
        begun = time.monotonic()
        texts = [(f"more-{number}", "", "violet " * 500) for number in range(1000)]
        outcomes = dict(index.add_all(texts))
        self.assertLess(time.monotonic() - begun, LATE)
        lost = {name for name, outcome in outcomes.items() if isinstance(outcome, NotAnswered)}
        self.assertLessEqual({name for name in outcomes if shard_of(name, 4) == 1}, lost)
        # It is asked again and again, and holds nobody up for more than its seconds.
        for _ in range(70):
            give(index, 0.01)
            with self.assertRaises(Missing):
                index.count("fox")
        process.send_signal(signal.SIGCONT)
        give(index, PATIENCE)
        self.assertIn(index.count("violet"), range(1000 - len(lost), 1001))
        index.close()

    def test_an_end_while_a_program_hangs(self):
        index = self.filled()
        give(index, HANGING)
        process_of(index, 1).send_signal(signal.SIGSTOP)
        begun = time.monotonic()
        with self.assertRaisesRegex(Error, "gave no answer"):
            index.close()
        self.assertLess(time.monotonic() - begun, LATE)
        with self.open() as index:
            self.assertEqual(index.count("fox"), 300)

    def test_a_shard_that_opens_slowly(self):
        # The others answer meanwhile, and its opening goes on until it is there.
        self.filled().close()
        go = os.path.join(self.top.name, "go")
        slow = os.path.join(self.top.name, "slow")
        with open(slow, "w") as file:
            file.write(f'#!/bin/sh\ncase "$1" in *00002*) until [ -e {go} ]; do sleep 0.05; done;; esac\nexec {self.runs} "$@"\n')
        os.chmod(slow, 0o755)
        with ShardedIndex.here(self.folder, program=slow, patience=2 * HANGING) as index:
            with self.assertRaisesRegex(Missing, "shard 2 is being opened") as raised:
                index.count("fox")
            self.assertEqual(raised.exception.answer, 300 - ours(2))
            open(go, "w").close()
            give(index, PATIENCE)
            self.assertEqual(index.count("fox"), 300)

    def test_a_shard_that_another_one_has_open(self):
        self.filled().close()
        with Index(shard_path(self.folder, 0), program=self.runs):
            with self.open(patience=2 * HANGING) as index:
                with self.assertRaises(Missing) as raised:
                    index.stats()
                self.assertEqual(list(raised.exception.shards), [0])
                self.assertIn("00000.alta is open in", raised.exception.shards[0])
        with self.open() as index:
            self.assertEqual(index.stats().documents, 300)

    def test_a_file_is_gone(self):
        self.filled().close()
        os.rename(shard_path(self.folder, 3), self.folder + "-kept")
        with self.open() as index:
            with self.assertRaises(Missing) as raised:
                index.top("fox", 5)
            self.assertEqual((list(raised.exception.shards), raised.exception.answer.found), ([3], 300 - ours(3)))
            dumped = []
            with self.assertRaises(Missing):
                dumped.extend(index.dump())
            self.assertEqual(len(dumped), 300 - ours(3))
            with self.assertRaises(Missing) as raised:
                index.stats()
            self.assertEqual(raised.exception.answer.documents, 300 - ours(3))
            name = next(name for name, _, _ in TEXTS if shard_of(name, 4) == 3)
            with self.assertRaises(NotHere):
                index.add(name, "", "")
            os.rename(self.folder + "-kept", shard_path(self.folder, 3))
            give(index, PATIENCE)
            self.assertEqual(index.count("fox"), 300)

    def test_a_file_is_damaged(self):
        self.needs_the_program()
        self.filled().close()
        with open(shard_path(self.folder, 0), "r+b") as file:
            file.truncate(100_000)
        with self.open() as index:
            with self.assertRaises(Missing) as raised:
                index.count("fox")
            self.assertEqual(list(raised.exception.shards), [0])
            self.assertIn("damaged", raised.exception.shards[0])
        with self.assertRaises(Damaged):
            Index(shard_path(self.folder, 0), program=self.runs)

    def test_a_shard_in_two_places(self):
        self.filled().close()
        other = self.folder + "-other"
        os.makedirs(other)
        shutil.copy(shard_path(self.folder, 1), other)
        write_settings(other, settings_of(self.folder))
        with ShardedIndex(Fixed(self.shelf(self.folder, other), "both")) as index:
            with self.assertRaises(Missing) as raised:
                index.count("fox")
            self.assertEqual((list(raised.exception.shards), raised.exception.answer), ([1], 300 - ours(1)))
            self.assertIn("two places", raised.exception.shards[1])
            name = next(name for name, _, _ in TEXTS if shard_of(name, 4) == 1)
            with self.assertRaisesRegex(NotAnswered, "two places"):
                index.add(name, "", "")

    def test_another_index(self):
        self.filled().close()
        self.make(self.folder + "-other", 4)
        both = self.shelf(self.folder, self.folder + "-other")
        with self.assertRaisesRegex(Error, "several indexes"):
            ShardedIndex(Fixed(both, "both"))
        both = self.shelf(self.folder, self.folder + "-other")
        with ShardedIndex(Fixed(both, "both"), name=settings_of(self.folder).name) as index:
            self.assertEqual(index.count("fox"), 300)

    def test_late_changes(self):
        with self.filled() as index:
            shelf = shelf_of(index)
            line = [(shard_of("x", 4), b"add x\t\tnew")]
            self.assertEqual(len(shelf.change("client", 2, line)[0]), 1)
            with self.assertRaises(Stale):
                shelf.change("client", 1, [(shard_of("x", 4), b"add x\t\told")])
            self.assertEqual((index.count("new"), index.count("old")), (1, 0))
            self.assertTrue(shelf.change("another client", 1, line))

    def test_clients_that_have_gone_are_forgotten(self):
        with self.filled() as index:
            shelf = shelf_of(index)
            line = [(shard_of("x", 4), b"add x\t\tnew")]
            shelf.change("old", 1, line)
            shelf._clients["old"] = shelf._clients["old"]._replace(at=shelf._clients["old"].at - 90_000)
            shelf.change("new", 1, line)
            self.assertNotIn("old", shelf._clients)

    def test_processes(self):
        self.filled(5).close()
        with self.open(processes=2) as index:
            self.assertEqual((len(index.places), index.count("fox")), (2, 300))
            for process in index.places[0].pool._processes.values():
                process.kill()
            try:
                # The next call may be the one that finds it dead, or the one behind that.
                self.assertEqual(index.count("fox"), 300)
            except Missing as missing:
                self.assertEqual(missing.shards.keys(), {0, 2, 4})
            end = time.monotonic() + PATIENCE
            while True:
                try:
                    self.assertEqual(index.count("fox"), 300)
                    break
                except Missing:
                    self.assertLess(time.monotonic(), end)
                    time.sleep(0.1)
            self.assertEqual(index.add_many(TEXTS), (300, []))


class Beside(Case):
    """The answers of shards are those of one index with the same documents."""

    def equal(self, shards, processes=0):
        self.needs_the_program()
        texts = documents_of_texts()
        self.make(self.folder, shards)
        with Index(os.path.join(self.top.name, "one.alta"), create=True, program=self.runs) as one:
            with self.open(processes=processes) as index:
                for each in (one, index):
                    self.assertEqual(each.add_many(texts), (len(texts), []))
                    # Some are replaced, also by what others have, and some deleted.
                    self.assertEqual(each.add_many((name, title, texts[at * 5][2]) for at, (name, title, _) in enumerate(texts[::7]))[1], [])
                    for name, _, _ in texts[3::11]:
                        each.delete(name)
                told = compared(self, one, index, queries(texts, 280, seed=shards))
                self.assertEqual(index.stats()[:2], one.stats()[:2])
                one.merge()
                index.merge()
                compared(self, one, index, queries(texts, 42, seed=100 + shards))
        self.assertGreater(told.found, 180)
        self.assertGreaterEqual(told.faults, 15)

    def test_one(self):
        self.equal(1)

    def test_four(self):
        self.equal(4)

    def test_thirteen(self):
        self.equal(13)

    def test_processes(self):
        self.equal(4, processes=2)


if __name__ == "__main__":
    warnings.simplefilter("error", ResourceWarning)
    run_tests("shards", take_program)
