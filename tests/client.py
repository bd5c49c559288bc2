#!/usr/bin/env python3
"""Tests of `client/buncocedar`: with a program that misbehaves as told, and with the real one.

usage: tests/client.py [--program PATH]

Without --program the tests of the real program are left out, and that is said.
"""

import contextlib
import copy
import datetime
import gc
import io
import json
import os
import pathlib
import pickle
import resource
import shutil
import signal
import subprocess
import sys
import tempfile
import threading
import time
import traceback
import unittest
import unittest.mock
import warnings

# It lets the others find the client of the checkout.
from support import BUNCO, CLIENT, PATIENCE, run_tests, until  # isort: skip

import buncocedar
import fake
from buncocedar import Index, beside, errors, exchange, holders, making, texts
from buncocedar.exchange import LINES_UNDER_WAY
from buncocedar.imports.stamps import name_of

FAKE = fake.installed()
PROGRAM = None


class Case(unittest.TestCase):
    def setUp(self):
        self.folder = tempfile.TemporaryDirectory()
        self.addCleanup(self.folder.cleanup)
        self.path = os.path.join(self.folder.name, "x.alta")
        self.mark = os.path.join(self.folder.name, "mark")

    def fake(self, **do):
        """An open index over the fake program, which does this."""
        before = os.environ.get("FAKE")
        os.environ["FAKE"] = json.dumps(do)
        try:
            return Index(self.path, create=True, program=FAKE, patience=PATIENCE)
        finally:
            if before is None:
                del os.environ["FAKE"]
            else:
                os.environ["FAKE"] = before


class Texts(unittest.TestCase):
    def test_lines(self):
        for title, body, line in [
            ("Red Fox", "the quick red fox", b"add a\tRed Fox\tthe quick red fox\n"),
            ("", "", b"add a\t\t\n"),
            ("a\tb", "one\r\ntwo\tthree\n", b"add a\ta b\tone  two three \n"),
            ("\0", "stra\u00dfe \U0001f98a", "add a\t\0\tstra\u00dfe \U0001f98a\n".encode()),
            ("\ud83e\udd8a", "lone \udcff", "add a\t\U0001f98a\tlone \ufffd\n".encode()),
        ]:
            self.assertEqual(buncocedar.add_line("a", title, body), (line, 0))
        for name in ["", "a b", "a\nb", "\u00e9", "x" * 65, "a\t"]:
            with self.assertRaises(buncocedar.BadName):
                buncocedar.add_line(name, "", "")

    def test_too_long(self):
        room = buncocedar.LINE_LIMIT - len("add a\t\t")
        line, dropped = buncocedar.add_line("a", "", "x" * room)
        self.assertEqual((len(line) - 1, dropped), (262_143, 0))
        with self.assertRaises(buncocedar.LineTooLong) as raised:
            buncocedar.add_line("a", "", "x" * (room + 1))
        self.assertEqual(raised.exception.length, 262_144)
        self.assertIn("262,144 bytes", str(raised.exception))

    def test_other_types(self):
        for call, message in [
            (lambda: buncocedar.add_line(1, "", ""), "a name must be a str, not int"),
            (lambda: buncocedar.add_line("a", None, ""), "a title must be a str, not NoneType"),
            (lambda: buncocedar.add_line("a", "", b"x"), "a body must be a str, not bytes"),
            (lambda: texts.one_line(["x"]), "a text must be a str, not list"),
            (lambda: buncocedar.name_ok(b"a"), "a name must be a str, not bytes"),
        ]:
            with self.assertRaises(TypeError) as raised:
                call()
            self.assertEqual(str(raised.exception), message)

    def test_cut(self):
        words = "word " * 80_000
        line, dropped = buncocedar.add_line("a", "title", words, cut=True)
        self.assertLessEqual(len(line) - 1, 262_143)
        self.assertTrue(line.endswith(b" word\n"))
        self.assertEqual(len("add a\ttitle\t") + len(words) - dropped, len(line) - 1)
        # A title gives way only where its line is too long, and a text without blanks is cut between characters.
        line, dropped = buncocedar.add_line("a", words, "body", cut=True)
        self.assertEqual(len(line.split(b"\t")[1]), 4_094)
        self.assertTrue(line.endswith(b"word\tbody\n"))
        line, dropped = buncocedar.add_line("a", "", "\u65e5" * 160_000, cut=True)
        self.assertEqual(line.decode().count("\u65e5"), (262_143 - 7) // 3)
        self.assertEqual(texts.fitted("red fox", 5), "red")
        self.assertEqual(texts.fitted("red fox", 3), "red")
        self.assertEqual(texts.fitted("red  fox", 4), "red")
        self.assertEqual(texts.fitted("red", 2), "re")
        self.assertEqual(texts.fitted(" reddish", 3), " re")

    def test_ranges_of_values(self):
        day, moment = datetime.date(2024, 1, 31), datetime.datetime(2024, 12, 1, 23, 59)
        for first, last, query in [
            (1990, 1999, "value:1990..1999"),
            (0, 4_294_967_295, "value:0..4294967295"),
            (7, 7, "value:7..7"),
            (day, moment, "value:20240131..20241201"),
            (20240101, day, "value:20240101..20240131"),
        ]:
            self.assertEqual(buncocedar.value_range(first, last), query)
        for first, last in [(2, 1), (-1, 5), (0, 4_294_967_296), (moment, day)]:
            with self.assertRaises(ValueError):
                buncocedar.value_range(first, last)
        for first, last in [("1", 2), (1, None), (1.0, 2)]:
            with self.assertRaises(TypeError):
                buncocedar.value_range(first, last)

    def test_marks(self):
        for text, place, shown in [
            ("(fox", 4, "  (fox\n      ^"),
            ("", 0, "  \n  ^"),
            ("stra\u00dfe )", 8, "  stra\u00dfe )\n         ^"),
            ("\u65e5\u672c )", 7, "  \u65e5\u672c )\n       ^"),
            ("e\u0301 )", 4, "  e\u0301 )\n    ^"),
            ("\U0001f98a)", 4, "  \U0001f98a)\n    ^"),
            ("a\t)", 2, "  a )\n    ^"),
            ("\x1b[1m)", 4, "  \ufffd[1m)\n      ^"),
        ]:
            self.assertEqual(buncocedar.marked(text, place), shown)
        long = buncocedar.marked("a " * 300 + ")" + " b" * 300, 600)
        front, mark = long.split("\n")
        self.assertEqual(front[mark.index("^")], ")")
        self.assertLess(len(front), 130)


class Calls(Case):
    def test_documents_and_queries(self):
        with self.fake() as index:
            number = index.add("a", "Red Fox", "the quick\tred\nfox")
            self.assertEqual((number, number.dropped), (1, 0))
            self.assertEqual(index.add("b", "", "word " * 80_000, cut=True).dropped, 400_000 - 52_427 * 5 + 1)
            self.assertEqual(list(index.search("red fox")), [(1, "a")])
            self.assertEqual(list(index.search("no such words")), [])
            self.assertEqual(index.count("word"), 1)
            self.assertEqual(index.explain("fox"), '"fox"\nfound D Wfox\n  x1 <= x0')
            self.assertEqual(index.stats(), (2, 6 + 52_427, 3))
            self.assertEqual(index.delete("b"), 2)
            self.assertEqual(index.stats(), buncocedar.Stats(documents=1, words=6, next=3))
            for upkeep in (index.flush, index.merge, lambda: index.step(1000)):
                self.assertIsNone(upkeep())
        for call in (index.stats, lambda: index.add("c", "", "")):
            with self.assertRaises(buncocedar.Closed):
                call()
        # What was answered stands in the file.
        with self.fake() as index:
            self.assertEqual(index.stats().documents, 1)

    def test_ids(self):
        """A query's `id:` goes out as the name of that message, in each call that takes one; a line from elsewhere goes as it is."""
        with self.fake() as index:
            index.add("a", "", f"name:a@x name:{name_of('b' * 90 + '@x')} id:c")
            for query, found in (("id:a@x", 1), (f"id:<{'b' * 90}@x> id:a@x", 1), ("id:c", 0), ('"id:c"', 0)):
                self.assertEqual(index.count(query), found, query)
                self.assertEqual(len(list(index.search(query))), found)
                self.assertEqual(index.top(query, 1).found, found)
                self.assertEqual(len(list(index.cursor(query))), found)
            self.assertEqual(index.answer(b"count id:c"), ["found 1"])
            self.assertEqual(index.answer(b"count id:a@x"), ["found 0"])

    def test_replacing(self):
        with self.fake() as index:
            first, second = index.add("a", "", "red"), index.add("a", "", "blue")
            self.assertEqual((first, first.replaced), (1, None))
            self.assertEqual((second, second.replaced), (2, 1))
            self.assertEqual(list(index.search("blue")), [(2, "a")])
            self.assertEqual(index.count("red"), 0)
            self.assertEqual(index.stats(), (1, 1, 3))

    def test_cursors(self):
        with self.fake() as index:
            for name in "abcde":
                index.add(name, "", "x")
            with index.cursor("x") as cursor:
                self.assertEqual(cursor.page(2), ([(1, "a"), (2, "b")], True))
                index.delete("d")
                self.assertEqual(list(cursor.pages(2)), [([(3, "c"), (4, "d")], True), ([(5, "e")], False)])
                self.assertEqual(cursor.page(2), ([], False))
                self.assertEqual(list(index.cursor("x")), [(1, "a"), (2, "b"), (3, "c"), (5, "e")])
            with self.assertRaises(buncocedar.NoSuchCursor):
                cursor.page(1)
            opened = [index.cursor("x") for _ in range(63)]
            with self.assertRaises(buncocedar.TooManyCursors):
                index.cursor("x")
            self.assertEqual(opened[0].number, 1)

    def test_the_best_answers(self):
        with self.fake() as index:
            for name, title, body in [("a", "Red Fox", "the quick red fox"), ("b", "Fox", "quick brown dog"), ("c", "", "fox")]:
                index.add(name, title, body)
            best = [buncocedar.Scored(1, "a", 5), buncocedar.Scored(2, "b", 4), buncocedar.Scored(3, "c", 1)]
            self.assertEqual(index.top("fox", 2), buncocedar.Top(best[:2], 3))
            self.assertEqual(index.top("fox", 1000), (best, 3))
            self.assertEqual(index.top("zebra", 1), ([], 0))
            with self.assertRaises(buncocedar.QueryFault) as raised:
                index.top("fault 8 Paren )", 5)
            self.assertEqual((raised.exception.place, raised.exception.query), (8, "fault 8 Paren )"))
            for count in (0, 1001):
                with self.assertRaises(buncocedar.BadLine):
                    index.top("fox", count)
            for count, message in [("1", "count must be an int, not str"), (None, "count must be an int, not NoneType")]:
                with self.assertRaisesRegex(TypeError, message):
                    index.top("fox", count)
        for reply in ("1 a", "1 a -5", "1 a b 5", "found"):
            with self.fake(say=[1, reply]) as index:
                with self.assertRaises(buncocedar.ProtocolFault):
                    index.top("fox", 1)
        with self.fake(old=True) as index:
            with self.assertRaises(buncocedar.UnknownCommand):
                index.top("fox", 1)

    def test_words_again(self):
        with self.fake() as index:
            self.assertEqual(list(index.dump()), [])
            index.add("a", "Red  Fox", "The quick\tred fox")
            index.add("b", "", "")
            words = [buncocedar.Dumped("a", "red fox", "the quick red fox"), buncocedar.Dumped("b", "", "")]
            rows = index.dump()
            self.assertEqual(next(rows), words[0])
            self.assertEqual(index.count("fox"), 1)
            self.assertEqual(list(rows), words[1:])
            index.delete("a")
            self.assertEqual(list(index.dump()), words[1:])
        with self.fake(say=[1, "skipped 7 b\nadd c\t\tx\ty\ndumped 1"]) as index:
            self.assertEqual(list(index.dump()), [buncocedar.Skipped(7, "b"), buncocedar.Dumped("c", "", "x\ty")])
        for reply in ("add c", "skipped b", "dumped", "1 a"):
            with self.fake(say=[1, reply]) as index:
                with self.assertRaises(buncocedar.ProtocolFault):
                    list(index.dump())
        with self.fake(old=True) as index:
            for call in (index.dump, lambda: index.top("fox", 1)):
                with self.assertRaises(buncocedar.UnknownCommand):
                    call()

    def test_lines_from_elsewhere(self):
        with self.fake() as index:
            index.add("a", "Fox", "fox")
            for line, reply in [
                (b"top 1 fox", ["1 a 5", "found 1"]),
                (b"top 1 zebra", ["found 0"]),
                (b"top 0 fox", ["! bad line"]),
                (b"dump", ["add a\tfox\tfox", "dumped 1"]),
                (b"search fox", ["1 a", "found 1"]),
                (b"explain fox", ['"fox"', "found D Wfox", "  x1 <= x0"]),
                (b"explain fault 1 Word", ["! query 1 Word"]),
                (b"what", ["! unknown command"]),
                (b"\xff", ["! not UTF-8"]),
                (b"add b\t\t" + b"x" * buncocedar.LINE_LIMIT, ["! line too long"]),
            ]:
                self.assertEqual(index.answer(line), reply, line)
                self.assertEqual(list(index.each_answer(line)), reply, line)
            for line in (b"search fault 8 Paren )", b"top 5 fault 8 Paren )", b"explain fault 8 Paren )"):
                with self.assertRaises(buncocedar.QueryFault) as raised:
                    index.send_line(line).result()
                self.assertEqual((raised.exception.query, raised.exception.place), ("fault 8 Paren )", 8))

    def test_other_types(self):
        with self.fake() as index:
            index.add("a", "", "x")
            cursor = index.cursor("x")
            for call, message in [
                (lambda: index.search(None), "a query must be a str, not NoneType"),
                (lambda: index.count(b"x"), "a query must be a str, not bytes"),
                (lambda: index.explain(1), "a query must be a str, not int"),
                (lambda: index.cursor(["x"]), "a query must be a str, not list"),
                (lambda: index.add("b", "", b"x"), "a body must be a str, not bytes"),
                (lambda: index.delete(1), "a name must be a str, not int"),
                (lambda: index.answer("stats"), "a line must be bytes, not str"),
                (lambda: buncocedar.value_range("2024-01-01", 5), "a value must be an int or a date, not str"),
                (lambda: index.step("1"), "terms must be an int, not str"),
                (lambda: index.step(1.0), "terms must be an int, not float"),
                (lambda: cursor.page("1"), "count must be an int, not str"),
                (lambda: cursor.page(None), "count must be an int, not NoneType"),
            ]:
                with self.assertRaises(TypeError) as raised:
                    call()
                self.assertEqual(str(raised.exception), message)
            self.assertEqual(index.stats().documents, 1)

    def test_a_search_that_is_left(self):
        with self.fake() as index:
            for name in "abc":
                index.add(name, "", "x")
            rows = index.search("x")
            self.assertEqual(next(rows), (1, "a"))
            self.assertEqual(index.count("x"), 3)
            self.assertEqual(list(rows), [(2, "b"), (3, "c")])

    def test_refusals(self):
        for reply, kind in errors.REFUSALS.items():
            with self.fake(say=[1, reply]) as index:
                with self.assertRaises(kind) as raised:
                    index.add("a", "", "")
                self.assertEqual(raised.exception.reply, reply)
                self.assertEqual(index.stats().documents, 0)
        with self.fake(old=True) as index:
            for call in (index.flush, index.merge, lambda: index.step(1), lambda: index.cursor("x")):
                with self.assertRaises(buncocedar.UnknownCommand) as raised:
                    call()
                self.assertIn("older than this client", str(raised.exception))

    def test_faults_of_queries(self):
        with self.fake() as index:
            for call in (index.search, index.count, index.explain, index.cursor):
                with self.assertRaises(buncocedar.QueryFault) as raised:
                    call("fault 8 Paren\n\u65e5)")
                fault = raised.exception
                self.assertEqual((fault.place, fault.cause, fault.query), (8, "Paren", "fault 8 Paren \u65e5)"))
                self.assertEqual(str(fault).split("\n")[1:], ["  fault 8 Paren \u65e5)", "          ^"])
            with self.assertRaises(buncocedar.LineTooLong):
                index.count("x " * 140_000)
            self.assertEqual(index.stats().documents, 0)

    def test_ends(self):
        for status, kind in {**errors.ENDS, -9: buncocedar.Ended, 0: buncocedar.Ended, 77: buncocedar.Ended}.items():
            index = self.fake(end=[2, status])
            answered = index.send_add(f"n{status}", "", "")
            lost = [index.send_add(f"m{status}", "", ""), index.send_delete("zz")]
            self.assertGreater(answered.result(), 0)
            for reply in lost:
                with self.assertRaises(kind) as raised:
                    reply.result()
                self.assertEqual(raised.exception.status, status)
                self.assertFalse(reply.answered)
            with self.assertRaises(kind):
                index.stats()
            index.close()
            if status == 6:
                self.assertEqual(raised.exception.place, 8193)
            if status == 8:
                self.assertEqual((raised.exception.need, raised.exception.gap), (321, 123))
        with self.fake() as index:
            self.assertEqual(index.stats().documents, 13)

    def test_an_end_without_a_word(self):
        # As of a script before the program, which could not start it: nothing is known of the disk.
        for status, kind in [(2, buncocedar.Ended), (5, buncocedar.OutOfMemory)]:
            index = self.fake(end=[1, status], mute=True)
            with self.assertRaises(buncocedar.Ended) as raised:
                index.add("a", "", "")
            self.assertEqual((type(raised.exception), raised.exception.status), (kind, status))
            index.close()

    def test_an_end_that_nobody_saw_is_raised_by_close(self):
        with self.assertRaises(buncocedar.Full):
            with self.fake(room=1) as index:
                index.send_add("a", "", "")
                index.send_add("b", "", "")

    def test_opening(self):
        with self.assertRaises(buncocedar.NoIndex):
            Index(self.path, program=FAKE)
        self.assertFalse(os.path.exists(self.path))
        # A file that is no index is not made one.
        with open(self.path, "w") as file:
            file.write("my notes\n")
        with self.assertRaises(buncocedar.NoIndex):
            Index(self.path, create=True, program=FAKE)
        with open(self.path) as file:
            self.assertEqual(file.read(), "my notes\n")
        open(self.path, "w").close()
        with self.fake() as index:
            index.add("a", "", "")
        # Where one was made meanwhile, it stays.
        making.make_index(FAKE, self.path)
        with self.fake() as index:
            self.assertEqual(index.stats().documents, 1)
        self.assertEqual(os.listdir(self.folder.name), ["x.alta"])
        with self.assertRaises(OSError):
            Index(self.path, program=os.path.join(self.folder.name, "nothing"))

    def test_making_at_a_link(self):
        # It is made where the link leads, which stays; an empty file there keeps its rights.
        os.mkdir(os.path.join(self.folder.name, "far"))
        for name, empty in [("new", False), ("empty", True)]:
            far, link = os.path.join(self.folder.name, "far", name), os.path.join(self.folder.name, name)
            second = link + ".second"
            if empty:
                open(far, "w").close()
                os.chmod(far, 0o600)
            os.symlink(os.path.join("far", name), link)
            os.symlink(link, second)
            with Index(second, create=True, program=FAKE) as index:
                index.add("a", "", "")
            self.assertTrue(os.path.islink(link) and os.path.islink(second), name)
            with Index(far, program=FAKE) as index:
                self.assertEqual(index.stats().documents, 1)
        self.assertEqual(sorted(os.listdir(os.path.join(self.folder.name, "far"))), ["empty", "new"])
        self.assertEqual(os.stat(os.path.join(self.folder.name, "far", "empty")).st_mode & 0o777, 0o600)
        for target, kind in [("none/new", FileNotFoundError), (self.path, OSError)]:
            os.symlink(target, self.path)
            with self.assertRaisesRegex(kind, "no index can be made: .*x.alta"):
                Index(self.path, create=True, program=FAKE)
            os.remove(self.path)

    def test_what_a_killed_one_has_left(self):
        def put(folder, *names):
            os.makedirs(os.path.join(self.folder.name, folder))
            for name in names:
                open(os.path.join(self.folder.name, folder, name), "w").close()

        # One that is at it, what was left, and what only looks like it.
        with beside.making(self.folder.name) as fresh:
            open(fresh, "w").close()
            put(".making-abcdefgh", "lock", "index.alta", "index.alta.stamps")
            put(".making-abcdefgi", "lock")
            put(".making-abcdefgi/.making-abcdefgh", "lock", "index.alta")
            put(".making-abcdefgl")
            put(".making-abcdefgj", "lock", "index.alta", "notes")
            put(".making-of", "lock", "index.alta")
            os.symlink(self.folder.name, os.path.join(self.folder.name, ".making-abcdefgk"))
            with self.fake() as index:
                self.assertEqual(index.stats().documents, 0)
            kept = {".making-abcdefgj", ".making-abcdefgk", ".making-of", "x.alta"}
            self.assertEqual(set(os.listdir(self.folder.name)), kept | {os.path.basename(os.path.dirname(fresh))})
            self.assertTrue(os.path.exists(fresh))
        self.assertEqual(set(os.listdir(self.folder.name)), kept)
        self.assertEqual(sorted(os.listdir(os.path.join(self.folder.name, ".making-abcdefgj"))), ["index.alta", "lock", "notes"])

    def test_making_where_others_look(self):
        # Each has a folder of its own, though all the time others take away what was left.
        failed = []

        def make():
            for number in range(50):
                with beside.making(self.folder.name) as fresh:
                    with open(fresh, "w") as file:
                        file.write(str(number))
                    with open(fresh) as file:
                        if file.read() != str(number):
                            failed.append(number)

        threads = [threading.Thread(target=make) for _ in range(4)]
        for thread in threads:
            thread.start()
        for thread in threads:
            thread.join()
        self.assertEqual((failed, os.listdir(self.folder.name)), ([], []))

    def test_other_kinds_of_paths(self):
        for path in (os.fsencode(self.path), pathlib.Path(self.path)):
            with Index(path, create=True, program=FAKE) as index:
                self.assertEqual((index.path, index.stats().documents), (self.path, 0))
        with self.assertRaises(TypeError):
            Index(1, program=FAKE)

    def test_what_a_program_says_beside(self):
        told = io.StringIO()
        with contextlib.redirect_stderr(told):
            with self.fake(loud=True, room=3000) as index:
                outcomes = [outcome for _, outcome in index.add_all((f"n{i}", "", "") for i in range(3000))]
                self.assertEqual(outcomes, list(range(1, 3001)))
                with self.assertRaises(buncocedar.Full):
                    index.add("b", "", "")
        self.assertEqual(told.getvalue().count("fake: "), 3002)
        self.assertNotIn("alta: full", told.getvalue())


class Types(unittest.TestCase):
    CALLER = """
from buncocedar import Ended, Index, QueryFault, Scored

def asked(index: Index) -> None:
    count: int = index.send_count("x").result()
    best: list[Scored] = index.send_top("x", 3).result().answers
    try:
        index.stats()
    except QueryFault as fault:
        reveal_type(fault.place)
    except Ended as end:
        reveal_type(end.status)
    reveal_type(index.send_count("x").result())
"""

    def test_what_a_caller_is_told(self):
        """Values of replies, places of faults and statuses have their types, and none is `Any`."""
        if shutil.which("mypy") is None:
            self.skipTest("mypy is missing")
        with tempfile.TemporaryDirectory() as folder:
            path = os.path.join(folder, "caller.py")
            with open(path, "w") as file:
                file.write(self.CALLER)
            words = ["mypy", "--cache-dir", os.path.join(folder, "cache"), "--follow-imports", "silent", path]
            done = subprocess.run(words, env={**os.environ, "MYPYPATH": CLIENT}, capture_output=True, text=True, timeout=PATIENCE)
        self.assertEqual(done.returncode, 0, done.stdout)
        self.assertEqual((done.stdout.count("Revealed type is"), "Any" in done.stdout), (3, False), done.stdout)


class Traps(Case):
    """What a caller may forget, or do at a bad moment."""

    def test_an_index_that_is_dropped(self):
        with self.assertWarns(ResourceWarning):
            index = self.fake()
            index.add("a", "", "")
            del index
            gc.collect()
        # The program has ended and the lock is free: nobody waits for it.
        with self.fake() as index:
            self.assertEqual(index.stats().documents, 1)
        with self.assertWarns(ResourceWarning):
            self.assertEqual(self.fake().stats().documents, 1)
            gc.collect()
        with self.assertWarns(ResourceWarning):
            # More replies than the pipe holds stand before the program's end.
            index = self.fake(slow=True)
            rows = [index.search("NOT name:! OR name:!") for _ in range(3)]
            del index, rows
            gc.collect()
        # A cursor and the rows of a search keep the index that they are of.
        with warnings.catch_warnings():
            warnings.simplefilter("error")
            rows = self.fake().search("NOT name:! OR name:!")
            gc.collect()
            self.assertEqual(next(rows), (1, "a"))
        with self.assertWarns(ResourceWarning):
            self.assertEqual(list(rows), [])
            gc.collect()

    def test_an_index_at_the_end_of_python(self):
        script = (
            "import os, sys; sys.path.insert(0, sys.argv[1]); from buncocedar import Index\n"
            "index = Index(sys.argv[2], create=True, program=sys.argv[3])\n"
            "index.add('a', '', '')\n"
            "if os.fork() == 0:\n    sys.exit(0)\n"
            "os.wait()\n"
            "index.add('b', '', '')\n"
        )
        words = [sys.executable, "-W", "always", "-c", script, CLIENT, self.path, FAKE]
        done = subprocess.run(words, capture_output=True, timeout=PATIENCE)
        self.assertEqual((done.returncode, done.stderr.count(b"was not closed")), (0, 1), done.stderr)
        with self.fake() as index:
            self.assertEqual(index.stats().documents, 2)

    def test_a_block_that_breaks(self):
        with self.assertRaises(ValueError):
            with self.fake() as index:
                for i in range(60):
                    index.send_add(f"n{i}", "", "")
                raise ValueError
        with self.fake() as index:
            self.assertEqual(index.stats().documents, 60)
        for kind in (KeyboardInterrupt, SystemExit):
            with self.assertRaises(kind):
                with self.fake(silent=1):
                    raise kind
        # The error goes on, and what else was refused is told beside it.
        with self.assertWarnsRegex(RuntimeWarning, "no such document"), self.assertRaises(ValueError):
            with self.fake() as index:
                index.send_delete("none")
                raise ValueError

    def test_a_refusal_that_nobody_took(self):
        with self.assertRaisesRegex(buncocedar.NoSuchDocument, "delete a .*2 refused lines"):
            with self.fake() as index:
                for _ in range(2):
                    index.send_delete("a")
        with self.fake() as index:
            replies = [index.send_delete("a"), index.send_add("a", "", ""), index.send_delete("b")]
            with self.assertRaises(buncocedar.NoSuchDocument):
                replies[0].result()
            index.settle()
            self.assertIsNone(replies[1].error)
            self.assertIsInstance(replies[2].error, buncocedar.NoSuchDocument)
        # It is raised once, and after an end the end is what counts.
        index = self.fake()
        index.send_delete("b")
        with self.assertRaises(buncocedar.NoSuchDocument):
            index.close()
        index.close()
        # Of very many the first are told on the way.
        with self.assertWarns(RuntimeWarning), self.assertRaisesRegex(buncocedar.NoSuchDocument, "1,000 refused"):
            with self.fake() as index:
                for _ in range(1001):
                    index.send_delete("b")

    def test_adding_many(self):
        documents = [("a", "", "x"), ("a", "", ""), ("b c", "", ""), ("d", "", "x" * 270_000), ("e", "", "x")]
        with self.fake() as index:
            added, refusals = index.add_many(iter(documents))
            self.assertEqual(added, 3)
            kinds = [(name, type(refusal)) for name, refusal in refusals]
            self.assertEqual(kinds, [("b c", buncocedar.BadName), ("d", buncocedar.LineTooLong)])
            self.assertEqual(index.add_many([]), (0, []))
            self.assertEqual(index.add_many([documents[3]], cut=True), (1, []))
        with self.assertRaises(buncocedar.Full):
            with self.fake(room=3) as index:
                index.add_many((f"n{i}", "", "") for i in range(100))

    def test_one_thread_at_a_time(self):
        index = self.fake(silent=1, mark=self.mark)
        seen = []

        def wait():
            try:
                index.add("a", "", "")
            except buncocedar.Error as error:
                seen.append(error)

        thread = threading.Thread(target=wait)
        thread.start()
        until(lambda: os.path.exists(self.mark))
        for call in (index.stats, lambda: index.send_add("b", "", ""), lambda: index.count("x"), index.settle, index.close):
            with self.assertRaisesRegex(RuntimeError, "another thread"):
                call()
        # What a signal's handler may do ends it.
        index.break_off()
        thread.join()
        self.assertEqual([type(error) for error in seen], [buncocedar.Ended])
        self.assertEqual(index.under_way(), 0)

    def in_a_fork(self, work):
        """What a fork of this process has to say of some work."""
        read, write = os.pipe()
        child = os.fork()
        if child == 0:
            try:
                said = str(work())
            except BaseException as error:
                said = repr(error)
            os.write(write, said.encode())
            os._exit(0)
        os.close(write)
        with open(read) as file:
            said = file.read()
        os.waitpid(child, 0)
        return said

    def test_a_fork(self):
        index = self.fake()
        index.add("a", "", "fox")
        cursor = index.cursor("fox")
        for work in (index.stats, lambda: index.count("fox"), lambda: index.send_add("b", "", ""), lambda: cursor.page(1)):
            self.assertIn("opened by another process, of which this is a fork", self.in_a_fork(work))
        for work in (index.close, index.kill, index.break_off, lambda: index.__exit__(SystemExit, None, None)):
            self.assertEqual(self.in_a_fork(work), "None")
            self.assertEqual(index.count("fox"), 1)
        index.close()

    def test_a_fork_that_goes_on(self):
        # It holds nothing that keeps the program at work, once its owner has closed it.
        index = self.fake()
        read, write = os.pipe()
        child = os.fork()
        if child == 0:
            os.close(write)
            os.read(read, 1)
            os._exit(0)
        os.close(read)
        try:
            index.close(seconds=PATIENCE)
            with self.fake() as again:
                self.assertEqual(again.stats().documents, 0)
        finally:
            os.close(write)
            os.waitpid(child, 0)

    def test_an_error_is_raised_anew(self):
        index = self.fake(end=[1, 8])
        reply = index.send_add("a", "", "")
        raised = []
        for call in (reply.result, reply.result, index.stats, index.stats, index.stats):
            with self.assertRaises(buncocedar.Full) as caught:
                call()
            raised.append(caught.exception)
        self.assertEqual(len(set(map(id, raised))), 5)
        depths = [len(traceback.extract_tb(error.__traceback__)) for error in raised]
        self.assertEqual((depths[0], depths[2], depths[3]), (depths[1], depths[3], depths[4]))
        index.close()

    def test_errors_are_copied_and_pickled(self):
        long = buncocedar.LineTooLong("! line too long", "add a")
        long.length = 270_000
        for error in [
            buncocedar.QueryFault("(fox", 4, "Paren"),
            errors.end_of(8, "alta: full, need 321, greatest gap 123"),
            errors.end_of(6, "alta: damaged at 8193"),
            buncocedar.ProtocolFault("stats", "what"),
            buncocedar.InUse("busy"),
            long,
        ]:
            for other in (copy.copy(error), pickle.loads(pickle.dumps(error))):
                self.assertIsNot(other, error)
                self.assertEqual((type(other), str(other), vars(other)), (type(error), str(error), vars(error)))


class Messages(Case):
    """What is said of an end: which file it is, why, and what is to be done."""

    def said_by_nobody(self, path):
        """The cause as a process without rights sees it."""
        os.chmod(self.folder.name, 0o755)
        read, write = os.pipe()
        child = os.fork()
        if child == 0:
            if os.getuid() == 0:
                os.setuid(65534)
            os.write(write, str(buncocedar.disk_cause(path)).encode())
            os._exit(0)
        os.close(write)
        os.waitpid(child, 0)
        with open(read) as file:
            return file.read()

    def test_causes(self):
        self.fake().close()
        link = os.path.join(self.folder.name, "link")
        os.symlink(os.path.join(self.folder.name, "gone"), link)
        for path, cause in [
            (self.folder.name, f"{self.folder.name} is a folder"),
            (os.path.join(self.folder.name, "none"), f"there is no file {self.folder.name}/none"),
            (os.path.join(self.folder.name, "none", "x"), f"there is no folder {self.folder.name}/none"),
            (link, f"there is no file {link}"),
            ("/dev/null", "/dev/null is no plain file"),
            (os.path.join(self.path, "x"), f"{self.path}/x: Not a directory"),
            (self.path, None),
        ]:
            self.assertEqual(buncocedar.disk_cause(path), cause)
        os.chmod(self.path, 0o444)
        self.assertEqual(self.said_by_nobody(self.path), f"no right to write {self.path}")
        os.chmod(self.path, 0)
        self.assertEqual(self.said_by_nobody(self.path), f"no right to read {self.path}")
        os.chmod(self.path, 0o644)
        with unittest.mock.patch.object(errors, "SCANT_ROOM", 1 << 62):
            self.assertRegex(buncocedar.disk_cause(self.path), r"the disk of .*/x\.alta is full: [0-9,]+ bytes free; make room")

    def test_words(self):
        for error, words in [
            (errors.end_of(8, "alta: full, need 3, greatest gap 2", "x.alta"), ["x.alta: alta: full", "(status 8)"]),
            (errors.end_of(6, "alta: damaged at 88", "x.alta"), ["x.alta: alta: damaged at 88", "a copy"]),
            (errors.end_of(-25, "", "x.alta"), ["x.alta: ended by signal 25", "File size limit", "stored"]),
            (errors.end_of(7, "alta: no index", "x.alta"), ["x.alta: alta: no index", "delete it"]),
            (buncocedar.NoFile("x.alta"), ["x.alta: no index: there is no such file", "create=True"]),
        ]:
            for word in words:
                self.assertIn(word, str(error))
        self.assertNotIn("stored", str(errors.end_of(2, "alta: disk fault", self.folder.name, opened=False)))
        self.assertNotIn("delete", str(buncocedar.NoFile("x.alta")))

    def test_a_file_that_is_missing(self):
        with self.assertRaises(buncocedar.NoFile) as raised:
            Index(self.path, program=FAKE)
        self.assertEqual((raised.exception.path, raised.exception.status), (self.path, 7))
        with self.assertRaises(FileNotFoundError) as raised:
            Index(os.path.join(self.path, "none"), create=True, program=FAKE)
        self.assertEqual(raised.exception.filename, os.path.join(self.path, "none"))

    def test_an_end_while_opening(self):
        with self.assertRaises(buncocedar.DiskFault) as raised:
            self.fake(end=[0, 2])
        self.assertIn(self.path, str(raised.exception))
        self.assertNotIn("stored", str(raised.exception))


class UnderWay(Case):
    def add_many(self, index, count, body=""):
        outcomes = []
        for name, outcome in index.add_all((f"n{i}", "", body) for i in range(count)):
            self.assertLessEqual(index.under_way(), LINES_UNDER_WAY)
            self.assertEqual(name, f"n{len(outcomes)}")
            outcomes.append(outcome)
        return outcomes

    def test_slow_and_stubborn(self):
        # Replies that come byte by byte, and replies that come only behind many further lines.
        for do in ({"slow": True}, {"hold": 1}, {"hold": 40}, {"hold": 64}):
            os.path.exists(self.path) and os.remove(self.path)
            with self.fake(**do) as index:
                self.assertEqual(self.add_many(index, 640), list(range(1, 641)))

    def test_long_lines_and_long_replies(self):
        # More lines than a pipe holds wait, while the program gives more rows than a pipe holds.
        with self.fake() as index:
            self.assertEqual(len(list(index.add_all((f"{i:060}", "", "x") for i in range(3000)))), 3000)
            searches = [index.search("x") for _ in range(8)]
            sent = [index.send_add(f"long{i}", "", "y" * 60_000) for i in range(100)]
            searches += [index.search("x") for _ in range(8)]
            self.assertEqual([reply.result() for reply in sent], list(range(3001, 3101)))
            for rows in searches:
                self.assertEqual(len(list(rows)), 3000)

    def test_refusals_stand_in_their_order(self):
        documents = [("a", "", ""), ("a", "", ""), ("b c", "", ""), ("d", "", "x" * 270_000), ("e", "", "")]
        with self.fake() as index:
            outcomes = [outcome for _, outcome in index.add_all(documents)]
        added, bad, long = buncocedar.Added, buncocedar.BadName, buncocedar.LineTooLong
        self.assertEqual([type(outcome) for outcome in outcomes], [added, added, bad, long, added])
        self.assertEqual((outcomes[0], outcomes[1], outcomes[4]), (1, 2, 3))
        self.assertEqual((outcomes[1].replaced, outcomes[4].replaced), (1, None))

    def test_an_end_in_the_middle(self):
        # The line that was not answered is done or not; what was answered is told, and nothing else.
        for do, stored in [
            ({"end": [21, -9]}, 20),
            ({"end": [21, -9], "done": True}, 21),
            ({"end": [21, 2], "done": True, "cut": True}, 21),
            ({"room": 20}, 20),
        ]:
            os.path.exists(self.path) and os.remove(self.path)
            index = self.fake(**do)
            numbers = []
            with self.assertRaises(buncocedar.Ended):
                for _, outcome in index.add_all((f"n{i}", "", "") for i in range(200)):
                    numbers.append(outcome)
            index.close()
            self.assertEqual(numbers, list(range(1, 21)))
            with self.fake() as index:
                self.assertEqual(index.stats().documents, stored)

    def test_a_reply_that_is_none(self):
        for do in ("what is this", "added", "added 01", "! no", "deleted 1"):
            os.path.exists(self.path) and os.remove(self.path)
            index = self.fake(say=[3, do])
            replies = [index.send_add(name, "", "") for name in "abcd"]
            index.kill()
            self.assertEqual([reply.answered for reply in replies[2:]], [False, False])
            index = self.fake(say=[1, do])
            with self.assertRaises(buncocedar.ProtocolFault):
                index.add("z", "", "")
            with self.assertRaises(buncocedar.ProtocolFault):
                index.stats()
            index.close()
            numbers = []
            with self.assertRaises(buncocedar.ProtocolFault):
                with self.fake(say=[4, do]) as index:
                    for _, outcome in index.add_all((f"m{i}", "", "") for i in range(100)):
                        numbers.append(outcome)
            self.assertEqual(len(numbers), 3)

    def test_a_program_that_takes_no_more(self):
        # It has closed its input and still gives replies: what it gives counts, and what it did not take does not.
        go = os.path.join(self.folder.name, "go")
        index = self.fake(deaf=[2, go], mark=self.mark)
        replies = [index.send_add(name, "", "") for name in "ab"]
        self.assertFalse(index.settle(0))
        until(lambda: os.path.exists(self.mark))
        replies += [index.send_add(name, "", "") for name in "cd"]
        open(go, "w").close()
        self.assertEqual([reply.result() for reply in replies[:2]], [1, 2])
        for reply in replies[2:]:
            with self.assertRaises(buncocedar.DiskFault):
                reply.result()

    def test_killing(self):
        with self.fake(silent=3, mark=self.mark) as index:
            replies = [index.send_add(name, "", "") for name in "abcd"]
            self.assertFalse(index.settle(0))
            until(lambda: os.path.exists(self.mark))
            index.kill()
            self.assertEqual([reply.answered for reply in replies], [True, True, False, False])
            with self.assertRaises(buncocedar.Ended):
                replies[2].result()

    def test_interrupts(self):
        # A program that answers no more, and a caller that is interrupted while it waits.
        script = (
            "import sys; sys.path.insert(0, sys.argv[1]); from buncocedar import Index\n"
            "index = Index(sys.argv[2], create=True, program=sys.argv[3])\n"
            "replies = [index.send_add(name, '', '') for name in 'abcd']\n"
            "replies[1].result()\n"
            "try:\n    print('waiting', flush=True)\n    index.settle()\n"
            "except KeyboardInterrupt:\n    index.kill()\n"
            "    print([reply.answered for reply in replies], index.under_way())\n"
        )
        process = subprocess.Popen(
            [sys.executable, "-c", script, CLIENT, self.path, FAKE],
            env={**os.environ, "FAKE": json.dumps({"silent": 3, "mark": self.mark})},
            stdout=subprocess.PIPE,
        )
        self.addCleanup(process.kill)
        until(lambda: os.path.exists(self.mark))
        self.assertEqual(process.stdout.readline(), b"waiting\n")
        process.send_signal(signal.SIGINT)
        out, _ = process.communicate(timeout=PATIENCE)
        self.assertEqual(out, b"[True, True, False, False] 0\n")

    def test_locks(self):
        with self.fake() as index:
            with self.assertRaises(buncocedar.InUse):
                Index(self.path, program=FAKE, patience=0)
            index.add("a", "", "")
        with self.fake() as index:
            self.assertEqual(index.stats().documents, 1)
        # The program of a client that was killed keeps the lock as long as it runs.
        script = (
            "import sys; sys.path.insert(0, sys.argv[1]); from buncocedar import Index\n"
            "Index(sys.argv[2], program=sys.argv[3]).add('b', '', '')\n"
        )
        process = subprocess.Popen(
            [sys.executable, "-c", script, CLIENT, self.path, FAKE],
            env={**os.environ, "FAKE": json.dumps({"silent": 1, "mark": self.mark})},
        )
        until(lambda: os.path.exists(self.mark))
        process.kill()
        process.wait()
        with self.assertRaises(buncocedar.InUse):
            Index(self.path, program=FAKE, patience=0.1)
        with open(self.mark) as file:
            os.kill(int(file.read()), signal.SIGKILL)
        self.fake().close()


class SentAndWaitedFor(Case):
    """Lines that are sent by one call and waited for by another, for so long as the caller says."""

    def test_queries(self):
        with self.fake() as index:
            for name, title in [("a", "Red Fox"), ("b", "Fox"), ("c", "Hen")]:
                index.add(name, title, "")
            sent = [index.send_search("fox"), index.send_top("fox", 1), index.send_count("hen"), index.send_stats()]
            sent += [index.send_open("NOT name:!"), index.send_explain("fox"), index.send_dump()]
            self.assertLessEqual(index.under_way(), 7)
            search, top, count, stats, opened, explained, dumped = sent
            self.assertEqual((list(search.each()), search.result()), ([(1, "a"), (2, "b")], 2))
            self.assertEqual(top.result(), ([(1, "a", 4)], 2))
            self.assertEqual((count.result(), stats.result()), (1, (3, 4, 4)))
            self.assertEqual(explained.result(), '"fox"\nfound D Wfox\n  x1 <= x0')
            self.assertEqual((len(list(dumped.each())), dumped.result()), (3, 3))
            cursor = opened.result()
            first, rest = cursor.send_page(2), cursor.send_page(2)
            self.assertEqual((first.result(), rest.result()), (([(1, "a"), (2, "b")], True), ([(3, "c")], False)))
            closed = [cursor.send_close(), cursor.send_close()]
            self.assertIsNone(closed[0].result())
            with self.assertRaises(buncocedar.NoSuchCursor):
                closed[1].result()
            for send in (index.send_search, index.send_count, index.send_open, index.send_explain, lambda query: index.send_top(query, 1)):
                with self.assertRaises(buncocedar.QueryFault):
                    send("fault 8 Paren )").result()

    def test_a_query_goes_at_once(self):
        # Several indexes work at the same time: what is asked of one does not wait until another one has answered.
        other = os.path.join(self.folder.name, "other.alta")
        with self.fake(silent=1, mark=self.mark) as index, Index(other, create=True, program=FAKE) as second:
            sent = [index.send_count("x"), second.send_count("x")]
            until(lambda: os.path.exists(self.mark))
            self.assertEqual((sent[1].wait(PATIENCE), sent[0].wait(0)), (True, False))
            index.kill()

    def test_a_program_that_does_not_answer(self):
        index = self.fake(silent=2)
        first, second = index.send_add("a", "", ""), index.send_add("b", "", "")
        self.assertTrue(first.wait(PATIENCE))
        begun = time.monotonic()
        self.assertFalse(second.wait(0.2))
        self.assertFalse(index.settle(0.2))
        self.assertEqual((index.under_way(), index.ended), (1, None))
        killed = self.assertRaisesRegex(buncocedar.Ended, "x.alta: gave no answer in 0.2 seconds, and was killed")
        with unittest.mock.patch.object(exchange, "SECONDS_TO_END", PATIENCE), killed as raised:
            index.close(0.2)
        # Three waits of a fifth of a second: far from the seconds that a program has to end.
        self.assertLess(time.monotonic() - begun, PATIENCE / 2)
        self.assertEqual(raised.exception.status, -signal.SIGKILL)
        self.assertEqual((first.result(), second.answered, second.settled), (1, False, True))
        self.assertIsInstance(index.ended, buncocedar.Ended)
        index.close(0.2)
        with self.fake() as index:
            self.assertEqual(index.stats().documents, 1)

    def test_a_program_that_is_stopped(self):
        index = self.fake()
        process = index._exchange.link.process
        process.send_signal(signal.SIGSTOP)
        reply = index.send_count("x")
        self.assertFalse(reply.wait(0.1))
        process.send_signal(signal.SIGCONT)
        self.assertTrue(reply.wait(PATIENCE))
        process.send_signal(signal.SIGSTOP)
        with self.assertRaises(buncocedar.Ended):
            index.close(0.1)
        self.assertEqual(process.returncode, -signal.SIGKILL)

    def test_a_program_that_does_not_end(self):
        # It has answered all, and reads no end of its input.
        index = self.fake()
        process = index._exchange.link.process
        process.send_signal(signal.SIGSTOP)
        with self.assertRaisesRegex(buncocedar.Ended, "gave no answer in 0.1 seconds"):
            index.close(0.1)
        self.assertEqual(process.returncode, -signal.SIGKILL)

    def test_waits_that_end_in_time(self):
        index = self.fake()
        index.send_add("a", "", "")
        self.assertTrue(index.settle(PATIENCE))
        index.close(PATIENCE)
        self.assertIsInstance(index.ended, buncocedar.Closed)

    def test_an_end(self):
        index = self.fake(end=[1, 8])
        self.assertIsNone(index.ended)
        reply = index.send_add("a", "", "")
        self.assertTrue(reply.wait(PATIENCE))
        self.assertIsInstance(index.ended, buncocedar.Full)
        # Whoever has looked at it has been told.
        index.close()

    def test_some_rows(self):
        with self.fake(say=[1, "1 a\n2 b\n3 c\nfound 3"], slow=True) as index:
            reply = index.send_search("x")
            reply.wait(PATIENCE, rows=2)
            self.assertGreaterEqual(len(reply.rows), 2)
            self.assertTrue(reply.wait(PATIENCE, rows=4))
            self.assertEqual(len(list(reply.each())), 3)

    def test_changes_go_together(self):
        with self.fake() as index, unittest.mock.patch.object(os, "write", side_effect=os.write) as write:
            self.assertEqual(len(list(index.add_all((f"n{i}", "", "x") for i in range(3200)))), 3200)
            # Half of 64 lines at a time, as soon as 64 are under way.
            self.assertLessEqual(write.call_count, 110)
            write.reset_mock()
            # Lines of many bytes do not wait for others.
            replies = [index.send_add(f"m{i}", "", "x" * 40_000) for i in range(3)]
            self.assertGreaterEqual(write.call_count, 2)
            index.settle()
            write.reset_mock()
            # A program that has nothing to do gets a line at once.
            replies = [index.send_add("o", "", "x")]
            self.assertEqual(write.call_count, 1)
            replies += [index.send_add("p", "", "x"), index.send_add("q", "", "x")]
            self.assertEqual(write.call_count, 1)
            self.assertEqual([reply.result() for reply in replies], [3204, 3205, 3206])
            self.assertEqual(write.call_count, 2)

    def test_what_was_sent_by_an_index_that_is_dropped(self):
        with self.assertWarns(ResourceWarning):
            index = self.fake()
            for number in range(40):
                index.send_add(f"n{number}", "", "")
            del index
            gc.collect()
        with self.fake() as index:
            self.assertEqual(index.stats().documents, 40)


class Opening(Case):
    """One client opens an index at a time, and each index by itself."""

    def setUp(self):
        super().setUp()
        self.go = os.path.join(self.folder.name, "go")
        self.slow = os.path.join(self.folder.name, "slow")
        # A program that has started and has not locked its index yet.
        with open(self.slow, "w") as file:
            file.write(f'#!/bin/sh\n: >{self.mark}\nuntil [ -e {self.go} ]; do sleep 0.05; done\nexec {FAKE} "$@"\n')
        os.chmod(self.slow, 0o755)

    def test_each_index_by_itself(self):
        # The lock is that of a file beside the index; that of the folder where no such file can be made, as for so long a name.
        for name, is_beside in [("a.alta", True), ("a" * 250 + ".alta", False)]:
            path, other = os.path.join(self.folder.name, name), os.path.join(self.folder.name, "other.alta")
            for place in (path, other):
                Index(place, create=True, program=FAKE).close()
            before = set(os.listdir(self.folder.name)) | {"mark", "go"}
            opened = []
            thread = threading.Thread(target=lambda: opened.append(Index(path, program=self.slow, patience=0)))
            thread.start()
            until(lambda: os.path.exists(self.mark))
            with self.assertRaises(buncocedar.InUse):
                Index(path, program=FAKE, patience=0)
            if is_beside:
                with Index(other, program=FAKE, patience=0) as index:
                    self.assertEqual(index.stats().documents, 0)
            open(self.go, "w").close()
            thread.join()
            self.assertEqual(set(os.listdir(self.folder.name)), before)
            opened[0].close()
            os.remove(self.go)
            os.remove(self.mark)

    def test_what_stands_at_the_place_of_its_lock(self):
        # What a killed client has left is taken away; what it has not made stays, and hinders nobody.
        self.fake().close()
        place = os.path.join(self.folder.name, f".x.alta{holders.TURN}")
        for put, stays in [
            (lambda: open(place, "w").close(), False),
            (lambda: pathlib.Path(place).write_text("notes"), True),
            (lambda: os.symlink("none", place), True),
            (lambda: os.mkfifo(place), True),
            (lambda: os.mkdir(place), True),
        ]:
            put()
            with Index(self.path, program=FAKE, patience=0) as index:
                self.assertEqual((index.stats().documents, os.path.lexists(place)), (0, stays))
            with contextlib.suppress(FileNotFoundError):
                os.rmdir(place) if os.path.isdir(place) else os.remove(place)


class Waiting(Case):
    def test_who_is_waited_for(self):
        told = []
        with self.fake():
            with self.assertRaises(buncocedar.InUse) as raised:
                Index(self.path, program=FAKE, patience=1, on_wait=told.append)
            self.assertEqual(len(told), 1)
            for text in (told[0], str(raised.exception)):
                self.assertIn(f"{self.path} is open in ", text)
                if os.path.exists("/proc/locks"):
                    self.assertRegex(text, r"process [0-9]+ \(.*fake.*\) since [0-9]{4}-[0-9-]+ [0-9:]+, started by process")
                    self.assertIn(f"process {os.getpid()} (", text)
            # A wait that is no longer than a moment is not told.
            with self.assertRaises(buncocedar.InUse):
                Index(self.path, program=FAKE, patience=0.1, on_wait=told.append)
            self.assertEqual(len(told), 1)
        self.assertIsNone(buncocedar.holder(self.path))
        self.assertIsNone(buncocedar.holder(os.path.join(self.folder.name, "none")))

    def test_scripts_tell_it(self):
        with self.fake():
            for script, words in [("find", ["x"]), ("folder", [self.folder.name]), ("shell", [])]:
                done = subprocess.run(
                    [sys.executable, BUNCO, script, self.path, *words, "--wait", "0.8"],
                    env={**os.environ, "BUNCOCEDAR_PROGRAM": FAKE},
                    stdin=subprocess.DEVNULL,
                    capture_output=True,
                    text=True,
                    timeout=PATIENCE,
                )
                self.assertEqual(done.returncode, 3, done.stderr)
                self.assertEqual(done.stderr.count(f"{self.path} is open in "), 2, done.stderr)
                self.assertEqual(done.stderr.count(", and is waited for\n"), 1, done.stderr)

    def test_a_wait_that_ends_well(self):
        index = self.fake()
        index.add("a", "", "")
        with Index(self.path, program=FAKE, patience=PATIENCE, on_wait=lambda text: index.close()) as other:
            self.assertEqual(other.stats().documents, 1)


class RealProgram(Case):
    """What the program itself answers, as far as it is built."""

    def setUp(self):
        if PROGRAM is None:
            self.skipTest("no program")
        super().setUp()

    def index(self):
        return Index(self.path, create=True, program=PROGRAM)

    def test_documents_and_queries(self):
        with self.index() as index:
            self.assertEqual(index.add("a", "Red Fox", "the quick red fox"), 1)
            self.assertEqual(index.add("b", "Fox", "quick\nbrown\tdog"), 2)
            self.assertEqual(index.add("s", "", "Stra\u00dfe \0 \udcff"), 3)
            for query, rows in [
                ("fox", [(1, "a"), (2, "b")]),
                ('"red fox" NOT brown', [(1, "a")]),
                ("qui* OR dog", [(1, "a"), (2, "b")]),
                ("strasse", [(3, "s")]),
                ("quick NEAR/1 brown", [(2, "b")]),
                ("name:b", [(2, "b")]),
                ("NOT name:! OR name:!", [(1, "a"), (2, "b"), (3, "s")]),
                ("zebra", []),
            ]:
                self.assertEqual(list(index.search(query)), rows)
                self.assertEqual(index.count(query), len(rows))
            self.assertEqual(index.explain("red AND\nfox").split("\n")[:2], ['"red" "fox"', "found D Wred Wfox"])
            self.assertEqual(index.delete("a"), 1)
            with self.assertRaises(buncocedar.NoSuchDocument):
                index.delete("a")
            self.assertEqual(index.stats(), (2, 5, 4))
            again = index.add("b", "", "blue")
            self.assertEqual((again, again.replaced), (4, 2))
            self.assertEqual((index.count("dog"), list(index.search("blue"))), (0, [(4, "b")]))
            self.assertEqual(index.stats(), (2, 2, 5))
        with self.index() as index:
            self.assertEqual(index.stats(), (2, 2, 5))

    def test_faults_of_queries(self):
        with self.index() as index:
            for query, place, cause, column in [
                ("", 0, "Empty", 0),
                ("fox !!", 4, "Word", 4),
                ("q*", 0, "Prefix", 0),
                ("red NEAR/0 fox", 4, "Near", 4),
                ("name:", 0, "Name", 0),
                ("fox value:5..4", 4, "Value", 4),
                ('red "fox', 4, "Quote", 4),
                ("(fox", 4, "Paren", 4),
                ("fox OR", 6, "Operand", 6),
                ("NOT " * 33 + "a", 128, "Deep", 60),
                ("a " * 65, 128, "Many", 60),
                ("\u65e5\u672c\u8a9e stra\u00dfe )", 18, "Paren", 14),
            ]:
                for call in (index.search, index.count, index.explain):
                    with self.assertRaises(buncocedar.QueryFault) as raised:
                        call(query)
                    fault = raised.exception
                    self.assertEqual((fault.place, fault.cause), (place, cause), query)
                    self.assertEqual(str(fault).split("\n")[2], " " * (column + 2) + "^", query)

    def test_limits(self):
        with self.index() as index:
            body = "x " * 140_000
            with self.assertRaises(buncocedar.LineTooLong):
                index.add("a", "", body)
            self.assertEqual(index.add("a", "", body, cut=True).dropped, 280_000 - 262_135)
            self.assertEqual(index.count("x"), 1)

    def test_pipelined(self):
        with self.index() as index:
            outcomes = [outcome for _, outcome in index.add_all((f"n{i}", "", "x") for i in range(2000))]
            self.assertEqual(outcomes, list(range(1, 2001)))
            self.assertEqual(len(list(index.search("x"))), 2000)

    def test_ends(self):
        with self.assertRaises(buncocedar.NoIndex):
            Index(self.path, program=PROGRAM)
        self.index().close()
        with open(self.path, "r+b") as file:
            file.seek(8192)
            file.write(b"\xa5\xff\xff\xff\xff")
        with self.assertRaises(buncocedar.Damaged) as raised:
            self.index()
        self.assertEqual(raised.exception.place, 8193)
        with self.assertRaisesRegex(buncocedar.DiskFault, "is a folder"):
            Index(self.folder.name, program=PROGRAM)
        with self.assertRaisesRegex(buncocedar.DiskFault, "/dev/null is no plain file"):
            Index("/dev/null", program=PROGRAM)

    def test_a_limit_on_files(self):
        # The program answers the fault, and no signal ends it; what was answered is stored.
        with self.index() as index:
            index.add("a", "", "x")
        limits = resource.getrlimit(resource.RLIMIT_FSIZE)
        try:
            resource.setrlimit(resource.RLIMIT_FSIZE, (2_105_344, limits[1]))
            with self.assertRaisesRegex(buncocedar.DiskFault, r"2,105,344 bytes at most here \(ulimit -f\); what was answered"):
                with self.index() as index:
                    index.add("b", "", "x")
                    index.flush()
            resource.setrlimit(resource.RLIMIT_FSIZE, (100_000, limits[1]))
            with self.assertRaisesRegex(buncocedar.DiskFault, r"100,000 bytes at most here \(ulimit -f\)"):
                Index(self.path + ".new", create=True, program=PROGRAM)
        finally:
            resource.setrlimit(resource.RLIMIT_FSIZE, limits)
        self.assertFalse(os.path.exists(self.path + ".new"))
        with self.index() as index:
            self.assertEqual(index.stats().documents, 2)

    def test_no_text_is_a_command(self):
        # Whatever a caller hands on, from a form as it may be, stays an argument of its call.
        with self.index() as index:
            index.add("victim", "", "x")
            cursor = index.cursor("x")
            texts = ["1\ndelete victim", "1\r\ndelete victim", "1\tdelete victim", "\ndelete victim\n", "delete victim", "1"]
            for text in texts:
                for call in (cursor.page, index.step, lambda text: list(cursor.pages(text))):
                    with self.assertRaises(TypeError):
                        call(text)
                for call in (index.search, index.count, index.explain, index.cursor):
                    with contextlib.suppress(buncocedar.Refused):
                        call(text)
                with contextlib.suppress(buncocedar.Refused):
                    index.add(text, "", "")
                index.add(f"new{texts.index(text)}", text, text)
                with self.assertRaises(buncocedar.Refused):
                    index.delete(text + "\n")
                stray = buncocedar.Cursor(index, text)
                for call in (lambda: stray.page(1), stray.close):
                    with contextlib.suppress(buncocedar.Refused):
                        call()
                self.assertEqual(index.count("name:victim"), 1)
                self.assertEqual(cursor.number, 1)
            self.assertEqual(index.stats().documents, 8)
        with self.index() as index:
            self.assertEqual(index.count("name:victim"), 1)

    def test_numbers_that_are_none(self):
        with self.index() as index:
            index.add("a", "", "x")
            cursor = index.cursor("x")
            for number in (0, -1, 1_000_001, 10**30):
                for call in (cursor.page, index.step):
                    with self.assertRaises(buncocedar.BadLine):
                        call(number)
            self.assertEqual(cursor.page(True), ([(1, "a")], False))

    def test_an_index_that_is_dropped(self):
        with self.assertWarns(ResourceWarning):
            self.index().add("a", "", "")
            gc.collect()
        with self.index() as index:
            self.assertEqual(index.stats().documents, 1)

    def test_threads(self):
        # Each call of four threads answers right or says that it is one too many, and the index goes on.
        with self.index() as index:
            index.add("a", "", "x")
            seen = []

            def count():
                for _ in range(100):
                    try:
                        seen.append(index.count("x"))
                    except RuntimeError:
                        seen.append(RuntimeError)

            threads = [threading.Thread(target=count) for _ in range(4)]
            for thread in threads:
                thread.start()
            for thread in threads:
                thread.join()
            self.assertEqual(len(seen), 400)
            self.assertLessEqual(set(seen), {1, RuntimeError})
            self.assertEqual(index.stats().documents, 1)

    def test_many_levels(self):
        # An index has sixteen levels at most, and each flush makes one or joins two.
        with self.index() as index:
            for i in range(20):
                index.add(f"n{i}", "", "x")
                index.flush()
            self.assertEqual(index.count("x"), 20)
        with self.index() as index:
            index.delete("n3")
            index.merge()
            self.assertEqual(index.stats().documents, 19)

    def test_more_than_a_journal(self):
        with self.index() as index:
            outcomes = [outcome for name, outcome in index.add_all((f"n{i}", "", "x" * 50_000) for i in range(50))]
            self.assertEqual(outcomes, list(range(1, 51)))
        with self.index() as index:
            self.assertEqual(index.stats().documents, 50)

    def test_upkeep(self):
        with self.index() as index:
            for name in "ab":
                index.add(name, "", "quick")
            self.assertIsNone(index.flush())
            self.assertIsNone(index.step(1))
            self.assertIsNone(index.merge())
            self.assertEqual(list(index.search("quick")), [(1, "a"), (2, "b")])

    def test_cursors(self):
        with self.index() as index:
            for name in "ab":
                index.add(name, "", "quick")
            cursor = index.cursor("quick")
            index.delete("a")
            self.assertEqual(cursor.page(1), ([(1, "a")], True))
            self.assertEqual(cursor.page(5), ([(2, "b")], False))
            self.assertEqual(cursor.page(5), ([], False))
            cursor.close()
            with self.assertRaises(buncocedar.NoSuchCursor):
                cursor.page(1)
            cursors = [index.cursor("quick") for _ in range(64)]
            with self.assertRaises(buncocedar.TooManyCursors):
                index.cursor("quick")
            self.assertEqual([cursor.number for cursor in cursors], list(range(1, 65)))

    def test_killed(self):
        index = self.index()
        replies = [index.send_add(f"n{i}", "", "x") for i in range(60)]
        replies[20].result()
        index.kill()
        answered = sum(reply.answered for reply in replies)
        self.assertGreaterEqual(answered, 21)
        with self.index() as index:
            rows = list(index.search("x"))
            # Each line is answered before the next is looked at, so at most one is done without an answer.
            self.assertIn(len(rows), (answered, answered + 1))
            self.assertEqual(rows, [(i + 1, f"n{i}") for i in range(len(rows))])


def take_program(path):
    global PROGRAM
    PROGRAM = path


if __name__ == "__main__":
    run_tests("client", take_program)
