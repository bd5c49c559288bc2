#!/usr/bin/env python3
"""Tests of `bunco find`: what it answers, what it says beside, and how it ends.

usage: tests/finding.py [--program PATH]

Without --program the tests of the real program are left out, and that is said.
"""

import argparse
import contextlib
import io
import json
import os
import pty
import random
import signal
import sqlite3
import subprocess
import sys
import tempfile
import time
import unittest
from unittest import mock

# It lets the others find the client of the checkout.
from support import BUNCO, PATIENCE, run_tests, until  # isort: skip

import buncocedar
import fake
from buncocedar import Index, InUse
from buncocedar.imports.stampfile import has_none_in_parts, stamps_path
from buncocedar.imports.stamps import Stamp, Stamps, part_name
from buncocedar.tools import dump, find, hints, reading, shell, status
from buncocedar.tools.documents import Places
from buncocedar.tools.rows import whole_documents
from buncocedar.web.questions import Questions

FAKE = fake.installed()
PROGRAM = None


def read(path):
    with open(path, "rb") as file:
        return file.read()


class Case(unittest.TestCase):
    program = FAKE

    def setUp(self):
        folder = tempfile.TemporaryDirectory()
        self.addCleanup(folder.cleanup)
        self.folder = folder.name
        self.path = self.at("x.alta")

    def at(self, name):
        return os.path.join(self.folder, name)

    def write(self, name, content):
        path = self.at(name)
        os.makedirs(os.path.dirname(path), exist_ok=True)
        with open(path, "wb") as file:
            file.write(content if isinstance(content, bytes) else content.encode())
        return path

    def start(self, command, *words, variables=None, **options):
        environment = {**os.environ, "BUNCOCEDAR_PROGRAM": self.program, "BUNCOCEDAR_INDEX": "", **(variables or {})}
        options = {"stdin": subprocess.DEVNULL, "stdout": subprocess.PIPE, "stderr": subprocess.PIPE, **options}
        return subprocess.Popen([sys.executable, "-S", BUNCO, command, *words], env=environment, text=True, **options)

    def run_bunco(self, command, *words, expect=0, **options):
        """What a command prints, where it ends with this status; what it says beside is in `said`."""
        process = self.start(command, *words, **options)
        out, self.said = process.communicate(timeout=PATIENCE)
        self.assertEqual(process.returncode, expect, self.said)
        return out

    def find(self, *words, **options):
        return self.run_bunco("find", self.path, *words, **options)

    def index(self):
        return Index(self.path, create=True, program=self.program, patience=PATIENCE)


class Ends(Case):
    def setUp(self):
        super().setUp()
        with self.index() as index:
            index.add("a", "", "red fox")

    def test_an_interrupt_at_any_moment(self):
        chance = random.Random(1)
        for _ in range(6):
            process = self.start("find", self.path, "fox")
            time.sleep(chance.uniform(0, 0.6))
            process.send_signal(signal.SIGINT)
            said = process.communicate(timeout=PATIENCE)[1]
            # Before the script begins the interrupt is Python's own.
            self.assertNotIn(os.path.join("client", "buncocedar"), said)
            self.assertIn(process.returncode, (0, 130, -signal.SIGINT, 1), said)

    def test_an_interrupt_while_the_words_are_read(self):
        # Here argparse fails as it clears up, and hides the interrupt behind an error of its own.
        with mock.patch.object(argparse.ArgumentParser, "format_usage", side_effect=KeyboardInterrupt):
            with self.assertRaises(KeyboardInterrupt):
                find.parsed(find.parser(), [self.path, "fox"])

    def test_outputs_that_are_closed(self):
        for words in (["find", self.path, "fox"], ["shell", self.path], ["dump", self.path], ["--help"]):
            for closed, why in ((">&-", "Bad file descriptor"), (">/dev/full", "No space left on device")):
                command = [sys.executable, BUNCO, *words]
                done = subprocess.run(
                    ["sh", "-c", f'"$@" {closed}', "sh", *command],
                    env={**os.environ, "BUNCOCEDAR_PROGRAM": self.program},
                    input="stats\n",
                    capture_output=True,
                    text=True,
                    timeout=PATIENCE,
                )
                self.assertEqual((done.returncode, done.stderr.count(why)), (3, 1), (words, done.stderr))
                self.assertNotIn("Traceback", done.stderr)

    def test_huge_limits(self):
        for words in (["--limit", "9" * 30], ["--oldest", "--limit", "9" * 30]):
            self.assertIn("found 1\n", self.find("fox", *words))

    def test_numbers_that_are_none(self):
        for words, said in ((["--limit", "x"], "x is no number"), (["--top", "0"], "0 is none of 1 to 1,000"), (["--top", "9" * 5_000], "none of 1 to 1,000")):
            self.find("fox", *words, expect=2)
            self.assertIn(said, self.said)


class Parts(Case):
    def test_what_stands_between_two_parts(self):
        stamps = Stamps(stamps_path(self.path))
        with self.index() as index:
            numbers = []
            for part in (1, 2, 3):
                numbers.append(index.add(part_name("long", part), "", "fox"))
                index.add(f"other{part}", "", "fox")
            stamps.put({"long": Stamp(tuple(map(int, numbers)), "0" * 32, "0" * 8)})
        stamps.close()
        self.assertEqual(self.find("fox"), "6 other3\n4 other2\n2 other1\n1 long\nfound 4\n")
        self.assertEqual(self.find("fox", "--count"), "4\n")
        self.assertEqual(self.find("fox", "--limit", "3", "--oldest"), "1 long\n2 other1\n4 other2\n... and 1 more\nfound 4\n")

    def test_where_none_is_in_parts(self):
        """The first bytes of the stamps say so, until anybody changes them."""
        path = stamps_path(self.path)
        self.assertFalse(Places(self.path).has_parts())

        def put(name, *numbers):
            stamps = Stamps(path)
            stamps.put({name: Stamp(numbers, "0" * 32, "0" * 8)})
            return stamps

        def known():
            places = Places(self.path)
            return places.has_parts(), places.read is None

        put("a", 1).close()
        self.assertEqual(known(), (False, True))
        killed = put("b", 2, 3)
        killed.flush()
        self.assertEqual(known(), (True, False))
        killed.close()
        self.assertEqual(known(), (True, False))
        for number in (4, 5):
            put("b", number).close()
            self.assertEqual(known(), (False, True))
        # As by an older version, which notes nothing, and by a copy, which counts its changes anew.
        with contextlib.closing(sqlite3.connect(path)) as base:
            base.execute("UPDATE stamps SET numbers = '6,7' WHERE name = 'a'")
            base.commit()
        self.assertEqual(known(), (True, False))
        put("a", 8).close()
        copied = Places(self.at("copy"))
        Places(self.path).records().copy(copied.path)
        self.assertFalse(has_none_in_parts(copied.path))
        self.assertFalse(copied.has_parts())

    def test_no_row_asks_the_stamps(self):
        """Which documents are stored in parts is asked once, and not again for each row of an answer."""
        stamps = Stamps(stamps_path(self.path))
        stamps.put({"a" * 60: Stamp((1, 2), "0" * 32, "0" * 8), **{f"n{number}": Stamp((number,), "0" * 32, "0" * 8) for number in range(3, 1_000)}})
        stamps.close()
        places, asked = Places(self.path), []
        places.records().base.set_trace_callback(asked.append)
        rows = [(1, "a" * 60), *((number, f"n{number}") for number in range(3, 1_000)), (1_000, part_name("a" * 60, 2))]
        self.assertEqual(sum(1 for _ in whole_documents(rows, places)), 998)
        self.assertLess(len(asked), 3)


class Hints(Case):
    def test_operators_of_other_programs(self):
        for query, hint in [
            ("fox or dog", "or is a word here; OR is the operator"),
            ("fox and not dog", "not is a word here; NOT is the operator"),
            ("not fox", "not is a word here; NOT is the operator"),
            ("fox -dog", "-dog is the word dog here; NOT dog leaves it out"),
            ("+fox dog", "+fox is the word fox here"),
            ("fox && dog", "&& is no operator here; AND is"),
            ("!fox", "!fox is the word fox here; NOT fox leaves it out"),
            ("red NEAR fox", "NEAR is a word here; NEAR/10 is the operator"),
            ("f*x", "* goes at the end of a word alone; f*x is words here"),
        ]:
            self.assertIn(hint, "\n".join(hints.operator_hints(query)))
        for query in ("fox OR dog", "or", "this or", '"fox or dog"', "e-mail", "a NEAR/3 b", '"-dog"', "- dog", "fo*", '"f*x"'):
            self.assertEqual(list(hints.operator_hints(query)), [])

    def test_fields_of_other_programs(self):
        nothing, asked = (lambda query: 0), []
        said = list(hints.field_hints('from:ann subject:x title:y name:z value:1..2 "to:bob" from:cid', nothing))
        self.assertEqual(len(said), 2)
        self.assertEqual(said[0], "no document has the word from:ann, as imports of mail make them")
        self.assertIn("subject: is no field of a query; here it is title:", said[1])
        self.assertEqual(list(hints.field_hints("From:ann", nothing)), ["no document has the word From:ann; the field is from:, in small letters"])
        self.assertIn("the field is title:", "".join(hints.field_hints("Title:ann", nothing)))
        self.assertEqual(list(hints.field_hints("from:ann to:b* id:b@x", lambda query: asked.append(query) or 3)), [])
        self.assertEqual(asked, ["from:ann", "to:b*"])

    def test_fields_before_a_quote(self):
        said = 'from: before " is the word from alone here; "from ann lee" may be what is meant'
        self.assertEqual(list(hints.parted_hints('fox from:"ann lee"')), [said])
        self.assertIn("( to:a OR to:b ) may", "\n".join(hints.parted_hints("to:(ann OR bob)")))
        for query in ('title:"red fox"', 'from: "ann"', 'from:ann "lee"', '"from:"', "from:ann"):
            self.assertEqual(list(hints.parted_hints(query)), [])

    def test_one_spelling(self):
        counts = {'"gcc"': 5, '"GCC"': 2, '"OK"': 1, '"ok"': 1}
        said = list(hints.spelling_hints('GCC AND "OK" OR gcc', counts.__getitem__))
        self.assertEqual(said, ["GCC finds only this spelling; gcc finds each one, in 5 documents"])

    def test_they_are_said_beside(self):
        with self.index() as index:
            index.add("a", "", "fox or dog")
        self.assertEqual(self.find("fox", "or", "dog"), "1 a\nfound 1\n")
        self.assertEqual(self.said, "find: or is a word here; OR is the operator\n")


MAIL = "".join(
    f"From a Mon Jan  1 00:00:00 2024\nMessage-ID: <{name}@x>\nFrom: {writer} <{name}@x>\n{date}Subject: The {name}\n\nquick {name}\n\n"
    for name, writer, date in [
        ("spring", "Ann Lee", "Date: 1 Mar 2024 10:00:00 +0000\n"),
        ("old", "Cy", "Date: 1 Jan 1999 10:00:00 +0000\n"),
        ("none", "Bob", ""),
        ("middle", "Cy", "Date: 1 Jun 2010 10:00:00 +0000\nReferences: <old@x>\n"),
    ]
)


class Orders(Case):
    def setUp(self):
        super().setUp()
        self.run_bunco("mail", self.path, self.write("a.mbox", MAIL))

    def names(self, *words):
        return [name.partition("@")[0] for name in self.find(*words, "--names").split()]

    def test_by_date(self):
        self.assertEqual(self.names("quick"), ["middle", "none", "old", "spring"])
        self.assertEqual(self.names("quick", "--by-date"), ["spring", "middle", "old", "none"])
        self.assertEqual(self.names("quick", "--by-date", "--oldest"), ["old", "middle", "spring", "none"])
        self.assertEqual(self.names("quick", "--by-date", "--limit", "2"), ["spring", "middle"])
        self.assertIn("... and 3 more\nfound 4\n", self.find("quick", "--by-date", "--limit", "1"))
        # The stamps have the dates, so no message is read; those of an older version had none.
        os.rename(self.at("a.mbox"), self.at("b.mbox"))
        self.assertEqual(self.names("quick", "--by-date"), ["spring", "middle", "old", "none"])
        with contextlib.closing(sqlite3.connect(stamps_path(self.path))) as base:
            base.execute("ALTER TABLE stamps DROP COLUMN moment")
        self.assertEqual(self.names("quick", "--by-date"), self.names("quick"))
        os.rename(self.at("b.mbox"), self.at("a.mbox"))
        self.assertEqual(self.names("quick", "--by-date"), ["spring", "middle", "old", "none"])
        self.write("a.mbox", MAIL.replace("Ann", "Zoe"))
        self.run_bunco("mail", self.path, self.at("a.mbox"))
        self.assertEqual(self.names("quick", "--by-date", "--limit", "1"), ["spring"])

    def test_the_newest_of_one_score_first(self):
        self.assertEqual(self.names("quick", "--top", "2"), ["middle", "none"])

    def test_threads(self):
        self.assertEqual(self.names("old", "--thread"), ["old", "middle"])
        self.assertEqual(self.names("quick", "--thread"), ["old", "middle", "none", "spring"])
        self.assertEqual(self.names("quick", "--thread", "--limit", "1"), ["old", "middle"])

    def test_rows_for_readers(self):
        rows = self.find("quick", "--about").split("\n")
        self.assertEqual(rows[3], f"1 2024-03-01  {'Ann Lee':20}  The spring")
        self.assertEqual(rows[1], f"3 {'':10}  {'Bob':20}  The none")
        self.assertEqual(self.find("spring", "--no-about"), "1 spring@x\nfound 1\n")

    def test_all_that_is_known(self):
        known = json.loads(self.find("spring", "--json"))
        wanted = {"name": "spring@x", "kind": "mail", "title": "The spring", "from": ["Ann Lee <spring@x>"], "date": "2024-03-01"}
        self.assertEqual({key: known[key] for key in wanted}, wanted)
        self.assertEqual(known["path"], os.path.realpath(self.at("a.mbox")))

    def test_lines_of_files(self):
        self.write("notes/a.txt", "a Quick fox\nnothing\nquick\n")
        self.run_bunco("folder", self.path, self.at("notes"))
        path = os.path.realpath(self.at("notes/a.txt"))
        self.assertEqual(self.find("quick", "--grep", "--limit", "2"), f"{path}:1:a Quick fox\n{path}:3:quick\n")
        self.assertIn("middle@x: it is no file of its own", self.said)
        self.find("quick", "--grep")
        self.assertEqual(self.said.count("it is no file of its own"), 1)


class NobodyWaits(Case):
    def setUp(self):
        super().setUp()
        with self.index() as index:
            index.add("a", "", "red fox")

    def test_for_who_reads_in_a_pager(self):
        ours, theirs = pty.openpty()
        pager = self.write("pager", f"#!/bin/sh\ntouch {self.at('mark')}\nwhile [ ! -e {self.at('go')} ]; do sleep 0.1; done\ncat\n")
        os.chmod(pager, 0o755)
        process = self.start("find", self.path, "fox", "--color", "never", variables={"PAGER": pager}, stdout=theirs)
        os.close(theirs)
        until(lambda: os.path.exists(self.at("mark")))
        with self.index() as index:
            index.add("b", "", "fox")
        self.write("go", "")
        shown = shown_until(ours, "found 1")
        process.communicate(timeout=PATIENCE)
        self.assertIn("1 a\r\n", shown)

    def test_for_who_thinks_at_a_prompt(self):
        ours, theirs = pty.openpty()
        variables = {"BUNCOCEDAR_HISTORY": "", "TERM": "dumb"}
        process = self.start("find", self.path, "--color", "never", variables=variables, stdin=theirs, stdout=theirs)
        os.close(theirs)
        shown = ""
        for line, row, answer in ((b"fox\n", "1 a 1", "found 1"), (b"top 1 fox\n", "2 b 1\r\n... and 1 more", "found 2")):
            while "find> " not in shown:
                shown += os.read(ours, 4096).decode()
            with self.index() as index:
                self.assertEqual(index.stats().documents, index.count("fox"))
            os.write(ours, line)
            shown = shown_until(ours, answer)
            self.assertIn(row, shown)
            shown = shown.rpartition(answer)[2]
            with self.index() as index:
                index.add("b", "", "fox")
        os.write(ours, b"quit\n")
        process.communicate(timeout=PATIENCE)
        os.close(ours)


def shown_until(terminal, text):
    """What a terminal shows up to this text."""
    shown = ""
    while text not in shown:
        shown += os.read(terminal, 4096).decode()
    return shown


class Words(Case):
    def test_the_index_that_a_variable_names(self):
        with self.index() as index:
            index.add("a", "", "red fox")
        usual = {"BUNCOCEDAR_INDEX": self.path}
        self.assertEqual(self.run_bunco("find", "red", "fox", "--names", variables=usual), "a\n")
        self.assertEqual(self.run_bunco("find", self.path, "fox", "--names", variables=usual), "a\n")
        self.run_bunco("find", "red", "fox", expect=3)
        self.run_bunco("find", expect=2)
        self.assertIn("BUNCOCEDAR_INDEX", self.said)


class Typed(unittest.TestCase):
    texts = (
        'he said "hello',
        "fox OR -dog NOT (",
        "name:x title:",
        "caf\u00e9 STRASSE stra\u00dfe",
        "red-fox obj.method",
        "\u65e5\u672c\u8a9e",
        " ".join(f"w{number}" for number in range(100)),
        "x" * 200 + " fox",
        "fox * ??? \U0001f98a",
        "a\tb\nc\u2028d",
        "\u0e01" * 70 + " fox",
    )

    def test_words(self):
        self.assertEqual(buncocedar.words("Red-Fox OR -dog"), '"red-fox" "or" "-dog"')
        self.assertEqual(buncocedar.phrase(' he said "Hello'), '"he said hello"')
        for text in ("", "???", "*", "\U0001f98a", '"', "x" * 129):
            for call in (buncocedar.words, buncocedar.phrase):
                self.assertRaises(ValueError, call, text)
        with self.assertRaises(TypeError):
            buncocedar.words(b"fox")

    def test_what_people_type_is_no_fault(self):
        if PROGRAM is None:
            self.skipTest("no program")
        with tempfile.TemporaryDirectory() as folder, Index(os.path.join(folder, "x.alta"), True, PROGRAM) as index:
            for number, text in enumerate(self.texts):
                index.add(f"n{number}", "", text)
                for call in (buncocedar.words, buncocedar.phrase):
                    self.assertIn((number + 1, f"n{number}"), list(index.search(call(text))), (call, text))


class RealProgram(Case):
    def setUp(self):
        if PROGRAM is None:
            self.skipTest("no program")
        self.program = PROGRAM
        super().setUp()

    def test_a_file_that_may_not_be_written(self):
        with self.index() as index:
            index.add("a", "", "red fox")
            index.flush()
            index.add("b", "", "brown fox")
        before, said = read(self.path), []
        with mock.patch.object(reading, "is_for_reading_only", lambda path: True):
            with reading.Readable(self.path, 0, said.append) as source, mock.patch.dict(os.environ, BUNCOCEDAR_PROGRAM=PROGRAM):
                with source.opened() as index, self.index():
                    self.assertEqual(list(index.search("fox")), [(1, "a"), (2, "b")])
                # Where somebody has it open, it can't be copied as it stands.
                with self.index(), self.assertRaises(InUse):
                    reading.Readable(self.path, 0, said.append).__enter__()
        self.assertEqual(read(self.path), before)
        self.assertIn("may not be written: a private copy of it is read", said[0])

    def test_commands_that_read_a_file_that_may_not_be_written(self):
        with self.index() as index:
            index.add("a", "Fox", "red fox")
        before = read(self.path)
        for command, lines, ends, shown, said in (
            (dump, "", 0, "add a\tfox\tred fox\n", "is read"),
            (status, "", 0, f"{self.path}: 1 documents of 3 words", "is read"),
            (shell, "count fox\nstats\n", 0, "found 1\ndocuments 1 ", "is read"),
            (shell, "add b\t\tfox\nmerge\ncount fox\n", 1, "found 1\n", f"! {self.path} may not be written, and takes no add\n! "),
        ):
            with self.subTest(command=command.__name__, lines=lines), self.for_reading_only():
                given, out = io.TextIOWrapper(io.BytesIO(lines.encode())), io.TextIOWrapper(io.BytesIO())
                with mock.patch.multiple(sys, stdin=given, stdout=out), contextlib.redirect_stderr(io.StringIO()) as told:
                    self.assertEqual(command.main([self.path]), ends, told.getvalue())
                    out.flush()
                self.assertIn(shown, out.buffer.getvalue().decode())
                self.assertIn(f"{self.path} may not be written: a private copy of it is read", told.getvalue())
                self.assertIn(said, told.getvalue())
        self.assertEqual(read(self.path), before)

    def test_a_page_of_a_file_that_may_not_be_written(self):
        with self.index() as index:
            index.add("a", "", "red fox")
        told = []

        def count():
            with questions.asked() as index:
                return index.count("fox")

        with self.for_reading_only(), contextlib.closing(Questions(self.path, idle=0.002, say=told.append)) as questions:
            self.assertEqual((questions.refusal(), count(), len(told)), ("", 1, 1))
            # Who may write it goes on, and what it adds is seen by another copy.
            with self.index() as index:
                self.assertEqual(count(), 1)
                index.add("b", "", "fox")
            until(lambda: count() == 2)
            self.assertEqual(len(told), 2)
            folder = os.path.dirname(questions._place)
            self.assertEqual(os.listdir(folder), [reading.COPY])
        self.assertFalse(os.path.exists(folder))

    @contextlib.contextmanager
    def for_reading_only(self):
        """The test may be run by who may write each file."""
        with mock.patch.object(reading, "is_for_reading_only", lambda path: path == self.path), mock.patch.dict(os.environ, BUNCOCEDAR_PROGRAM=PROGRAM):
            yield

    def test_packages_by_words_of_their_names(self):
        named = {
            "htop": "interactive processes viewer",
            "python3-flask": "micro web framework",
            "golang-socket.io-dev": "realtime events",
            "libgtk2.0-doc": "widgets",
        }
        self.run_bunco(
            "packages",
            self.path,
            self.write("status", "".join(f"Package: {name}\nDescription: {about}\n more\n\n" for name, about in named.items())),
        )
        for query, found in (
            ("htop", "htop"),
            ("HTOP", ""),
            ("title:htop", "htop"),
            ("flask", "python3-flask"),
            ('"python3 flask"', "python3-flask"),
            ("socket", "golang-socket.io-dev"),
            ("socket.io", "golang-socket.io-dev"),
            ("libgtk2.0", "libgtk2.0-doc"),
            ("doc", "libgtk2.0-doc"),
            ("gtk2", ""),
            ("viewer htop", "htop"),
        ):
            with self.subTest(query):
                answer = self.run_bunco("find", self.path, query, "--names", expect=0 if found else 1)
                self.assertEqual(answer, f"{found}\n" if found else "")

    def test_a_file_that_is_something_else(self):
        for content, advice in [
            (b"From a Mon Jan  1 00:00:00 2024\n\nfox\n", "is this the right path?"),
            (b"\0" * 9_000, "delete it and make it again"),
            (b"\0\2" + b"\0" * 9_000, "delete it and make it again"),
            (b"\0" * 4_096 + b"text", "is this the right path?"),
        ]:
            self.write("x.alta", content)
            self.find("fox", expect=3)
            self.assertIn(advice, self.said)
            self.assertEqual("delete" in self.said, "delete" in advice)


def take_program(path):
    global PROGRAM
    PROGRAM = path


if __name__ == "__main__":
    run_tests("finding", take_program)
