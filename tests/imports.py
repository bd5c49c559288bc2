#!/usr/bin/env python3
"""Tests of the commands that import, and of `bunco find`: bad input, second runs, and every kind of stop.

usage: tests/imports.py [--program PATH]

Without --program the tests of the real program are left out, and that is said.
"""

import collections
import contextlib
import datetime
import email.message
import functools
import glob
import gzip
import io
import itertools
import json
import mailbox
import os
import pty
import re
import shutil
import signal
import subprocess
import sys
import tempfile
import time
import unittest
from unittest import mock

# It lets the others find the client of the checkout.
from support import BUNCO, CLIENT, PATIENCE, run_tests, until  # isort: skip

from buncocedar import LINE_LIMIT, Index, terminal
from buncocedar.document import Document, NoText, Text, Unseen
from buncocedar.imports import archives, bringing, engine, folder, mail, making, naming, packages, packed, stamps
from buncocedar.imports.interrupts import Interrupts
from buncocedar.imports.log import Log
from buncocedar.imports.parts import parts_of
from buncocedar.imports.stamps import name_of
from buncocedar.tools import documents, matching, prompt
from buncocedar.tools import rows as answer_rows
from cases import FAKE, Case

PROGRAM = None


def read_all(terminal):
    """What is shown on a terminal until its other end is closed."""
    shown = b""
    while True:
        try:
            data = os.read(terminal, 4096)
        except OSError:
            data = b""
        if not data:
            os.close(terminal)
            return shown.decode()
        shown += data


class Folders(Case):
    def notes(self, count):
        for number in range(count):
            self.write(f"notes/{number:03}.txt", f"text {number}")
        return self.at("notes")

    def test_bad_input(self):
        self.write("notes/plain.txt", "one\r\ntwo\tthree\n\n")
        self.write("notes/two words.txt", "a")
        self.write("notes/two-words.txt", "b")
        self.write("notes/sub/empty", "")
        self.write("notes/nul", b"a\0b")
        self.write("notes/no-text", b"ok \xff\xfe")
        self.write("notes/latin", "stra\u00dfe".encode("latin-1"))
        self.write("notes/" + "long" * 30, "long")
        self.write("notes/" + "long" * 30 + "er", "longer")
        long = " ".join(f"word{i}" for i in range(LINE_LIMIT // 4))
        self.write("notes/big", long)
        self.write(b"notes/\xff\xfe.txt".decode(errors="surrogateescape"), "odd")
        self.write("notes/marked", "\ufeffmark")
        self.write("notes/huge", "\u65e5" * LINE_LIMIT)
        self.write("notes/packed.gz", gzip.compress(b"packed text"))
        self.write("notes/torn.gz", gzip.compress(b"packed text" * 99)[:30])
        self.write("notes/no.gz", b"not packed")
        self.write("notes/.git/config", "of the repository")
        self.write("notes/other.alta", b"\xa5\0\0")
        self.write("notes/other.alta.stamps", "a 1 2 3")
        os.mkfifo(self.at("notes/pipe"))
        os.symlink("nowhere", self.at("notes/broken"))
        index = self.at("notes/x.alta")
        said = self.run_script("folder", index, self.at("notes"), expect=1)
        self.assertIn("18 documents: 11 added, 3 passed over, 4 refused\n", said)
        for line in (
            "refused no-text: no UTF-8, first at byte 3",
            "refused latin: no UTF-8, first at byte 4",
            "refused no.gz: it can't be unpacked: Not a gzipped file",
            "refused torn.gz: it can't be unpacked: Compressed file ended",
            "what is passed over is no text; --verbose lists it",
            f"2 documents in parts, since a line has {LINE_LIMIT:,} bytes",
        ):
            self.assertIn(line, said)
        self.path = index
        bodies = self.bodies()
        self.assertEqual(bodies["plain.txt"], "one two three")
        self.assertEqual(bodies["two-words.txt"], "b")
        self.assertEqual(bodies[name_of("two words.txt")], "a")
        self.assertEqual(bodies["sub/empty"], "")
        self.assertEqual(bodies["marked"], "mark")
        self.assertEqual(bodies["packed.gz"], "packed text")
        self.assertEqual(self.whole("big")[0], long)
        self.assertGreater(self.whole("big")[1], 1)
        self.assertEqual({line for name, line in bodies.items() if name.startswith("huge~p")} & {""}, set())
        self.assertEqual(set("".join(body for name, body in bodies.items() if name.startswith("huge"))), {"\u65e5"})
        self.assertFalse([name for name in bodies if "git" in name or "other" in name])
        # Nothing is done a second time, and the index is no document of itself.
        said = self.run_script("folder", "--verbose", index, self.at("notes"), expect=1)
        self.assertIn("0 added, 11 unchanged, 3 passed over, 4 refused", said)
        for line in ("passed over 'nul': binary", "passed over 'pipe': no regular file", "passed over 'broken': a link to nothing"):
            self.assertIn(line, said)
        # What is too long is refused on demand, Latin-1 is read, and what is not wanted is left out.
        self.path = self.at("y.alta")
        words = ("--whole", "--latin-1", "--skip", "no*", "--skip", "*.gz", self.path, self.at("notes"))
        said = self.run_script("folder", *words, expect=1)
        self.assertRegex(said, rf"refused big: its line has [\d,]+ bytes where {LINE_LIMIT:,} may be")
        self.assertEqual(self.bodies()["latin"], "stra\u00dfe")
        self.assertNotIn("no-text", self.bodies())
        self.path = self.at("z.alta")
        self.assertIn("2 documents: 2 added", self.run_script("folder", "--only", "*s.txt", self.path, self.at("notes")))

    def test_second_runs(self):
        notes = self.notes(20)
        self.assertIn("20 documents: 20 added", self.run_script("folder", self.path, notes))
        self.assertIn("0 added, 20 unchanged", self.run_script("folder", self.path, notes))
        self.write("notes/007.txt", "another text")
        self.write("notes/new.txt", "new")
        self.assertIn("21 documents: 1 added, 1 changed, 19 unchanged", self.run_script("folder", self.path, notes))
        self.assertEqual(self.stored()["007.txt"], (22 - 1, "007.txt", "007.txt ext:txt another text"))
        # What the index has lost is said, and brought in again.
        content = self.read(self.path)
        self.write("x.alta", b"".join(content.splitlines(True)[:-2]))
        said = self.run_script("folder", self.path, notes)
        self.assertIn("the index has lost the documents 21 to 22 since the last run", said)
        self.assertIn("1 added, 1 added again, 19 unchanged", said)
        self.assertEqual(len(self.stored()), 21)
        # Without its stamps everything is added again, once.
        os.remove(self.path + ".stamps")
        self.assertIn("0 added, 21 added again", self.run_script("folder", self.path, notes))
        self.assertEqual(len(self.stored()), 21)
        # A new index does not believe the stamps of the one before.
        os.remove(self.path)
        self.assertIn("21 documents: 21 added", self.run_script("folder", self.path, notes))
        self.assertIn("0 added, 21 unchanged", self.run_script("folder", self.path, notes))

    def test_stamps_of_a_version_before(self):
        notes = self.notes(5)
        self.run_script("folder", self.path, notes)
        lines = self.older_stamps()
        self.write("x.alta.stamps", lines[:-20])
        self.assertEqual(len(stamps.Records(self.path + ".stamps").of), 4)
        self.assertIn("1 added again, 4 unchanged", self.run_script("folder", self.path, notes))
        broken = b"\0\xff broken\n000.txt 1 nothing\n" + b"gone 7 " + b"0" * 32 + b" 00000000\n"
        self.write("x.alta.stamps", self.older_stamps() + broken + b"\n" * 5000)
        self.assertIn("0 added, 5 unchanged", self.run_script("folder", self.path, notes))
        self.assertEqual(sorted(os.listdir(self.place.name)), ["notes", "x.alta", "x.alta.stamps"])
        self.assertIn("0 added, 5 unchanged", self.run_script("folder", self.path, notes))

    def rights(self, *names):
        return [os.stat(self.at(name)).st_mode & 0o777 for name in names]

    def test_no_wider_rights_than_the_source(self):
        """Whoever may not read what was brought in may not read the index, nor the stamps."""
        box = self.write("box", "From x\nSubject: secret\n\nthe text\n")
        self.addCleanup(os.umask, os.umask(0o022))
        for rights, given in ((0o600, 0o600), (0o640, 0o640), (0o644, 0o644), (0o400, 0o600), (0o666, 0o644)):
            with self.subTest(rights=oct(rights)):
                os.chmod(box, rights)
                self.assertIn("1 added", self.run_script("mail", self.path, box))
                self.assertEqual(self.rights("x.alta", "x.alta.stamps"), [given, given])
                for name in ("x.alta", "x.alta.stamps"):
                    os.remove(self.at(name))

    def test_no_wider_rights_than_the_folder(self):
        notes = self.notes(2)
        os.chmod(notes, 0o700)
        self.addCleanup(os.umask, os.umask(0o022))
        self.run_script("folder", self.path, notes)
        self.assertEqual(self.rights("x.alta", "x.alta.stamps"), [0o600, 0o600])

    def test_stamps_have_no_wider_rights_than_the_index(self):
        notes = self.notes(2)
        self.addCleanup(os.umask, os.umask(0o022))
        self.run_script("folder", self.path, notes)
        self.assertEqual(self.rights("x.alta", "x.alta.stamps"), [0o644, 0o644])
        os.chmod(self.path, 0o600)
        os.remove(self.path + ".stamps")
        self.run_script("folder", self.path, notes)
        self.assertEqual(self.rights("x.alta.stamps"), [0o600])

    def test_stamps_that_are_written_anew_keep_their_rights(self):
        notes = self.notes(3)
        self.run_script("folder", self.path, notes)
        self.write("x.alta.stamps", self.older_stamps())
        os.chmod(self.path + ".stamps", 0o600)
        self.addCleanup(os.umask, os.umask(0o022))
        seen = []
        opened = stamps.sqlite3.connect

        def connect(path, **words):
            base = opened(path, **words)
            if str(path).endswith(".new"):
                seen.extend(self.rights(path))
            return base

        with mock.patch.object(stamps.sqlite3, "connect", connect):
            stamps.Stamps(self.path + ".stamps").close()
        self.assertEqual((seen, self.rights("x.alta.stamps")), ([0o600], [0o600]))

    def test_stamps_that_are_damaged(self):
        notes = self.notes(5)
        self.run_script("folder", self.path, notes)
        content = self.read(self.path + ".stamps")
        self.write("x.alta.stamps", content[:100] + b"\xff" * (len(content) - 100))
        said = self.run_script("folder", self.path, notes, expect=3)
        self.assertRegex(said, r"the stamps .* can't be read: .*; without them the next import brings in everything again\n")
        os.remove(self.path + ".stamps")
        self.assertIn("5 added again", self.run_script("folder", self.path, notes))

    def test_stamps_that_cannot_be_written(self):
        notes = self.notes(200)

        class Unwritable(bringing.Stamps):
            def __init__(self, *words):
                super().__init__(*words)
                self.base.execute("PRAGMA query_only = ON")

        told = io.StringIO()
        variables = {"BUNCOCEDAR_PROGRAM": FAKE}
        with mock.patch.object(bringing, "Stamps", Unwritable), mock.patch.dict(os.environ, variables):
            with contextlib.redirect_stderr(told), mock.patch.object(stamps, "SECONDS_BETWEEN_WRITES", 0):
                source = stamps.Source("folder", notes)
                self.assertEqual(bringing.bring("folder", self.path, source, folder.files(notes)), 3)
        self.assertIn("stopped: the stamps could not be written", told.getvalue())
        added = int(re.search(r"(\d+) added", told.getvalue())[1])
        self.assertGreater(added, 0)
        self.assertLess(added, 200)
        self.assertEqual(len(self.stored()), added)
        said = self.run_script("folder", self.path, notes)
        self.assertIn(f"{200 - added} added, {added} added again", said)
        self.assertEqual(len(self.stored()), 200)

    def test_two_sources(self):
        self.write("one/a.txt", "one")
        self.write("two/a.txt", "other")
        for _ in range(2):
            self.run_script("folder", self.path, self.at("one"))
            self.run_script("folder", self.path, self.at("two"))
        self.assertEqual(self.bodies(), {"a.txt": "one", "a.txt~2": "other"})
        # A folder that was moved is still the same documents, also when they change later.
        shutil.move(self.at("one"), self.at("three"))
        self.assertIn("0 added, 1 unchanged", self.run_script("folder", self.path, self.at("three")))
        self.write("three/a.txt", "changed")
        self.assertIn("0 added, 1 changed", self.run_script("folder", self.path, self.at("three")))
        self.assertEqual(self.bodies(), {"a.txt": "changed", "a.txt~2": "other"})

    def test_full(self):
        notes = self.notes(300)
        said = self.run_script("folder", self.path, notes, do={"room": 120}, expect=3)
        self.assertIn("300 documents: 120 added\n", said)
        self.assertIn("alta: full, need 321, greatest gap 123 (status 8)", said)
        self.assertIn("180 documents not stored, the first of them 120.txt\n", said)
        self.assertIn("the rest needs an index of its own", said)
        self.assertEqual(len(self.stored()), 120)
        said = self.run_script("folder", self.path, notes, do={"room": 120}, expect=3)
        self.assertIn("300 documents: 0 added, 120 unchanged\n", said)
        self.assertIn("180 documents not stored, the first of them 120.txt\n", said)
        said = self.run_script("folder", self.path, notes, do={"room": 200}, expect=3)
        self.assertIn("300 documents: 80 added, 120 unchanged\n", said)
        self.assertIn("300 documents: 100 added, 200 unchanged\n", self.run_script("folder", self.path, notes))
        self.assertEqual(self.bodies(), {f"{i:03}.txt": f"text {i}" for i in range(300)})

    def test_full_at_a_changed_document(self):
        notes = self.notes(3)
        self.run_script("folder", self.path, notes)
        self.write("notes/001.txt", "a new text")
        said = self.run_script("folder", self.path, notes, do={"room": 3}, expect=3)
        self.assertIn("1 document not stored, the first of them 001.txt\n", said)
        self.assertEqual(self.bodies()["001.txt"], "text 1")
        self.assertIn("0 added, 1 changed, 2 unchanged", self.run_script("folder", self.path, notes))
        self.assertEqual(self.bodies()["001.txt"], "a new text")

    def test_a_program_that_is_killed(self):
        notes = self.notes(300)
        # The replies to `stats` and the list of names come first.
        for done in (False, True):
            for path in (self.path, self.path + ".stamps"):
                os.path.exists(path) and os.remove(path)
            said = self.run_script("folder", self.path, notes, do={"end": [102, -9], "done": done}, expect=3)
            self.assertIn("300 documents: 100 added\n", said)
            self.assertIn("ended by signal 9", said)
            self.assertIn("200 documents not stored, the first of them 100.txt (which may be stored", said)
            self.assertEqual(len(self.stored()), 101 if done else 100)
            said = self.run_script("folder", self.path, notes)
            self.assertIn("199 added, 1 added again, 100 unchanged" if done else "200 added, 100 unchanged", said)
            self.assertEqual(self.bodies(), {f"{i:03}.txt": f"text {i}" for i in range(300)})

    def test_a_stop_at_a_changed_document(self):
        notes = self.notes(3)
        self.run_script("folder", self.path, notes)
        self.write("notes/001.txt", "a new text")
        for done in (False, True):
            with self.subTest(done=done):
                before = {path: self.read(path) for path in (self.path, self.path + ".stamps")}
                said = self.run_script("folder", self.path, notes, do={"end": [3, -9], "done": done}, expect=3)
                self.assertIn("1 document not stored, the first of them 001.txt (which may be stored", said)
                self.assertEqual(self.bodies()["001.txt"], "a new text" if done else "text 1")
                self.assertEqual(len(self.stored()), 3)
                self.run_script("folder", self.path, notes)
                self.assertEqual(self.bodies(), {"000.txt": "text 0", "001.txt": "a new text", "002.txt": "text 2"})
                for path, content in before.items():
                    self.write(path, content)

    def test_a_stop_at_a_document_in_parts(self):
        # Two parts in place of three: the first two are replaced, and then the third is deleted.
        self.write("notes/long", "old " * (LINE_LIMIT * 5 // 8))
        self.run_script("folder", self.path, self.at("notes"))
        self.assertEqual(sorted(self.stored()), ["long", "long~p2", "long~p3"])
        self.write("notes/long", "new " * (LINE_LIMIT * 3 // 8))
        for end, done in itertools.product((3, 4, 5), (False, True)):
            with self.subTest(end=end, done=done):
                before = {path: self.read(path) for path in (self.path, self.path + ".stamps")}
                said = self.run_script("folder", self.path, self.at("notes"), do={"end": [end, -9], "done": done}, expect=3)
                self.assertIn("1 document not stored, the first of them long (which may be stored", said)
                self.assertEqual("long: some of its parts are stored, and the others are as they were" in said, end == 4)
                bodies = self.bodies()
                words = [bodies[name][:3] for name in sorted(bodies)]
                self.assertEqual(words, {3: ["old"] * 3, 4: ["new", "old", "old"], 5: ["new", "new", "old"], 6: ["new"] * 2}[end + done])
                self.run_script("folder", self.path, self.at("notes"))
                bodies = self.bodies()
                self.assertEqual(sorted(bodies), ["long", "long~p2"])
                self.assertEqual({body[:3] for body in bodies.values()}, {"new"})
                for path, content in before.items():
                    self.write(path, content)

    def test_an_import_that_is_killed(self):
        notes = self.notes(300)
        process = self.start("folder", self.path, notes, do={"silent": 150, "mark": self.mark})
        until(lambda: os.path.exists(self.mark))
        process.kill()
        process.communicate()
        os.kill(int(self.read(self.mark)), signal.SIGKILL)
        stored = len(self.stored())
        self.assertEqual(stored, 148)
        said = self.run_script("folder", self.path, notes)
        # The stamps of the last moment are not written.
        counts = re.search(r"300 documents: 152 added(?:, (\d+) added again)?(?:, (\d+) unchanged)?\n", said)
        self.assertEqual(int(counts[1] or 0) + int(counts[2] or 0), stored)
        self.assertEqual(self.bodies(), {f"{i:03}.txt": f"text {i}" for i in range(300)})

    def test_interrupts(self):
        # The first one ends the import cleanly, behind the replies under way.
        process = self.start("packages", self.path, do={}, stdin=subprocess.PIPE)
        stanza = "Package: p{}\nDescription: about {}\n text\n\n"
        fed = 0
        while not os.path.exists(self.path) or b"add p" not in self.read(self.path):
            process.stdin.write(stanza.format(fed, fed))
            process.stdin.flush()
            fed += 1
            time.sleep(0.001)
        process.send_signal(signal.SIGINT)
        try:
            while process.poll() is None:
                process.stdin.write(stanza.format(fed, fed))
                process.stdin.flush()
                fed += 1
        except BrokenPipeError:
            pass
        said = process.stderr.read()
        process.wait()
        process.stdout.close()
        process.stderr.close()
        with contextlib.suppress(BrokenPipeError):
            process.stdin.close()
        self.assertEqual(process.returncode, 130, said)
        self.assertIn("interrupted: run this again", said)
        added = int(re.search(r"([\d,]+) added\n", said)[1].replace(",", ""))
        self.assertEqual(sorted(self.stored()), sorted(f"p{i}" for i in range(added)))
        self.assertNotIn("not stored", said)

    def test_an_interrupt_while_the_source_is_quiet(self):
        process = self.start("packages", self.path, stdin=subprocess.PIPE)
        process.stdin.write("Package: a\nDescription: a\n\nPackage: b\nDescription: b\n\n")
        process.stdin.flush()
        until(lambda: os.path.exists(self.path) and b"add b" in self.read(self.path))
        process.send_signal(signal.SIGINT)
        self.assertEqual(process.wait(PATIENCE), 130)
        said = process.communicate()[1]
        self.assertIn("2 documents: 2 added\n", said)
        self.assertIn("interrupted: run this again", said)
        stanzas = self.write("status", "Package: a\nDescription: a\n\nPackage: b\nDescription: b\n")
        self.assertIn("0 added, 2 unchanged", self.run_script("packages", self.path, stanzas))

    def test_what_is_gone(self):
        notes = self.notes(4)
        self.write("notes/long", "word " * (LINE_LIMIT // 2))
        self.write("others/003.txt", "another")
        self.run_script("folder", self.path, notes)
        self.run_script("folder", self.path, self.at("others"))
        for name in ("001.txt", "long"):
            os.remove(self.at(f"notes/{name}"))
        said = self.run_script("folder", self.path, notes)
        self.assertIn("2 documents of earlier runs not seen any more, and still in the index; --prune deletes such", said)
        self.assertIn("long~p2", self.stored())
        said = self.run_script("folder", "--prune", self.path, notes)
        self.assertIn("3 documents: 0 added, 3 unchanged\n", said)
        self.assertIn("2 documents of earlier runs not seen any more, and deleted\n", said)
        self.assertEqual(sorted(self.stored()), ["000.txt", "002.txt", "003.txt", "003.txt~2"])
        self.assertNotIn("not seen", self.run_script("folder", "--prune", self.path, notes))
        self.assertFalse({"001.txt", "long"} & set(stamps.Records(self.path + ".stamps").of))
        # What comes again is new.
        self.write("notes/001.txt", "text 1")
        self.assertIn("1 added, 3 unchanged", self.run_script("folder", "--prune", self.path, notes))
        # A source that gives nothing, or whose end was not reached, says nothing of what is gone.
        shutil.rmtree(notes)
        os.mkdir(notes)
        self.assertIn("nothing was pruned", self.run_script("folder", "--prune", self.path, notes))
        self.write("notes/000.txt", "text 0")
        said = self.run_script("folder", "--prune", self.path, notes, do={"end": [3, -9]}, expect=3)
        self.assertNotIn("not seen", said)
        self.assertEqual(len(self.stored()), 5)

    def test_what_is_no_text_any_more(self):
        """The text of a file that is none now is gone; of one that can't be read nobody knows."""
        notes = self.notes(3)
        self.run_script("folder", self.path, notes)
        self.write("notes/000.txt", b"\0binary")
        self.write("notes/001.txt", b"\xff\xfe no UTF-8")
        said = self.run_script("folder", self.path, notes, expect=1)
        self.assertIn("1 passed over, 1 refused", said)
        self.assertIn("1 document of earlier runs not seen any more, and still in the index", said)
        self.run_script("folder", "--prune", self.path, notes, expect=1)
        self.assertEqual(sorted(self.stored()), ["001.txt", "002.txt"])

    def test_what_cannot_be_seen_is_not_gone(self):
        source = stamps.Source("folder", self.place.name)
        text = Text("", "text")
        options = engine.Options(prune=True)
        seen = Document("a", b"1", lambda: text)
        unseen = folder.no_document("sub", Unseen("Permission denied"))
        told = io.StringIO()
        with mock.patch.dict(os.environ, {"BUNCOCEDAR_PROGRAM": FAKE}), contextlib.redirect_stderr(told):
            bringing.bring("folder", self.path, source, [seen, Document("sub/b", b"1", lambda: text)])
            self.assertEqual(bringing.bring("folder", self.path, source, [seen, unseen], options), 1)
        self.assertIn("refused sub: Permission denied", told.getvalue())
        self.assertIn("nothing was pruned", told.getvalue())
        self.assertEqual(set(self.stored()), {"a", "sub/b"})

    def test_merges(self):
        class Merging(Index):
            merges = []

            def merge(self):
                self.merges.append(self.stats().documents)
                super().merge()

        # Five documents fill the journal, and there are three levels at most: the first merge comes where the journal behind three has one.
        notes = self.notes(30)
        half = 5 * (len("add 000.txt\t000.txt\t000.txt ext:txt text 00") + engine.RECORD)
        few_levels = lambda: mock.patch.multiple(engine, HALF=half, LEVELS=3)
        source = stamps.Source("folder", notes)
        for merge, merges in ((True, [16, 27]), (False, [])):
            Merging.merges.clear()
            if os.path.exists(self.path):
                os.remove(self.path)
            with few_levels(), mock.patch.object(bringing, "open_index", Merging):
                with mock.patch.dict(os.environ, {"BUNCOCEDAR_PROGRAM": FAKE}), contextlib.redirect_stderr(io.StringIO()):
                    options = engine.Options(merge=merge)
                    self.assertEqual(bringing.bring("folder", self.path, source, folder.files(notes), options), 0)
            self.assertEqual([number for number in Merging.merges], merges)
        # A program without levels, and one that ends in a merge.
        for do, status, stored in (({"old": True}, 0, 30), ({"end": [19, -9]}, 3, 16)):
            os.remove(self.path)
            told = io.StringIO()
            with contextlib.redirect_stderr(told):
                with few_levels():
                    with mock.patch.dict(os.environ, {"BUNCOCEDAR_PROGRAM": FAKE, "FAKE": json.dumps(do)}):
                        self.assertEqual(bringing.bring("folder", self.path, source, folder.files(notes)), status, told.getvalue())
            self.assertEqual(len(self.stored()), stored)

    def test_a_second_interrupt(self):
        # A program that answers no more is ended, and the counts are those of what it answered.
        notes = self.notes(300)
        process = self.start("folder", self.path, notes, do={"silent": 150, "mark": self.mark})
        until(lambda: os.path.exists(self.mark))
        process.send_signal(signal.SIGINT)
        said = ""
        while "once more ends the program" not in said:
            line = process.stderr.readline()
            self.assertTrue(line, said)
            said += line
        process.send_signal(signal.SIGINT)
        said += process.communicate(timeout=PATIENCE)[1]
        self.assertEqual(process.returncode, 130, said)
        self.assertRegex(said, r"\d+ documents: 148 added\n")
        self.assertRegex(said, r"documents? not stored, the first of them 148.txt \(which may be")
        self.assertIn("152 added, 148 unchanged", self.run_script("folder", self.path, notes))

    def test_refusals_of_the_program(self):
        notes = self.notes(5)
        said = self.run_script("folder", self.path, notes, do={"say": [4, "! no numbers left"]}, expect=1)
        self.assertIn("refused 002.txt: ! no numbers left", said)
        self.assertIn("5 documents: 4 added, 1 refused", said)
        self.assertIn("1 added, 4 unchanged", self.run_script("folder", self.path, notes))
        said = self.run_script("folder", self.at("y.alta"), notes, do={"say": [4, "what is this"]}, expect=3)
        self.assertIn("5 documents: 2 added\n", said)
        self.assertIn("3 documents not stored, the first of them 002.txt", said)

    def test_use(self):
        self.assertIn("is no folder", self.run_script("folder", self.path, self.at("none"), expect=2))
        self.assertIn("there is none", self.run_script("mail", self.path, self.at("none"), expect=2))
        self.run_script("folder", self.path, expect=2)
        # The words in the wrong order write over nothing.
        self.write("my.mbox", b"From a\n\nmail\n")
        self.assertIn("no index", self.run_script("folder", self.at("my.mbox"), self.place.name, expect=3))
        self.assertEqual(self.read(self.at("my.mbox")), b"From a\n\nmail\n")
        self.assertFalse(os.path.exists(self.at("my.mbox.stamps")))

    def test_lines(self):
        notes = self.notes(3)
        self.write("notes/bad", b"\xff")
        said = self.run_script("folder", "-", notes, expect=1)
        self.assertEqual(self.out.split("\n")[:2], ["add 000.txt\t000.txt\t000.txt ext:txt text 0", "add 001.txt\t001.txt\t001.txt ext:txt text 1"])
        self.assertIn("3 documents written, 0 in parts, 0 passed over, 1 refused", said)

    def test_lines_that_cannot_be_written(self):
        notes = self.notes(3)
        with open("/dev/full", "w") as full:
            said = self.run_script("folder", "-", notes, stdout=full, expect=3)
        self.assertEqual(said, "folder: standard output could not be written: No space left on device\n")

    def test_progress(self):
        notes = self.notes(50)
        ours, theirs = pty.openpty()
        process = self.start("folder", self.path, notes, stderr=theirs)
        os.close(theirs)
        said = read_all(ours)
        process.communicate(timeout=PATIENCE)
        self.assertRegex(said, r"\r\x1b\[K1 document, 0 stored, [\d,]+ kB a second, 0 refused")
        self.assertRegex(said, r"\r\x1b\[Kfolder: 50 documents: 50 added\r\n$")


    def test_names_and_paths(self):
        self.write("notes/built in/sub/commit_all.c.gz", gzip.compress(b"int main"))
        self.main(folder, self.path, self.at("notes"))
        ((name, (_, title, body)),) = self.stored().items()
        self.assertEqual(title, "commit_all.c.gz commit_all.c.gz commit all gz")
        self.assertEqual(
            body, "built in/sub/commit_all.c.gz commit_all.c.gz commit all gz dir:built in/sub dir:sub ext:c ext:gz int main"
        )

    def test_filters(self):
        self.write("notes/a.pdf", b"%PDF\0 red fox")
        self.write("notes/b.pdf", b"")
        words = ("--filter", "*.pdf=tail -c 7 | grep .")
        said = self.main(folder, *words, self.path, self.at("notes"), expect=1)
        self.assertIn("2 documents: 1 added, 1 refused\n", said)
        self.assertIn("refused b.pdf: 'tail -c 7 | grep .' ended with status 1\n", said)
        self.assertEqual(self.bodies()["a.pdf"], "red fox")
        self.assertIn("0 added, 1 unchanged, 1 refused", self.main(folder, *words, self.path, self.at("notes"), expect=1))
        # The command is not run by who looks at the answer.
        found = stamps.Records(self.path + ".stamps").found("a.pdf")
        self.assertEqual(documents.text_at(found), "a filter made its text, which is not run to show it")
        self.assertIn("is not of the form PATTERN=COMMAND", self.run_script("folder", "--filter", "x", self.path, self.at("notes"), expect=2))

    @unittest.skipIf(shutil.which("git") is None, "git is missing")
    def test_what_git_ignores(self):
        for name in ("a.c", "sub/b.c", "sub/b.o", "made/c.o", "other/.git/x", "other/d.o"):
            self.write(f"notes/{name}", name)
        self.write("notes/.gitignore", "*.o\nmade\n")
        subprocess.run(["git", "init", "-q", self.at("notes")], check=True)
        self.main(folder, self.path, self.at("notes"))
        self.assertLessEqual({"a.c", "sub/b.c"}, set(self.stored()))
        self.assertFalse({"sub/b.o", "made/c.o"} & set(self.stored()))
        self.main(folder, "--no-ignore", self.path, self.at("notes"))
        self.assertLessEqual({"sub/b.o", "made/c.o"}, set(self.stored()))

    def test_processes(self):
        """Documents are made in several processes as in one: in their order, with their faults, and where one of them is killed."""
        def jobs():
            for number in range(100):
                load = folder.raised if number % 10 == 7 else Text
                words = (NoText(f"no {number}"),) if number % 10 == 7 else ("title", f"text {number}")
                yield making.Job(str(number), functools.partial(load, *words), number % 2 == 0, False)

        def made(count, before=lambda makers: None):
            makers = making.Makers(count)
            found = []
            for job in jobs():
                makers.put(job, 100_000)
                before(makers)
                found += makers.ready()
            found += makers.ready(all_of_them=True)
            makers.close()
            return [(job.name, str(result)) for job, result in found]

        def kill(makers):
            if len(makers.under_way) == 2:
                makers.program.kill()

        def kill_all(makers):
            if len(makers.under_way) == 2:
                os.killpg(makers.program.pid, signal.SIGKILL)

        alone = made(1)
        self.assertEqual([name for name, _ in alone], [str(number) for number in range(100)])
        self.assertEqual(alone[7], ("7", "no 7"))
        with mock.patch.object(making, "SECONDS_ALONE", -1):
            self.assertEqual(made(2), alone)
            for ending in (kill, kill_all):
                self.assertEqual(made(2, ending), alone)
            self.assertEqual(made(4), alone)
            # What no other process can be given is made here.
            makers = making.Makers(2)
            makers.put(making.Job("a", lambda: Text("", "b"), False, False))
            self.assertEqual([result.parts for _, result in makers.ready(all_of_them=True)], [[("a", "", "b")]])
            makers.close()


    def test_processes_end_with_the_import(self):
        """Also where it is killed, and none of them waits for another one."""
        begins = (
            "import os, sys\nfrom buncocedar.document import Text\nfrom buncocedar.imports import making\nimport functools\n"
            "making.SECONDS_ALONE = -1\nmakers = making.Makers(3)\n"
            "for number in range(3 * making.BATCH):\n"
            "    makers.put(making.Job(str(number), functools.partial(Text, 'a', 'b'), False, False))\n"
            "print(makers.program.pid, len(makers.under_way), flush=True)\n"
            "os.kill(os.getpid(), int(sys.argv[1])) if sys.argv[1] != '0' else makers.close()\n"
        )
        for number in (0, signal.SIGKILL):
            words = [sys.executable, "-c", begins, str(int(number))]
            done = subprocess.run(words, env={**os.environ, "PYTHONPATH": CLIENT}, capture_output=True, timeout=PATIENCE)
            group, busy = map(int, done.stdout.split())
            self.assertEqual((done.returncode, busy, done.stderr), (-number, 3, b""))
            until(lambda: not is_there(group))


def is_there(group):
    """Whether a process of the group is there."""
    try:
        os.killpg(group, 0)
        return True
    except ProcessLookupError:
        return False


class Sources(Case):
    """What several sources bring into one index, and one that has moved."""

    def note(self, name, text, time=0):
        os.utime(self.write(name, text), (time, time))

    def folder(self, *words, expect=0):
        return self.main(folder, self.path, *(self.at(word) if word[0] != "-" else word for word in words), expect=expect)

    def documents(self, *documents, source="box", kind="mail", prune=False):
        """Brings in documents, each a name, a stamp and perhaps a place; the stamp is the text."""
        found = [Document(name, stamp.encode(), lambda stamp=stamp: Text("", stamp), *place) for name, stamp, *place in documents]
        told = io.StringIO()
        with mock.patch.dict(os.environ, {"BUNCOCEDAR_PROGRAM": FAKE}), contextlib.redirect_stderr(told):
            options = engine.Options(prune=prune)
            self.assertEqual(bringing.bring(kind, self.path, stamps.Source(kind, self.at(source)), found, options), 0, told.getvalue())
        return told.getvalue()

    def test_files_of_one_size_and_time(self):
        self.note("one/a.txt", "red")
        self.note("two/a.txt", "fox")
        for said in ("1 added", "0 added, 1 unchanged"):
            self.assertIn(said, self.folder("one"))
            self.assertIn(said, self.folder("two"))
            self.assertEqual(self.bodies(), {"a.txt": "red", "a.txt~2": "fox"})
        # Two files of one text are two documents, as long as both are there.
        self.note("one/b", "text")
        self.note("two/b", "text")
        for said in ("1 added, 1 unchanged", "0 added, 2 unchanged"):
            self.assertIn(said, self.folder("one"))
            self.assertIn(said, self.folder("two"))
        os.remove(self.at("two/b"))
        self.folder("two", "--prune")
        self.assertEqual(self.bodies(), {"a.txt": "red", "a.txt~2": "fox", "b": "text"})
        os.remove(self.at("one/b"))
        self.folder("one", "--prune")
        # A folder that has moved is known by its texts, and another one in its place has others.
        shutil.move(self.at("one"), self.at("three"))
        self.assertIn("0 added, 1 unchanged", self.folder("three"))
        shutil.rmtree(self.at("three"))
        self.note("four/a.txt", "dog")
        self.assertIn("1 added", self.folder("four"))
        self.assertEqual(self.bodies(), {"a.txt": "red", "a.txt~2": "fox", "a.txt~3": "dog"})
        # The stamps of a version before count, but say nothing of a text in another folder.
        lines = self.older_stamps()
        self.write("x.alta.stamps", re.sub(rb"(?m)^([^=].* .* .* .* .*) .*$", rb"\1", lines))
        self.assertLess(self.read(self.path + ".stamps").count(b" "), lines.count(b" "))
        self.assertIn("0 added, 1 unchanged", self.folder("two"))
        shutil.move(self.at("two"), self.at("five"))
        self.assertIn("2 documents of earlier runs came from", self.folder("five"))
        self.assertIn("0 added, 1 unchanged", self.folder("five"))
        self.assertEqual(self.bodies(), {"a.txt": "red", "a.txt~2": "fox", "a.txt~3": "dog", "a.txt~4": "fox"})
        self.folder("five", "--moved-from", "two", "--prune")
        self.assertEqual(self.bodies(), {"a.txt": "red", "a.txt~3": "dog", "a.txt~4": "fox"})

    def test_a_later_name(self):
        for name in ("one/a.txt", "one/b.txt", "two/a.txt"):
            self.note(name, name)
        self.folder("one")
        self.folder("two")
        os.remove(self.at("one/a.txt"))
        self.assertIn("and deleted", self.folder("one", "--prune"))
        # The first name is free now.
        self.assertIn("0 added, 1 unchanged\n", self.folder("two"))
        self.note("two/a.txt", "changed")
        self.assertIn("0 added, 1 changed\n", self.folder("two", "--prune"))
        self.note("two/a.txt", b"\xff")
        self.assertIn("refused 'a.txt'", self.folder("two", "--prune", expect=1))
        os.remove(self.at("two/a.txt"))
        os.symlink("a.txt", self.at("two/a.txt"))
        self.assertIn("nothing was pruned", self.folder("two", "--prune"))
        self.assertEqual(self.bodies(), {"b.txt": "one/b.txt", "a.txt~2": "changed"})

    def test_a_file_that_is_named_like_a_second_one(self):
        self.note("one/a~2", "own")
        self.folder("one")
        # Of the same size and time, and of another one, beside the same of another folder.
        for name, text in (("one/a", "red"), ("one/a", "brown")):
            self.note(name, text)
            said = "1 added, 1 unchanged" if text == "red" else "1 changed, 1 unchanged"
            self.assertIn(said, self.folder("one", "--prune"))
            self.assertEqual(self.bodies(), {"a~2": "own", "a": text})
        for path in (self.path, self.path + ".stamps", self.at("one/a")):
            os.remove(path)
        self.note("two/a", "of another folder")
        self.folder("one")
        self.folder("two")
        self.note("one/a", "brown")
        for said in ("1 added, 1 unchanged", "0 added, 2 unchanged"):
            self.assertIn(said, self.folder("one", "--prune"))
            self.assertEqual(self.bodies(), {"a~2": "own", "a": "of another folder", "a~3": "brown"})

    def test_messages_of_one_name(self):
        self.documents(("x", "1"), ("x", "2"), ("x", "3"), ("x", "2"), ("y", "1"))
        self.assertEqual(self.bodies(), {"x": "1", "x~2": "2", "x~3": "3", "y": "1"})
        said = self.documents(("x", "3"), ("x", "2"), ("y", "1"), prune=True)
        self.assertIn("0 added, 3 unchanged", said)
        self.assertIn("1 document of earlier runs not seen any more, and deleted", said)
        self.assertIn("1 added, 3 unchanged", self.documents(("x", "3"), ("x", "2"), ("x", "4"), ("y", "1")))
        self.assertEqual(self.bodies(), {"x": "4", "x~2": "2", "x~3": "3", "y": "1"})

    def test_many_messages_of_one_name(self):
        calls = []

        def counted(name, number):
            calls.append(number)
            return stamps.numbered(name, number)

        many = [("x", str(number)) for number in range(300)]
        with mock.patch.object(naming, "numbered", counted), mock.patch.object(bringing, "numbered", counted):
            self.assertIn("300 added", self.documents(*many))
            self.assertIn("0 added, 300 unchanged", self.documents(*many))
            self.assertIn("1 added, 300 unchanged", self.documents(*many, ("x", "new")))
            self.assertLess(len(calls), 1_500)
            calls.clear()
            with mock.patch.object(sys, "stdout", io.TextIOWrapper(io.BytesIO())):
                found = [Document(*name, lambda: Text("", "")) for name in many]
                self.assertEqual(bringing.write_lines(Log("mail", io.StringIO()), found, False), 0)
            self.assertLess(len(calls), 700)

    def test_a_folder_that_has_moved(self):
        for name in ("a.txt", "b.txt", "c.txt"):
            self.note(f"old/{name}", name)
        self.folder("old")
        self.assertIn("it is still there", self.folder("old", "--moved-from", "old", expect=3))
        shutil.move(self.at("old"), self.at("new"))
        self.note("new/a.txt", "changed", 1)
        os.remove(self.at("new/b.txt"))
        before = {path: self.read(path) for path in (self.path, self.path + ".stamps")}
        self.assertIn("nothing was brought in from", self.folder("new", "--moved-from", "older", expect=3))
        # It could as well be another folder, and the older one not be mounted: what has changed there has a name of its own.
        said = self.folder("new", "--prune")
        self.assertIn("2 documents: 1 added, 1 unchanged", said)
        self.assertIn(f"2 documents of earlier runs came from {self.at('old')}, not there any more; --moved-from says", said)
        self.assertEqual(self.bodies(), {"a.txt": "a.txt", "b.txt": "b.txt", "c.txt": "c.txt", "a.txt~2": "changed"})
        said = self.folder("new", "--prune", "--moved-from", "old")
        self.assertIn("2 documents: 0 added, 2 unchanged", said)
        self.assertIn("2 documents of earlier runs not seen any more, and deleted", said)
        self.assertNotIn("not there any more", self.folder("new"))
        self.assertEqual(self.bodies(), {"c.txt": "c.txt", "a.txt~2": "changed"})
        # Where that is said at once, nothing has another name.
        for path, content in before.items():
            self.write(path, content)
        self.assertIn("2 documents: 0 added, 1 changed, 1 unchanged", self.folder("new", "--prune", "--moved-from", "old"))
        self.assertEqual(self.bodies(), {"c.txt": "c.txt", "a.txt": "changed"})

    def test_a_folder_that_left_a_link(self):
        self.note("old/a.txt", "red")
        self.folder("old")
        shutil.move(self.at("old"), self.at("new"))
        os.symlink("new", self.at("old"))
        stored = self.read(self.path), self.read(self.path + ".stamps")
        self.assertIn("0 added, 1 unchanged", self.folder("new"))
        self.assertEqual(self.bodies(), {"a.txt": "red"})
        self.write("x.alta", stored[0])
        self.write("x.alta.stamps", stored[1])
        self.note("new/a.txt", "changed", 1)
        self.assertIn("0 added, 1 changed", self.folder("new", "--moved-from", "old"))
        self.assertEqual(self.bodies(), {"a.txt": "changed"})

    def test_messages_made_anew_in_two_archives(self):
        self.documents(("x", "before x"), ("y", "before y"), source="one")
        self.documents(("x", "before x"), source="two")
        former = [Document(name, f"now {name}".encode(), lambda name=name: Text("", name), former=(f"before {name}".encode(),)) for name in "xy"]
        for source, found in (("one", former), ("two", former[:1]), ("one", former)):
            with mock.patch.dict(os.environ, {"BUNCOCEDAR_PROGRAM": FAKE}), contextlib.redirect_stderr(io.StringIO()):
                bringing.bring("mail", self.path, stamps.Source("mail", self.at(source)), found)
            self.assertEqual(sorted(self.bodies()), ["x", "y"], source)

    def test_a_line_torn_in_its_place(self):
        self.documents(("x", "1", "@3+40"), source="one")
        self.documents(("y", "2", "@0+3"), source="two")
        lines = self.older_stamps()
        self.assertIn(b"@3+40\n", lines)
        self.write("x.alta.stamps", lines.replace(b"@3+40\n", b"@3\n"))
        self.assertIn("0 added, 1 unchanged", self.documents(("y", "2", "@0+3"), source="two"))
        self.assertIn("1 added again", self.documents(("x", "1", "@3+40"), source="one"))

    def test_nothing_but_links_to_folders(self):
        self.note("box/a.txt", "red")
        os.symlink(self.at("elsewhere"), self.at("box/link"))
        os.mkdir(self.at("elsewhere"))
        self.folder("box")
        os.remove(self.at("box/a.txt"))
        self.assertIn("nothing was pruned", self.folder("box", "--prune"))
        self.assertEqual(self.bodies(), {"a.txt": "red"})

    def test_a_file_named_like_a_second_one_in_another_folder(self):
        self.note("one/a", "red")
        for name, text in (("a", "fox"), ("a~2", "dog")):
            self.note(f"two/{name}", text)
        self.folder("one")
        self.assertIn("2 added", self.folder("two"))
        self.assertEqual(sorted(self.bodies().values()), ["dog", "fox", "red"])

    def test_two_kinds_at_one_path(self):
        self.note("box/cur/1", "of a message")
        message, others = ("m1@x", "letter", "cur/1"), ("m2@x", "letter", "cur/2")
        self.documents(message, others)
        self.assertIn("1 document: 1 added\n", self.folder("box", "--prune"))
        self.assertIn("0 added, 2 unchanged\n", self.documents(message, others, prune=True))
        self.assertEqual(sorted(self.bodies()), ["cur/1", "m1@x", "m2@x"])
        self.assertEqual({source.kind for source in stamps.Records(self.path + ".stamps").sources.values()}, {"mail", "folder"})
        # In the stamps of a version before both are one source, of the kind that came last.
        known = stamps.digest(self.at("box").encode(), 4)
        lines = [re.sub(r"^([^=]\S* \S+ \S+) \S+", rf"\1 {known}", line) for line in self.older_stamps().decode().splitlines()]
        self.note("box/cur/0", "of a message")
        index = self.read(self.path)
        for kind, run in (
            ("folder", lambda: self.folder("box", "--prune")),
            ("mail", lambda: self.documents(message, ("m3@x", "letter", "cur/3"), prune=True)),
        ):
            self.write("x.alta", index)
            self.write("x.alta.stamps", "".join(f"{line}\n" for line in lines if line[0] != "=") + f"= {known} {kind} {self.at('box')}\n")
            run()
            self.assertLessEqual({"cur/1", "m1@x"}, set(self.bodies()), kind)

    def test_packages_of_two_files(self):
        for name, stanzas in (("one", "ab"), ("two", "bc"), ("pipe", "de")):
            self.write(name, "".join(f"Package: {each}\nDescription: {each}\n\n" for each in stanzas))
        self.main(packages, self.path, self.at("one"))
        with open(self.at("pipe")) as file:
            self.run_script("packages", self.path, stdin=file)
        self.assertNotIn("deleted", self.main(packages, "--prune", self.path, self.at("two")))
        self.assertEqual(sorted(self.bodies()), ["a", "b", "c", "d", "e"])
        self.write("two", "Package: b\nDescription: b\n\n")
        self.assertIn("1 document of earlier runs not seen any more, and deleted", self.main(packages, "--prune", self.path, self.at("two")))
        # A list that another one has followed.
        os.remove(self.at("one"))
        said = self.main(packages, "--prune", self.path, self.at("two"))
        self.assertIn(f"1 document of earlier runs came from {self.at('one')}, not there any more", said)
        self.assertIn("1 document", self.main(packages, "--prune", "--moved-from", self.at("one"), self.path, self.at("two")))
        self.assertEqual(sorted(self.bodies()), ["b", "d", "e"])

    def test_one_import_at_a_time(self):
        self.note("notes/a", "text")
        self.folder("notes")
        other = stamps.Stamps(self.path + ".stamps")
        before = self.read(self.path)
        self.note("notes/b", "text")
        said = self.folder("notes", "--wait=0", expect=3)
        self.assertEqual(said, f"folder: {self.path}: another import into it is at work\n")
        with mock.patch.object(stamps, "SECONDS_OF_SILENCE", 0):
            said = self.folder("notes", "--wait=0.1", expect=3)
        self.assertEqual(said.count(f"folder: {self.path}: another import into it is at work"), 2)
        self.assertEqual(self.read(self.path), before)
        other.close()
        self.assertIn("1 added, 1 unchanged", self.folder("notes", "--wait=0"))
        # Stamps that are written anew stay locked, also for who had the older file open.
        self.write("many", "\n" * 2_000)
        older = os.open(self.at("many"), os.O_WRONLY)
        other = stamps.Stamps(self.at("many"))
        self.assertEqual(self.read(self.at("many"))[:16], stamps.MAGIC)
        self.assertTrue(stamps.lock(older))
        self.assertFalse(stamps.is_at(older, self.at("many")))
        os.close(older)
        self.assertRaises(stamps.InUse, stamps.Stamps, self.at("many"), 0)
        other.close()
        stamps.Stamps(self.at("many"), 0).close()

    def test_two_imports_through_a_server(self):
        self.note("notes/a", "of a file")
        self.documents()
        with mock.patch.dict(os.environ, {"BUNCOCEDAR_PROGRAM": FAKE}):
            server = subprocess.Popen([sys.executable, BUNCO, "serve", self.path], stderr=subprocess.PIPE)
        self.addCleanup(server.wait)
        self.addCleanup(server.kill)
        self.addCleanup(server.stderr.close)
        until(lambda: os.path.exists(self.path + ".socket"))
        slow = self.start("packages", self.path, stdin=subprocess.PIPE)
        slow.stdin.write("Package: b\nDescription: b\n\n")
        slow.stdin.flush()
        until(lambda: b"add b" in self.read(self.path))
        self.assertIn("another import into it is at work", self.folder("notes", "--wait=0", expect=3))
        slow.stdin.write("Package: a\nDescription: of a package\n\n")
        self.assertIn("2 documents: 2 added\n", slow.communicate(timeout=PATIENCE)[1])
        self.assertIn("1 document: 1 added\n", self.folder("notes"))
        self.assertEqual(self.bodies(), {"a": "", "b": "", "a~2": "of a file"})

    def test_an_interrupt_while_it_prunes(self):
        class Interrupting(Index):
            def send_delete(self, name):
                if name == "2":
                    os.kill(os.getpid(), signal.SIGINT)
                return super().send_delete(name)

        for number in range(6):
            self.note(f"notes/{number}", "text")
        self.folder("notes")
        for number in range(5):
            os.remove(self.at(f"notes/{number}"))
        with mock.patch.object(bringing, "open_index", Interrupting), mock.patch.dict(Interrupts.notes, clear=True):
            said = self.folder("--prune", "notes", expect=130)
        self.assertIn("3 documents of earlier runs not seen any more, and deleted", said)
        self.assertIn("2 documents of earlier runs not seen any more, and still in the index", said)
        self.assertIn("interrupted: run this again", said)
        self.assertEqual(sorted(self.bodies()), ["3", "4", "5"])
        self.assertIn("2 documents of earlier runs not seen any more, and deleted", self.folder("--prune", "notes"))

    def test_a_link_to_a_folder(self):
        self.note("notes/sub/a", "text")
        self.note("others/b", "text")
        for link in ("notes/link", "notes/sub/link", "notes/left"):
            os.symlink(self.at("others"), self.at(link))
        said = self.folder("--verbose", "--skip=left", "notes")
        self.assertIn("3 documents: 1 added, 2 passed over\n", said)
        for name in ("link", "sub/link"):
            self.assertIn(f"folder: passed over '{name}': a link to a folder\n", said)

    def test_how_much_of_a_file_is_read(self):
        taken = []

        class Counted(io.FileIO):
            def read(self, size=-1):
                taken.append(size)
                return super().read(size)

        # Of what is no text no more is read than is looked at.
        self.write("zeros", bytes(1 << 20))
        self.write("zeros.gz", gzip.compress(bytes(1 << 20)))
        with mock.patch.object(packed, "open", Counted, create=True):
            self.assertRaises(NoText, folder.text_of, self.at("zeros"))
        unpack = gzip.GzipFile.read
        with mock.patch.object(gzip.GzipFile, "read", lambda file, size=-1: taken.append(size) or unpack(file, size)):
            self.assertRaises(NoText, folder.text_of, self.at("zeros.gz"))
        self.assertEqual(taken, [folder.BINARY_LOOK] * 2)
        # A text is read as far as it is looked at, and it is told how much is left.
        with mock.patch.object(folder, "TEXT_LIMIT", 10_000), mock.patch.object(folder, "CHUNK", 999):
            for size in (9_999, 10_000, 10_001, 25_000):
                for name, content in (("text", b"a" * size), ("text.gz", gzip.compress(b"a" * size))):
                    text = folder.text_of(self.write(name, content))
                    self.assertEqual((len(text.body), text.beyond), (min(size, 10_000), max(0, size - 10_000)))

    def test_lines_of_a_source_that_cannot_be_read(self):
        def documents():
            yield Document("a", b"", lambda: Text("", ""))
            raise PermissionError(13, "Permission denied", "mail.mbox")

        for fault, status, said in ((None, 3, "stopped: mail.mbox: Permission denied"), (KeyboardInterrupt, 130, "broken off")):
            told = io.StringIO()
            with contextlib.redirect_stderr(told), mock.patch.object(sys, "stdout", io.TextIOWrapper(io.BytesIO())):
                with mock.patch.object(bringing, "parts_of", side_effect=fault, return_value=[]):
                    self.assertEqual(bringing.bring("mail", "-", None, documents()), status)
            self.assertEqual(told.getvalue(), f"mail: {said}\n")

    def test_an_index_that_cannot_be_put_in_its_place(self):
        # The fake's index is none that could be copied.
        self.note("notes/a", "text")
        os.mkdir(self.at("memory"))
        with mock.patch.object(bringing, "MEMORY", self.at("memory")):
            for index in (self.at("none/x.alta"), self.at("notes/a/x.alta")):
                with mock.patch.object(bringing, "bring_into") as bring:
                    self.main(folder, "--fast", index, self.at("notes"), expect=3)
                bring.assert_not_called()
            said = self.folder("--fast", "notes", expect=3)
        (kept,) = glob.glob(self.at("memory/*/index.alta"))
        self.assertIn(f"the index was made, and stands in {kept}: bunco compact copies it\n", said)
        self.assertFalse(os.path.exists(self.path))
        self.path = kept
        self.assertIn("0 added, 1 unchanged", self.folder("notes"))


class Packages(Case):
    def test_stanzas(self):
        path = self.write(
            "status",
            b"Package: a\nDescription: first\n more\n .\n text\nBroken\n\n\n\nPackage: b\nDescription-en: caf\xc3\xa9 \xff\n\n"
            b" stray\nPackage: c\n\nPackage: a\nDescription: other\n\nPackage: a\nDescription: first\n more\n .\n text\n",
        )
        self.assertIn("4 documents: 3 added, 1 repeated", self.run_script("packages", self.path, path))
        self.assertEqual(
            self.stored(),
            {"a": (1, "a - first", "more text"), "b": (2, "b - caf\u00e9 \ufffd", ""), "a~2": (3, "a - other", "")},
        )
        with open(path) as file:
            self.assertIn("0 added, 3 unchanged, 1 repeated", self.run_script("packages", self.path, stdin=file))


class Find(Case):
    def test_phrases(self):
        plan = (
            '"red fox" NOT ( "brown" OR "dog" )\nall 2\n  found D Wred XFox Wqui* T\n    x1 <= x0\n    x1 <= x2-1\n'
            "    x2 <= x1+1\n    x2 <= x3-1\n  not\n    any 2\n      found D Wbrown\n      found D Wdog\n  found D Ncat Wlast\n"
        )
        red, fox, qui, last = map(matching.term_of, ("Wred", "XFox", "Wqui*", "Wlast"))
        self.assertEqual(matching.wanted_phrases(plan), [[red, fox], [qui], [last]])
        self.assertEqual((red.folded, fox.folded, qui.open_end, last.open_end), (True, False, True, False))

    def test_best_lines(self):
        plan = '"file descriptor"\nfound D Wfile Wdescriptor\n  x1 <= x2-1\n  x2 <= x1+1\n'
        wanted = matching.Wanted(plan)
        for lines, best in [
            (["a file", "descriptor file", "a File-Descriptor", "file descriptor"], 2),
            (["file", "of a file", "descriptor file"], 1),
            (["a file", "a descriptor of a file"], 1),
            (["nothing", "of a file", "descriptor", "no"], 1),
            (["files", "descriptors"], None),
        ]:
            self.assertEqual(wanted.best_line(lines), best, lines)
        self.assertEqual(wanted.spans("a File  Descriptor; file"), [(2, 18)])
        self.assertEqual(wanted.spans("a file; a descriptor"), [(2, 6), (10, 20)])
        folds = matching.Wanted('"strasse"\nfound D Wstrasse\n')
        self.assertEqual(folds.spans("\u0130 die Stra\u00dfe, STRASSE"), [(6, 12), (14, 21)])

    def test_answers(self):
        self.write("notes/a b.txt", "nothing here\n the  quick red fox, " + "and more " * 40 + "\n")
        self.write("notes/c.txt", "quick\nand red\n")
        self.run_script("folder", self.path, self.at("notes"))
        self.run_script("find", self.path, "quick red")
        name = name_of("a b.txt")
        self.assertEqual(self.out, f"2 c.txt\n1 {name}\nfound 2\n")
        self.run_script("find", self.path, "quick red", "--oldest")
        self.assertEqual(self.out, f"1 {name}\n2 c.txt\nfound 2\n")
        self.run_script("find", "--context", self.path, "quick", "--oldest")
        lines = self.out.split("\n")
        self.assertRegex(lines[1], r"^    .*/notes/a b.txt:2: the quick red fox, and .*\.\.\.$")
        self.assertRegex(lines[3], r"^    .*/notes/c.txt:1: quick$")
        self.run_script("find", "--around", "1", self.path, "quick", "--limit", "1")
        self.assertRegex(self.out, r"^2 c.txt\n    .*/c.txt:1: quick\n    .*/c.txt-2- and red\n\.\.\. and 1 more\nfound 2\n$")
        for words in (("--limit", "1"), ("--last", "1")):
            self.run_script("find", self.path, "quick", *words)
            self.assertEqual(self.out, "2 c.txt\n... and 1 more\nfound 2\n")
        self.run_script("find", self.path, "quick", "--limit", "1", "--oldest")
        self.assertEqual(self.out, f"1 {name}\n... and 1 more\nfound 2\n")
        self.run_script("find", self.path, "zebra", expect=1)
        self.assertEqual(self.out, "found 0\n")
        said = self.run_script("find", self.path, "fault 8 Paren \u65e5)", expect=2)
        self.assertEqual(said.split("\n")[1:3], ["  fault 8 Paren \u65e5)", "          ^"])
        self.assertIn("no index", self.run_script("find", self.at("none"), "x", expect=3))
        self.assertIn("--limit", self.run_script("find", self.path, "x", "--limit", "-3", expect=2))

    def test_the_best_first(self):
        self.write("notes/fox.txt", "quick\n")
        self.write("notes/a.txt", "quick quick fox\n")
        self.write("notes/b.txt", "quick\n")
        # The second part of this one has more of it than the first.
        self.write("notes/long", "quick " + "word " * (LINE_LIMIT // 5) + "quick " * 9)
        self.run_script("folder", self.path, self.at("notes"))
        for words, shown in [
            (("--top", "9"), "5 long 9\n1 a.txt 2\n3 fox.txt 1\n2 b.txt 1\nfound 4\n"),
            (("--top", "2"), "5 long 9\n1 a.txt 2\n... and 2 more\nfound 4\n"),
            (("--top", "2", "--names"), "long\na.txt\n"),
            (("--newest", "--limit", "1"), "4 long\n... and 3 more\nfound 4\n"),
        ]:
            self.run_script("find", self.path, "quick", *words)
            self.assertEqual(self.out, shown)
        self.run_script("find", self.path, "quick", "--top", "2", "--json")
        self.assertEqual([json.loads(line)["score"] for line in self.out.splitlines()], [9, 2])
        self.run_script("find", self.path, "zebra", "--top", "2", expect=1)
        for words in (("--top", "0"), ("--top", "1001"), ("--top", "1", "--limit", "1"), ("--top", "1", "--oldest")):
            self.run_script("find", self.path, "quick", *words, expect=2)
        self.assertIn("! query 8 Paren", self.run_script("find", self.path, "fault 8 Paren", "--top", "1", expect=2))
        self.assertIn("older than", self.run_script("find", self.path, "quick", "--top", "1", do={"old": True}, expect=2))
        # At a prompt this is what comes, if nothing else is said, and the program can.
        for words, do, row in [((), {}, "a.txt 2\r\n"), (("--newest",), {}, "a.txt\r\n"), ((), {"old": True}, "a.txt\r\n")]:
            shown = self.typed(b"quick\n", b"quit\n", words=(*words, "--no-about", "--color", "never"), do=do)
            self.assertIn(row, shown)

    def test_for_other_programs(self):
        self.write("notes/a b.txt", "quick\n")
        self.write("notes/c.txt", "so quick\n")
        self.run_script("folder", self.path, self.at("notes"))
        paths = [os.path.realpath(self.at(f"notes/{name}")) for name in ("c.txt", "a b.txt")]
        self.run_script("find", self.path, "quick", "--paths", "-0")
        self.assertEqual(self.out, "".join(f"{path}\0" for path in paths))
        self.run_script("find", self.path, "quick", "--names")
        self.assertEqual(self.out, f"c.txt\n{name_of('a b.txt')}\n")
        self.run_script("find", self.path, "quick", "--count")
        self.assertEqual(self.out, "2\n")
        self.run_script("find", self.path, "zebra", "--count", expect=1)
        self.run_script("find", self.path, "quick", "--json", "--context", "--limit", "1")
        known = {"number": 2, "name": "c.txt", "kind": "folder", "path": paths[0], "title": "c.txt", "line": 1, "text": "so quick"}
        self.assertEqual(json.loads(self.out), {**known, "date": datetime.date.today().isoformat()})
        self.run_script("find", self.path, "quick", "--show")
        self.assertEqual(self.out, "so quick\n")
        # A file that is gone, a folder that has moved, and an index whose stamps are gone.
        os.remove(paths[0])
        self.run_script("find", self.path, "quick", "--context", "--limit", "1")
        self.assertRegex(self.out, r"\n    .*/c.txt \(gone\)\n")
        self.assertIn("find: c.txt: gone", self.run_script("find", self.path, "quick", "--show"))
        shutil.move(self.at("notes"), self.at("moved"))
        self.run_script("find", self.path, "quick", "--paths", "--oldest", "--limit", "1", "--source", self.at("moved"))
        self.assertEqual(self.out, self.at("moved/a b.txt") + "\n")
        os.remove(self.path + ".stamps")
        self.assertIn("is not known", self.run_script("find", self.path, "quick", "--context", expect=2))

    def test_parts_are_one_answer(self):
        for name in ("a.txt", "long" * 20):
            self.write(f"notes/{name}", "quick " + "word " * (LINE_LIMIT // 2) + "quick")
        self.write("notes/a.txt~p2", "quick")
        self.run_script("folder", self.path, self.at("notes"))
        self.assertGreaterEqual(len(self.bodies()), 7)
        rows = {"a.txt", name_of("a.txt~p2"), name_of("long" * 20)}
        self.run_script("find", self.path, "quick", "--names")
        self.assertEqual(sorted(self.out.split()), sorted(rows))
        self.run_script("find", self.path, "quick")
        self.assertIn("found 3\n", self.out)
        self.run_script("find", self.path, "quick", "--count")
        self.assertEqual(self.out, "3\n")
        # Fewer parts leave none of the older ones.
        self.write("notes/a.txt", "quick")
        self.assertIn("1 changed, 2 unchanged", self.run_script("folder", self.path, self.at("notes")))
        self.assertEqual([name for name in self.bodies() if name.startswith("a.txt")], [name_of("a.txt~p2"), "a.txt"])

    def test_backwards(self):
        with mock.patch.object(answer_rows, "BLOCK", 7), mock.patch.object(answer_rows, "KEPT_IN_MEMORY", 20):
            for count in (0, 1, 2, 50):
                given = [(number, f"name{number}") for number in range(1, count + 1)]
                self.assertEqual(list(answer_rows.Kept(iter(given), True)), given[::-1])
                self.assertEqual(list(answer_rows.Kept(iter(given), False)), given)

    def test_mail_and_packages(self):
        archive = (
            b"From a Mon Jan  1 00:00:00 2024\nMessage-ID: <one@x>\nFrom: ann@x\nDate: 1 Jan 2024 10:00\nSubject: Red\n\n"
            b"of a quick \x1b[2J fox\n\nFrom b Mon Jan  1 00:00:00 2024\nMessage-ID: <two@x>\nFrom: bob@x\nSubject: Re: Red\n\nquick\n"
        )
        path = self.write("mail.mbox", archive)
        self.run_script("mail", self.path, path)
        box = mailbox.Maildir(self.at("Mail"), create=True)
        box.add(b"Message-ID: <three@x>\nSubject: s\n\nthe quick letter\n")
        self.run_script("mail", self.path, self.at("Mail"))
        status = self.write("status", "Package: dog\nDescription: a dog\n quick and lazy\n\nPackage: fox\nDescription: x\n quick\n")
        self.run_script("packages", self.path, status)
        self.run_script("find", self.path, "quick", "--context", "--oldest")
        shown = [line.replace(os.path.realpath(self.place.name) + "/", "") for line in self.out.split("\n")]
        shown[7] = re.sub("new/.*: s", "new/N: s", shown[7])
        self.assertEqual(
            shown,
            [
                "1 one@x",
                "    mail.mbox: 2024-01-01 ann@x: Red",
                "    of a quick \x1b[2J fox",
                "2 two@x",
                "    mail.mbox: bob@x: Re: Red",
                "    quick",
                "3 three@x",
                "    Mail/new/N: s",
                "    the quick letter",
                "4 dog",
                "    status: dog - a dog",
                "    quick and lazy",
                "5 fox",
                "    status: fox - x",
                "    quick",
                "found 5",
                "",
            ],
        )
        self.run_script("find", self.path, "from: ann@x", "--show")
        self.assertEqual(self.out, "Subject: Red\nFrom: ann@x\nDate: 2024-01-01 20240101\n\nof a quick \x1b[2J fox\n")
        self.run_script("find", self.path, "lazy", "--json")
        known = json.loads(self.out)
        self.assertEqual(self.read(status)[known["begin"] :][: known["length"]].split(b"\n")[0], b"Package: dog")
        # By the archive alone.
        self.run_script("mail", "--show", path, "two@x")
        self.assertEqual(self.out, "Subject: Re: Red\nFrom: bob@x\n\nquick\n")
        self.run_script("mail", "--show", "--raw", path, "two@x")
        self.assertEqual(self.out, "Message-ID: <two@x>\nFrom: bob@x\nSubject: Re: Red\n\nquick\n")
        self.assertIn("it has no message three@x", self.run_script("mail", "--show", path, "three@x", expect=1))
        # A file of memory that nobody can read, whoever asks.
        said = self.run_script("mail", "--show", "/proc/self/mem", "three@x", expect=3)
        self.assertEqual(said, "mail: /proc/self/mem: Input/output error\n")
        ours, theirs = os.pipe()
        os.close(ours)
        self.assertEqual(self.run_script("mail", "--show", "--raw", path, "two@x", stdout=theirs), "")
        os.close(theirs)
        # By what the import has noted, without a walk over the archive.
        out = io.TextIOWrapper(io.BytesIO(), encoding="utf-8")
        with mock.patch.object(archives, "messages", side_effect=AssertionError("it is walked")), contextlib.redirect_stdout(out):
            self.main(mail, "--show", "--raw", self.path, "<two@x>")
            self.assertIn("it has no message four@x", self.main(mail, "--show", self.path, "four@x", expect=1))
            self.assertIn("it has no message fox", self.main(mail, "--show", self.path, "fox", expect=1))
        self.assertEqual(out.buffer.getvalue(), b"Message-ID: <two@x>\nFrom: bob@x\nSubject: Re: Red\n\nquick\n")
        # Where a message has moved, the next run notes it.
        self.write("mail.mbox", archive[archive.index(b"From b") :])
        said = self.run_script("mail", "--show", self.path, "two@x", expect=3)
        self.assertIn("two@x has moved since it was brought in: run bunco mail again\n", said)
        said = self.run_script("mail", self.path, path)
        self.assertIn("1 document: 0 added, 1 unchanged", said)
        self.assertIn("1 document of earlier runs not seen any more, and still in the index", said)
        self.run_script("find", self.path, "bob@x", "--show")
        self.assertEqual(self.out, "Subject: Re: Red\nFrom: bob@x\n\nquick\n")

    def test_prompt(self):
        self.write("notes/c.txt", "quick\n")
        self.run_script("folder", self.path, self.at("notes"))
        queries = self.write("queries", "quick\n\nfault 0 Word\nzebra\nquick\n")
        with open(queries) as file:
            said = self.run_script("find", self.path, stdin=file)
        self.assertEqual(self.out, "1 c.txt\nfound 1\nfound 0\n1 c.txt\nfound 1\n")
        self.assertIn("! query 0 Word", said)
        # These are words where no one types.
        queries = self.write("queries", "help\nquit\n")
        with open(queries) as file:
            self.run_script("find", self.path, stdin=file, expect=1)
        self.assertEqual(self.out, "found 0\nfound 0\n")

    def typed(self, *lines, words=(), do=None, **variables):
        """What a terminal shows where these lines are typed at the prompt."""
        ours, theirs = pty.openpty()
        variables = {"BUNCOCEDAR_HISTORY": self.at("history"), "TERM": "xterm", **variables}
        with mock.patch.dict(os.environ, variables):
            process = self.start("find", *words, self.path, do=do, stdin=theirs, stdout=theirs)
        os.close(theirs)
        shown = ""
        for line in lines:
            # Typed only at the prompt, which sets how the terminal reads.
            while not shown.endswith("find> "):
                shown += os.read(ours, 4096).decode()
            os.write(ours, line)
            shown += " "
        shown += read_all(ours)
        self.said = process.communicate(timeout=PATIENCE)[1]
        self.status = process.returncode
        return shown

    def test_terminal(self):
        for number in range(25):
            self.write(f"notes/{number:02}", "so quick \x1b]0;title\x07")
        self.run_script("folder", self.path, self.at("notes"))
        shown = self.typed(b"quick\n", b"fault 2 Word\n", b"\x04", words=("--color", "never", "--newest", "--no-about"))
        self.assertEqual(self.status, 2)
        self.assertIn("25 24\r\n24 23\r\n", shown)
        self.assertIn("6 05\r\n... and 5 more\r\nfound 25\r\n", shown)
        self.assertIn("! query 2 Word", self.said)
        self.typed(b"show\n", b"quit\n")
        self.assertIn('show N is of document N, or of the one of this name; "show" in quotes is looked for', self.said)
        shown = self.typed(b"help\n", b"show 3\n", b"show 24\n", b"quit\n", words=("--context",))
        self.assertEqual(self.status, 0)
        self.assertIn("show N    prints document N", shown)
        self.assertEqual(shown.count("so quick \ufffd]0;title\ufffd"), 2)
        if prompt.readline is not None:
            self.assertEqual(self.read(self.at("history")).decode().split("\n")[-5:-1], ["help", "show 3", "show 24", "quit"])
            self.assertNotIn("\x1b]0;", self.typed(b"\x1b[A\n", words=("--context",)))
            self.assertFalse(self.typed(b"quick\n", b"\x04", words=("--context",)).count("\x07"))

    def editor(self, name):
        """An editor that writes its words, and whether the file may be written, into a file; beside it is what it was given."""
        script = self.write(name, f"#!/bin/sh\nprintf '%s\\n' \"$@\" > {self.at('words')}\nfor file; do :; done\n"
                            f"cp -p \"$file\" {self.at('given')}\necho read\nexit ${{STATUS:-0}}\n")
        os.chmod(script, 0o755)
        return script

    def test_editor(self):
        self.write("notes/a b.txt", "one\ntwo\nso quick\n")
        self.write("notes/packed.gz", gzip.compress(b"a quick one"))
        self.run_script("folder", self.path, self.at("notes"))
        archive = b"From a Mon Jan  1 00:00:00 2024\nMessage-ID: <one@x>\nFrom: ann@x\nSubject: Red\n\nof a fox\n"
        self.run_script("mail", self.path, self.write("mail.mbox", archive))
        path = os.path.realpath(self.at("notes/a b.txt"))
        # An editor that takes a line, with words of its own, and one of which that is not known.
        for variables, words in [
            ({"VISUAL": self.editor("vi") + " -u none", "EDITOR": "no"}, ["-u", "none", "+3", path]),
            ({"VISUAL": "", "EDITOR": self.editor("other")}, [path]),
        ]:
            with mock.patch.dict(os.environ, variables):
                self.run_script("find", self.path, "so quick", "--edit")
            self.assertEqual((self.out, self.read(self.at("words")).decode().split("\n")), ("read\n", [*words, ""]))
        # What is no file of its own is a copy that can't be written, and goes with the editor.
        with mock.patch.dict(os.environ, {"VISUAL": self.editor("vi")}):
            for query, name, content in [
                ("fox", "one@x.txt", "Subject: Red\nFrom: ann@x\n\nof a fox\n"),
                ("packed.gz", "packed.gz.txt", "a quick one\n"),
            ]:
                self.run_script("find", self.path, query, "--edit")
                line, opened, _ = self.read(self.at("words")).decode().split("\n")
                self.assertEqual((line, os.path.basename(opened)), ("+4" if query == "fox" else "+1", name))
                self.assertEqual(self.read(self.at("given")).decode(), content)
                self.assertFalse(os.stat(self.at("given")).st_mode & 0o222)
                self.assertFalse(os.path.exists(os.path.dirname(opened)))
            # At the prompt, by number and by name; what was asked for before says the line.
            self.typed(b"so quick\n", b"edit 1\n", b"quit\n")
            self.assertEqual(self.read(self.at("words")).decode().split("\n")[0], "+3")
            self.typed(b"edit one@x\n", b"edit 99\n", b"quit\n")
            self.assertEqual(self.read(self.at("words")).decode().split("\n")[0], "+1")
            self.assertIn("find: 99: where it was found is not known", self.said)
            self.assertEqual(self.status, 1)
            with mock.patch.dict(os.environ, {"STATUS": "3"}):
                said = self.run_script("find", self.path, "fox", "--edit", expect=1)
            self.assertIn("the editor ended with status 3", said)
        with mock.patch.dict(os.environ, {"VISUAL": "/no/such"}):
            self.assertIn("the editor cannot be started", self.run_script("find", self.path, "fox", "--edit", expect=1))
        self.assertIn("--edit goes with a query", self.run_script("find", self.path, "--edit", expect=2))
        self.run_script("find", self.path, "zebra", "--edit", expect=1)

    def test_colours(self):
        self.write("notes/c.txt", "so Quick, quick\n")
        self.run_script("folder", self.path, self.at("notes"))
        for choice, marked in (("always", True), ("never", False), ("auto", False)):
            self.run_script("find", self.path, "quick", "--context", "--color", choice)
            self.assertEqual(self.out.count(terminal.MARK), 2 * marked)

    def test_pager(self):
        self.write("notes/c.txt", "quick\n")
        self.run_script("folder", self.path, self.at("notes"))
        for pager, shows in (("sed s/^/paged:/", "paged:1 c.txt\r\npaged:found 1\r\n"), ("/no/such", "1 c.txt\r\nfound 1\r\n")):
            ours, theirs = pty.openpty()
            with mock.patch.dict(os.environ, {"PAGER": pager}):
                process = self.start("find", "--color", "never", "--no-about", self.path, "quick", stdout=theirs)
            os.close(theirs)
            self.assertEqual(read_all(ours), shows)
            process.communicate(timeout=PATIENCE)
            self.assertEqual(process.returncode, 0)


class RealProgram(Case):
    """A mailbox that does not fit in one index of today, killed in the middle, and brought in again."""

    def setUp(self):
        if PROGRAM is None:
            self.skipTest("no program")
        super().setUp()
        self.program = PROGRAM

    def mailbox(self, count, words):
        parts = [
            b"From a@b Mon Jan  1 00:00:00 2024\nMessage-ID: <%d@x>\nSubject: letter %d\n\n" % (number, number)
            + b"w%d " % number
            + b"letter " * words
            + b"\n\n"
            for number in range(count)
        ]
        return self.write("mail.mbox", b"".join(parts))

    def documentation(self, count):
        """A mailbox of paragraphs of the changelogs that are installed, and the text of each name."""
        paragraphs = []
        for path in sorted(glob.glob("/usr/share/doc/*/changelog*.gz")):
            with gzip.open(path, "rt", encoding="utf-8", errors="replace") as file:
                entries = [" ".join(entry.split()) for entry in file.read(20_000).split("\n\n")]
            paragraphs += [entry[:400] for entry in entries if 40 <= len(entry)][: count // 20]
        if len(paragraphs) < count:
            self.skipTest("too few changelogs are installed")
        box = mailbox.mbox(self.at("doc.mbox"))
        for number, paragraph in enumerate(paragraphs[:count]):
            message = email.message.EmailMessage()
            message["Message-ID"] = f"<{number}@doc>"
            message["Subject"] = paragraph[:40]
            message.set_content(paragraph)
            box.add(message)
        box.close()
        return self.at("doc.mbox"), {f"{number}@doc": paragraph.casefold() for number, paragraph in enumerate(paragraphs[:count])}

    def found(self, query):
        self.run_script("find", self.path, query)
        return self.out.strip().split("\n")[:-1]

    def kill_in_the_middle(self, path):
        process = self.start("mail", self.path, path)
        stamps = self.path + ".stamps"
        until(lambda: os.path.exists(stamps) and os.path.getsize(stamps) > 5_000 or process.poll() is not None)
        process.kill()
        process.communicate()

    def test_no_wider_rights_than_the_source_by_way_of_memory(self):
        box = self.mailbox(1, 1)
        os.chmod(box, 0o600)
        self.addCleanup(os.umask, os.umask(0o022))
        self.assertIn("1 added", self.run_script("mail", "--fast", self.path, box))
        self.assertEqual([os.stat(path).st_mode & 0o777 for path in (self.path, self.path + ".stamps")], [0o600, 0o600])

    def test_killed_and_brought_in_again(self):
        path = self.mailbox(1000, 20)
        self.kill_in_the_middle(path)
        said = self.run_script("mail", self.path, path)
        parts = re.findall(r"([\d,]+) ([a-z ]+)", said.split("documents: ")[1])
        counts = {kind: int(number.replace(",", "")) for number, kind in parts}
        self.assertEqual(sum(counts.values()), 1000, said)
        self.assertLessEqual(counts.get("added again", 0), 64)
        self.assertIn("0 added, 1,000 unchanged", self.run_script("mail", self.path, path))
        names = [row.split()[1] for row in self.found("letter")]
        self.assertEqual(sorted(names), sorted(f"{number}@x" for number in range(1000)))
        self.assertEqual([row.split()[1] for row in self.found("w77 OR title:77")], ["77@x"])

    def test_installed_documentation(self):
        path, texts = self.documentation(1000)
        self.kill_in_the_middle(path)
        self.run_script("mail", self.path, path)
        self.assertIn("0 added, 1,000 unchanged", self.run_script("mail", self.path, path))
        words = collections.Counter(word for text in texts.values() for word in set(text.split()) if word.isascii() and word.isalpha())
        for word, _ in words.most_common(8):
            # A word that stands between blanks is found, and what is found has the word.
            names = {row.split()[1] for row in self.found(word)}
            self.assertLessEqual({name for name, text in texts.items() if word in text.split()}, names, word)
            self.assertLessEqual(names, {name for name, text in texts.items() if word in text}, word)

    def sixteen_levels(self):
        """Makes an index with as many levels as there may be."""
        lines = "".join(f"add p{i}\t\tx\nflush\n" for i in range(16))
        subprocess.run([PROGRAM, self.path, "init"], check=True)
        subprocess.run([PROGRAM, self.path, "run"], input=lines.encode(), stdout=subprocess.DEVNULL, check=True)

    def test_more_than_sixteen_levels(self):
        path = self.mailbox(200, 1000)
        self.sixteen_levels()
        self.assertIn("200 documents: 200 added\n", self.run_script("mail", self.path, path))
        self.assertEqual(len(self.found("letter")), 200)
        self.assertEqual(len(self.found("x")), 16)
        self.assertIn("200 documents: 0 added, 200 unchanged\n", self.run_script("mail", self.path, path))

    def memory(self):
        """A folder in which an import may make an index, and nobody else."""
        folder = tempfile.TemporaryDirectory()
        self.addCleanup(folder.cleanup)
        return folder.name

    def test_made_beside(self):
        path = self.mailbox(50, 1000)
        said = self.run_script("mail", "--fast", self.path, path)
        self.assertIn("50 documents: 50 added\n", said)
        self.assertEqual(sorted(os.listdir(self.place.name)), ["mail.mbox", "x.alta", "x.alta.stamps"])
        self.assertEqual(len(self.found("letter")), 50)
        self.assertEqual(self.found("w7"), ["8 7@x"])
        # The index is there now, and is added to.
        path = self.mailbox(60, 1000)
        said = self.run_script("mail", "--fast", self.path, path)
        self.assertIn("x.alta is there already", said)
        self.assertIn("60 documents: 10 added, 50 unchanged\n", said)
        # Where a link leads an index is made as without --fast.
        os.symlink("z.alta", self.at("link"))
        self.assertIn("added to where it stands", self.run_script("mail", "--fast", self.at("link"), path))
        self.assertTrue(os.path.islink(self.at("link")) and os.path.getsize(self.at("z.alta")))
        # An interrupt keeps what was done.
        self.path = self.at("y.alta")
        memory = self.memory()
        process = self.start("packages", "--fast", self.path, memory=memory, stdin=subprocess.PIPE)
        process.stdin.write("".join(f"Package: p{i}\nDescription: letter {i}\n\n" for i in range(5)))
        process.stdin.flush()
        until(lambda: any(b"letter 4" in self.read(beside) for beside in glob.glob(f"{memory}/{bringing.BESIDE}*/index.alta")))
        self.assertFalse(os.path.exists(self.path))
        process.send_signal(signal.SIGINT)
        self.assertIn("5 documents: 5 added\n", process.communicate(timeout=PATIENCE)[1])
        self.assertEqual(process.returncode, 130)
        self.assertEqual(len(self.found("letter")), 5)

    def test_what_an_import_left_that_was_killed(self):
        memory = self.memory()
        beside = f"{memory}/{bringing.BESIDE}*"
        process = self.start("packages", "--fast", self.path, memory=memory, stdin=subprocess.PIPE)
        process.stdin.write("Package: p\nDescription: letter\n\n")
        process.stdin.flush()
        until(lambda: any(b"letter" in self.read(index) for index in glob.glob(beside + "/index.alta")))
        (left,) = glob.glob(beside)
        process.kill()
        process.communicate()
        self.assertTrue(os.path.exists(left))
        self.write(".making-abcdefgh/index.alta", "half")
        self.write(".making-abcdefgh/lock", "")
        status = self.write("status", "Package: q\nDescription: letter\n")
        said = self.run_script("packages", "--fast", self.path, status, memory=memory)
        self.assertIn(f"packages: {left} is taken away: an import that was killed has left it\n", said)
        self.assertFalse(os.path.exists(left))
        self.assertEqual(self.found("letter"), ["1 q"])
        self.assertEqual(sorted(os.listdir(self.place.name)), ["status", "x.alta", "x.alta.stamps"])
        self.write(".making-abcdefgh/index.alta", "half")
        self.write(".making-abcdefgh/lock", "")
        self.assertIn("an import that was killed", self.run_script("packages", self.path, status))
        self.assertFalse(os.path.exists(self.at(".making-abcdefgh")))

    def test_an_index_whose_place_was_taken_meanwhile(self):
        def documents():
            self.write("x.alta", "of another one")
            yield Document("a", b"", lambda: Text("", "letter"))

        told = io.StringIO()
        with mock.patch.dict(os.environ, {"BUNCOCEDAR_PROGRAM": PROGRAM}), contextlib.redirect_stderr(told):
            with mock.patch.object(bringing, "memory_folder", lambda: self.place.name):
                self.assertEqual(bringing.bring("mail", self.path, stamps.Source("mail", "box"), documents(), fast=True), 3)
        (kept,) = glob.glob(self.at("kept-*/index.alta"))
        self.assertIn(f"stands in {kept}", told.getvalue())
        self.assertEqual(self.read(self.path), b"of another one")
        os.remove(self.path)
        self.run_script("compact", kept, self.path)
        self.assertEqual(self.found("letter"), ["1 a"])
        self.assertEqual(set(stamps.Records(self.path + ".stamps").of), {"a"})

    def test_back_to_a_message(self):
        path = self.write(
            "mail.mbox",
            b"From a Mon Jan  1 00:00:00 2024\nMessage-ID: <a@x>\nFrom: Ann Lee <ann@example.org>\nTo: bob@example.org\n"
            b"Date: Tue, 2 Jan 2024 10:00:00 +0100\nSubject: Report\nContent-Type: multipart/mixed; boundary=b\n\n--b\n\n"
            b"The report of\nthe year.\n--b\nContent-Type: application/pdf; name=plan.pdf\n\nx\n--b--\n\n"
            b"From b Mon Jan  1 00:00:00 2024\nMessage-ID: <b@x>\nFrom: bob@example.org\nTo: ann@example.org\n\nThanks, Ann.\n",
        )
        self.run_script("mail", self.path, path)
        for query, rows in [
            ('"from ann"', ["1 a@x"]),
            ("from NEAR/3 bob", ["2 b@x"]),
            ('"to bob"', ["1 a@x"]),
            ("20240102", ["1 a@x"]),
            ("2024*", ["1 a@x"]),
            ('"attachment plan.pdf"', ["1 a@x"]),
            ("ann", ["2 b@x", "1 a@x"]),
        ]:
            self.assertEqual(self.found(query), rows, query)
        self.run_script("find", self.path, '"report of the year"', "--context")
        self.assertRegex(self.out, r"1 a@x\n    .*mail.mbox: 2024-01-02 Ann Lee <ann@example.org>: Report\n    The report of\nfound 1\n")
        self.run_script("find", self.path, "name:b@x", "--show")
        self.assertEqual(self.out, "Subject: \nFrom: bob@example.org\nTo: ann@example.org\n\nThanks, Ann.\n")

    def test_long_documents(self):
        # The last words of a part begin the next one, so that no phrase is lost.
        words = [f"w{number}" for number in range(LINE_LIMIT // 2)]
        self.write("notes/long.txt", "\n".join(words))
        self.run_script("folder", self.path, self.at("notes"))
        parts = len(stamps.Records(self.path + ".stamps").of["long.txt"].numbers)
        self.assertGreater(parts, 1)
        with Index(self.path, program=PROGRAM) as index:
            self.assertEqual(index.stats().documents, parts)
            lost = [at for at in range(len(words) - 1) if at % 97 == 0 and not index.count(f'"{words[at]} {words[at + 1]}"')]
            self.assertEqual(lost, [])
            # Each border has its words twice, and so each phrase over it.
            text = Text("long.txt", "\n".join(words))
            begins = [body.split(" ")[:2] for _, _, body in parts_of("long.txt", text, False)[1:]]
            self.assertEqual([index.count(f'"{first} {second}"') for first, second in begins], [2] * (parts - 1))
        self.run_script("find", self.path, words[-1], "--context")
        self.assertRegex(self.out, rf"long.txt:{len(words)}: {words[-1]}\nfound 1")

    def test_more_than_a_journal(self):
        path = self.mailbox(200, 1000)
        self.assertIn("200 documents: 200 added\n", self.run_script("mail", self.path, path))
        self.assertEqual(len(self.found("letter")), 200)


def take_program(path):
    global PROGRAM
    PROGRAM = path


if __name__ == "__main__":
    run_tests("imports", take_program)
