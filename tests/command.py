#!/usr/bin/env python3
"""Tests of the command `bunco`: its help, its manual pages, its completion, and the commands that have no test of their own.

usage: tests/command.py [--program PATH]

Without --program the tests of the real program are left out, and that is said.
"""

import contextlib
import errno
import io
import json
import os
import shutil
import signal
import subprocess
import sys
import tempfile
import unittest
from unittest import mock

# It lets the others find the client of the checkout.
from support import BUNCO, CLIENT, PATIENCE, run_tests  # isort: skip

import fake
from buncocedar import Index, __version__
from buncocedar.tools import check
from buncocedar.tools.completion import bash, zsh
from buncocedar.tools.main import COMMANDS, usage
from buncocedar.tools.manual import page_of, page_of_all, roff_of, text_of
from buncocedar.tools.options import options_of

FAKE = fake.installed()
PROGRAM = None

# The words of a command line whose last one is being typed, and what the completion in bash gives for it.
COMPLETED = [
    (["bunco", ""], ["init", "find", "help"]),
    (["bunco", "fi"], ["find"]),
    (["bunco", "help", "fol"], ["folder"]),
    (["bunco", "find", "--col"], ["--color"]),
    (["bunco", "find", "x.alta", "--color", ""], ["auto", "always", "never"]),
    (["bunco", "find", "x.alta", "--limit", ""], []),
    (["bunco", "mail", "--no"], ["--no-merge", "--no-attachments"]),
    (["bunco", "mail", ""], []),
    (["bunco", "completion", "z"], ["zsh"]),
    (["bunco", "nothing", "--x"], []),
]


class Case(unittest.TestCase):
    program = FAKE

    def setUp(self):
        folder = tempfile.TemporaryDirectory()
        self.addCleanup(folder.cleanup)
        self.folder = folder.name
        self.path = os.path.join(folder.name, "x.alta")

    def bunco(self, *words, status=0, do=None, **options):
        """What a command prints on its two streams; it has to end with this status."""
        environment = {**os.environ, "BUNCOCEDAR_PROGRAM": self.program, "FAKE": json.dumps(do or {})}
        options = {"stdin": subprocess.DEVNULL, "stdout": subprocess.PIPE, "stderr": subprocess.PIPE, **options}
        command = [sys.executable, "-S", BUNCO, *words]
        done = subprocess.run(command, env=environment, text=True, timeout=PATIENCE, **options)
        self.assertEqual(done.returncode, status, done.stderr)
        return done.stdout, done.stderr

    def filled(self):
        """The index with two documents."""
        with Index(self.path, create=True, program=self.program) as index:
            index.add("a", "Red Fox", "the quick fox")
            index.add("b", "", "lazy dog")


class Help(Case):
    def test_on_one_screen(self):
        for words in (["--help"], ["-h"], ["help"]):
            self.assertEqual(self.bunco(*words), (usage() + "\n", ""))
        lines = usage().split("\n")
        self.assertLessEqual(len(lines), 24)
        self.assertLessEqual(max(map(len, lines)), 80)
        for command in COMMANDS:
            self.assertIn(f"  {command.name} ", usage())

    def test_wrong_words(self):
        self.assertEqual(self.bunco(status=2), ("", usage() + "\n"))
        wrong = "bunco: fnd is no command: bunco --help lists them\n"
        self.assertEqual(self.bunco("fnd", status=2), ("", wrong))
        self.assertEqual(self.bunco("help", "fnd", status=2), ("", wrong))
        self.assertEqual(self.bunco("completion", "fish", status=2), ("", "usage: bunco completion bash | zsh\n"))
        self.assertEqual(self.bunco("--version"), (f"bunco {__version__}\n", ""))

    def test_versions(self):
        said = self.bunco("--version")
        self.assertRegex(said[0], r"^bunco [0-9.]+\n$")
        for command in COMMANDS:
            self.assertEqual(self.bunco(command.name, "--version"), said)

    def test_closed_streams(self):
        self.filled()
        for words in (["--help"], ["dump", self.path], ["find", self.path, "fox"]):
            for closed, status in ((">&-", 3), (">/dev/full", 3), ("<&-", 0), ("2>&-", 0), ("<&- >&- 2>&-", 3)):
                command = ["sh", "-c", f'exec "$@" {closed}', "sh", sys.executable, "-S", BUNCO, *words]
                done = subprocess.run(command, env={**os.environ, "BUNCOCEDAR_PROGRAM": self.program}, capture_output=True, text=True)
                self.assertEqual(done.returncode, status, (words, closed, done.stderr))
                self.assertNotIn("Traceback", done.stderr, (words, closed))
                self.assertEqual(bool(done.stderr), status == 3 and "2>" not in closed, (words, closed, done.stderr))

    def test_what_standard_error_does_not_take(self):
        """An import goes on, and ends as it would: all is stored, and one file is refused. Answers come without their hints."""
        notes = os.path.join(self.folder, "notes")
        os.mkdir(notes)
        for closed in ("2>&-", "2>/dev/full"):
            path = f"{self.path}{closed[2:].replace('/', '-')}"
            for texts, status in (({"m.txt": b"fox"}, 0), ({"a.txt": b"stra\337e", "z.txt": b"dog"}, 1)):
                for name, text in texts.items():
                    with open(os.path.join(notes, name), "wb") as file:
                        file.write(text)
                command = ["sh", "-c", f'exec "$@" {closed}', "sh", sys.executable, "-S", BUNCO, "folder", path, notes]
                done = subprocess.run(command, env={**os.environ, "BUNCOCEDAR_PROGRAM": self.program})
                self.assertEqual(done.returncode, status, (closed, texts))
            with Index(path, program=self.program) as index:
                self.assertEqual(index.stats().documents, 2)
            command[-3:] = ["find", path, "from:nobody"]
            done = subprocess.run(command, env={**os.environ, "BUNCOCEDAR_PROGRAM": self.program}, stdout=subprocess.PIPE)
            self.assertEqual((done.returncode, done.stdout[-8:]), (1, b"found 0\n"))
            for name in os.listdir(notes):
                os.remove(os.path.join(notes, name))

    def test_a_reader_that_has_enough(self):
        theirs, ours = os.pipe()
        os.close(theirs)
        self.filled()
        with open(ours, "w") as closed:
            self.assertEqual(self.bunco("completion", "zsh", stdout=closed), (None, ""))
            # The file of the fake program is no index, and the status says it all the same.
            self.assertEqual(self.bunco("check", self.path, "--quick", stdout=closed, status=1), (None, ""))

    def test_as_a_module(self):
        done = subprocess.run(
            [sys.executable, "-m", "buncocedar", "--version"],
            env={**os.environ, "PYTHONPATH": CLIENT},
            capture_output=True,
            text=True,
        )
        self.assertEqual(done.stdout, f"bunco {__version__}\n")

    def test_what_is_loaded(self):
        """A command begins without what only others need: that takes longer than most answers."""
        needless = {"asyncio", "ssl", "uuid", "email", "html", "buncocedar.shards.index"}
        for module, more in (("buncocedar", {"sqlite3"}), ("buncocedar.tools.find", {"buncocedar.imports.engine", "sqlite3", "datetime"}), ("buncocedar.imports.folder", set())):
            loads = f"import sys, {module}; print(*sys.modules)"
            done = subprocess.run([sys.executable, "-S", "-c", loads], env={**os.environ, "PYTHONPATH": CLIENT}, stdout=subprocess.PIPE, text=True, check=True)
            self.assertFalse((needless | more) & set(done.stdout.split()), module)
        from buncocedar import AsyncIndex
        from buncocedar.shards import ShardedIndex

        self.assertEqual((AsyncIndex.__name__, ShardedIndex.__name__), ("AsyncIndex", "ShardedIndex"))

    def test_manual_pages(self):
        for command in COMMANDS:
            page = page_of(command)
            text = text_of(page, 80)
            self.assertEqual(self.bunco("help", command.name), (text + "\n", ""))
            self.assertLessEqual(max(map(len, text.split("\n"))), 80, command.name)
            for option in options_of(command.load().parser()):
                self.assertIn(option.spelled() + "\n", text)
                self.assertTrue(option.about or option.spelled() == "INDEX", (command.name, option))
            titles = [section.title for section in page.sections]
            self.assertEqual(titles[:2] + titles[-2:], ["DESCRIPTION", "OPTIONS", "EXIT STATUS", "SEE ALSO"])

    def test_pages_for_man(self):
        if shutil.which("groff") is None:
            self.skipTest("groff is missing, which would read the pages")
        for page in [page_of_all(), *map(page_of, COMMANDS)]:
            words = ["groff", "-man", "-ww", "-Tascii", "-P-c"]
            done = subprocess.run(words, input=roff_of(page), capture_output=True, text=True)
            self.assertEqual((done.returncode, done.stderr), (0, ""), page.name)
            self.assertIn(page.sections[-1].parts[0].split(",")[0], done.stdout)


class Completion(Case):
    def test_bash(self):
        script = os.path.join(self.folder, "completion")
        with open(script, "w") as file:
            file.write(bash())
        ask = 'source "$1"; shift; COMP_WORDS=("$@"); COMP_CWORD=$(($# - 1)); _bunco; printf "%s\\n" "${COMPREPLY[@]}"'
        for words, wanted in COMPLETED:
            done = subprocess.run(["bash", "-c", ask, "bash", script, *words], capture_output=True, text=True)
            self.assertEqual(done.stderr, "", words)
            found = done.stdout.split()
            # Of a word that is still empty some are looked at.
            self.assertTrue(set(wanted) <= set(found) if words[-1:] == [""] else wanted == found, (words, found))
            self.assertEqual(bool(wanted), bool(found), (words, found))
        self.assertEqual(self.bunco("completion", "bash"), (bash(), ""))

    def test_zsh(self):
        self.assertEqual(self.bunco("completion", "zsh"), (zsh(), ""))
        for command in COMMANDS:
            self.assertIn(f"        {command.name}) _arguments ", zsh())
        if shutil.which("zsh") is None:
            self.skipTest("zsh is missing, which would read the completion")
        script = os.path.join(self.folder, "_bunco")
        with open(script, "w") as file:
            file.write(zsh())
        done = subprocess.run(["zsh", "-n", script], capture_output=True, text=True)
        self.assertEqual((done.returncode, done.stderr), (0, ""))
        # Its own completion system takes the lists: an option that is wrong in form is told as one.
        ask = "autoload -Uz compinit && compinit -u -d $2 && source $1 && print ${_comps[bunco]}"
        words = ["zsh", "-f", "-c", ask, "zsh", script, os.path.join(self.folder, "dump")]
        done = subprocess.run(words, capture_output=True, text=True)
        self.assertEqual((done.stdout, done.stderr), ("_bunco\n", ""))


class Commands(Case):
    def test_init(self):
        self.bunco("init", self.path)
        with Index(self.path, program=self.program) as index:
            self.assertEqual(index.stats().documents, 0)
        before = os.stat(self.path)
        self.assertIn("is there already", self.bunco("init", self.path, status=3)[1])
        self.assertEqual(os.stat(self.path).st_mtime_ns, before.st_mtime_ns)
        missing = os.path.join(self.folder, "none")
        there = os.path.join(missing, "x")
        self.assertEqual(self.bunco("init", there, status=3)[1], f"init: {there}: no index can be made: No such file or directory\n")
        self.assertEqual(self.bunco("check", there, status=3)[1], f"check: {there}: No such file or directory\n")
        self.assertEqual(self.bunco("compact", self.path, there, status=3)[1], f"compact: {missing}: No such file or directory\n")
        self.assertEqual(self.bunco("folder", "--fast", there, self.folder, status=3)[1], f"folder: {there}: {missing}: No such file or directory\n")
        self.bunco("init", status=2)

    def test_a_check_without_room(self):
        self.filled()
        told, full = io.StringIO(), OSError(errno.ENOSPC, os.strerror(errno.ENOSPC))
        self.addCleanup(signal.signal, signal.SIGTERM, signal.getsignal(signal.SIGTERM))
        with mock.patch.object(check, "copy_into", side_effect=full), contextlib.redirect_stderr(told):
            self.assertEqual(check.main([self.path]), 3)
        self.assertIn(f"No space left on device, in {self.folder}, where a copy is read: --tmp names another folder", told.getvalue())

    def test_dump(self):
        self.filled()
        out, err = self.bunco("dump", self.path)
        self.assertEqual((out, err), ("add a\tred fox\tthe quick fox\nadd b\t\tlazy dog\n", ""))
        self.assertIn("no index", self.bunco("dump", os.path.join(self.folder, "none"), status=3)[1])
        with open("/dev/full", "w") as full:
            self.assertIn("No space left", self.bunco("dump", self.path, status=3, stdout=full)[1])

    def test_a_dump_that_leaves_one_out(self):
        self.filled()
        if self.program is FAKE:
            said = self.bunco("dump", self.path, status=1, do={"say": [1, "skipped 1 a\nadd b\t\tlazy dog\ndumped 2"]})
            self.assertEqual(said, ("add b\t\tlazy dog\n", "dump: a: its words give no line, so it is left out\n"))

    def test_a_status_that_can_not_be_had(self):
        missing = os.path.join(self.folder, "none")
        out, err = self.bunco("status", missing, status=3)
        self.assertIn("no such file", err.lower())
        self.assertEqual(out.strip(), "")


class CommandsReal(Commands):
    @classmethod
    def setUpClass(cls):
        if PROGRAM is None:
            raise unittest.SkipTest("no program")
        cls.program = PROGRAM

    def test_status(self):
        notes = os.path.join(self.folder, "notes")
        os.mkdir(notes)
        for name in ("a", "b"):
            with open(os.path.join(notes, name), "w") as file:
                file.write("the quick red fox")
        self.bunco("folder", self.path, notes)
        out, _ = self.bunco("status", self.path)
        self.assertIn(f"{self.path}: 2 documents of ", out)
        self.assertIn("the next one gets the number 3\n", out)
        self.assertIn(" bytes, of which 0 are free room; levels: ", out)
        self.assertIn(f"2 documents by bunco folder from {os.path.realpath(notes)}\n", out)
        known = json.loads(self.bunco("status", "--json", self.path)[0])
        self.assertEqual((known["documents"], known["next"], known["free"], known["holder"]), (2, 3, 0, None))
        with Index(self.path, program=self.program):
            out, err = self.bunco("status", self.path, status=3)
        self.assertIn(" bytes, of which ", out)
        self.assertIn(f"{self.path}: open in process ", out)
        self.assertIn("is open in", err)


def take_program(path):
    global PROGRAM
    PROGRAM = path


if __name__ == "__main__":
    run_tests("command", take_program)
