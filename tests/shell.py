#!/usr/bin/env python3
"""Tests of `bunco shell`, at a terminal and behind a pipe, and of what `bunco find` takes and gives there.

usage: tests/shell.py [--program PATH]

Without --program the fake program stands for the real one, and that is said.
"""

import os
import pty
import select
import subprocess
import sys
import tempfile
import time
import unittest

import fake
from support import BUNCO, PATIENCE, run_tests

PROGRAM = fake.installed()


class Terminal:
    """The shell, or another command, at a terminal of its own."""

    def __init__(self, words, environment, command="shell"):
        self.process, self.file = pty.fork()
        if self.process == 0:
            os.execve(sys.executable, [sys.executable, BUNCO, command, *words], {**environment, "TERM": "dumb"})
        self.seen = ""

    def wait_for(self, text):
        """All that is written up to this text."""
        end = time.monotonic() + PATIENCE
        while text not in self.seen:
            if not select.select([self.file], [], [], max(0, end - time.monotonic()))[0]:
                raise AssertionError(f"{text!r} does not come behind {self.seen!r}")
            self.seen += os.read(self.file, 4096).decode(errors="replace")
        seen, _, self.seen = self.seen.partition(text)
        return seen + text

    def type(self, text):
        os.write(self.file, text.encode())

    def status(self):
        """The exit status, once it has ended. What it wrote before is in `seen`."""
        try:
            while data := os.read(self.file, 4096):
                self.seen += data.decode(errors="replace")
        except OSError:
            pass
        _, status = os.waitpid(self.process, 0)
        os.close(self.file)
        return os.waitstatus_to_exitcode(status)


class Case(unittest.TestCase):
    def setUp(self):
        folder = tempfile.TemporaryDirectory()
        self.addCleanup(folder.cleanup)
        self.path = os.path.join(folder.name, "x.alta")
        self.history = os.path.join(folder.name, "state", "history")
        self.environment = {**os.environ, "BUNCOCEDAR_PROGRAM": PROGRAM, "BUNCOCEDAR_HISTORY": self.history}

    def terminal(self, *words):
        terminal = Terminal([self.path, *words], self.environment)
        terminal.wait_for("alta> ")
        return terminal

    def piped(self, text, *words, command="shell", **variables):
        """Its status and what it wrote; lone surrogates in the text and there are bytes that are no text."""
        done = subprocess.run(
            [sys.executable, BUNCO, command, self.path, *words],
            input=text.encode(errors="surrogateescape"),
            env={**self.environment, **variables},
            capture_output=True,
            timeout=PATIENCE,
        )
        return done.returncode, *(data.decode(errors="surrogateescape") for data in (done.stdout, done.stderr))


class AtATerminal(Case):
    def test_commands(self):
        terminal = self.terminal("--create")
        for typed, shown in [
            ("add a\n", "title> "),
            ("Red Fox\n", "body> "),
            ("the quick red fox\n", "added 1"),
            ("search fox\n", "1 a"),
            ("count fox\n", "found 1"),
            ("help\n", "explain QUERY"),
            ("open fox\n", "cursor 1"),
            ("fetch 1 5\n", "end"),
            ("close 1\n", "closed 1"),
            ("close 1\n", "! no such cursor"),
            ("top 3 fox\n", "1 a 5"),
            ("dump\n", "add a    red fox    the quick red fox"),
            ("stats\n", "documents 1 words 6 next 2"),
            ("flush\n", "ok"),
            ("delete a\n", "deleted 1"),
        ]:
            terminal.type(typed)
            terminal.wait_for(shown)
        terminal.wait_for("alta> ")
        terminal.type("quit\n")
        self.assertEqual(terminal.status(), 0)

    def test_history_over_sessions(self):
        terminal = self.terminal("--create")
        terminal.type("count zebra\n")
        terminal.wait_for("found 0")
        terminal.wait_for("alta> ")
        terminal.type("\x04")
        self.assertEqual(terminal.status(), 0)
        with open(self.history) as file:
            self.assertIn("count zebra\n", file.read())
        terminal = self.terminal()
        # The line above, which is of the session before.
        terminal.type("\x10\n")
        terminal.wait_for("found 0")
        terminal.wait_for("alta> ")
        terminal.type("quit\n")
        self.assertEqual(terminal.status(), 0)

    def test_what_would_steer_the_terminal(self):
        terminal = self.terminal("--create")
        terminal.type("explain (\x16\x1b]0;x\n")
        said = terminal.wait_for("alta> ")
        self.assertNotIn("\x1b]0;x\r\n  ", said.split("\n", 1)[1])
        terminal.type("quit\n")
        self.assertEqual(terminal.status(), 0)

    def test_an_interrupt_at_the_prompt(self):
        terminal = self.terminal("--create")
        terminal.type("count ze\x03")
        terminal.wait_for("alta> ")
        terminal.type("stats\n")
        terminal.wait_for("documents 0")
        terminal.wait_for("alta> ")
        terminal.type("quit\n")
        self.assertEqual(terminal.status(), 0)


    def test_names_of_files(self):
        # None steers the terminal, also where it has colours; another program gets the bytes.
        folder = os.path.join(os.path.dirname(self.path), "notes")
        os.mkdir(folder)
        with open(os.path.join(folder, "\x1b]0;x\x07"), "w") as file:
            file.write("fox")
        self.assertEqual(self.piped("", folder, command="folder")[0], 0)
        for more in (["--paths"], ["--context"], ["--names"], []):
            find = Terminal([self.path, "fox", "--color", "always", "--no-pager", *more], self.environment, "find")
            self.assertEqual(find.status(), 0)
            self.assertNotIn("\x1b]", find.seen)
            self.assertEqual("notes/\ufffd]0;x\ufffd" in find.seen, more != ["--names"], find.seen)
        self.assertEqual(self.piped("", "fox", "--paths", command="find")[:2], (0, f"{folder}/\x1b]0;x\x07\n"))


class BehindAPipe(Case):
    def test_lines(self):
        text = "add a\tRed Fox\tthe quick red fox\nsearch fox\n\ncount fox\nstats\nexplain fox\ntop 1 fox\ndump\n"
        status, out, err = self.piped(text, "--create")
        self.assertEqual((status, err), (0, ""))
        self.assertEqual(out.split("\n")[:5], ["added 1", "1 a", "found 1", "found 1", "documents 1 words 6 next 2"])
        self.assertEqual(out.split("\n")[5], '"fox"')
        self.assertEqual(out.split("\n")[-5:-1], ["1 a 5", "found 1", "add a\tred fox\tthe quick red fox", "dumped 1"])

    def test_refusals(self):
        for line, said in [
            ("quit", "! unknown command\n"),
            ("delete b", "! no such document\n"),
            ("close 7", "! no such cursor\n"),
            ("top 0 x", "! bad line\n"),
            (f"top {'9' * 5_000} x", "! bad line\n"),
            ("delete \udce9", "! not UTF-8\n"),
            ("what \udce9", "! not UTF-8\n"),
            ("count \udce9", "! not UTF-8\n"),
            ("add a\tcaf\udce9\t", "! not UTF-8\n"),
            ("count fault 15 Paren )", f"\n  fault 15 Paren )\n{' ' * 17}^\n"),
            ("top 3 fault 15 Paren )", f"\n  fault 15 Paren )\n{' ' * 17}^\n"),
        ]:
            status, out, err = self.piped(f"{line}\nstats\n", "--create")
            self.assertEqual((status, out), (1, "documents 0 words 0 next 1\n"), line)
            self.assertTrue(err.endswith(said), err)

    def test_bytes(self):
        # They reach the program as they are, whatever the locale says, and so do its own the reader.
        lines = ["add a\t\tx", "add b\t\tcaf\udce9", "add c\tcaf\u00e9\tone\rdelete a", "count caf\u00e9 one", "count x", "dump"]
        wanted = ["added 1", "added 2", "found 1", "found 1", "add a\t\tx", "add c\tcaf\u00e9\tone delete a", "dumped 2"]
        for name, value in [("LC_ALL", "C"), ("LC_ALL", "C.UTF-8")] + [("PYTHONIOENCODING", it) for it in ("utf-8:strict", "latin-1", "ascii")]:
            status, out, err = self.piped("\n".join(lines), "--create", **{name: value})
            self.assertEqual((status, out.split("\n"), err), (1, [*wanted, ""], "! not UTF-8\n"), value)
            os.remove(self.path)

    def test_queries_of_find(self):
        self.piped("add a\t\tcaf\nadd b\t\tcaf\u00e9\n", "--create")
        for variables in ({"LC_ALL": "C"}, {"PYTHONIOENCODING": "utf-8:strict"}, {"PYTHONIOENCODING": "latin-1"}):
            status, out, err = self.piped("caf\udce9\ncaf\u00e9\n", command="find", **variables)
            self.assertEqual((status, out, err), (0, "2 b\nfound 1\n", "! not UTF-8\n"), variables)
        status, out, err = self.piped("", b"caf\xe9", command="find")
        self.assertEqual((status, out, err), (2, "", "! not UTF-8\n"))

    def test_what_ends_it(self):
        status, _, err = self.piped("stats\n")
        self.assertEqual(status, 3)
        self.assertIn("no such file", err)
        words = ["sh", "-c", 'exec "$@" <&-', "sh", sys.executable, BUNCO, "shell", self.path, "--create"]
        done = subprocess.run(words, env=self.environment, capture_output=True, timeout=PATIENCE)
        self.assertEqual((done.returncode, done.stdout, done.stderr), (0, b"", b""))


def take_program(path):
    global PROGRAM
    PROGRAM = path


if __name__ == "__main__":
    run_tests("shell", take_program)
