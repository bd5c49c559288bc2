#!/usr/bin/env python3
"""Tests that the client installs by pip, without a network, from its folder alone: without a program, which `packages.py` tests.

usage: tests/install.py --program PATH

Where this Python has no pip its part is left out, and that is said.
"""

import os
import shutil
import subprocess
import sys
import tempfile
import unittest

from checkouts import done
from support import TOP, run_tests

PROGRAM = None
COMMANDS = ("init", "mail", "folder", "packages", "find", "shell", "web", "site", "serve", "status", "check", "compact", "dump")
FORMER = ("mail", "folder", "packages", "find", "shell", "server", "check", "compact")  # names that go with the next version


class Client(unittest.TestCase):
    """`pip install ./client`, into a folder of its own."""

    @classmethod
    def setUpClass(cls):
        pip = [sys.executable, "-m", "pip", "--disable-pip-version-check"]
        if subprocess.run([*pip, "--version"], capture_output=True).returncode != 0:
            raise unittest.SkipTest("this Python has no pip")
        folder = tempfile.TemporaryDirectory()
        cls.addClassCleanup(folder.cleanup)
        cls.place = os.path.join(folder.name, "installed")
        cls.folder = folder.name
        client = os.path.join(folder.name, "client")
        shutil.copytree(os.path.join(TOP, "client"), client, ignore=shutil.ignore_patterns("__pycache__"))
        before = sorted(os.listdir(client))
        words = ["install", "--quiet", "--no-index", "--no-deps", "--target", cls.place, client]
        done(*pip, *words, env={**os.environ, "PIP_ROOT_USER_ACTION": "ignore", "PYTHONDONTWRITEBYTECODE": "1"})
        assert sorted(os.listdir(client)) == before, "pip has left something in the folder"
        cls.bunco = os.path.join(cls.place, "bin", "bunco")
        cls.environment = {**os.environ, "PYTHONPATH": cls.place, "BUNCOCEDAR_PROGRAM": PROGRAM}

    def python(self, text, **environment):
        return done(sys.executable, "-c", text, cwd=self.folder, env={**self.environment, **environment})

    def test_commands(self):
        notes = os.path.join(self.folder, "notes")
        os.mkdir(notes)
        with open(os.path.join(notes, "a"), "w") as file:
            file.write("The quick fox")
        path = os.path.join(self.folder, "notes.alta")
        done(self.bunco, "folder", path, notes, env=self.environment)
        self.assertIn("1 a\n", done(self.bunco, "find", path, "fox", env=self.environment))
        self.assertIn("found 0\n", done(self.bunco, "find", path, "dog", env=self.environment, status=1))
        asked = done(self.bunco, "shell", path, env=self.environment, input="count fox\n")
        self.assertEqual(asked, "found 1\n")
        for script in ("web/assets/page.js", "web/assets/http.js", "site/assets/engine.js", "site/assets/searcher.js"):
            self.assertTrue(os.path.exists(os.path.join(self.place, "buncocedar", script)), script)
        # What is installed is what the checkout has, command for command.
        checkout = os.path.join(TOP, "bunco")
        self.assertEqual(done(self.bunco, "--help", env=self.environment), done(checkout, "--help"))
        for command in COMMANDS:
            self.assertEqual(done(self.bunco, command, "--help", env=self.environment), done(checkout, command, "--help"))

    def test_former_names(self):
        for command in FORMER:
            former = os.path.join(self.place, "bin", f"bunco-{command}")
            word = "serve" if command == "server" else command
            said = done(former, "--help", env=self.environment)
            note = f"bunco-{command}: this name goes with the next version; use bunco {word}\n"
            self.assertEqual(said.count(note), 1)
            self.assertEqual(said.replace(note, ""), done(self.bunco, word, "--help", env=self.environment))
        installed = sorted(["bunco", *(f"bunco-{command}" for command in FORMER)])
        self.assertEqual(sorted(os.listdir(os.path.join(self.place, "bin"))), installed)

    def test_the_module(self):
        said = self.python(
            "import importlib.metadata, os, buncocedar\n"
            "assert importlib.metadata.version('buncocedar') == buncocedar.__version__\n"
            "folder = os.path.dirname(buncocedar.__file__)\n"
            "print(os.path.exists(os.path.join(folder, 'py.typed')), 'client' in folder)\n"
            "from buncocedar import *\n"
            "print('re' in globals(), Index.__name__, value_range(1, 2))\n"
        )
        self.assertEqual(said, "True False\nFalse Index value:1..2\n")

    def test_the_program_is_looked_for(self):
        tools = os.path.join(self.folder, "tools")
        os.mkdir(tools)
        shutil.copy(PROGRAM, os.path.join(tools, "alta"))
        path = os.pathsep.join([tools, os.environ["PATH"]])
        text = "import buncocedar\nprint(buncocedar.default_program())"
        self.assertEqual(self.python(text, BUNCOCEDAR_PROGRAM="", PATH=path), f"{tools}/alta\n")
        self.assertEqual(self.python(text, BUNCOCEDAR_PROGRAM="/x/y", PATH=path), "/x/y\n")
        text = "import buncocedar\ntry:\n    buncocedar.default_program()\nexcept OSError as error:\n    print(error)"
        self.assertIn("BUNCOCEDAR_PROGRAM", self.python(text, BUNCOCEDAR_PROGRAM="", PATH="/nonexistent"))

    def test_the_public_calls_have_hints(self):
        said = self.python(
            "import inspect, typing, buncocedar\n"
            "for kind in (buncocedar.Index, buncocedar.Cursor):\n"
            "    for name, call in inspect.getmembers(kind, inspect.isfunction):\n"
            "        if not name.startswith('_'):\n"
            "            hints = typing.get_type_hints(call)\n"
            "            wanted = set(inspect.signature(call).parameters) - {'self'} | {'return'}\n"
            "            assert set(hints) == wanted, (kind, name, hints)\n"
            "print('done')\n"
        )
        self.assertEqual(said, "done\n")


def take_program(path):
    global PROGRAM
    PROGRAM = path


if __name__ == "__main__":
    run_tests("install", take_program)
