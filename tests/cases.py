"""What the tests of the commands that import share: a place with files, the commands over the fake program, and what that holds."""

import contextlib
import io
import json
import os
import re
import signal
import subprocess
import sys
import tempfile
import unittest
from unittest import mock
from urllib.parse import quote

# It lets the others find the client of the checkout.
from support import BUNCO, CLIENT, PATIENCE  # isort: skip

import fake
from buncocedar.imports import folder, stamps
from buncocedar.imports.inner import inner_words
from buncocedar.imports.parts import OVERLAP, joined, spaced, with_inner
from buncocedar.texts import one_line

FAKE = fake.installed()
LETTER = b"""From a@b Mon Jan  1 00:00:00 2024
Message-ID: <%s@x>
Subject: about %s

the text of %s
"""
# `bunco` with a folder of its own for what is made in memory: that of the machine has what others make there at the same time.
IN_MEMORY = """\
import runpy, sys
bunco, client, folder = sys.argv[1:4]
sys.path.insert(0, client)
from buncocedar.imports import bringing
bringing.MEMORY = folder
sys.argv[:4] = [bunco]
runpy.run_path(bunco, run_name="__main__")
"""


@contextlib.contextmanager
def processor_time(seconds):
    """Fails where what is done inside takes more time of the processor, however busy that is."""

    def fail(number, frame):
        raise AssertionError(f"it takes more than {seconds} seconds")

    before = signal.signal(signal.SIGPROF, fail)
    signal.setitimer(signal.ITIMER_PROF, seconds, seconds)
    try:
        yield
    finally:
        signal.setitimer(signal.ITIMER_PROF, 0)
        signal.signal(signal.SIGPROF, before)


class Case(unittest.TestCase):
    program = FAKE

    def setUp(self):
        self.place = tempfile.TemporaryDirectory()
        self.addCleanup(self.place.cleanup)
        self.path = self.at("x.alta")
        self.mark = self.at("mark")

    def at(self, name):
        return os.path.join(self.place.name, name)

    def write(self, name, content):
        path = self.at(name)
        os.makedirs(os.path.dirname(path), exist_ok=True)
        with open(path, "wb") as file:
            file.write(content if isinstance(content, bytes) else content.encode())
        return path

    def read(self, path):
        with open(path, "rb") as file:
            return file.read()

    def start(self, script, *words, do=None, memory=None, **options):
        """A command of `bunco` over the fake program, which does this; what it makes in memory stands in that folder, if one is named."""
        environment = {**os.environ, "BUNCOCEDAR_PROGRAM": self.program, "FAKE": json.dumps(do or {})}
        options = {"stdin": subprocess.DEVNULL, "stdout": subprocess.PIPE, "stderr": subprocess.PIPE, **options}
        # Without what is installed beside Python, which the scripts do without.
        begins = [BUNCO] if memory is None else ["-c", IN_MEMORY, BUNCO, CLIENT, memory]
        command = [sys.executable, "-S", *begins, script, *words]
        return subprocess.Popen(command, env=environment, text=True, errors="replace", **options)

    def run_script(self, script, *words, do=None, expect=0, **options):
        """What it prints on standard error, where it ends with the expected status."""
        process = self.start(script, *words, do=do, **options)
        self.out, err = process.communicate(timeout=PATIENCE)
        self.assertEqual(process.returncode, expect, err)
        return err

    def main(self, script, *words, expect=0):
        """The same of a script that runs in this process."""
        told = io.StringIO()
        with mock.patch.object(sys, "argv", [script.__name__, *words]), contextlib.redirect_stderr(told):
            with mock.patch.dict(os.environ, {"BUNCOCEDAR_PROGRAM": self.program}):
                self.assertEqual(script.main(), expect, told.getvalue())
        return told.getvalue()

    def stored(self):
        """The live documents of the fake's file: name to (number, title, body)."""
        documents = {}
        number = 0
        with open(self.path, encoding="utf-8", newline="\n") as file:
            for line in list(file)[1:]:
                word, _, rest = line.rstrip("\n").partition(" ")
                if word == "add":
                    number += 1
                    name, title, body = rest.split("\t", 2)
                    documents.pop(name, None)
                    documents[name] = (number, title, body)
                else:
                    del documents[rest]
        return documents

    def older_stamps(self):
        """The stamps as an older version wrote them: lines, each a name, numbers, a stamp, a source, and perhaps a place and a content."""
        records = stamps.Records(self.path + ".stamps")
        lines = [f"= {source} {kind} {quote(path)}\n" for source, (kind, path) in records.sources.items()]
        for name, stamp in records.of.items():
            words = [name, ",".join(map(str, stamp.numbers)), stamp.stamp, stamp.source, stamp.place, stamp.content]
            lines.append(" ".join(filter(None, words)) + "\n")
        return "".join(lines).encode()

    def bodies(self):
        """The texts of the documents, without the words that an import puts before and behind them."""
        records = stamps.Records(self.path + ".stamps")
        stems = {stamps.stem_of(name): name for name in records.of}
        parts = {name: stamps.part_of(name) for name in self.stored()}
        whole = {name: stems.get(part[0], name) if part else name for name, part in parts.items()}
        return {name: plain(body, records.found(whole[name])) for name, (_, _, body) in self.stored().items()}

    def whole(self, name):
        """The text of a document from its parts, without what two of them share, and how many there are."""
        bodies = {other: body for other, (_, _, body) in self.stored().items()}
        found = stamps.Records(self.path + ".stamps").found(name)
        body, number = plain(bodies[name], found), 1
        while stamps.part_name(name, number + 1) in bodies:
            number += 1
            following = plain(bodies[stamps.part_name(name, number)], found)
            shared = " ".join(body[-5_000:].split(" ")[-OVERLAP :])
            self.assertTrue(following.startswith(shared + " "), number)
            body += following[len(shared) :]
        return body, number


def plain(body, found):
    """The text of a document of the index, without its front and the words inside of its words."""
    if found is not None and found.kind == "mail":
        body = re.sub(r"^.*?\bthread:[a-p]+(?: (?:attachment|is|folder|label):\S+)*(?: |$)", "", body)
    elif found is not None and found.kind == "folder":
        for below in paths_below(found.path):
            front = joined(with_inner(one_line(spaced(below))), one_line(spaced(folder.path_words(below))))
            if body == front or body.startswith(front + " "):
                body = body[len(front) + 1 :]
                break
    ends = (at for at, letter in enumerate(body) if letter == " ") if inner_words(body) else ()
    return next((body[:at] for at in ends if inner_words(body[:at]) == body[at + 1 :]), body)


def paths_below(path):
    """The path as it stands below each of the folders above it, the longest first."""
    parts = path.split("/")
    return ["/".join(parts[number:]) for number in range(1, len(parts))]
