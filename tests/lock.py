#!/usr/bin/env python3
"""Tests of the lock on an index: no two programs have one open at a time, whoever started them.

usage: tests/lock.py --program PATH
"""

import os
import signal
import subprocess
import sys
import tempfile
import threading
import time
import unittest

# It lets the others find the client of the checkout.
from support import CLIENT, PATIENCE  # isort: skip

from buncocedar import DiskFault, Index, InUse

PROGRAM = None
IN_USE = (2, "", "alta: disk fault\nalta: flock: another program has the file open\n")

# A client that adds so many documents, opening the index anew for each. It waits as long as the others need.
ADDING = """
import sys
sys.path.insert(0, sys.argv[1])
from buncocedar import Index
for n in range(int(sys.argv[5])):
    with Index(sys.argv[2], program=sys.argv[3], patience=3600) as index:
        index.add(f"{sys.argv[4]}{n}", "", "x")
"""

# A client that says when the index is open, and waits.
WAITING = """
import sys, time
sys.path.insert(0, sys.argv[1])
from buncocedar import Index
index = Index(sys.argv[2], program=sys.argv[3])
print(index._exchange.link.process.pid, flush=True)
time.sleep(600)
"""


def by_hand(path, *words, given=""):
    """What a program that is started by hand ends with: status, output, standard error."""
    run = subprocess.run([PROGRAM, path, *words], input=given, capture_output=True, text=True, timeout=PATIENCE)
    return run.returncode, run.stdout, run.stderr


def kill(process):
    try:
        os.kill(process, signal.SIGKILL)
    except ProcessLookupError:
        pass


def content(path):
    with open(path, "rb") as file:
        return file.read()


class Lock(unittest.TestCase):
    def setUp(self):
        folder = tempfile.TemporaryDirectory()
        self.addCleanup(folder.cleanup)
        self.path = os.path.join(folder.name, "x.alta")
        self.assertEqual(by_hand(self.path, "init"), (0, "", ""))

    def client(self, patience=0):
        return Index(self.path, program=PROGRAM, patience=patience)

    def running(self):
        """A program by hand that has opened the index and waits for its next line."""
        process = subprocess.Popen([PROGRAM, self.path, "run"], stdin=subprocess.PIPE, stdout=subprocess.PIPE)
        self.addCleanup(self.end, process)
        process.stdin.write(b"stats\n")
        process.stdin.flush()
        self.assertIn(b"documents", process.stdout.readline())
        return process

    def end(self, process):
        process.kill()
        process.wait()
        process.stdin.close()
        process.stdout.close()

    def refused(self):
        """Neither a program by hand nor a client gets the index, and nothing is written."""
        before = content(self.path)
        for words in [("run",), ("init",), ("demo", "10")]:
            self.assertEqual(by_hand(self.path, *words, given="add z\t\tz\n"), IN_USE)
        with self.assertRaises(InUse):
            self.client()
        self.assertEqual(content(self.path), before)

    def free(self, documents):
        """Both get it, one behind the other."""
        self.assertEqual(by_hand(self.path, "run", given="stats\n")[1].split()[:2], ["documents", str(documents)])
        with self.client() as index:
            self.assertEqual(index.stats().documents, documents)

    def test_program_beside_program(self):
        process = self.running()
        self.refused()
        process.stdin.write(b"add a\t\tx\n")
        process.stdin.flush()
        self.assertEqual(process.stdout.readline(), b"added 1\n")
        process.stdin.close()
        self.assertEqual(process.wait(), 0)
        self.free(1)

    def test_program_and_client_beside_a_client(self):
        with self.client() as index:
            self.assertEqual(index.add("a", "", "x"), 1)
            self.refused()
            self.assertEqual(index.add("b", "", "x"), 2)
        self.free(2)

    def test_a_client_waits_for_a_program(self):
        process = self.running()
        timer = threading.Timer(0.3, process.stdin.close)
        timer.start()
        with self.client(PATIENCE) as index:
            self.assertEqual(index.stats().documents, 0)
        timer.join()

    def test_many_clients(self):
        words = [sys.executable, "-c", ADDING, CLIENT, self.path, PROGRAM]
        clients = [subprocess.Popen(words + [name, "3"]) for name in "abcd"]
        self.assertEqual([client.wait() for client in clients], [0] * 4)
        self.free(12)

    def test_program_of_a_killed_client(self):
        client = subprocess.Popen(
            [sys.executable, "-c", WAITING, CLIENT, self.path, PROGRAM], stdout=subprocess.PIPE, text=True
        )
        program = int(client.stdout.readline())
        # It is ended for good where this test fails before it goes on.
        self.addCleanup(kill, program)
        # While the program stands still it can't see that its client has gone.
        os.kill(program, signal.SIGSTOP)
        client.kill()
        client.wait()
        client.stdout.close()
        self.refused()
        os.kill(program, signal.SIGCONT)
        with self.client(PATIENCE) as index:
            self.assertEqual(index.stats().documents, 0)

    def test_a_killed_program_leaves_no_lock(self):
        process = self.running()
        self.refused()
        process.kill()
        process.wait()
        self.free(0)

    def test_a_fault_is_no_lock(self):
        folder = os.path.join(os.path.dirname(self.path), "folder")
        os.mkdir(folder)
        begun = time.monotonic()
        with self.assertRaises(DiskFault):
            Index(folder, program=PROGRAM, patience=PATIENCE)
        self.assertLess(time.monotonic() - begun, PATIENCE)


def main():
    global PROGRAM
    if "--program" not in sys.argv:
        raise SystemExit("usage: tests/lock.py --program PATH")
    at = sys.argv.index("--program")
    PROGRAM = os.path.abspath(sys.argv[at + 1])
    del sys.argv[at : at + 2]
    unittest.main()


if __name__ == "__main__":
    main()
