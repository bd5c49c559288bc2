#!/usr/bin/env python3
"""Tests bench/gate.py over a stand-in for `rt ci`, which says its lines and starts its checks as the kit does: tests/costs.py

Each way to hand the lines over has to show the same processor seconds of proof, tests and wrong bodies of each crate: a pipeline with `tee`
in it, a log with the process that writes it, and a log alone.
"""

import json
import os
import subprocess
import sys
import tempfile
import threading
import unittest

from support import PATIENCE, TOP, run_tests, until

GATE = os.path.join(TOP, "bench", "gate.py")

# A check works for so many processor seconds, half of them in a process that it starts, says what it took, and waits for the end of its
# input. A machine that is busy, or shared, counts more than was asked for.
CHECK = """\
import os, resource, subprocess, sys, time
seconds = float(sys.argv[1]) / 2
if sys.argv[2] == "top":
    subprocess.run([sys.executable, __file__, str(seconds * 2), "below"], check=True)
while time.process_time() < seconds:
    pass
if sys.argv[2] == "top":
    below = resource.getrusage(resource.RUSAGE_CHILDREN)
    print(time.process_time() + below.ru_utime + below.ru_stime, flush=True)
    sys.stdin.read()
os._exit(0)
"""

# The gate begins a look between two lines, so what was done before the first line is seen once the second has come out.
RT = """\
import os, subprocess, sys, tempfile, time
marks = 0
def say(text):
    print(f"rt: {text}", flush=True)
def pause():
    global marks
    say(f"mark {marks}")
    while not os.path.exists(f"{FOLDER}/go {marks}"):
        time.sleep(0.02)
    marks += 1
def check(crate, seconds, *words, folder="crate-"):
    command = [sys.executable, f"{FOLDER}/check", str(seconds), "top", "check", "--crate-name", crate, "src/lib.rt", *words]
    with tempfile.TemporaryDirectory(prefix=folder) as room:
        ran = subprocess.Popen(command, cwd=room, stdin=subprocess.PIPE, stdout=subprocess.PIPE)
        kind = "tests" if "--test" in words else "edits" if folder == "rt-edit-" else "proof"
        with open(f"{FOLDER}/took", "a") as took:
            print(crate, kind, float(ran.stdout.readline()), file=took)
        pause()
        pause()
        ran.communicate()
check("alta_low", 0.6)
print("== alta_low\\n3 functions\\nlogic=proved", flush=True)
say("alta_low proved")
check("alta_low", 1.6, "--test")
print("== alta_low: its tests\\n12 passed; 0 failed", flush=True)
say("alta_low: its tests are proved")
say("alta_low: trying its must-fail edits (2)")
check("alta_low", 0.8, folder="rt-edit-")
check("alta_low", 0.8, folder="rt-edit-")
check("alta_high", 0.6)
print("== alta_high\\nlogic=not-proved", flush=True)
say("alta_high NOT PROVED")
say("alta_top NOT PROVED: its library alta_high failed")
say("must-fail alta_low/one.edit: refused, as it must be")
say("FAILED: alta_high alta_top")
print("3 passed, 2 failed", flush=True)
"""
MARKS = 2 * 5  # of five checks

# What stands in .ci/run before the gate and behind it is no part of the gate.
RUN = """\
echo first
{ $PYTHON "$FOLDER/rt" ci; echo $?; } | cat
until [ -e "$FOLDER/end" ]; do sleep 0.05; done
echo last
"""

KINDS = {"alta_low": ("proof", "tests", "edits"), "alta_high": ("proof",)}  # of which each crate has some
TICKS, LATER = 0.08, 0.25  # seconds that a look may miss of what the checks took, and that they may take behind it


class Costs(unittest.TestCase):
    def setUp(self):
        folder = tempfile.TemporaryDirectory()
        self.addCleanup(folder.cleanup)
        self.folder = folder.name
        self.write("check", CHECK)
        self.write("rt", RT.replace("{FOLDER}", self.folder))
        self.write("run", RUN)
        self.printed = {}

    def path(self, name):
        return os.path.join(self.folder, name)

    def write(self, name, text):
        with open(self.path(name), "w") as file:
            file.write(text)

    def start(self, *command, **options):
        environment = {**os.environ, "PYTHON": sys.executable, "FOLDER": self.folder}
        process = subprocess.Popen(command, env=environment, **options)
        self.addCleanup(process.wait)
        self.addCleanup(process.kill)
        return process

    def gate(self, name, *words, before=(), **options):
        """Starts a gate, which records under this name, and keeps what it prints."""
        command = [*before, sys.executable, GATE, "--every", "0", "--record", self.path(name), *words]
        gate = self.start(*command, stdout=subprocess.PIPE, stderr=subprocess.STDOUT, text=True, **options)
        lines = self.printed[name] = []

        def read():
            with gate.stdout:
                lines.extend(iter(gate.stdout.readline, ""))

        reader = threading.Thread(target=read, daemon=True)
        reader.start()
        self.addCleanup(reader.join, PATIENCE)
        return gate

    def pass_mark(self, number):
        """Lets the stand-in go on once each gate has told of its line."""
        until(lambda: all(f"rt: mark {number}\n" in lines for lines in self.printed.values()))
        self.write(f"go {number}", "")

    def took(self, crate, kind):
        """The processor seconds that the checks of a crate took, by themselves."""
        with open(self.path("took")) as file:
            return sum(float(seconds) for name, what, seconds in map(str.split, file) if (name, what) == (crate, kind))

    def recorded(self, name):
        """The whole seconds of each crate, the dearest first, which have to be those that its checks took."""
        with open(self.path(name)) as file:
            (panel,) = json.load(file)["panels"]
        rows = panel["rows"]
        self.assertEqual(rows, sorted(rows, key=lambda row: (-sum(value or 0 for value in row[1:]), row[0])))
        self.assertEqual({row[0] for row in rows}, KINDS.keys())
        for crate, *cells in rows:
            for kind, seconds in zip(("proof", "tests", "edits"), cells):
                self.assertEqual(seconds is not None, kind in KINDS[crate], (crate, kind))
                if seconds is not None:
                    took = self.took(crate, kind)
                    self.assertIn(seconds, range(round(took - TICKS), round(took + LATER) + 1), (crate, kind, took))
        self.assertEqual(panel["series"], ["proof", "tests", "wrong bodies (2 in all)"])
        return rows

    def test_each_way(self):
        pipeline = ["sh", "-c", 'sh "$FOLDER/run" 2>&1 | tee "$FOLDER/log" | "$@"', ""]
        piped = self.gate("piped", before=pipeline, start_new_session=True)
        alone = self.gate("alone", "--log", self.path("log"))
        named = self.gate("named", "--log", self.path("log"), "--pid", str(piped.pid))
        for number in range(MARKS):
            self.pass_mark(number)
        # The logs end with the gate's last line, and the pipe with what comes behind it.
        self.assertEqual((alone.wait(PATIENCE), named.wait(PATIENCE)), (0, 0))
        self.write("end", "")
        self.assertEqual(piped.wait(PATIENCE), 0)
        for name, lines in self.printed.items():
            with self.subTest(name):
                until(lambda lines=lines: lines[-1].endswith("processor time seen: 3 passed, 2 failed\n"))
                wanted = [[crate, *("-" if value is None else str(value) for value in cells)] for crate, *cells in self.recorded(name)]
                self.assertEqual((lines[0], "last\n" in lines), ("first\n", name == "piped"))
                rows = [[row[0], *row[1::3]] for row in map(str.split, lines[-5:-2])]
                self.assertEqual(sorted(rows[:-1]), sorted(wanted))
                self.assertEqual(rows[-1], ["alta_top", "-", "-", "-"])

    def test_gate_that_does_not_end(self):
        with open(self.path("log"), "w") as log:
            run = self.start("sh", "-c", "echo rt: alta_low proved; exec sleep 300", stdout=log)
        gate = self.gate("killed", "--log", self.path("log"), "--pid", str(run.pid))
        until(lambda: "rt: alta_low proved\n" in self.printed["killed"])
        # Nothing has waited for it yet, and it counts as ended.
        run.kill()
        self.assertEqual(gate.wait(PATIENCE), 1)
        until(lambda: "gate: nothing is recorded: it did not end\n" in self.printed["killed"])
        self.assertFalse(os.path.exists(self.path("killed")))


if __name__ == "__main__":
    run_tests("costs")
