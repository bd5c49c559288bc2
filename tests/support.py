"""What several tests share: where the checkout is, a wait for something, the program over lines, and the end of each script."""

import faulthandler
import os
import signal
import subprocess
import sys
import time
import unittest

TOP = os.path.dirname(os.path.dirname(os.path.abspath(__file__)))
CLIENT = os.path.join(TOP, "client")
BUNCO = os.path.join(TOP, "bunco")
PATIENCE = 300  # seconds after which what should have come counts as missing

sys.path.insert(0, CLIENT)
# What a shell starts in the background takes no interrupt, and nothing that it starts does.
signal.signal(signal.SIGINT, signal.default_int_handler)

from buncocedar.fileformat import LEVELS  # noqa: E402
from buncocedar.imports.engine import Levels  # noqa: E402


def until(done):
    """Waits until this is so. The tests rest on what happened, and never on how long it took."""
    end = time.monotonic() + PATIENCE
    while not done():
        if time.monotonic() > end:
            raise AssertionError("it does not come")
        time.sleep(0.01)


def with_merges_of_levels(lines):
    """Lines of bytes, with a `merge` wherever there are as many levels as there may be, and one more in the journal."""
    levels = Levels(0)
    for line in lines:
        yield line
        levels.put(len(line) - 1)
        if levels.count > LEVELS:
            yield b"merge\n"
            levels = Levels(1)


def run_lines(program, path, lines):
    """Status, replies and the line on standard error."""
    done = subprocess.run([program, path, "run"], input="".join(line + "\n" for line in lines).encode(), capture_output=True)
    return done.returncode, done.stdout.decode().split("\n")[:-1], done.stderr.decode()


def answered(program, path, lines):
    status, replies, said = run_lines(program, path, lines)
    if status != 0:
        raise SystemExit(f"{path} ended with status {status}: {said.strip()}")
    return replies


def run_tests(name, take_program=None):
    """Runs the tests of the script, given on its command line or all; `--program PATH` before them hands that path to the call."""
    faulthandler.dump_traceback_later(10 * PATIENCE, exit=True)
    words = sys.argv[1:]
    if take_program is not None and words[:1] == ["--program"]:
        take_program(os.path.abspath(words[1]))
        words = words[2:]
    elif take_program is not None:
        print(f"{name}: without the real program", file=sys.stderr)
    unittest.main(argv=[sys.argv[0], *words])
