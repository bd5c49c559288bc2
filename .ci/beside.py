#!/usr/bin/env python3
"""Runs scripts side by side, and ends with status 1 where one of them fails.

usage: .ci/beside.py [WORD ..] <LIST

LIST has one script a line, with the words it gets; the WORDs given here come behind them. As many scripts run at a time as there are
processors. What a script prints is kept apart, and is printed whole once it has ended, behind a line with its name, time and status.
"""

import os
import shlex
import subprocess
import sys
import tempfile
import time
from concurrent.futures import ThreadPoolExecutor, as_completed
from typing import NamedTuple


class Ended(NamedTuple):
    """How a script ended, what it printed, and the seconds that it took."""

    script: str
    status: int
    printed: bytes
    seconds: float


def run(line, words):
    """Runs the script of a line to its end."""
    begun = time.monotonic()
    command = [sys.executable, *shlex.split(line), *words]
    # A pipe would wait for whatever the script has left running, too.
    with tempfile.TemporaryFile() as printed:
        done = subprocess.run(command, stdin=subprocess.DEVNULL, stdout=printed, stderr=subprocess.STDOUT)
        printed.seek(0)
        return Ended(line, done.returncode, printed.read(), time.monotonic() - begun)


def show(ended):
    """Prints what a script printed, whole."""
    how = "passed" if ended.status == 0 else f"FAILED with status {ended.status}"
    print(f"run: {ended.script} {how} in {ended.seconds:.1f} seconds", flush=True)
    sys.stdout.buffer.write(ended.printed)
    sys.stdout.flush()


def main():
    lines = [line.strip() for line in sys.stdin if line.strip()]
    failed = []
    with ThreadPoolExecutor(os.cpu_count()) as pool:
        for ended in as_completed([pool.submit(run, line, sys.argv[1:]) for line in lines]):
            show(ended.result())
            if ended.result().status != 0:
                failed.append(ended.result().script)
    if not lines or failed:
        raise SystemExit(f"run: failed: {', '.join(failed)}" if lines else "run: no script was named")


if __name__ == "__main__":
    main()
