#!/usr/bin/env python3
"""Times calls of the library for callers in memory beside runs of the program, over the same index and lines.

usage: bench/embedded.py [--program PATH] [--library PATH] [--turns N] INDEX QUERY

Prints, in milliseconds of processor time, the least of the turns: a `stats`, one count, and a thousand counts, each as one call and as
one run. Both open the index first.
"""

import argparse
import os
import resource
import subprocess
import sys
import time

sys.path.insert(0, os.path.join(os.path.dirname(os.path.dirname(os.path.abspath(__file__))), "client"))

from buncocedar import default_program
from buncocedar.embedded import EmbeddedIndex, default_library


def of_children():
    used = resource.getrusage(resource.RUSAGE_CHILDREN)
    return used.ru_utime + used.ru_stime


def called(index, lines):
    """The processor time of a call, and its replies."""
    begun = time.process_time()
    replies = index.answer(lines)
    return time.process_time() - begun, replies


def run(program, path, lines):
    """The processor time of a run, and its replies."""
    begun = of_children()
    done = subprocess.run([program, path, "run"], input=lines, stdout=subprocess.PIPE, check=True)
    return of_children() - begun, done.stdout


def main():
    parser = argparse.ArgumentParser(description=__doc__, formatter_class=argparse.RawDescriptionHelpFormatter)
    parser.add_argument("--program", default=None)
    parser.add_argument("--library", default=None)
    parser.add_argument("--turns", type=int, default=15)
    parser.add_argument("index")
    parser.add_argument("query")
    options = parser.parse_args()
    program = options.program or default_program()
    index = EmbeddedIndex.of_file(options.index, options.library or default_library())
    count = f"count {options.query}\n".encode()
    print(f"{len(index.content):,} bytes, {index.stats().documents:,} documents, {index.count(options.query):,} found")
    for what, lines in {"stats": b"stats\n", "a count": count, "1,000 counts": 1000 * count}.items():
        times = [(called(index, lines), run(program, options.index, lines)) for _ in range(options.turns)]
        if any(of_call[1] != of_run[1] for of_call, of_run in times):
            raise SystemExit(f"embedded: other replies to {what} than the program's")
        of_call, of_run = (min(pair[at][0] for pair in times) * 1000 for at in (0, 1))
        print(f"{what}: a call {of_call:.2f}, a run {of_run:.2f}")
    return 0


if __name__ == "__main__":
    sys.exit(main())
