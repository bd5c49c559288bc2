#!/usr/bin/env python3
"""Refuses each allocation of a run in turn, and checks what the run answers and leaves.

usage: bench/memory.py [--program PATH] [--every N]

The script adds, flushes, joins in a slice and whole, deletes between, merges, and counts. For each number N (or each N-th, with
--every) it runs twice on a new index: once with the Nth allocation refused, and once with this and all behind it. `malloc` and
`realloc` of the C library are what is refused, by a library that `gcc` compiles in a temporary folder. Each run has to end with status 5
and its line, where that found memory, or with status 0; what it gave has to be the front of the replies of `answers.py`; and a
new run over the file has to answer `stats` as behind the lines that were answered, or behind one more. Prints how many allocations
a whole run meets, and how often each status came. Ends with status 0 where all of that holds.
"""

import argparse
import collections
import os
import subprocess
import sys
import tempfile

TOP = os.path.dirname(os.path.dirname(os.path.abspath(__file__)))
sys.path.insert(0, os.path.join(TOP, "tests"))

from model.answers import Machine

REFUSING = r"""
#define _GNU_SOURCE
#include <dlfcn.h>
#include <stdio.h>
#include <stdlib.h>

static unsigned long met, first, last;
static void *(*old_malloc)(size_t);
static void *(*old_realloc)(void *, size_t);

static unsigned long number(const char *name) { return getenv(name) ? strtoul(getenv(name), 0, 10) : 0; }

static int refused(void) {
    if (!old_malloc) {
        first = number("REFUSED_FIRST"), last = number("REFUSED_LAST");
        old_malloc = dlsym(RTLD_NEXT, "malloc");
        old_realloc = dlsym(RTLD_NEXT, "realloc");
    }
    met++;
    return first <= met && met <= last;
}

void *malloc(size_t size) { return refused() ? 0 : old_malloc(size); }

void *realloc(void *old, size_t size) { return refused() ? 0 : old_realloc(old, size); }

__attribute__((destructor)) static void tell(void) {
    const char *path = getenv("REFUSED_COUNT");
    unsigned long count = met;
    first = last = 0;
    FILE *file = path ? fopen(path, "w") : 0;
    if (file) fprintf(file, "%lu", count), fclose(file);
}
"""

DOG = ("word", "dog")
SCRIPT = [
    "add a\tRed Fox\tthe quick red fox",
    "add b\tFox\tquick brown dog",
    "flush",
    "delete a",
    "add c\t\tred dog",
    "flush",
    "step 1",
    "delete b",
    "step 1000000",
    "merge",
    "count dog",
]
LAST = 2**62
LINES = {0: ("",), 5: ("", "alta: out of memory\n")}


def run(program, path, lines, env=None):
    """Status, what was given, and what was said on standard error."""
    text = "".join(line + "\n" for line in lines).encode()
    done = subprocess.run([program, path, "run"], input=text, capture_output=True, timeout=60, env={**os.environ, **(env or {})})
    return done.returncode, done.stdout.decode(), done.stderr.decode()


def replies():
    """The reply to each line, and the stats behind each number of lines."""
    machine = Machine([DOG])
    given, stats = [], [machine.reply("stats")]
    for line in SCRIPT:
        given.append(machine.reply(line))
        stats.append(machine.reply("stats"))
    return given, stats


class Check:
    """The runs over one empty index, and how they ended."""

    def __init__(self, program, folder):
        self.program = program
        self.path, self.library = os.path.join(folder, "index"), os.path.join(folder, "refusing.so")
        self.count = os.path.join(folder, "count")
        source = os.path.join(folder, "refusing.c")
        with open(source, "w", encoding="ascii") as file:
            file.write(REFUSING)
        subprocess.run(["gcc", "-O1", "-shared", "-fPIC", "-o", self.library, source, "-ldl"], check=True)
        subprocess.run([program, self.path, "init"], check=True)
        with open(self.path, "rb") as file:
            self.empty = file.read()
        self.given, self.stats = replies()
        self.ends = collections.Counter()

    def refusing(self, first, last):
        """A run in which these allocations are refused."""
        with open(self.path, "wb") as file:
            file.write(self.empty)
        numbers = {"REFUSED_FIRST": str(first), "REFUSED_LAST": str(last), "REFUSED_COUNT": self.count}
        return run(self.program, self.path, SCRIPT, {"LD_PRELOAD": self.library, **numbers})

    def met(self):
        """How many allocations a whole run meets."""
        if self.refusing(LAST, LAST) != (0, "".join(self.given), ""):
            raise SystemExit("memory: the script is not answered as it has to be")
        with open(self.count, encoding="ascii") as file:
            return int(file.read())

    def try_refusing(self, first, last):
        status, given, said = self.refusing(first, last)
        what = f"memory: with the allocations {first} to {last} refused"
        if said not in LINES.get(status, ()):
            raise SystemExit(f"{what} the run ends with {status} and {said!r}")
        whole = "".join(self.given)
        if not whole.startswith(given) or (status == 0 and given != whole):
            raise SystemExit(f"{what} the replies are {given!r}")
        answered = max(n for n in range(len(SCRIPT) + 1) if given.startswith("".join(self.given[:n])))
        again = run(self.program, self.path, ["stats"])
        if again not in [(0, stats, "") for stats in self.stats[answered : answered + 2]]:
            raise SystemExit(f"{what} {answered} lines were answered, and a new run answers {again}")
        self.ends[status] += 1
        return status


def main():
    parser = argparse.ArgumentParser(description=__doc__, formatter_class=argparse.RawDescriptionHelpFormatter)
    parser.add_argument("--program", default=os.path.join(TOP, "crates", "alta_cli", "out", "alta_cli"))
    parser.add_argument("--every", type=int, default=1)
    options = parser.parse_args()
    program = os.path.abspath(options.program)
    memory = "/dev/shm" if os.access("/dev/shm", os.W_OK) else None
    with tempfile.TemporaryDirectory(dir=memory) as folder:
        check = Check(program, folder)
        met = check.met()
        print(f"a whole run meets {met} allocations")
        for number in range(1, met + 1, options.every):
            check.try_refusing(number, number)
            check.try_refusing(number, LAST)
    ended = ", ".join(f"{count} with status {status}" for status, count in sorted(check.ends.items()))
    print(f"of the runs with one refused and with all from one on {ended} ended, with nothing lost")
    return 0


if __name__ == "__main__":
    sys.exit(main())
