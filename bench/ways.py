#!/usr/bin/env python3
"""Counts the functions of these sources that a line of the program passes.

usage: bench/ways.py [--program PATH] [--list LINE]

A function counts for a line where a run of that line calls it and a run of no line does not. Callgrind (Debian's package valgrind) tells
both, over an index of two levels with 20 documents each. Generic functions count once. Drops, closures, the kit's crates and the C
library do not count. The program is built by `bench/unproved.py --plain`, so that no function is made part of another; with --program
it was built so before.

Prints for each line its functions, in all and by crate. With --list the names for this line follow: new, replacing, delete or search.
"""

import argparse
import collections
import os
import re
import shutil
import subprocess
import sys
import tempfile

HERE = os.path.dirname(os.path.abspath(__file__))
LINES = {
    "new": "add n5\tfox\tanother text here\n",
    "replacing": "add d5\tfox\tanother text here\n",
    "delete": "delete d5\n",
    "search": "search fox\n",
}
LEVELS = ("add d{}\tred fox\tthe quick brown fox {}\n", range(20)), ("add d{}\tdog\tthe lazy dog {}\n", range(20, 40))
CALLED = re.compile(r"c?fn=\((\d+)\)(?: (.*))?")


def ran(words, lines):
    """Runs the program so, and stops where it ends with a fault or replies with one."""
    done = subprocess.run(words, input=lines.encode(), stdout=subprocess.PIPE, stderr=subprocess.PIPE)
    if done.returncode or done.stdout.startswith(b"!"):
        raise SystemExit(f"ways: {words[-2:]} ended with {done.returncode}: {(done.stdout + done.stderr)[-500:].decode()}")


def make_index(program, path):
    ran([program, path, "init"], "")
    for form, numbers in LEVELS:
        ran([program, path, "run"], "".join(form.format(it, it) for it in numbers) + "flush\n")


def called(program, path, lines):
    """The functions that a run of these lines calls, by their names, over a copy of the index."""
    with tempfile.TemporaryDirectory() as room:
        index, profile = f"{room}/index", f"{room}/profile"
        shutil.copyfile(path, index)
        ran(["valgrind", "--tool=callgrind", f"--callgrind-out-file={profile}", program, index, "run"], lines)
        names = {}
        with open(profile, encoding="utf-8", errors="replace") as file:
            for line in file:
                found = CALLED.fullmatch(line.rstrip("\n"))
                if found and found[2]:
                    names[found[1]] = found[2]
    return set(names.values())


def functions(names):
    """Those of the repository's crates, without what comes of the compiler: a copy for each type, drops and closures."""
    plain = {it.partition("::<")[0] for it in names if it.startswith("alta_")}
    return {it for it in plain if "Destruct" not in it and "::fn::" not in it}


def counted(program, path):
    """The functions of each line."""
    always = functions(called(program, path, ""))
    return {name: functions(called(program, path, line)) - always for name, line in LINES.items()}


def main():
    parser = argparse.ArgumentParser(description=__doc__, formatter_class=argparse.RawDescriptionHelpFormatter)
    parser.add_argument("--program")
    parser.add_argument("--list", choices=LINES)
    options = parser.parse_args()
    if shutil.which("valgrind") is None:
        raise SystemExit("ways: valgrind is missing (Debian: apt-get install valgrind)")
    with tempfile.TemporaryDirectory() as room:
        program = options.program or f"{room}/program"
        if not options.program:
            subprocess.run([sys.executable, f"{HERE}/unproved.py", "--plain", program], stdout=subprocess.DEVNULL, check=True)
        make_index(program, f"{room}/index")
        ways = counted(program, f"{room}/index")
    for name, way in ways.items():
        crates = collections.Counter(it.partition("::")[0] for it in way)
        print(f"{name}: {len(way)} ({', '.join(f'{crate} {count}' for crate, count in sorted(crates.items()))})")
    if options.list:
        print(*sorted(ways[options.list]), sep="\n")


if __name__ == "__main__":
    main()
