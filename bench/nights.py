#!/usr/bin/env python3
"""Measures a night without news and a count, over mail that is made from a seed.

usage: bench/nights.py [--messages N] [--stamps N] [--turns N] [--folder FOLDER] [--program PATH]

Makes a Maildir of N messages (40,000) as bench/questions.py does, and brings them in. With --stamps the count is asked beside so many
documents (480,000) of twenty words, each with its stamp, that no import has read. Each command is run once, and then so many turns;
the least seconds by the clock and of the processor count, of its own and of what it starts. Beside it stand Python's own start and what
the program takes to open the index and to count. The commands keep Python's own form of the modules, as an installed package has it.
"""

import argparse
import os
import random
import resource
import subprocess
import sys
import tempfile
import time

from questions import letters, put

TOP = os.path.dirname(os.path.dirname(os.path.abspath(__file__)))
sys.path.insert(0, os.path.join(TOP, "client"))

from buncocedar import Index, default_program  # noqa: E402
from buncocedar.imports.stampfile import stamps_path  # noqa: E402
from buncocedar.imports.stamps import Stamp, Stamps  # noqa: E402

BUNCO = os.path.join(TOP, "bunco")
WORD = "fox"
AT_A_TIME = 20_000  # documents, before their stamps are written
MERGED_AT = 60_000


def turn(words, environment, data=b""):
    """The seconds by the clock and of the processor that a command takes."""
    before, begun = resource.getrusage(resource.RUSAGE_CHILDREN), time.perf_counter()
    done = subprocess.run(words, input=data, env=environment, stdout=subprocess.DEVNULL, stderr=subprocess.PIPE)
    seconds, after = time.perf_counter() - begun, resource.getrusage(resource.RUSAGE_CHILDREN)
    if done.returncode not in (0, 1):
        sys.exit(f"nights: {done.stderr.decode(errors='replace')}")
    return seconds, after.ru_utime + after.ru_stime - before.ru_utime - before.ru_stime


def least(turns, *words):
    """The least of what a command takes in so many turns, behind one that does not count."""
    turn(*words)
    return [min(column) for column in zip(*[turn(*words) for _ in range(turns)])]


def documents(count, chance):
    """Short documents, each with a name like an id."""
    syllables = [first + last for first in "bdfgklmnprst" for last in ("a", "e", "i", "o", "u", "an", "or")]
    words = [WORD] + ["".join(chance.choices(syllables, k=chance.randint(2, 3))) for _ in range(2_000)]
    for number in range(count):
        yield f"{number}.{chance.randrange(10**6)}@mail.example.org", " ".join(chance.choices(words, k=4)), " ".join(chance.choices(words, k=16))


def fill(path, count, program):
    """Makes an index of so many short documents, with a stamp of each."""
    made = list(documents(count, random.Random(1)))
    stamps = Stamps(stamps_path(path))
    source = stamps.source("mail", "/nowhere")
    with Index(path, create=True, program=program) as index:
        waiting = {}
        for at, (name, number) in enumerate(index.add_all(made), 1):
            waiting[name] = Stamp((int(number),), "0" * 32, source, f"cur/{number}.x%3A2%2CS", "", f"00000000 1500 {number}", "", int(number))
            if at % AT_A_TIME == 0:
                stamps.put(waiting)
                waiting = {}
            if at % MERGED_AT == 0:
                index.merge()
        index.merge()
    stamps.put(waiting)
    stamps.close()


def show(what, figures):
    print("{:44} {:8.3f} s by the clock {:8.3f} s of the processor".format(what, *figures), flush=True)


def main():
    parser = argparse.ArgumentParser(description=__doc__, formatter_class=argparse.RawDescriptionHelpFormatter)
    parser.add_argument("--messages", type=int, default=40_000)
    parser.add_argument("--stamps", type=int, default=0)
    parser.add_argument("--turns", type=int, default=9)
    parser.add_argument("--folder", help="where all is made")
    parser.add_argument("--program")
    options = parser.parse_args()
    program = options.program or default_program()
    environment = {name: value for name, value in os.environ.items() if name != "PYTHONDONTWRITEBYTECODE"}
    environment["BUNCOCEDAR_PROGRAM"] = program
    with tempfile.TemporaryDirectory(dir=options.folder) as place:
        path, top = os.path.join(place, "mail.alta"), os.path.join(place, "Mail")
        if options.stamps:
            fill(path, options.stamps, program)
        else:
            for number, letter in enumerate(letters(options.messages, random.Random(1))):
                put(top, number, letter)
            night = [sys.executable, BUNCO, "mail", path, top]
            show("the import", turn(night, environment))
            show("a run that finds nothing new", least(options.turns, night, environment))
        show("find --count", least(options.turns, [sys.executable, BUNCO, "find", path, WORD, "--count"], environment))
        show("of this Python's own start", least(options.turns, [sys.executable, "-c", "pass"], environment))
        show("of this the program, opening and counting", least(options.turns, [program, path, "run"], environment, f"count {WORD}\n".encode()))


if __name__ == "__main__":
    main()
