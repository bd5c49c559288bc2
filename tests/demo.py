#!/usr/bin/env python3
"""Runs `demo N`, and compares what it prints and the file that it leaves with what its lines say.

usage: tests/demo.py [--program PATH] [--counts N,N,..]

`demo N` makes an index in which N documents are added, each hundredth with a flush and a step of 50 terms behind it, each fifth is
deleted, and all is merged; it prints the replies to seven lines of a report. For 200 and 2,000 documents these are written below.
For others, small ones and around the hundreds and fifths, they are worked out by `answers.py`, and for all of them the file has
to be that of `held.py`, byte by byte, one level at most. An index that stands there is left alone. Words of another form are refused,
and nothing is made. Ends with status 0 where all of that holds.
"""

import argparse
import os
import subprocess
import sys
import tempfile

from model.answers import Machine, spelled
from model.held import Held, empty_file
from support import PATIENCE

USAGE = "alta: usage: alta_cli PATH init | run | demo N\n"
EVEN = ("word", "even")
REPORT = [
    ("count", EVEN),
    ("count", ("phrase", ["w7", "odd"])),
    ("count", ("and", [("word", "w3"), ("not", EVEN)])),
    ("count", ("and", [("title", ("word", "item")), ("word", "w42")])),
    ("count", ("near", 1, ("word", "w2"), EVEN)),
    ("search", ("name", "d1999")),
]
WRITTEN = {
    200: "documents 160 words 800 next 201\nfound 80\nfound 2\nfound 20\nfound 2\nfound 2\nfound 0\n",
    2000: "documents 1600 words 8000 next 2001\nfound 800\nfound 20\nfound 200\nfound 20\nfound 20\n1999 d1999\nfound 1\n",
}
OTHERS = [1, 4, 5, 9, 10, 99, 100, 101, 199, 499, 1700, 2099]
REFUSED = [["demo"], ["demo", "1", "1"], *(["demo", number] for number in ("", "0", "01", "007", "100001", "1000000", "9" * 22, "-1", "+1", "1 ", "5x", "x"))]


def lines_of(count):
    """The lines that make the index."""
    for number in range(1, count + 1):
        yield f"add d{number}\titem {number}\tw{number % 10} w{number % 100} {'odd' if number % 2 else 'even'}"
        if number % 100 == 0:
            yield "flush"
            yield "step 50"
    for number in range(5, count + 1, 5):
        yield f"delete d{number}"
    yield "merge"


def wanted(count):
    """What has to be printed, and what has to be held."""
    machine, held = Machine([query for _, query in REPORT]), Held(empty_file())
    for line in lines_of(count):
        if machine.reply(line).startswith("!"):
            raise SystemExit(f"demo: a line of {count} documents is refused: {line}")
        held.work(line, machine.entry)
    if len(held.levels) > 1 or held.ends or held.entries:
        raise SystemExit(f"demo: the merge of {count} documents leaves more than a level")
    report = ["stats"] + [f"{word} {spelled(query)}" for word, query in REPORT]
    return "".join(map(machine.reply, report)), held


def content_of(path):
    if not os.path.exists(path):
        return None
    with open(path, "rb") as file:
        return file.read()


def try_words(program, path, words, status, said, given, file):
    """Runs the program with these words: status, the line on standard error, what is printed, and the file behind it."""
    done = subprocess.run([program, path, *words], stdin=subprocess.DEVNULL, capture_output=True, timeout=PATIENCE)
    came = (done.returncode, done.stderr.decode(), done.stdout.decode())
    if came != (status, said, given):
        raise SystemExit(f"demo: {' '.join(words)} ends with {came} in place of {(status, said, given)}")
    if content_of(path) != file:
        raise SystemExit(f"demo: {' '.join(words)} leaves another file than it has to")


def try_count(program, path, count):
    """A demo of so many documents, and another behind it, which finds an index there."""
    given, held = wanted(count)
    if given != WRITTEN.get(count, given):
        raise SystemExit(f"demo: the report on {count} documents is worked out as {given!r}")
    try_words(program, path, ["demo", str(count)], 0, "", given, held.file)
    try_words(program, path, ["demo", str(count)], 10, "alta: index exists\n", "", held.file)
    os.remove(path)


def main():
    parser = argparse.ArgumentParser(description=__doc__, formatter_class=argparse.RawDescriptionHelpFormatter)
    top = os.path.dirname(os.path.dirname(os.path.abspath(__file__)))
    parser.add_argument("--program", default=os.path.join(top, "alta"))
    parser.add_argument("--counts", type=lambda text: [int(word) for word in text.split(",")], default=OTHERS)
    options = parser.parse_args()
    program = os.path.abspath(options.program)
    memory = "/dev/shm" if os.access("/dev/shm", os.W_OK) else None
    with tempfile.TemporaryDirectory(dir=memory) as folder:
        path = os.path.join(folder, "index")
        for words in REFUSED:
            try_words(program, path, words, 1, USAGE, "", None)
        for count in [*WRITTEN, *options.counts]:
            try_count(program, path, count)
        # a file without an index is written over
        with open(path, "wb") as file:
            file.write(b"\xee" * 8191)
        try_count(program, path, 7)
    print(f"demo: {len(WRITTEN) + len(options.counts) + 1} indexes were made and reported on as their lines say")


if __name__ == "__main__":
    sys.exit(main())
