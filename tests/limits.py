#!/usr/bin/env python3
"""Runs the program at each of its limits with memory to spare: tests/limits.py --program PATH

Want of memory is the one answer that no contract ties to its cause, so a body that gave up at a limit would be proved. Here each
limit is reached, and passed by one where a line can do that: a half of the journal full of the shortest records and of long ones, the longest line,
64 words, 32 levels of nesting, 64 cursors, 100,000 answers and sixteen levels. Each reply is compared whole with what this script
writes out by docs/QUERIES.md and docs/FORMAT.md, no run may end with another status than 0, and so never with that of memory.
"""

import argparse
import itertools
import os
import string
import subprocess
import tempfile

GRAPHIC = [chr(code) for code in range(0x21, 0x7F)]
HALF = 1_048_576
SLOT_B = 4_096
OPEN = 0xA5
LINE = 262_143
WORDS = 64
DEPTH = 32
CURSORS = 64
BEST = 1_000
MANY = 100_000
LEVELS = 16


class Index:
    """An index in a file, and the program over it."""

    def __init__(self, program, path):
        self.program, self.path = program, path
        self.call("init", "", "")

    def call(self, word, lines, want):
        ran = subprocess.run([self.program, self.path, word], input=lines.encode(), stdout=subprocess.PIPE, stderr=subprocess.PIPE)
        if ran.returncode or ran.stderr:
            raise SystemExit(f"limits: status {ran.returncode}: {ran.stderr.decode()!r} at {lines[:80]!r}")
        given = ran.stdout.decode()
        if given != want:
            raise SystemExit(f"limits: {different(given, want)} at {lines[:80]!r}")

    def run(self, lines, replies):
        """Runs these lines; the replies have to be these, each of whole lines."""
        self.call("run", "".join(line + "\n" for line in lines), "".join(reply + "\n" for reply in replies))

    def bytes_at(self, place, count):
        with open(self.path, "rb") as file:
            file.seek(place)
            return file.read(count)

    def content(self):
        with open(self.path, "rb") as file:
            return file.read()

    def put(self, content):
        with open(self.path, "wb") as file:
            file.write(content)

    def switches(self):
        """Whether the root was switched to slot B."""
        return self.bytes_at(SLOT_B, 1)[0] == OPEN

    def levels(self):
        """How many levels the root names that counts: of two open slots that whose sequence is one past the other's."""
        slots = [self.bytes_at(place, 4) for place in (0, SLOT_B)]
        first, second = ((slot[2], slot[3]) if slot[0] == OPEN else None for slot in slots)
        if first and second:
            return first[1] if first[0] == (second[0] + 1) % 256 else second[1]
        return (first or second)[1]


def different(given, want):
    """The first line in which two texts differ."""
    pairs = itertools.zip_longest(given.split("\n"), want.split("\n"))
    return next(f"{one!r:.80} in place of {other!r:.80}" for one, other in pairs if one != other)


def record_bytes(payload):
    """Gate, length and payload; the gate behind it is that of the next record."""
    return 1 + 4 + payload


def shortest_names():
    """All names, the shorter ones first."""
    for length in itertools.count(1):
        for letters in itertools.product(GRAPHIC, repeat=length):
            yield "".join(letters)


def fitting(records):
    """Of these records, (bytes, line, reply) each, those that a half holds with the gate behind them."""
    used, taken = 0, []
    for size, line, reply in records:
        if used + size + 1 > HALF:
            return taken, (line, reply)
        used += size
        taken.append((line, reply))


def added_and_deleted():
    """The records of the fewest bytes: a name of one byte is added and deleted, over and over."""
    for number in itertools.count(1):
        yield record_bytes(11), "add a\t\t", f"added {number}"
        yield record_bytes(9), "delete a", f"deleted {number}"


def added():
    """The live documents of the fewest bytes, with the shortest names."""
    for number, name in enumerate(shortest_names(), 1):
        yield record_bytes(10 + len(name)), f"add {name}\t\t", f"added {number}"


def full_half(index, records, live):
    """Fills the half of a new index to its last record, opens it, and adds the one that has no room."""
    taken, (line, reply) = fitting(records)
    index.run(*zip(*taken))
    if index.switches():
        raise SystemExit(f"limits: {len(taken)} records do not fit in the half")
    adds = sum(line.startswith("add") for line, _ in taken)
    index.run(["stats"], [f"documents {live(adds)} words 0 next {adds + 1}"])
    index.run([line, "stats"], [reply, f"documents {live(adds) + 1} words 0 next {adds + 2}"])
    if not index.switches():
        raise SystemExit(f"limits: one record more than {len(taken)} is in the half")
    return f"{len(taken)} records"


def shortest_records(index):
    return full_half(index, added_and_deleted(), lambda adds: 0)


def shortest_documents(index):
    return full_half(index, added(), lambda adds: adds)


# Fifteen documents with bodies of LONG letters leave 65,415 bytes of a half. A record takes 16 bytes beside its body here, and one that
# replaces 24. Of each row a line adds a document with this name and a body of so many letters, and a second one `z`; there are the replies
# to both, and whether the root was switched by then, since the line found no room in the half.
LONG = 65_528
LAST_RECORDS = (
    ("a", 65_375, ("replaced 1 by 16", "added 17"), (False, False)),
    ("a", 65_391, ("replaced 1 by 16", "added 17"), (False, True)),
    ("a", 65_392, ("replaced 1 by 16", "added 17"), (True, True)),
    ("p", 65_383, ("added 16", "added 17"), (False, False)),
    ("p", 65_384, ("added 16", "added 17"), (False, True)),
    ("p", 65_399, ("added 16", "added 17"), (False, True)),
    ("p", 65_400, ("added 16", "added 17"), (True, True)),
    ("p", 262_137, ("! line too long", "added 16"), (False, False)),
)


def last_records(index):
    names = string.ascii_lowercase[:15]
    index.run([f"add {name}\t\t{'x' * LONG}" for name in names], [f"added {number}" for number in range(1, 16)])
    content = index.content()
    for name, letters, replies, switched in LAST_RECORDS:
        for together in (True, False):
            index.put(content)
            lines = [f"add {name}\t\t{'x' * letters}", "add z\t\t"]
            if together:
                index.run(lines, replies)
                compare_switch(index, switched[1], letters)
                continue
            for line, reply, is_switched in zip(lines, replies, switched):
                index.run([line], [reply])
                compare_switch(index, is_switched, letters)
    return f"{len(LAST_RECORDS)} last records"


def compare_switch(index, is_switched, letters):
    if index.switches() != is_switched:
        raise SystemExit(f"limits: the root is {'not ' if is_switched else ''}switched with a body of {letters}")


def longest_line(index):
    words = (LINE - len("add a\t\t")) // 2
    body = "x " * words
    exact, more = f"add a\t\t{body}", f"add b\t\t{body}xx"
    assert len(exact) + 1 >= LINE and len(more) > LINE
    query = "count x" + " " * (LINE - len("count x"))
    index.run([exact.ljust(LINE), more, "stats", query, query + " "],
              ["added 1", "! line too long", f"documents 1 words {words} next 2", "found 1", "! line too long"])
    index.run(["flush", "merge", "dump"], ["ok", "ok", "add a\t\t" + body.strip(), "dumped 1"])
    return f"{LINE} bytes"


def most_words(index):
    words = [f"w{number}" for number in range(WORDS)]
    text = " ".join(words)
    index.run([f"add a\t\t{text}"], ["added 1"])
    lines, replies = [], []
    for query in (text, " OR ".join(words), f'"{text}"', " NEAR/1 ".join(words[:2]) + " " + " ".join(words[2:])):
        lines += [f"count {query}", f"search {query}", f"top 1 {query}"]
        replies += ["found 1", "1 a", "found 1", f"1 a {WORDS}", "found 1"]
    index.run(lines, replies)
    index.run([f"count {text} x", f'count "{text} x"'], [f"! query {len(text) + 1} Many", "! query 0 Many"])
    return f"{WORDS} words"


def deepest_nesting(index):
    index.run(["add a\t\tx"], ["added 1"])
    for opened, closed, levels in (("(", ")", 1), ("NOT ", "", 1), ("( ", " )", 1), ("NOT(", ")", 2)):
        depth = DEPTH // levels
        query = opened * depth + "x" + closed * depth
        index.run([f"count {query}", f"search {query}", f"count {opened}{query}{closed}"],
                  ["found 1", "1 a", "found 1", f"! query {len(opened) * depth} Deep"])
    return f"{DEPTH} levels"


def most_cursors(index):
    index.run(["add a\t\tx"], ["added 1"])
    lines = ["open x"] * (CURSORS + 1) + ["open x OR", f"fetch {CURSORS} 1", "close 7", "open x", f"fetch {CURSORS + 1} 1", "fetch 7 1", "count x"]
    opened = [f"cursor {number}" for number in range(1, CURSORS + 1)]
    index.run(lines, [*opened, "! too many cursors", "! query 4 Operand", "1 a\nend", "closed 7", "cursor 7", "! no such cursor", "1 a\nend", "found 1"])
    return f"{CURSORS} cursors"


def most_answers(index):
    """Answers from journal and levels, and then from one level; they come in rows, in a page and as the best."""
    numbers = range(1, MANY + 1)
    index.run([f"add d{number}\t\tx" for number in numbers], [f"added {number}" for number in numbers])
    rows = "\n".join(f"{number} d{number}" for number in numbers)
    best = "\n".join(f"{number} d{number} 1" for number in numbers[:BEST])
    asked = ["search x", "count x", f"top {BEST} x", "open NOT y", f"fetch 1 {MANY}"]
    replies = [f"{rows}\nfound {MANY}", f"found {MANY}", f"{best}\nfound {MANY}", "cursor 1", f"{rows}\nend"]
    index.run(asked, replies)
    index.run(["merge"] + asked, ["ok"] + replies)
    return f"{MANY} answers"


def most_levels(index):
    """A seventeenth level joins the two oldest."""
    names = string.ascii_lowercase[: LEVELS + 1]
    for number, name in enumerate(names, 1):
        index.run([f"add {name}\t\tx {name}", "flush"], [f"added {number}", "ok"])
        if index.levels() != min(number, LEVELS):
            raise SystemExit(f"limits: {index.levels()} levels behind {number} flushes")
        rows = [f"{one} {other}" for one, other in enumerate(names[:number], 1)]
        index.run(["search x", f"count {name}", "count a"], [*rows, f"found {number}", "found 1", "found 1"])
    index.run(["merge", "search x"], ["ok", *rows, f"found {LEVELS + 1}"])
    if index.levels() != 1:
        raise SystemExit(f"limits: {index.levels()} levels behind a merge")
    return f"{LEVELS} levels on the disk"


CASES = [shortest_records, shortest_documents, last_records, longest_line, most_words, deepest_nesting, most_cursors, most_answers, most_levels]


def main():
    parser = argparse.ArgumentParser(description=__doc__, formatter_class=argparse.RawDescriptionHelpFormatter)
    parser.add_argument("--program", default="crates/alta_cli/out/alta_cli")
    program = os.path.abspath(parser.parse_args().program)
    # Each record costs two syncs, and of a folder in memory these are cheap.
    place = "/dev/shm" if os.access("/dev/shm", os.W_OK) else None
    with tempfile.TemporaryDirectory(dir=place) as folder:
        reached = [case(Index(program, os.path.join(folder, case.__name__))) for case in CASES]
    print(f"limits: {', '.join(reached)}: each reply as it should be")


if __name__ == "__main__":
    main()
