#!/usr/bin/env python3
"""Damages index files, and compares what the program says of each with a reading of docs/FORMAT.md that shares nothing with it.

usage: tests/damage.py [--program PATH] [--seconds S] [--seed N] [--all [--part K/N]] [--keep FOLDER]

In each case a file with some bytes changed, or cut, is opened by `run` with some lines. Status, replies and the line on
standard error have to be those that `reading.py` and `answers.py` work out: the first broken place in the order of opening, or
in that of loading or of joining, or the replies of what the file stands for. The file has to be the one that `held.py` writes,
byte by byte: as before, but for the work of the lines that were answered. The cases are the rows of a table; each byte of three
spelled indexes with levels, deletions and records in both halves, one of them with sixteen levels, changed to each of several
values, and these cut at each place; spelled indexes that break rules between their parts; lists broken at several places; and
files that the program itself has written, changed at random. In `--seconds` as many
of them are tried as the seed picks; with `--all` each byte, and the rest for as long; with `--part 2/4` the second of four
parts of the bytes, which several runs can try side by side. With `--keep` the files of the cases that are told stand in that folder. Ends with status 0 where all is as it has to be.
"""

import argparse
import os
import random
import re
import resource
import signal
import subprocess
import sys
import tempfile
import time
from typing import NamedTuple

from model.answers import NUMBERS, Document, Machine, meets, spelled
from model.faults import SMALL, damaged
from model.held import Held, empty_file, slot_bytes
from model.reading import HALF, HALVES, HEAD, LEVELS, NOTHING, OLD_PAYLOAD, SLOT, SLOTS, TEXTS, Add, Delete, Extent, NoIndex, Root, opened
from model.segments import Broken, segment, stream
from model.writing import entry_of_add, entry_of_delete, entry_of_replace, journal, level
from support import PATIENCE

LIMIT = 10  # seconds of the processor that a run may take, however busy that is
MEMORY = 2**30  # bytes that it may have where a file is longer
SHOWN = 5  # cases that are told in full
# the statuses of a run, and the lines that may come with each
TABLE = {
    0: "",
    2: "alta: disk fault\nalta: .+: .+\n",
    3: "alta: input fault\nalta: read: .+\n",
    4: "alta: output fault\nalta: write: .+\n",
    5: "alta: out of memory\n",
    6: r"alta: damaged at \d+\n",
    7: "alta: no index\n",
    8: r"alta: full, need \d+, greatest gap \d+\n",
    9: "alta: input too long\n",
}


class Case(NamedTuple):
    """A damaged file, in words and in bytes, and the lines of a run over it."""

    what: str
    content: bytes
    lines: list[str]


class Answer(NamedTuple):
    """How a run ends, what it says and gives, and the file behind it, where it is known."""

    status: int
    said: str
    given: str
    content: bytes | None


class Index(NamedTuple):
    """An index file, its used parts, each by where it begins and ends, and the extents of its levels."""

    name: str
    content: bytes
    parts: list[tuple[int, int]]
    levels: list[Extent]


# ---- queries

RED, FOX, DOG, QUICK = (("word", word) for word in ("red", "fox", "dog", "quick"))
QUERIES = [
    RED,
    FOX,
    DOG,
    ("word", "Fox"),
    ("word", "nothing"),
    ("prefix", "qui"),
    ("prefix", "re"),
    ("prefix", "Re"),
    ("phrase", ["red", "fox"]),
    ("near", 3, RED, DOG),
    ("title", FOX),
    ("title", ("phrase", ["red", "dog"])),
    ("name", "b"),
    ("name", "d"),
    ("not", FOX),
    ("not", ("and", [RED, ("not", DOG)])),
    ("or", [("name", "b"), ("prefix", "fo")]),
    ("and", [DOG, ("not", QUICK)]),
    ("and", [("or", [RED, QUICK]), DOG]),
    ("and", [("title", FOX), QUICK, ("not", ("word", "lazy"))]),
    ("value", 1990, 1999),
    ("value", 0, NUMBERS - 1),
    ("not", ("value", 7, 7)),
    ("and", [("value", 6, 1996), RED, ("value", 0, 3000)]),
]
# each term of the spelled indexes but that of a document's start, by a query of its own; and with the queries above
TERMS = [("word", word) for word in ("the", "quick", "red", "fox", "dog", "brown", "lazy", "over", "jumps", "Red", "Fox", "Over")]
TERMS += [("name", name) for name in (*"abcdef", *(f"n{i}" for i in range(LEVELS)))]
COUNTED = QUERIES + [term for term in TERMS if term not in QUERIES]


def asking(chance, count):
    """Lines that change nothing."""
    kinds = ["count", "count", "search", "open", f"top {chance.randrange(1, 4)}"]
    lines = [f"{chance.choice(kinds)} {spelled(query)}" for query in chance.sample(QUERIES, count)]
    return lines + [f"fetch {chance.randrange(1, 4)} {chance.randrange(1, 4)}", "stats"] + ["dump"] * chance.choice([0, 0, 1])


def all_counts(chance):
    """Two counts of each term and of each query, in any order, and the stats before or behind them: what a search has tested of a
    level is not tested again by the next."""
    lines = [f"count {spelled(query)}" for query in chance.sample(COUNTED * 2, len(COUNTED) * 2)]
    return ["stats", *lines] if chance.random() < 0.5 else [*lines, "stats"]


def changes(chance, count):
    """Adds and deletes."""
    names = chance.sample("abcdefgh", count)
    return [f"delete {name}" if chance.random() < 0.4 else f"add {name}\tRed fox\tdog 3.14 {name}" for name in names]


def joining(chance):
    """Lines that join levels, with changes and counts between them."""
    lines = [chance.choice(["merge", "step 1", "step 9", "step 1000000"]) for _ in range(chance.choice([1, 1, 2, 3]))]
    lines += ["flush"] * chance.choice([0, 0, 1, 2]) + changes(chance, chance.choice([0, 1, 2]))
    lines += all_counts(chance)[: chance.choice([1, 2, 5])]
    chance.shuffle(lines)
    return lines


def counting_or_joining(chance):
    """A count of each term and query, or these behind a line that may join levels, or more such lines."""
    kind = chance.random()
    if kind < 0.4:
        return all_counts(chance)
    if kind < 0.7:
        return [chance.choice(["merge", "step 1", "flush"]), *all_counts(chance)]
    return joining(chance)


def changing(chance):
    """Lines of all kinds."""
    lines = asking(chance, 4) + changes(chance, 3)
    if chance.random() < 0.5:
        lines += joining(chance)
    chance.shuffle(lines)
    return lines


# ---- what has to come


class LevelDocument:
    """A document of a level: its places are those of the lists that were loaded."""

    def __init__(self, of_level, row):
        self.level, self.row = of_level, row
        self.number, self.name = row.number, row.name.decode()
        self.first, self.last = row.first, row.last
        self.words = row.last - row.first - 2

    def places(self, test):
        lists = [list_ for term, list_ in self.level.lists.items() if meets(test, term)]
        return {location for list_ in lists for location in list_ if self.first <= location <= self.last}

    def terms(self, kind):
        lists = [(term, list_) for term, list_ in self.level.lists.items() if term.startswith(kind)]
        return sorted((location, term) for term, list_ in lists for location in list_ if self.first <= location <= self.last)


class OpenedMachine(Machine):
    """The documents of what is held. A search loads the lists of its tests, or raises `Broken` at the first that is."""

    def __init__(self, held):
        ends, rows = set(held.ends), [(of_level, row) for of_level in held.levels for row in of_level.rows]
        live = [LevelDocument(of_level, row) for of_level, row in rows if row.last not in ends]
        super().__init__(COUNTED, live, held.root.next_number)
        self.held = held
        for entry in held.entries:
            self.enter(entry)

    def enter(self, entry):
        """Applies an entry of the journal."""
        if not isinstance(entry, Add):
            self.leave_out(entry.number)
        if isinstance(entry, Delete):
            return
        self.put(Document(self.next_number, entry.name.decode(), entry.title, entry.body))
        self.next_number += 1

    def load(self, tests):
        for test in tests:
            for term in sorted({term for of_level in self.held.levels for term in of_level.terms if meets(test, term)}):
                for of_level in self.held.levels:
                    if term in of_level.terms:
                        of_level.load(term)


def expected(case):
    """The answer that has to come, and whether its replies are known: those about words beyond ASCII are not, nor is the file
    once such words stand in a level."""
    try:
        held = Held(case.content)
    except NoIndex:
        return Answer(7, "alta: no index\n", "", case.content), True
    except Broken as fault:
        return Answer(6, f"alta: damaged at {fault.place}\n", "", case.content), True
    machine, root, given, status, said = OpenedMachine(held), held.root, "", 0, ""
    try:
        for line in case.lines:
            reply = machine.reply(line)
            held.work(line, machine.entry)
            given += reply
    except Broken as fault:
        status, said = 6, f"alta: damaged at {fault.place}\n"
    is_known = held.is_ascii or held.root == root
    return Answer(status, said, given, bytes(held.file) if is_known else None), held.is_ascii


# ---- the runs


class Trial:
    """Runs the program over damaged files, and tells where it differs."""

    def __init__(self, program, folder, keep=None):
        self.program, self.path, self.keep = program, os.path.join(folder, "index"), keep
        self.cases = self.damaged = self.differing = 0

    def run(self, case):
        """What the program answers, or None where it does not end in time."""
        with open(self.path, "wb") as file:
            file.write(case.content)
        lines = "".join(line + "\n" for line in case.lines).encode()
        try:
            words = [self.program, self.path, "run"]
            done = subprocess.run(words, input=lines, capture_output=True, timeout=PATIENCE, preexec_fn=in_little_time)
        except subprocess.TimeoutExpired:
            return None
        if done.returncode == -signal.SIGXCPU:
            return None
        with open(self.path, "rb") as file:
            content = file.read()
        return Answer(done.returncode, done.stderr.decode(errors="replace"), done.stdout.decode(errors="replace"), content)

    def try_case(self, case):
        wanted, is_known = expected(case)
        came = self.run(case)
        self.cases += 1
        self.damaged += wanted.status == 6
        fault = fault_of(wanted, came, is_known)
        if fault:
            self.differing += 1
            self.tell(case, fault)

    def tell(self, case, fault):
        """Tells the first cases that differ, and keeps their files where that is asked for."""
        if self.differing > SHOWN:
            return
        print(f"damage: {case.what}, with {case.lines}: {fault}", file=sys.stderr)
        if self.keep:
            with open(os.path.join(self.keep, f"damage-{self.differing}"), "wb") as file:
                file.write(case.content)


def fault_of(wanted, came, is_known):
    """Where an answer is not the one that has to come."""
    if came is None:
        return f"no end within {LIMIT} seconds of the processor"
    if came.status not in TABLE or not re.fullmatch(TABLE[came.status], came.said):
        return f"status {came.status} with {came.said!r} is none of the table"
    if (came.status, came.said) != (wanted.status, wanted.said):
        return f"status {came.status} with {came.said!r} in place of {wanted.status} with {wanted.said!r}"
    if wanted.content is not None and came.content != wanted.content:
        return "the file is " + difference(wanted.content, came.content)
    if is_known and came.given != wanted.given:
        return f"the replies are {came.given!r} in place of {wanted.given!r}"
    return None


def difference(wanted, came):
    if len(wanted) != len(came):
        return f"{len(came)} bytes long in place of {len(wanted)}"
    at = next(i for i, (a, b) in enumerate(zip(wanted, came)) if a != b)
    return f"{came[at]:02x} in place of {wanted[at]:02x} at {at}"


# ---- the spelling of files


def slot_part(slot, root):
    """Where the fields of a slot begin, and where the first bytes end that nothing is said of."""
    return SLOTS[slot], SLOTS[slot] + 40 + 16 * len(root.levels) + 4


def place_parts(parts, gaps):
    """Parts one behind the other, with so many unused bytes before each: their bytes and extents."""
    body, extents = b"", []
    for part, gap in zip(parts, gaps):
        body += b"\xee" * gap
        extents.append(Extent(HEAD + len(body), len(part)) if part else NOTHING)
        body += part
    return body, extents


def used_by(root):
    """Where the extents of a root begin and end."""
    return [(extent.place, extent.place + extent.length) for extent in (root.deletions, *root.levels) if extent.length]


def index_of(name, slots, halves, body, counting):
    """The file of two slots, each a root and whether its gate is open, of the entries of both halves, and of what the root that
    counts names."""
    content = b"".join(slot_bytes(*slot) for slot in slots)
    content += b"".join(journal(entries).ljust(HALF, b"\0") for entries in halves) + body
    parts = [slot_part(slot, slots[slot][0]) for slot in (0, 1)]
    parts += [(HALVES[half], HALVES[half] + len(journal(halves[half])) + 4) for half in (0, 1)]
    return Index(name, content, parts + used_by(counting), counting.levels)


def end_of(document):
    number, first, name, title, body = document
    return first + Document(number, name, title, body).words + 2


OLD = [
    (1, 1, "a", "Red Fox", "the quick red fox"),
    (2, 10, "b", "", "red " * 66 + "dog"),
    (3, 80, "c", "lazy", "brown dog"),
]
NEW = [
    (5, 300, "d", "Over", "fox jumps"),
    (7, 320, "e", "Red dog", "quick brown Fox over the lazy dog"),
    (8, 500, "f", "fox", "over"),
]
NEWEST = [
    entry_of_add("g", "Fox", "fox's red-dog 3.14"),
    entry_of_add("h", "", "quick red"),
    entry_of_delete(9),
    entry_of_delete(5),
    entry_of_add("d", "red\x7ffox", "again\tfox"),
]
REPLACED = [*NEWEST, entry_of_replace(10, "h", "fox", "quick dog")]
OLDER = [entry_of_add("old", "", "fox"), entry_of_delete(1)]


def both_slots():
    """Two levels, a deletion list, and both slots and halves in use; slot A counts, and its sequence is behind 255."""
    ends = [end_of(OLD[2]), end_of(NEW[2])]
    body, extents = place_parts([stream(ends), level(OLD), level(NEW)], [3, 7, 40])
    root = Root(0, 9, 600, extents[0], extents[1:])
    before = Root(255, 4, 100, Extent(extents[2].place - 30, 20), extents[1:2])
    return index_of("both slots", [(root, True), (before, True)], [REPLACED, OLDER], body, root)


def one_slot():
    """Slot B counts alone, with version 1; behind the closed gate of slot A stands a root that would count if it were open."""
    body, extents = place_parts([b"", level(OLD), level(NEW)], [0, 0, 0])
    root = Root(7, 9, 600, NOTHING, extents[1:], version=1)
    to_come = Root(8, 4, 100, Extent(HEAD + 5, 1), extents[1:2])
    return index_of("one slot", [(to_come, False), (root, True)], [OLDER[:1], NEWEST], body, root)


def wide_level():
    """A level with a list whose summary has two groups of rows."""
    documents = [(1, 1, "a", "fox", "red " * 4163 + "dog"), (2, 4170, "b", "red dog", "quick")]
    body, extents = place_parts([level(documents)], [0])
    root = Root(1, 3, 4180, NOTHING, extents)
    return index_of("a wide level", [(Root(0, 1, 1, NOTHING, []), True), (root, True)], [OLDER[:1], NEWEST[1:2]], body, root)


def sixteen_levels():
    """As many levels as a root may have, of one document each, so that a flush joins the oldest two; the first of them and one
    more are deleted."""
    texts = [("Red Fox", "the quick red fox"), ("", "red " * 66 + "dog"), ("Over", "fox jumps"), ("lazy dog", "")]
    documents = [(2 * i + 1, 90 * i + 1, f"n{i}", *texts[i % 4]) for i in range(LEVELS)]
    ends = [end_of(documents[0]), end_of(documents[9])]
    body, extents = place_parts([level([document]) for document in documents] + [stream(ends)], [5] * (LEVELS + 1))
    root = Root(200, 40, 2000, extents[-1], extents[:-1])
    return index_of("sixteen levels", [(Root(199, 1, 1, NOTHING, []), True), (root, True)], [OLDER[:1], NEWEST[:2]], body, root)


def changed(content, place, new):
    return content[:place] + new + content[place + len(new) :]


# ---- the table

DELETED = 2105470
ROWS = [
    (4097, "03", 4097),
    (4098, "07", 4098),
    (4099, "11", 4099),
    (4100, "01", 4100),
    (4151, "1f", 4136),
    (2105376, "00", 2105376),
    (2105377, "00", 2105377),
    (2105378, "02", 2105378),
    (2105380, "20", 2105380),
    (2105381, "01", 2105381),
    (2105384, "00", 2105384),
    (1056768, "a50000000104", 1056773),
]
# a list of `D`, and one of `fox`: found when they are loaded
LISTS = [(2105458, "08", {"count fox": 2105458, "count name:b": 2105458}), (2105463, "00", {"count fox": 2105463})]
CUTS = [(2105469, 4136), (2105343, 2105343), (8191, None)]
LINES = {"count fox": "found 1\n", "stats": "documents 1 words 6 next 2\n", "count name:b": "found 0\n"}


# three documents, each flushed into a level, and lists of these: a changed byte breaks `D` or `fox` of the first, `D` of the second,
# or `D` of the third. A line that joins levels is damaged at the first fault of those that it joins, and a line before it is answered.
THREE = ["add a\tRed Fox\tthe quick red fox", "flush", "add b\tFox\tquick brown dog", "flush", "add c\t\tred dog", "flush"]
FIRST_END, FIRST_FOX, SECOND_END, THIRD_END = (2105458, "08"), (2105463, "00"), (2105578, "11"), (2105666, "16")
JOINS = [
    ([FIRST_END], ["merge"], FIRST_END, ""),
    ([FIRST_END], ["step 1"], FIRST_END, ""),
    ([FIRST_FOX], ["merge"], FIRST_FOX, ""),
    ([FIRST_FOX], ["count name:b", "delete a", "merge"], FIRST_FOX, "found 1\ndeleted 1\n"),
    ([FIRST_FOX], ["delete a", "flush", "step 1000000"], FIRST_FOX, "deleted 1\nok\n"),
    ([FIRST_FOX, FIRST_END], ["merge"], FIRST_END, ""),
    ([SECOND_END], ["step 1"], SECOND_END, ""),
    ([SECOND_END, FIRST_FOX], ["merge"], FIRST_FOX, ""),
    ([SECOND_END, FIRST_FOX], ["step 1000000"], FIRST_FOX, ""),
    ([THIRD_END], ["step 1", "step 1000000", "stats"], None, "ok\nok\ndocuments 3 words 12 next 4\n"),
    ([THIRD_END], ["merge"], THIRD_END, ""),
    ([THIRD_END], ["step 1", "step 1000000", "merge"], THIRD_END, "ok\nok\n"),
    ([THIRD_END, SECOND_END], ["step 1"], SECOND_END, ""),
    ([], ["delete b", "merge", "count dog", "merge"], None, "deleted 2\nok\nfound 1\nok\n"),
]


def joins():
    """The rows of joins over three levels, each with the answer that is written in it."""
    held = Held(empty_file())
    for number, line in enumerate(THREE):
        held.work(line, ("add", *line[4:].split("\t")) if number % 2 == 0 else None)
    for faults, lines, fault, given in JOINS:
        content = bytes(held.file)
        for place, new in faults:
            content = changed(content, place, bytes.fromhex(new))
        row = (0, "") if fault is None else (6, f"alta: damaged at {fault[0]}\n")
        yield Case(" and ".join(f"{new} at {place}" for place, new in faults), content, lines), (*row, given)


def flushed_index(entries, ends, slot):
    """The line `add a<T>Red Fox<T>the quick red fox`, flushed into a level, and what came behind it."""
    body, extents = place_parts([SMALL, stream(ends)], [0, 0])
    empty, first = Root(0, 1, 1, NOTHING, []), Root(1, 2, 10, NOTHING, extents[:1])
    second = Root(2, 2, 10, extents[1], extents[:1])
    roots = [empty, first] if slot == 1 else [second, first]
    return index_of("flushed", [(root, True) for root in roots], entries, body, roots[slot]).content


def table():
    """The rows, each with the answer that is written in it: status, what is said, what is given."""
    add = entry_of_add("a", "Red Fox", "the quick red fox")
    content = flushed_index([[add], []], [], 1)
    for line, reply in LINES.items():
        yield Case("nothing changed", content, [line]), (0, "", reply)
        for place, new, damage in ROWS:
            yield Case(f"{new} at {place}", changed(content, place, bytes.fromhex(new)), [line]), (6, f"alta: damaged at {damage}\n", "")
        for place, new, damages in LISTS:
            row = (6, f"alta: damaged at {damages[line]}\n", "") if line in damages else (0, "", reply)
            yield Case(f"{new} at {place}", changed(content, place, bytes.fromhex(new)), [line]), row
        for length, damage in CUTS:
            row = (7, "alta: no index\n", "") if damage is None else (6, f"alta: damaged at {damage}\n", "")
            yield Case(f"cut to {length}", content[:length], [line]), row
        yield Case("00 at 4096", changed(content, 4096, b"\0"), [line]), (0, "", reply)
    deleted = flushed_index([[], [entry_of_delete(1)]], [9], 0)
    yield Case("a deletion list", deleted, ["count fox", "stats"]), (0, "", "found 0\ndocuments 0 words 0 next 2\n")
    for line in LINES:
        yield Case(f"08 at {DELETED}", changed(deleted, DELETED, b"\x08"), [line]), (6, f"alta: damaged at {DELETED}\n", "")


def try_table(trial):
    """The rows, whose answers are written in them; the reading has to say the same."""
    for case, row in (*table(), *joins()):
        answer, _ = expected(case)
        if answer[:3] != row:
            raise SystemExit(f"damage: {case.what}, with {case.lines}: the reading says {answer[:3]}, and the row {row}")
        trial.try_case(case)


# ---- journals and roots at their bounds


def journal_index(slot, entries, next_number=1, version=2):
    """An index without levels whose journal has these payloads."""
    root = Root(3, next_number, 1, NOTHING, [], version)
    slots = [(root, True), (Root(2, 1, 1, NOTHING, []), True)]
    halves = [entries, OLDER[:1]]
    if slot == 1:
        slots, halves = slots[::-1], halves[::-1]
    return index_of("a journal", slots, halves, b"", root).content


def add_of(length, name="a"):
    """An add whose payload has so many bytes."""
    return entry_of_add(name, "", "y" * (length - 10 - len(name)))


def filled(slot, left):
    """An index whose records leave so many bytes of the half."""
    payloads = [add_of(OLD_PAYLOAD, f"{i}") for i in range(15)]
    rest = HALF - sum(5 + len(payload) for payload in payloads) - left
    return journal_index(slot, payloads + [add_of(rest - 5)])[: HEAD + (left == 0)]


def edges_of_versions(slot):
    """Whole files and damages at the bounds of what a record may be under a root of each version."""
    for version in (1, 2):
        for length in (OLD_PAYLOAD - 1, OLD_PAYLOAD, OLD_PAYLOAD + 1, TEXTS + 9, TEXTS + 10, TEXTS + 11):
            entries = [add_of(length), *OLDER[:1]]
            yield f"a payload of {length} bytes under version {version}", journal_index(slot, entries, version=version)
        for number, name in ((1, "old"), (2, "old"), (1, "other"), (0, "other")):
            entries = [OLDER[0], entry_of_replace(number, name, "", "red")]
            yield f"a replace of {name} {number} under version {version}", journal_index(slot, entries, version=version)
    for length in (TEXTS - 4, TEXTS - 3, TEXTS - 2):
        yield f"a replace with a body of {length} bytes", journal_index(slot, [OLDER[0], entry_of_replace(1, "old", "", "y" * length)])
    replace = entry_of_replace(1, "old", "", "red")
    for payload in (replace[:1], replace[:9], replace[:-1], replace + b"y", b"\4" + replace[1:]):
        yield f"a payload of {payload.hex()} behind an add", journal_index(slot, [OLDER[0], payload])


def edges():
    """Damages and whole files at the bounds of records, halves and roots."""
    for slot in (0, 1):
        yield from edges_of_versions(slot)
        for length in (1, 64, 65):
            yield f"a name of {length} bytes", journal_index(slot, [entry_of_add("n" * length, "", "fox")])
        for payload in (b"", b"\1", b"\2", b"\0", OLDER[0][:-1], OLDER[0] + b"y", OLDER[1][:-1], OLDER[1] + b"\0"):
            yield f"a payload of {payload.hex()}", journal_index(slot, [payload])
        for text in ("a\tb", "a\nb", "a\0b", "\u00e9", "\uffff"):
            yield f"a title {text!r}", journal_index(slot, [entry_of_add_bytes("t", text.encode(), b"")])
            yield f"a body {text!r}", journal_index(slot, [entry_of_add_bytes("t", b"", text.encode())])
        for raw in (b"\x80", b"\xc0\x80", b"\xed\xa0\x80", b"\xf4\x90\x80\x80", b"\xe2\x82"):
            yield f"a body of the bytes {raw.hex()}", journal_index(slot, [entry_of_add_bytes("t", b"", raw)])
        for number in (2**32 - 2, 2**32 - 1, 2**32, 2**32 + 1):
            yield f"the next number {number}", journal_index(slot, [], number)
            yield f"an add at the next number {number}", journal_index(slot, OLDER[:1], number)
            yield f"a replace behind it at the next number {number}", journal_index(slot, [OLDER[0], entry_of_replace(number, "old", "", "")], number)
        for left in range(8):
            content = filled(slot, left)
            yield f"{left} bytes left of a half", content
            if left:
                tail = HALVES[slot] + HALF - left
                for behind in (b"\xa5", b"\xa5\0\0\0\0", b"\xa5\xff\xff\xff\xff"):
                    yield f"{behind.hex()} in the last {left} bytes of a half", changed(content, tail, behind[:left])


def entry_of_add_bytes(name, title, body):
    """An add of texts that may be no texts."""
    texts = b"".join(len(text).to_bytes(4, "big") + text for text in (title, body))
    return b"\x01" + bytes([len(name)]) + name.encode() + texts


def try_edges(trial):
    for what, content in edges():
        trial.try_case(Case(what, content, ["stats", "count fox"]))


# ---- each byte, and each length


def values_of(byte):
    """What a byte is changed to."""
    return sorted({0, 1, 0x7F, 0x80, 0xFF, (byte + 1) % 256, (byte - 1) % 256, 0xA5} - {byte})


def byte_changes(index):
    """Each byte of the used parts, with each value."""
    for first, end in index.parts:
        for place in range(first, min(end, len(index.content))):
            for value in values_of(index.content[place]):
                yield index, place, value


def cuts(index):
    """The lengths to which a file is cut: each within the levels, and those around the parts before them."""
    whole = len(index.content)
    around = {0, 1, SLOT, 2 * SLOT, HEAD} | {place for part in index.parts for place in part}
    lengths = {place + near for place in around for near in (-1, 0, 1)} | set(range(HEAD, whole))
    return [(index, length, None) for length in sorted(lengths) if 0 <= length < whole]


def case_of_change(chance, change):
    """The case of a change: a byte and its value, or a length."""
    index, place, value = change
    if value is None:
        return Case(f"{index.name} cut to {place}", index.content[:place], counting_or_joining(chance))
    return Case(f"{value:02x} at {place} of {index.name}", changed(index.content, place, bytes([value])), counting_or_joining(chance))


def place_in_lists(chance, index):
    """A place in the lists of a level."""
    place, length = chance.choice(index.levels[:2] if chance.random() < 0.5 else index.levels)
    tables = sum(int.from_bytes(index.content[place + at : place + at + 8], "big") for at in (16, 24))
    return chance.randrange(place + 32 + tables, place + length)


def broken_lists(chance, index):
    """A case in which several lists are broken, so that the order of loading or of joining decides."""
    content, told = index.content, []
    for _ in range(chance.choice([2, 3, 5])):
        place = place_in_lists(chance, index)
        value = chance.choice(values_of(content[place]))
        content = changed(content, place, bytes([value]))
        told.append(f"{value:02x} at {place}")
    return Case(f"{', '.join(told)} of {index.name}", content, counting_or_joining(chance))


# ---- indexes that break rules between their parts


def invented_documents(chance, count, number, location):
    """Rows of a level, now and then with a name that is taken."""
    documents = []
    for _ in range(count):
        number += chance.choice([1, 1, 1, 2, 300])
        location += chance.choice([1, 1, 1, 2, 50])
        words = chance.choice([0, 1, 3, 70])
        documents.append((number, location, 3 + words, chance.choice("abcdefghijklmnopqrstuvwxyz").encode()))
        location += 2 + words
    return documents


def invented_level(chance, documents):
    """The segment of rows, whose cells hold ends and some words."""
    lists = {b"D": [first + cells - 1 for _, first, cells, _ in documents]}
    for word in (b"Wdog", b"Wfox", b"Wquick", b"Wred", b"XFox", b"T", *(b"N" + name for *_, name in documents)):
        inside = [x for _, first, cells, _ in documents for x in range(first, first + cells)]
        lists[word] = sorted(chance.sample(inside, chance.randrange(1, len(inside) + 1)))
    return segment(documents, sorted(lists.items()))


def invented_entries(chance, count, next_number):
    names = "abcdefghijklmnopqrstuvwxyz"
    adds = [entry_of_add(chance.choice(names), "", "red fox") for _ in range(count)]
    deletes = [entry_of_delete(chance.randrange(1, next_number + 2)) for _ in range(count)]
    replaces = [entry_of_replace(chance.randrange(1, next_number + 2), chance.choice(names), "", "dog") for _ in range(count)]
    return chance.sample(adds + deletes + replaces, count)


def invented_index(chance):
    """An index of a few levels whose order, names, deleted ends and entries may break rules."""
    levels, number, location = [], 0, 0
    for _ in range(chance.choice([0, 1, 2, 2, 3])):
        documents = invented_documents(chance, chance.choice([1, 2, 3]), number, location)
        levels.append(documents)
        number, location = documents[-1][0], documents[-1][1] + documents[-1][2] - 1
        if chance.random() < 0.08:
            number, location = max(0, number - chance.choice([1, 400])), max(0, location - chance.choice([1, 60]))
    ends = [first + cells - 1 for documents in levels for _, first, cells, _ in documents]
    deleted = sorted(set(chance.sample(ends, chance.randrange(len(ends) + 1))))
    if chance.random() < 0.08:
        deleted = sorted({*deleted, chance.randrange(1, location + 9)})
    parts = [invented_level(chance, documents) for documents in levels]
    parts = [damaged(chance, part) if chance.random() < 0.05 else part for part in parts] + [stream(deleted)]
    body, extents = place_parts(parts, [chance.randrange(9) for _ in parts])
    next_number = number + chance.choice([1] * 12 + [0, 2, 300])
    root = Root(chance.randrange(256), next_number, location + chance.choice([1] * 12 + [0, 2, 300]), extents[-1], extents[:-1])
    root = root._replace(version=chance.choice([1, 2, 2]))
    other = Root((root.sequence + chance.choice([-1] * 12 + [0, 1, 2])) % 256, 1, 1, NOTHING, [], chance.choice([1, 2]))
    entries = [invented_entries(chance, chance.choice([0, 0, 1, 2]), next_number) for _ in range(2)]
    slots = [(root, True), (other, chance.random() < 0.7)]
    if chance.random() < 0.5:
        slots.reverse()
    return index_of("an invented index", slots, entries, body, root)


# ---- random changes


def field_change(chance, index):
    """A field of eight bytes of a slot, or of the head of a level, with a value at some edge."""
    first, _ = chance.choice(index.parts[:2] + index.parts[4:])
    place = first + 8 * chance.randrange(0, 8)
    edges = [0, 1, 31, 32, HEAD - 1, HEAD, len(index.content), len(index.content) + 1, 2**32, 2**62, 2**63, 2**64 - 1]
    edges += [first for first, _ in index.parts[4:]] + [int.from_bytes(index.content[place : place + 8], "big") + chance.choice([1, -1])]
    return place, (chance.choice(edges) % 2**64).to_bytes(8, "big")


def some_place(chance, index):
    """A place in some used part."""
    first, end = chance.choice(index.parts)
    return chance.randrange(first, max(first + 1, min(end, len(index.content))))


def random_change(chance, index):
    """A place and the bytes that are written there."""
    kind = chance.choice(["byte", "byte", "bit", "field", "piece", "run", "anywhere"])
    place = some_place(chance, index)
    if kind == "byte":
        return place, bytes([chance.choice(values_of(index.content[place]))])
    if kind == "bit":
        return place, bytes([index.content[place] ^ 1 << chance.randrange(8)])
    if kind == "field":
        return field_change(chance, index)
    if kind == "piece":
        other = some_place(chance, index)
        return place, index.content[other : other + chance.randrange(1, 40)]
    length = chance.choice([1, 2, 8, 64, 4096])
    if kind == "run":
        return place, chance.randbytes(min(length, 64))
    return chance.randrange(len(index.content)), chance.randbytes(length)


def random_case(chance, index):
    """A case of some random changes, now and then cut or with bytes behind the end."""
    content, told = index.content, []
    for _ in range(chance.choice([0, 1, 1, 1, 2, 4])):
        place, new = random_change(chance, index)
        new = new[: len(content) - place]
        content = changed(content, place, new)
        told.append(f"{new.hex()} at {place}")
    ending = chance.random()
    if ending < 0.08:
        length = chance.choice([chance.randrange(len(content)), some_place(chance, index)])
        content = content[:length]
        told.append(f"cut to {length}")
    elif ending < 0.16:
        more = chance.randbytes(chance.choice([1, 40, 5000]))
        content += more
        told.append(f"{len(more)} bytes more")
    lines = asking(chance, 6) if chance.random() < 0.4 else changing(chance)
    return Case(f"{', '.join(told) or 'nothing changed'} of {index.name}", content, lines)


def written_index(program, folder, chance, name):
    """A file that the program writes: documents, deletes, and levels where it writes some."""
    path = os.path.join(folder, name)
    subprocess.run([program, path, "init"], check=True)
    words = ["red", "Fox", "quick", "brown", "dog", "lazy", "Over", "fox"]
    for _ in range(chance.choice([1, 2, 3])):
        lines = [chance.choice(["flush", "step 5", "step 1000"])]
        for _ in range(chance.randrange(1, 25)):
            text = " ".join(chance.choice(words) for _ in range(chance.randrange(12)))
            kinds = [f"delete {chance.choice('abcdefgh')}", "stats"]
            lines.append(chance.choice(kinds) if chance.random() < 0.3 else f"add {chance.choice('abcdefgh')}\t{text}\t{text} {text}")
        for line in ("flush", chance.choice(["flush", "merge", "step 3", "step 1000"])):
            lines.insert(chance.randrange(len(lines)), line)
        subprocess.run([program, path, "run"], input="".join(line + "\n" for line in lines).encode(), check=True, capture_output=True)
    with open(path, "rb") as file:
        content = file.read()
    found = opened(content)
    parts = [slot_part(slot, found.root) for slot in (0, 1)]
    parts += [(HALVES[half], found.tail + 4 if half == found.slot else HALVES[half] + 60) for half in (0, 1)]
    return Index(f"{name} of the program", content, parts + used_by(found.root), found.root.levels)


# ---- a file that is longer than memory


def in_little_time():
    resource.setrlimit(resource.RLIMIT_CPU, (LIMIT, LIMIT + 1))


def in_little_memory():
    in_little_time()
    resource.setrlimit(resource.RLIMIT_AS, (MEMORY, MEMORY))


def try_long(trial):
    """A deletion list of more bytes than the program may have: it ends for want of memory, or finds the first byte damaged."""
    length = 4 * MEMORY
    root = Root(0, 2, 10, Extent(HEAD, length), [])
    with open(trial.path, "wb") as file:
        file.write(slot_bytes(root))
        file.truncate(HEAD + length)
    words = [trial.program, trial.path, "run"]
    done = subprocess.run(words, input=b"stats\n", capture_output=True, timeout=PATIENCE, preexec_fn=in_little_memory)
    os.remove(trial.path)
    came = (done.returncode, done.stderr.decode(errors="replace"))
    if came not in ((5, "alta: out of memory\n"), (6, f"alta: damaged at {HEAD}\n")) or done.stdout:
        trial.differing += 1
        print(f"damage: a deletion list of {length} bytes in a memory of {MEMORY}: {came}", file=sys.stderr)


# ---- all of it


def until(seconds, cases, trial):
    """Tries cases for so many seconds."""
    stop = time.monotonic() + seconds
    for case in cases:
        if time.monotonic() >= stop:
            return
        trial.try_case(case)


def part(words):
    """Which part of how many, of `2/4`."""
    which, _, parts = words.partition("/")
    which, parts = int(which), int(parts)
    if not 1 <= which <= parts:
        raise ValueError(words)
    return which, parts


def try_bytes(chance, seconds, trial, is_all, which, parts):
    """Each byte and each length of a part in any order; all of them, or as many as there is time for."""
    indexes = [both_slots(), one_slot(), sixteen_levels()]
    tried = [change for index in indexes for change in (*byte_changes(index), *cuts(index))][which - 1 :: parts]
    chance.shuffle(tried)
    for index in indexes:
        for lines in (all_counts(chance), joining(chance), ["merge", *all_counts(chance)], [*all_counts(chance), "step 1000000", "stats"]):
            trial.try_case(Case(f"nothing changed of {index.name}", index.content, lines))
    until(24 * 3600 if is_all else seconds, (case_of_change(chance, change) for change in tried), trial)


def try_lists(chance, seconds, trial):
    indexes = [both_slots(), one_slot(), wide_level(), sixteen_levels()]
    until(seconds, (broken_lists(chance, chance.choice(indexes)) for _ in iter(int, 1)), trial)


def try_invented(chance, seconds, trial):
    until(seconds, (Case("an invented index", invented_index(chance).content, changing(chance)) for _ in iter(int, 1)), trial)


def try_random(chance, seconds, trial, program, folder):
    indexes = [written_index(program, folder, chance, f"file {i}") for i in range(4)]
    indexes += [both_slots(), one_slot(), wide_level(), sixteen_levels()]
    until(seconds, (random_case(chance, chance.choice(indexes)) for _ in iter(int, 1)), trial)


def main():
    parser = argparse.ArgumentParser(description=__doc__, formatter_class=argparse.RawDescriptionHelpFormatter)
    top = os.path.dirname(os.path.dirname(os.path.abspath(__file__)))
    parser.add_argument("--program", default=os.path.join(top, "alta"))
    parser.add_argument("--seconds", type=float, default=20.0)
    parser.add_argument("--seed", type=int, default=None)
    parser.add_argument("--all", action="store_true")
    parser.add_argument("--part", type=part, default=(1, 1), metavar="K/N")
    parser.add_argument("--keep", metavar="FOLDER")
    options = parser.parse_args()
    seed = options.seed if options.seed is not None else random.randrange(1 << 32)
    chance = random.Random(seed)
    # a folder in memory, where there is one, since each case writes a file of two million bytes
    memory = "/dev/shm" if os.access("/dev/shm", os.W_OK) else None
    with tempfile.TemporaryDirectory(dir=memory) as folder:
        trial = Trial(os.path.abspath(options.program), folder, options.keep)
        try_table(trial)
        try_edges(trial)
        try_long(trial)
        try_bytes(chance, options.seconds * 0.4, trial, options.all, *options.part)
        try_lists(chance, options.seconds * 0.1, trial)
        try_invented(chance, options.seconds * 0.1, trial)
        try_random(chance, options.seconds * 0.4, trial, trial.program, folder)
    print(f"damage: {trial.cases} files, {trial.damaged} damaged, {trial.differing} answered otherwise (seed {seed})")
    return 1 if trial.differing else 0


if __name__ == "__main__":
    sys.exit(main())
