"""Reads a whole index file as docs/FORMAT.md describes it, by nothing of the program's.

`opened` answers what a file is opened as, or raises `NoIndex`, or `Broken` with the first place that breaks a rule in the
order of opening. Lists of levels are tested when they are asked for (`Level.load`).
"""

from contextlib import contextmanager
from typing import NamedTuple

from .segments import Broken, read_list, read_stream, read_tables, rule

SLOT = 4096
HALF = 1048576
SLOTS = (0, SLOT)
HALVES = (2 * SLOT, 2 * SLOT + HALF)
HEAD = 2 * SLOT + 2 * HALF
OPEN = 0xA5
LEVELS = 16
NUMBERS = 2**32
CELLS = 262146
VERSIONS = (1, 2)
OLD_PAYLOAD = 65600  # bytes of a payload under a root of version 1
TEXTS = 262137  # bytes of a name, a title and a body together


class NoIndex(Exception):
    """The file has no index."""


class Extent(NamedTuple):
    place: int
    length: int


NOTHING = Extent(0, 0)


class Root(NamedTuple):
    """What a root slot says."""

    sequence: int
    next_number: int
    next_location: int
    deletions: Extent
    levels: list[Extent]
    version: int = 2


class Add(NamedTuple):
    name: bytes
    title: str
    body: str


class Delete(NamedTuple):
    number: int


class Replace(NamedTuple):
    number: int
    name: bytes
    title: str
    body: str


class Opened(NamedTuple):
    """What a file is opened as: the slot that counts with its root, its levels, the deleted ends, the entries of the
    journal, and the place of the gate behind them."""

    slot: int
    root: Root
    levels: list
    ends: list[int]
    entries: list
    tail: int


@contextmanager
def inside(place):
    """Faults of a part that begins at this place."""
    try:
        yield
    except Broken as fault:
        raise Broken(place + fault.place) from None


def fixed(content, at, width):
    return int.from_bytes(content[at : at + width], "big")


# ---- the slots


def read_extent(content, at, least, before):
    """The extent whose two fields stand at a place; it meets none of those before."""
    place, length = fixed(content, at, 8), fixed(content, at + 8, 8)
    rule(length >= least and HEAD <= place and place + length <= len(content), at)
    rule(all(place + length <= other.place or other.place + other.length <= place for other in before), at)
    return Extent(place, length)


def read_slot(content, start):
    """The root behind the open gate of a slot."""
    rule(content[start + 1] in VERSIONS, start + 1)
    levels = content[start + 3]
    rule(levels <= LEVELS, start + 3)
    rule(content[start + 4 : start + 8] == bytes(4), start + 4)
    next_number, next_location = fixed(content, start + 8, 8), fixed(content, start + 16, 8)
    rule(1 <= next_number <= NUMBERS, start + 8)
    rule(1 <= next_location <= 1 + (next_number - 1) * CELLS, start + 16)
    deletions = NOTHING
    if content[start + 24 : start + 40] != bytes(16):
        deletions = read_extent(content, start + 24, 1, [])
    extents = [deletions]
    for index in range(levels):
        extents.append(read_extent(content, start + 40 + 16 * index, 32, extents))
    return Root(content[start + 2], next_number, next_location, deletions, extents[1:], content[start + 1])


def read_roots(content):
    """The slot that counts, and its root."""
    if len(content) < 2 * SLOT:
        raise NoIndex
    open_slots = [slot for slot in (0, 1) if content[SLOTS[slot]] == OPEN]
    if not open_slots:
        raise NoIndex
    rule(len(content) >= HEAD, len(content))
    roots = {slot: read_slot(content, SLOTS[slot]) for slot in open_slots}
    if len(roots) == 1:
        return next(iter(roots.items()))
    first, second = roots[0].sequence, roots[1].sequence
    rule((second - first) % 256 in (1, 255), SLOTS[1] + 2)
    slot = 1 if (second - first) % 256 == 1 else 0
    return slot, roots[slot]


# ---- the levels


class Level:
    """A level that was opened, and the lists that were loaded from it."""

    def __init__(self, content, extent):
        self.extent = extent
        self.content = content[extent.place : extent.place + extent.length]
        with inside(extent.place):
            self.rows, terms = read_tables(self.content)
        self.terms = {term: (stated, bounds) for term, stated, bounds in terms}
        self.lists = {}

    def load(self, term):
        """The locations of a term of the level."""
        if term not in self.lists:
            with inside(self.extent.place):
                self.lists[term] = read_list(self.content, self.rows, term, *self.terms[term])
        return self.lists[term]


def read_levels(content, root, ends):
    """The levels of the root, and the names of their documents that are not deleted, each with its number."""
    levels, names = [], {}
    number = location = 0
    for extent in root.levels:
        level = Level(content, extent)
        first, last = level.rows[0], level.rows[-1]
        rule(number < first.number and location < first.first, extent.place)
        rule(last.number < root.next_number and last.last < root.next_location, extent.place)
        number, location = last.number, last.last
        for row in level.rows:
            if row.last not in ends:
                rule(row.name not in names, extent.place + row.place)
                names[row.name] = row.number
        levels.append(level)
    return levels, names


def read_deletions(content, extent):
    """The deleted ends."""
    with inside(extent.place):
        return read_stream(content[extent.place : extent.place + extent.length], 0, extent.length)[0]


# ---- the journal


def text_of(payload, at, breaks):
    """The text at a place behind its length, without any of these characters, and the place behind it."""
    rule(at + 4 <= len(payload), at)
    end = at + 4 + fixed(payload, at, 4)
    rule(end <= len(payload), at)
    try:
        text = payload[at + 4 : end].decode()
    except UnicodeDecodeError:
        raise Broken(at) from None
    rule(not any(character in text for character in breaks), at)
    return text, end


def read_texts(fields):
    """The name, the title and the body of an entry."""
    rule(len(fields) >= 1, 0)
    length = fields[0]
    name = fields[1 : 1 + length]
    rule(1 <= length <= 64 and len(name) == length and all(0x21 <= byte <= 0x7E for byte in name), 0)
    title, at = text_of(fields, 1 + length, "\n\t")
    body, at = text_of(fields, at, "\n")
    rule(at == len(fields) and at - 9 <= TEXTS, 0)
    return name, title, body


def read_entry(payload, version):
    """The entry of a payload under a root of this version; where it breaks a rule is not told."""
    rule(version != 1 or payload[:1] in (b"\1", b"\2") and len(payload) <= OLD_PAYLOAD, 0)
    if payload[:1] == b"\1":
        return Add(*read_texts(payload[1:]))
    rule(payload[:1] in (b"\2", b"\3") and len(payload) >= 9, 0)
    number = fixed(payload, 1, 8)
    if payload[0] == 3:
        return Replace(number, *read_texts(payload[9:]))
    rule(len(payload) == 9, 0)
    return Delete(number)


def read_records(content, half, version):
    """The entries of a half with the places of their gates, and the place of the closed gate behind them."""
    entries, gate = [], half
    while content[gate] == OPEN:
        length = fixed(content, gate + 1, 4)
        rule(gate + 5 + length < half + HALF, gate + 1)
        try:
            entries.append((gate, read_entry(content[gate + 5 : gate + 5 + length], version)))
        except Broken:
            raise Broken(gate + 5) from None
        gate += 5 + length
    return entries, gate


def apply_entries(entries, names, next_number):
    """Tests each entry against the documents before it."""
    names = dict(names)
    for gate, entry in entries:
        if not isinstance(entry, Delete):
            before = entry.number if isinstance(entry, Replace) else None
            rule(names.get(entry.name) == before and next_number < NUMBERS, gate + 5)
            names[entry.name] = next_number
            next_number += 1
            continue
        name = next((name for name, number in names.items() if number == entry.number), None)
        rule(name is not None, gate + 5)
        del names[name]


def opened(content):
    """What a file is opened as."""
    slot, root = read_roots(content)
    ends = read_deletions(content, root.deletions)
    levels, names = read_levels(content, root, set(ends))
    ends_of_levels = {row.last for level in levels for row in level.rows}
    rule(all(end in ends_of_levels for end in ends), root.deletions.place)
    entries, tail = read_records(content, HALVES[slot], root.version)
    apply_entries(entries, names, root.next_number)
    return Opened(slot, root, levels, ends, [entry for _, entry in entries], tail)
