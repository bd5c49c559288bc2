"""The file of an index, by docs/FORMAT.md: the root that counts, and what it names."""

import os
from typing import NamedTuple

SLOT = 4_096
HALF = 1_048_576
HEAD = 2 * SLOT + 2 * HALF
OPEN = 0xA5
VERSIONS = (1, 2)
LEVELS = 16
NUMBERS = 2**32
CELLS = 262_146  # of a document, at most
DELETE, REPLACE = 2, 3  # how the payload of a record begins by which a document goes


class Unusable(Exception):
    """Why nothing is done with a file."""


class Extent(NamedTuple):
    place: int
    length: int

    def meets(self, other):
        return self.place < other.place + other.length and other.place < self.place + self.length


class Root(NamedTuple):
    """What a root slot says. `deletions` is the list of deleted documents, of no bytes where there is none."""

    slot: int
    sequence: int
    next_number: int
    deletions: Extent
    levels: list

    def extents(self):
        return [self.deletions, *self.levels]


class Journal(NamedTuple):
    """What a half of the journal has of a root: the bytes of its records, and the numbers of the documents that these delete or replace."""

    records: bytes
    gone: list


def rule(kept, place):
    if not kept:
        raise Unusable(f"damaged at {place}")


def field(slot, at, width=8):
    return int.from_bytes(slot[at : at + width], "big")


def read_extent(slot, begin, at, least, before, size):
    """The extent at a place of a slot; it lies behind the halves, within the file, and meets none of those before."""
    extent = Extent(field(slot, at), field(slot, at + 8))
    rule(extent.length >= least and HEAD <= extent.place and extent.place + extent.length <= size, begin + at)
    rule(not any(map(extent.meets, before)), begin + at)
    return extent


def read_slot(slot, index, size):
    """The root in a slot whose gate is open."""
    begin = index * SLOT
    if slot[1] not in VERSIONS and slot[1] != 0:
        raise Unusable(f"its version is {slot[1]}: it is damaged at {begin + 1}, or made by a newer program")
    rule(slot[1] != 0, begin + 1)
    rule(slot[3] <= LEVELS, begin + 3)
    rule(slot[4:8] == bytes(4), begin + 4)
    next_number, next_location = field(slot, 8), field(slot, 16)
    rule(1 <= next_number <= NUMBERS, begin + 8)
    rule(1 <= next_location <= 1 + (next_number - 1) * CELLS, begin + 16)
    deletions = Extent(0, 0)
    if slot[24:40] != bytes(16):
        deletions = read_extent(slot, begin, 24, 1, [], size)
    extents = [deletions]
    for at in range(40, 40 + 16 * slot[3], 16):
        extents.append(read_extent(slot, begin, at, 32, extents, size))
    return Root(index, slot[2], next_number, deletions, extents[1:])


def read_root(file):
    """The root that counts. Raises `Unusable` where there is none, or where a rule on the two slots is broken."""
    size = os.fstat(file.fileno()).st_size
    slots = [os.pread(file.fileno(), SLOT, place) for place in (0, SLOT)]
    opened = [index for index in (0, 1) if slots[index][:1] == bytes([OPEN])]
    if size < 2 * SLOT or not opened:
        raise Unusable("it is no index: is this the right path?")
    rule(size >= HEAD, size)
    roots = [read_slot(slots[index], index, size) for index in opened]
    if len(roots) == 1:
        return roots[0]
    ahead = (roots[1].sequence - roots[0].sequence) % 256
    rule(ahead in (1, 255), SLOT + 2)
    return roots[ahead == 1]


def read_journal(file, root):
    """The journal of a root. Behind its last record stands a closed gate, and what was written there before. Of a half in which a record
    is broken it is all."""
    half = os.pread(file.fileno(), HALF, 2 * SLOT + root.slot * HALF)
    end, gone = 0, []
    while half[end] == OPEN:
        begin, length = end + 5, field(half, end + 1, 4)
        if begin + length >= HALF:
            return Journal(half, gone)
        if length and half[begin] in (DELETE, REPLACE):
            gone.append(field(half, begin + 1))
        end = begin + length
    return Journal(half[:end], gone)


def level_count(file):
    """How many levels the root of an index names; none where the file is no index, or one of another version."""
    try:
        return len(read_root(file).levels)
    except Unusable:
        return 0
