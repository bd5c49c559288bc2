"""What an index file holds behind each line that changes it, by docs/FORMAT.md and by nothing of the program's.

`Held` goes on from the bytes of a file, line by line: it keeps the slot that counts, the levels with their extents, the deleted
ends, the journal and the join in progress, and writes the file that has to stand there, byte for byte. What is written anew
stands at the first gap that holds it, the levels in their order and then the deletion list; all else stays where it was. Levels
that are joined are read whole, so a line that joins raises `Broken` at the first fault among their lists, and then nothing
has changed. A join in progress is not in the file: where a run ends, `end_run` forgets it.
"""

from bisect import bisect_right
from typing import NamedTuple

from .answers import cells_of
from .writing import entry_of_add, entry_of_delete, entry_of_replace
from .reading import HALF, HALVES, HEAD, LEVELS, NOTHING, OLD_PAYLOAD, OPEN, SLOT, SLOTS, Add, Delete, Extent, Replace, Root, opened
from .segments import Row, segment, stream

GATE = bytes([OPEN])
CLOSED = b"\0"


# ---- contents


class Content:
    """Rows of documents and for each term its locations, and the extent of its segment once it has one."""

    def __init__(self, rows, lists):
        self.rows, self.lists, self.extent = rows, lists, None

    @property
    def terms(self):
        return self.lists

    def load(self, term):
        return self.lists[term]


def whole(level):
    """The content of a level. Its lists are tested in the order of their terms."""
    return Content(level.rows, {term: level.load(term) for term in level.terms})


def content_of(documents):
    """The content of documents, each a row and its cells."""
    lists = {}
    for row, cells in documents:
        for location, terms in enumerate(cells, row.first):
            for term in terms:
                lists.setdefault(term, []).append(location)
    return Content([row for row, _ in documents], {term: lists[term] for term in sorted(lists)})


def outside(locations, rows):
    """The locations that stand in none of these rows."""
    firsts = [row.first for row in rows]
    kept = []
    for location in locations:
        before = bisect_right(firsts, location)
        if before == 0 or rows[before - 1].last < location:
            kept.append(location)
    return kept


def joined(contents, dead):
    """The join of contents, the oldest first, without the rows whose end is dead."""
    rows = [row for content in contents for row in content.rows]
    left_out = [row for row in rows if row.last in dead]
    lists = {}
    for content in contents:
        for term, locations in content.lists.items():
            lists.setdefault(term, []).extend(outside(locations, left_out) if left_out else locations)
    return Content([row for row in rows if row.last not in dead], {term: lists[term] for term in sorted(lists) if lists[term]})


def segment_of(content):
    """The bytes of a level with this content."""
    rows = [(row.number, row.first, row.last - row.first + 1, row.name) for row in content.rows]
    return segment(rows, list(content.lists.items()))


class Job(NamedTuple):
    """A join of two levels in progress: their contents, the ends that were gone as it began, and how many terms are left."""

    contents: list
    dead: set[int]
    left: int


# ---- the file


def slot_bytes(root, is_open=True):
    """A slot with this root."""
    extents = [root.deletions, *root.levels]
    fields = bytes([root.version, root.sequence, len(root.levels), 0, 0, 0, 0])
    fields += b"".join(number.to_bytes(8, "big") for number in (root.next_number, root.next_location))
    fields += b"".join(number.to_bytes(8, "big") for extent in extents for number in extent)
    return ((GATE if is_open else CLOSED) + fields).ljust(SLOT, b"\0")


def empty_file(version=2):
    """The file that `init` makes, or that it made with this version."""
    return slot_bytes(Root(0, 1, 1, NOTHING, [], version)).ljust(HEAD, b"\0")


def first_gap(taken, length):
    """The first place where so many bytes meet none of these extents."""
    place = HEAD
    for extent in sorted(taken):
        if place + length <= extent.place:
            return place
        place = max(place, extent.place + extent.length)
    return place


def entry_of(made):
    """An entry that `answers.Machine` says a line made."""
    if made[0] == "delete":
        return Delete(made[1])
    *kind, name, title, body = made
    texts = name.encode(), title, body
    return Add(*texts) if kind == ["add"] else Replace(kind[1], *texts)


def payload_of(entry):
    if isinstance(entry, Delete):
        return entry_of_delete(entry.number)
    texts = entry.name.decode(), entry.title, entry.body
    return entry_of_replace(entry.number, *texts) if isinstance(entry, Replace) else entry_of_add(*texts)


def is_old(entry):
    """Whether a root of version 1 may have the entry in its journal."""
    return not isinstance(entry, Replace) and len(payload_of(entry)) <= OLD_PAYLOAD


class Held:
    """What an index holds, and its file."""

    def __init__(self, file):
        found = opened(file)
        self.file = bytearray(file)
        self.slot, self.root = found.slot, found.root
        self.levels, self.ends = found.levels, found.ends
        self.job = None
        self.is_ascii = True  # else the words of the newest documents are not known
        self.unasked, self.most = 0, len(self.levels)  # flushes by a full journal, and the greatest number of levels
        self.raised = 0  # switches to the last version, before an entry that the version before can't have
        self.empty_journal()
        for entry in found.entries:
            self.enter(entry)

    def end_run(self):
        self.job = None

    # -- the journal

    def empty_journal(self):
        self.entries, self.newest, self.deleted = [], [], set()
        self.tail = HALVES[self.slot]

    def behind_newest(self):
        """The next number and the next location behind the newest documents."""
        if not self.newest:
            return self.root.next_number, self.root.next_location
        row = self.newest[-1][0]
        return row.number + 1, row.last + 1

    def enter(self, entry):
        """Takes an entry that stands at the tail of the journal."""
        self.entries.append(entry)
        self.tail += 5 + len(payload_of(entry))
        if not isinstance(entry, Add):
            self.deleted.add(entry.number)
        if isinstance(entry, Delete):
            return
        self.is_ascii = self.is_ascii and (entry.title + entry.body).isascii()
        cells = cells_of(entry.name.decode(), entry.title, entry.body)
        number, first = self.behind_newest()
        self.newest.append((Row(number, first, first + len(cells) - 1, entry.name, 0), cells))

    def append(self, entry):
        """Writes a record: behind a root of the last version, where the one that counts can't have it, or behind a flush, where it
        does not fit."""
        payload = payload_of(entry)
        if self.root.version == 1 and not is_old(entry):
            self.write()
            self.raised += 1
        elif self.tail - HALVES[self.slot] + len(payload) + 6 > HALF:
            self.flush()
            self.unasked += 1
        self.put(self.tail, GATE + len(payload).to_bytes(4, "big") + payload + CLOSED)
        self.enter(entry)

    def live_newest(self):
        return [document for document in self.newest if document[0].number not in self.deleted]

    def gone(self):
        """The ends of all documents that are deleted."""
        rows = [row for level in self.levels for row in level.rows] + [row for row, _ in self.newest]
        return set(self.ends) | {row.last for row in rows if row.number in self.deleted}

    # -- switches of the root

    def put(self, place, data):
        self.file[place : place + len(data)] = data

    def place_levels(self, coming, taken):
        """Writes the contents that have no extent yet."""
        for content in coming:
            if content.extent is None:
                data = segment_of(content)
                content.extent = Extent(first_gap(taken, len(data)), len(data))
                self.put(content.extent.place, data)
                taken.append(content.extent)

    def place_ends(self, ends, taken):
        """The extent of the deletion list to come, which is written where it has changed."""
        if ends == self.ends or not ends:
            return self.root.deletions if ends else NOTHING
        data = stream(ends)
        extent = Extent(first_gap(taken, len(data)), len(data))
        self.put(extent.place, data)
        return extent

    def switch(self, coming):
        """Goes on with a root of these levels, and an empty journal."""
        gone = self.gone()
        taken = [level.extent for level in self.levels] + [self.root.deletions] * (self.root.deletions != NOTHING)
        self.place_levels(coming, taken)
        ends = sorted(row.last for level in coming for row in level.rows if row.last in gone)
        deletions = self.place_ends(ends, taken)
        extents = [level.extent for level in coming]
        self.root = Root((self.root.sequence + 1) % 256, *self.behind_newest(), deletions, extents)
        self.slot = 1 - self.slot
        self.levels, self.ends = coming, ends
        self.most = max(self.most, len(coming))
        self.put(SLOTS[self.slot], slot_bytes(self.root))
        self.put(HALVES[self.slot], CLOSED)
        self.empty_journal()

    def with_join(self, job):
        """The levels to come where a join is whole."""
        content = joined(job.contents, job.dead)
        return [content] * bool(content.rows) + self.levels[2:]

    def with_newest(self, levels):
        """These levels, and the live newest documents behind them."""
        live = self.live_newest()
        return levels + [content_of(live)] * bool(live)

    def begin(self):
        """A join of the two oldest levels."""
        two = [whole(level) for level in self.levels[:2]]
        return Job(two, self.gone(), len(two[0].lists.keys() | two[1].lists.keys()))

    # -- the lines that work on levels

    def flush(self):
        if self.entries:
            self.write()

    def write(self):
        """What a flush writes, and a raise of the root also where the journal is empty."""
        if len(self.levels) < LEVELS or not self.live_newest():
            self.switch(self.with_newest(self.levels))
            return
        self.switch(self.with_newest(self.with_join(self.job or self.begin())))
        self.job = None

    def merge(self):
        if len(self.levels) <= 1 and not self.ends and not self.entries:
            return
        contents = [whole(level) for level in self.levels] + [content_of(self.newest)]
        content = joined(contents, self.gone())
        self.switch([content] * bool(content.rows))
        self.job = None

    def step(self, count):
        if len(self.levels) < 2:
            return
        job = self.job or self.begin()
        self.job = job._replace(left=max(0, job.left - count))
        if self.job.left == 0:
            self.switch(self.with_newest(self.with_join(job)))
            self.job = None

    def work(self, line, made):
        """What a line does, with the entry that it makes, if any."""
        word, _, rest = line.partition(" ")
        if made:
            self.append(entry_of(made))
        elif word == "step":
            self.step(int(rest))
        elif word in ("flush", "merge"):
            getattr(self, word)()
