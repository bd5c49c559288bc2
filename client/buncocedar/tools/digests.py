"""The digests of an index's levels, which a check keeps beside it: a level never changes, so other bytes are damage."""

# A level is the same one as at an earlier check where the root is, or where its head and its list of documents are: a level has the
# documents of its numbers that were live when it was written, which are fewer each time, and numbers are given out once. A bit that
# is flipped in head or list makes it another level; most of these the program finds.

from __future__ import annotations

import datetime
import hashlib
import json
import os
from typing import List, NamedTuple, Optional, Tuple

from ..copying import CHUNK

SEGMENT_HEAD = 32  # bytes, the third eight of which say how many the list of documents has
ENDING = ".digests"


class Level(NamedTuple):
    """A list of deleted documents or a level: where it stands in the index, its length, and two digests."""

    place: int
    length: int
    front: str  # of its head and its list of documents
    whole: str


class Digests(NamedTuple):
    """What a check has found: its day, the root's sequence and next number, and what the root names."""

    day: str
    sequence: int
    next_number: int
    levels: List[Level]

    def root(self):
        return self.sequence, self.next_number, [(level.place, level.length) for level in self.levels]


def digests_path(path):
    """Where the digests of an index are kept."""
    return f"{os.path.realpath(path)}{ENDING}"


def taken(file, root, places) -> Digests:
    """The digests of an index that is open for reading, a copy; `places` are those of its extents in the index."""
    levels = [
        Level(place, extent.length, digest_of(file, extent.place, front_of(file, extent)), digest_of(file, extent.place, extent.length))
        for extent, place in zip(root.extents(), places)
    ]
    return Digests(datetime.date.today().isoformat(), root.sequence, root.next_number, levels)


def front_of(file, extent):
    """How many bytes a level's head and its list of documents have."""
    head = os.pread(file.fileno(), SEGMENT_HEAD, extent.place)
    return min(extent.length, SEGMENT_HEAD + int.from_bytes(head[16:24], "big"))


def digest_of(file, begin, length):
    digest = hashlib.blake2b(digest_size=16)
    while length:
        data = os.pread(file.fileno(), min(length, CHUNK), begin)
        digest.update(data)
        begin, length = begin + len(data), length - len(data)
        if not data:
            break
    return digest.hexdigest()


def differences(before: Optional[Digests], now: Digests) -> Tuple[int, List[int]]:
    """How many levels are known from an earlier check, and which of them have other bytes: 0 is the list of deleted documents."""
    if before is None:
        return 0, []
    pairs: List[Tuple[Optional[Level], Level]]
    if before.root() == now.root():
        pairs = [(one, other) for one, other in zip(before.levels, now.levels)]
    else:
        known = {(level.length, level.front): level for level in before.levels[1:]}
        pairs = [(known.get((level.length, level.front)) if number else None, level) for number, level in enumerate(now.levels)]
    changed = [number for number, (one, other) in enumerate(pairs) if one is not None and one.whole != other.whole]
    return sum(1 for one, _ in pairs[1:] if one is not None), changed


def kept(path) -> Optional[Digests]:
    """The digests that an earlier check has kept, None where there are none that can be read."""
    try:
        with open(path, encoding="ascii") as file:
            known = json.load(file)
        return Digests(known["day"], known["sequence"], known["next"], [Level(*level) for level in known["levels"]])
    except (OSError, ValueError, KeyError, TypeError):
        return None


def keep(path, digests: Digests) -> str:
    """Writes the digests beside an index, whole or not at all, and answers why they could not be."""
    fresh = f"{path}.new"
    text = json.dumps({"day": digests.day, "sequence": digests.sequence, "next": digests.next_number, "levels": digests.levels})
    try:
        with open(fresh, "w", encoding="ascii") as file:
            file.write(text + "\n")
        os.replace(fresh, path)
    except OSError as error:
        return error.strerror
    return ""
