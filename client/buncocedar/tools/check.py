"""Checks an index: whether the program opens it, and reads each of its lists without finding damage.

An opening tests the root, the journal, and the tables of the levels, and a search tests the lists of its words; a merge tests all
of them. So a copy is made, and merged: between two lines of its server, where one listens, and else while nobody has it open. An
index has no checksums, and damage that leaves a well-formed file breaks no rule, as a letter changed in the journal. A level never
changes, so a check keeps the digests of the levels beside the index, as INDEX.digests, and the next one finds each bit of them that
was flipped meanwhile. Where the importing scripts keep stamps beside the index, it is also said which documents of theirs it has lost.

The copy is made beside the index, or in the folder that --tmp names. With --quick the root alone is read, while others use the index.

The status is 0 where no damage was found, 1 where the index is damaged or has lost documents, and 3 where it could not be checked.
"""

# A check is a merge of a copy, since a merge tests each list as a search does, and all of them. One document is added before,
# as a merge of one level has nothing to do. A reading of the format in Python would be a second program to keep, and would
# not say what the program says.

import argparse
import errno
import os
import signal
import sys
import tempfile

from ..beside import making
from ..copying import NotHad, copy_into
from ..errors import Damaged, Ended, Error
from ..fileformat import HALF, HEAD, SLOT, Unusable, read_root
from ..holders import holder
from ..imports.engine import EVERY_DOCUMENT
from ..imports.stampfile import stamps_path
from ..imports.stamps import Records, part_name
from ..index import Index
from ..terminal import quiet_end, why_at
from .digests import Digests, differences, digests_path, kept, keep, taken

WHOLE, DAMAGED, UNCHECKED = 0, 1, 3
ENDED = 128 + signal.SIGTERM
ADVICE = 'what to do now stands in docs/GUIDE.md, under "After a damaged disk"'


def part_at(root, place):
    """In words, which part of the file has this place."""
    if place < 2 * SLOT:
        return f"in root slot {'AB'[place // SLOT]}"
    if place < HEAD:
        return f"in half {'AB'[(place - 2 * SLOT) // HALF]} of the journal"
    for number, extent in enumerate(root.extents() if root else []):
        if extent.place <= place < extent.place + extent.length:
            return f"in level {number} of {len(root.levels)}" if number else "in the list of deleted documents"
    return "behind the journal"


def place_in_index(root, places, place):
    """Where in the index a place of its copy stands; `places` are those of the copy's extents."""
    for extent, origin in zip(root.extents(), places):
        if extent.place <= place < extent.place + extent.length:
            return place - extent.place + origin
    return place


def read_all(path):
    """Has the program read everything that an index has, and answers its stats and live documents. Changes it."""
    with Index(path) as index:
        stats = index.stats()
        live = {name: number for number, name in index.search(EVERY_DOCUMENT)}
        # A merge has nothing to do where there is one level and nothing behind it.
        number = 1
        while f"check-{number}" in live:
            number += 1
        index.add(f"check-{number}", "", "")
        index.merge()
    return stats, live


def lost_documents(index, live):
    """How many documents have a stamp beside the index, and the names of those among them that it has not."""
    stamps = Records(stamps_path(index)).of
    lost = [
        name
        for name, stamp in stamps.items()
        if any(live.get(part_name(name, part)) != number for part, number in enumerate(stamp.numbers, 1))
    ]
    return len(stamps), lost


def say(text):
    with quiet_end():
        print(f"check: {text}", flush=True)


def say_damage(text):
    say(text)
    say(ADVICE)
    return DAMAGED


def folder_for_copy(path, wanted):
    """The folder in which the copy is made: the one that is wanted, or that of the index, or where that is for reading only another one."""
    beside = os.path.dirname(os.path.realpath(path))
    return wanted or (beside if os.access(beside, os.W_OK) else tempfile.gettempdir())


def check(path, wanted=None):
    """Checks the index at a path, says what was found, and answers the status."""
    root = None
    with making(folder_for_copy(path, wanted)) as copy:
        try:
            with open(copy, "wb") as target:
                places = copy_into(path, target).places
            with open(copy, "rb") as file:
                root = read_root(file)
                digests = taken(file, root, places)
            stats, live = read_all(copy)
        except NotHad:
            raise
        except Unusable as fault:
            return say_damage(f"{path}: {fault}")
        except Damaged as end:
            where = "" if end.place is None else f" at {place_in_index(root, places, end.place)}, {part_at(root, end.place)}"
            return say_damage(f"{path}: damaged{where}")
    return report(path, root, digests, stats, live)


def report(path, root, digests: Digests, stats, live):
    """Says what was found in an index of which every rule holds, and answers the status."""
    before = kept(digests_path(path))
    known, changed = differences(before, digests)
    day = before.day if before else ""
    if changed:
        levels = ", ".join(f"level {number} of {len(root.levels)}" if number else "the list of deleted documents" for number in changed)
        return say_damage(f"{path}: damaged: the bytes of {levels} are others than at the check of {day}")
    say(f"{path}: no damage found: {stats.documents:,} documents of {stats.words:,} words; levels: {len(root.levels)}")
    say_size(path, root)
    if known:
        say(f"{path}: {known} of {len(root.levels)} levels have the bytes that they had at the check of {day}")
    fault = keep(digests_path(path), digests)
    if fault:
        say(f"{path}: the digests of its levels could not be kept: {fault}")
    return check_stamps(path, live)


def say_size(path, root):
    used = HEAD + sum(extent.length for extent in root.extents())
    size = os.path.getsize(path)
    say(f"{path}: {size:,} bytes, of which {max(0, size - used):,} are free room")


def check_stamps(path, live):
    count, lost = lost_documents(path, live)
    if not count:
        return WHOLE
    if lost:
        say(f"{path}.stamps: of {count:,} documents {len(lost):,} are not in the index as they were brought in, {lost[0]} among them")
        say("the importing scripts bring them in again")
        return DAMAGED
    say(f"{path}.stamps: its {count:,} documents are in the index")
    return WHOLE


def check_quickly(path):
    """Says what the root of an index says, while others may use it, and answers the status."""
    try:
        with open(os.open(path, os.O_RDONLY | os.O_NONBLOCK | os.O_CLOEXEC), "rb") as file:
            root = read_root(file)
    except Unusable as fault:
        return say_damage(f"{path}: {fault}")
    say(f"{path}: its root keeps all rules; nothing else was read; levels: {len(root.levels)}")
    say_size(path, root)
    owner = holder(path)
    if owner:
        say(f"{path}: open in {owner}")
    return WHOLE


def parser():
    """What the words of the command may be."""
    parser = argparse.ArgumentParser(
        prog="bunco check", description=__doc__, formatter_class=argparse.RawDescriptionHelpFormatter
    )
    parser.add_argument("index", metavar="INDEX")
    parser.add_argument("--quick", action="store_true", help="read the root alone, also while others use the index")
    parser.add_argument("--tmp", metavar="FOLDER", help="where the copy is made that is read, in place of beside the index")
    return parser


def end(number, frame):
    # The copy goes with the blocks that are left.
    sys.exit(ENDED)


def main(arguments=None):
    options = parser().parse_args(arguments)
    signal.signal(signal.SIGTERM, end)
    try:
        return check_quickly(options.index) if options.quick else check(options.index, options.tmp)
    except Unusable as fault:
        print(f"check: {why_at(options.index, fault)}", file=sys.stderr)
    except Ended as fault:
        print(f"check: {options.index}: the program ended over a copy of it: {fault}", file=sys.stderr)
    except (Error, OSError) as error:
        is_full = isinstance(error, OSError) and error.errno == errno.ENOSPC
        advice = f", in {folder_for_copy(options.index, options.tmp)}, where a copy is read: --tmp names another folder" if is_full else ""
        print(f"check: {why_at(options.index, error)}{advice}", file=sys.stderr)
    except KeyboardInterrupt:
        return 130
    return UNCHECKED
