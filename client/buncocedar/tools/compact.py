"""Copies an index without its holes: to a new file, while nothing else uses the old one, or between two lines of its server.

A file keeps its greatest size, and after many joins more than half of it may be free room. NEW has what OLD's root names and
nothing besides, answers as OLD does, and is whole or not there at all, with the stamps of OLD; OLD stays as it is. So this is
also how to back an index up.

NEW has nothing of deleted documents, neither their lines nor their words. Where OLD has any, the copy's levels are merged.

The status is 0 where NEW stands, and 3 where it does not.
"""

import argparse
import os
import shutil
import sys

from ..copying import copy_into, put_written, write_packed
from ..errors import Error
from ..fileformat import Unusable, read_journal, read_root
from ..index import Index
from ..terminal import why, why_at


def parser():
    """What the words of the command may be."""
    parser = argparse.ArgumentParser(
        prog="bunco compact", description=__doc__, formatter_class=argparse.RawDescriptionHelpFormatter
    )
    parser.add_argument("old", metavar="OLD", help="the index")
    parser.add_argument("new", metavar="NEW", help="the copy: no file has this name yet")
    parser.add_argument("--keep-deleted", action="store_true", help="copy also what is left of deleted documents, which spares a merge")
    return parser


def copy_whole(path, target):
    """Writes an index into an open file, without its holes."""
    copy_into(path, target)


def copy_living(path, target):
    """Writes an index into an open file, without its holes, and without what is left in it of deleted documents."""
    copy_into(path, target)
    root = read_root(target)
    gone = read_journal(target, root).gone
    if root.deletions.length or any(number < root.next_number for number in gone):
        forget(target, Index.merge)
    elif gone:
        # They have come and gone in the journal: no level has a word of them.
        forget(target, Index.flush)


def forget(target, work):
    """Writes the index in an open file again, behind this work of the program on a copy of it."""
    beside = f"{target.name}.merging"
    shutil.copyfile(target.name, beside)
    try:
        with Index(beside, server=False) as index:
            work(index)
    except (Error, OSError) as error:
        raise Unusable(f"what is deleted can't be left out: {error}; --keep-deleted copies it too") from None
    target.seek(0)
    target.truncate()
    with open(beside, "rb") as living:
        write_packed(living, read_root(living), target)


def main(arguments=None):
    options = parser().parse_args(arguments)
    try:
        found = os.stat(options.old)
        copy = copy_whole if options.keep_deleted else copy_living
        put_written(lambda target: copy(options.old, target), options.old, options.new, found.st_mode)
        sizes = found.st_size, os.path.getsize(options.new)
    except Unusable as fault:
        print(f"compact: {why_at(options.old, fault)}", file=sys.stderr)
        return 3
    except OSError as error:
        print(f"compact: {why(error)}" if error.filename else f"compact: {options.old}: {error.strerror}", file=sys.stderr)
        return 3
    except KeyboardInterrupt:
        return 130
    print(f"compact: {sizes[0]:,} bytes, and {sizes[1]:,} in {options.new}", file=sys.stderr)
    return 0
