"""The file of stamps beside an index: where it stands, and what its first bytes say, for who needs no row of it."""

# Of a SQLite file the bytes from 24 on count its changes, and those from 60 on are free for who writes it (`user_version`). At
# the end of an import that has left no document in parts the second number is the first. Whoever changes the file later counts on,
# so that the two differ, and the rows have to be asked. So who counts answers loads no SQLite.

from __future__ import annotations

import os

MAGIC = b"SQLite format 3\0"
JOURNAL = "-journal"  # how the name of the file ends that SQLite has beside its own
_CHANGES = slice(24, 28)
_NOTED = slice(60, 64)
_MOST = 2**31 - 1  # as great a number as SQLite notes


def stamps_path(index: str) -> str:
    """The path of the stamps beside an index, also where it is named by a link."""
    return f"{os.path.realpath(index)}.stamps"


def _front(path):
    with open(path, "rb") as file:
        return file.read(_NOTED.stop)


def has_none_in_parts(path: str) -> bool:
    """Whether it is known at once that no document is stored in parts; where it is not, the rows say it."""
    try:
        front = _front(path)
    except FileNotFoundError:
        return True
    return front.startswith(MAGIC) and front[_CHANGES] == front[_NOTED] != bytes(4)


def number_to_note(path: str) -> int:
    """The number to note in a file that nobody else changes, so that `has_none_in_parts` holds behind that change; 0 where it has none."""
    changes = int.from_bytes(_front(path)[_CHANGES], "big") + 1
    return changes if changes <= _MOST else 0
