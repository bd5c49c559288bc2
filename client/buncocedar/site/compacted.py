"""The index of a site: a copy in which nothing stands but the words of the documents that are there."""

# Whoever reads the site has its index. So a copy is merged, which leaves out the words of deleted documents, and its journal, which still
# has lines that were added long ago, is written over by zeros: behind a merge no line of it counts (docs/FORMAT.md, "Journal").

from __future__ import annotations

import io
import os
import tempfile
from typing import List, NamedTuple

from ..copying import copy_into, write_packed
from ..fileformat import HALF, SLOT, read_root
from ..index import Index
from ..replies import Row

ALL = "NOT name:! OR name:!"  # a query that finds every document


class Compacted(NamedTuple):
    """An index without holes, and its documents by rising number."""

    data: bytes
    rows: List[Row]


def compacted(path: str) -> Compacted:
    """The index at this path, which stays as it is. Raises `Unusable` where it can't be copied, and the client's own errors."""
    with tempfile.TemporaryDirectory(prefix="bunco-site-") as room:
        copy = os.path.join(room, "index.alta")
        with open(copy, "wb") as target:
            copy_into(path, target)
        with Index(copy, server=False) as index:
            index.merge()
            rows = list(index.search(ALL))
        return Compacted(without_journal(copy), rows)


def without_journal(path: str) -> bytes:
    """The bytes of a merged index, without holes and with an empty journal."""
    with open(path, "rb") as file:
        root = read_root(file)
        packed = io.BytesIO()
        write_packed(file, root, packed)
    packed.seek(2 * SLOT + root.slot * HALF)
    packed.write(bytes(HALF))
    return packed.getvalue()
