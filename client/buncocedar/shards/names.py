"""Which shard a document stands in, its number over all shards, and its age."""

from __future__ import annotations

import hashlib
from typing import Tuple

from ..imports.stamps import part_of, stem_of

MOST_SHARDS = 65_536
AGES = 32  # bits of an age


def shard_of(name: str, shards: int) -> int:
    """The shard of a name, from 0, of so many. It hangs on nothing else, and never changes while their number does not.

    All parts of one document, as `a` and `a~p2`, stand in one shard.
    """
    part = part_of(name)
    stem = stem_of(name) if part is None else part[0]
    return int.from_bytes(hashlib.blake2b(stem.encode(), digest_size=8).digest(), "big") % shards


def number_of(own: int, shard: int) -> int:
    """The number of a document over all shards, of the number that its shard gave it."""
    return own * MOST_SHARDS + shard


def own_number(number: int) -> Tuple[int, int]:
    """The number that a document's shard gave it, and the shard, of its number over all shards."""
    return divmod(number, MOST_SHARDS)


def age(own: int, following: int) -> int:
    """Where a document stands among all that its shard ever had, below 2^32: `following` is the next number of that shard."""
    return (own << AGES) // following
