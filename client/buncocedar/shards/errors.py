"""What may go wrong with an index in shards, beside what may with each of them."""

from __future__ import annotations

from typing import Any, Dict

from ..errors import Error

SHARDS_NAMED = 5  # in a message, at most


class Missing(Error):
    """An answer that lacks shards. `shards` says of each why, and `answer` is what the others say.

    A search raises it behind its last row, and has no `answer` then: what it gave is that of the others.
    """

    def __init__(self, shards: Dict[int, str], answer: Any = None):
        numbers = sorted(shards)
        named = ", ".join(map(str, numbers[:SHARDS_NAMED])) + (", .." if len(numbers) > SHARDS_NAMED else "")
        super().__init__(f"no answer of {len(numbers)} shard{'s' if len(numbers) != 1 else ''} ({named}): {shards[numbers[0]]}")
        self.shards = shards
        self.answer = answer


class NotAnswered(Error):
    """A change without an answer: it may be stored or not. It can be made again, which is safe."""


class NotHere(NotAnswered):
    """A change that was not made, since its shard does not stand where it was looked for."""


class Stale(Error):
    """Changes that came behind later ones of the same client, and were not made."""
