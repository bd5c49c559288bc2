"""Rows of several shards of one place, taken some at a time."""

from __future__ import annotations

import contextlib
import heapq
import itertools
import time
from typing import Dict, Iterator, List

from ..cursors import Cursor
from ..errors import Error
from ..replies import Dumped
from .names import age, number_of
from .shard import Shard

ROWS = 1_000  # of one shard, at a time


class Stream:
    """Rows that are taken some at a time. `failed` says of each shard that gives no more why; `used` is when it was asked last."""

    rows: Iterator[tuple]

    def __init__(self, shards: List[Shard]):
        self.shards = {shard.number for shard in shards}
        self.failed: Dict[int, str] = {}
        self.used = time.monotonic()
        self.until = 0.0  # a moment, after which nothing is waited for

    def take(self, count: int, until: float) -> List[tuple]:
        """The next rows, fewer than `count` only where there are no more."""
        self.used, self.until = time.monotonic(), until
        return list(itertools.islice(self.rows, count))

    def fail(self, shard: Shard, error: Error) -> None:
        self.failed[shard.number] = str(error)

    def end(self, until: float) -> None:
        """Gives back what it holds."""


class Found(Stream):
    """The rows (age, number, name) that cursors have in some shards, by age."""

    def __init__(self, opened: Dict[Shard, Cursor]):
        super().__init__(list(opened))
        self.opened = opened
        self.rows = iter(heapq.merge(*[self._each(shard, cursor, shard.next) for shard, cursor in opened.items()]))

    def _each(self, shard, cursor, following):
        more = True
        try:
            reply = self._sent(shard, cursor)
            while more:
                rows, more = shard.result(reply, self.until)
                if more:
                    # The shard finds the next ones while these are taken.
                    reply = self._sent(shard, cursor)
                for own, name in rows:
                    yield age(own, following), number_of(own, shard.number), name
        except Error as error:
            self.fail(shard, error)

    def _sent(self, shard, cursor):
        shard.index(self.until)
        return cursor.send_page(ROWS)

    def end(self, until):
        for shard, cursor in self.opened.items():
            # One whose program has ended is gone with it.
            with contextlib.suppress(Error):
                shard.index(until)
                shard.result(cursor.send_close(), until)
        self.opened = {}


class Dump(Stream):
    """The words of the documents of a shard: (name, title, body) of each, or (number, name) where no line would make it again."""

    def __init__(self, shard: Shard, reply):
        super().__init__([shard])
        self.shard = shard
        self.reply = reply
        self.rows = self._each()

    def _each(self):
        reply = self.reply
        try:
            while True:
                if not reply.rows:
                    reply.wait(max(0.0, self.until - time.monotonic()), rows=1)
                if not reply.rows and not reply.settled:
                    raise self.shard.rest()
                if not reply.rows:
                    break
                row = reply.rows.popleft()
                yield tuple(row) if isinstance(row, Dumped) else (number_of(row.number, self.shard.number), row.name)
            reply.result()
        except Error as error:
            self.fail(self.shard, error)
