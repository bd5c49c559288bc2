"""The shards of one place: those of a folder, or some of them, each with its program."""

from __future__ import annotations

import contextlib
import heapq
import itertools
import time
from typing import Callable, Dict, Iterable, List, NamedTuple, Optional, Tuple

from ..errors import Error, Refused
from ..index import Index
from ..replies import Reply
from .changing import Changing, Outcome
from .errors import Stale
from .files import Failed, Files
from .folder import settings_of, shards_in
from .names import age, number_of
from .shard import Shard
from .streams import Dump, Found, Stream

LEASE = 600.0  # seconds that rows wait for who asked for them
CLIENT_SECONDS = 86_400.0  # without changes of a client, after which it is forgotten
MERGE_BYTES = 15_000_000  # of lines in a shard, before its levels are to be joined


class Known(NamedTuple):
    """A client that has made changes here: the number of the last ones, and when they came."""

    number: int
    at: float


class Shelf(Files):
    """The shards of one folder that belong to one process, `only` some where others have the rest.

    Its calls answer with plain values, which can be sent over a wire; those over several shards with what failed of which
    shard, first. `patience` is how many seconds its shards have for one call together. One thread at a time.
    """

    def __init__(
        self, folder: str, only: Optional[List[int]] = None, program: Optional[str] = None, patience: float = 10.0
    ) -> None:
        self.folder = folder
        self.settings = settings_of(folder)
        self.program = program
        self.patience = patience
        self.only = None if only is None else set(only)
        self._shards: Dict[int, Shard] = {}
        self._streams: Dict[int, Stream] = {}
        self._keys = itertools.count(1)
        self._clients: Dict[str, Known] = {}
        for shard in self.here():
            self._shard(shard).begin()

    def here(self) -> List[int]:
        """The shards that stand here."""
        return [shard for shard in shards_in(self.folder) if self.only is None or shard in self.only]

    def about(self) -> dict:
        """The index that the shards belong to, and which stand here."""
        return {**self.settings._asdict(), "here": self.here()}

    def close(self) -> None:
        """Ends the programs. The first error is raised when all have ended."""
        until = self._until()
        errors = []
        for shard in self._shards.values():
            try:
                shard.close(until)
            except Error as error:
                errors.append(error)
        self._shards.clear()
        if errors:
            raise errors[0]

    def kill(self) -> None:
        """Ends the programs at once."""
        for shard in self._shards.values():
            shard.kill()

    def break_off(self) -> None:
        """Ends the programs from a signal handler."""
        for shard in list(self._shards.values()):
            shard.break_off()

    def _shard(self, number: int) -> Shard:
        if number not in self._shards:
            self._shards[number] = Shard(self.folder, number, self.program, self.patience)
        return self._shards[number]

    def _until(self) -> float:
        return time.monotonic() + self.patience

    # -- Queries.

    def count(self, shards: List[int], query: str) -> Tuple[Failed, int]:
        told, failed = self._asked(shards, lambda index: index.send_count(query))
        return failed, sum(told.values())

    def top(self, shards: List[int], query: str, count: int) -> Tuple[Failed, List[tuple], int]:
        """The best rows (score, age, number, name) of these shards together, and how many match."""
        told, failed = self._asked(shards, lambda index: index.send_top(query, count))
        rows = [
            (score, age(own, self._shard(shard).next), number_of(own, shard), name)
            for shard, top in told.items()
            for own, name, score in top.answers
        ]
        return failed, best(rows, count), sum(top.found for top in told.values())

    def explain(self, shards: List[int], query: str) -> Tuple[Failed, str]:
        """The plan, which is the same in each shard: of the first that answers."""
        failed: Failed = {}
        for shard in shards:
            told, why = self._asked([shard], lambda index: index.send_explain(query))
            if told:
                return {}, told[shard]
            failed.update(why)
        return failed, ""

    def stats(self, shards: List[int]) -> Tuple[Failed, Dict[int, tuple]]:
        told, failed = self._asked(shards, lambda index: index.send_stats())
        return failed, {shard: tuple(stats) for shard, stats in told.items()}

    def upkeep(self, shards: List[int], line: str) -> Tuple[Failed]:
        """Has each shard `flush`, `merge` or `step N`, one behind the other: a merge takes several times its level in memory."""
        failed: Failed = {}
        for shard in shards:
            self._shard(shard).unmerged = 0
            failed.update(self._asked([shard], lambda index: index.send_line(line.encode()))[1])
        return (failed,)

    def _asked(self, shards: Iterable[int], send: Callable[[Index], Reply]) -> Tuple[dict, Failed]:
        """Sends something to each of these shards, and takes all replies: what each says, and why others say nothing.

        Behind the end of its program a shard is opened and asked once more. What one refuses all refuse.
        """
        until = self._until()
        told, failed = self._asked_once(shards, send, until)
        ended = [shard for shard in failed if self._shard(shard).has_ended()]
        if ended:
            again, left = self._asked_once(ended, send, until)
            told.update(again)
            failed = {**{shard: why for shard, why in failed.items() if shard not in ended}, **left}
        return told, failed

    def _asked_once(self, shards, send, until):
        under_way, told, failed, refused = {}, {}, {}, None
        for shard in shards:
            try:
                under_way[shard] = send(self._shard(shard).index(until))
            except Refused:
                raise
            except Error as error:
                failed[shard] = str(error)
        for shard, reply in under_way.items():
            try:
                told[shard] = self._shard(shard).result(reply, until)
            except Refused as refusal:
                refused = refusal
            except Error as error:
                failed[shard] = str(error)
        if refused is not None:
            raise refused
        return told, failed

    # -- Rows, some at a time.

    def begin(self, shards: List[int], query: str) -> Tuple[Failed, int]:
        """Opens a cursor in each shard, and answers a key for `more`. Raises what one shard refuses, and holds none then."""
        opened: List[Reply] = []

        def send(index):
            opened.append(index.send_open(query))
            return opened[-1]

        try:
            told, failed = self._asked(shards, send)
        except Refused:
            for reply in opened:
                if reply.answered and reply.error is None:
                    with contextlib.suppress(Error):
                        reply.result().send_close()
            raise
        return failed, self._begun(Found({self._shard(shard): cursor for shard, cursor in told.items()}))

    def begin_dump(self, shard: int) -> int:
        """Begins the dump of a shard, and answers a key for `more`."""
        return self._begun(Dump(self._shard(shard), self._shard(shard).index(self._until()).send_dump()))

    def _begun(self, stream):
        now = time.monotonic()
        for key in [key for key, old in self._streams.items() if old.used + LEASE < now]:
            self.end(key)
        key = next(self._keys)
        self._streams[key] = stream
        return key

    def more(self, key: int, count: int) -> Tuple[Failed, List[tuple], bool]:
        """The next rows of what was begun, and whether there are more; of each shard that gives no more before its end why."""
        stream = self._streams.get(key)
        if stream is None:
            raise Error("these rows are gone: the shards were closed, or nobody asked for them for ten minutes")
        rows = stream.take(count, self._until())
        if len(rows) < count:
            self.end(key)
        return stream.failed, rows, len(rows) == count

    def end(self, key: int) -> None:
        """Gives back what was begun, where it is still held."""
        stream = self._streams.pop(key, None)
        if stream is not None:
            stream.end(self._until())

    # -- Changes.

    def change(self, client: str, number: int, lines: List[Tuple[int, bytes]]) -> Tuple[List[Outcome], List[int]]:
        """Has shards do `add` and `delete` lines, each (shard, line), and answers for each what came, and which shards want a merge.

        `number` rises with each call of a client, so that one that was held up on its way is not done behind a later one: it
        raises `Stale`, and nothing of it is done.
        """
        self._let_pass(client, number)
        changing = Changing(self._shard, self._until())
        outcomes = changing.outcomes(lines)
        return outcomes, [shard for shard in changing.windows if self._shard(shard).unmerged > MERGE_BYTES]

    def _let_pass(self, client, number):
        now = time.monotonic()
        known = self._clients.get(client)
        if known is None:
            self._clients = {name: other for name, other in self._clients.items() if other.at + CLIENT_SECONDS > now}
        elif number <= known.number:
            raise Stale(f"changes {number} of a client came behind its changes {known.number}")
        self._clients[client] = Known(number, now)


def best(rows: Iterable[tuple], count: int) -> List[tuple]:
    """The best of rows (score, age, number, name): by falling score, and of one score by age."""
    return heapq.nsmallest(count, rows, key=lambda row: (-row[0], row[1], row[2]))
