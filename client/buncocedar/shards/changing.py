"""Lines that change documents, given to several shards in one call."""

from __future__ import annotations

import re
import time
from collections import deque
from typing import Callable, Deque, Dict, List, Optional, Tuple, Union

from ..errors import Error, Refused
from ..exchange import BYTES_WAITING, LINES_UNDER_WAY
from ..replies import Reply
from .errors import NotAnswered
from .names import number_of
from .shard import Shard

RECORD = 17  # bytes that a line takes more in the journal, at most

Outcome = Union[Tuple[int, Optional[int]], Error]  # the number of a document and that of the one before it, or what came instead

_CHANGED = re.compile("added ([0-9]+)|replaced ([0-9]+) by ([0-9]+)|deleted ([0-9]+)")


class Window:
    """The lines that are under way to a shard: as many as it takes without a wait that has no deadline."""

    def __init__(self, shard: Shard, until: float):
        self.shard = shard
        self.until = until
        self.index = shard.index(until)
        self.under_way: Deque[Tuple[Reply, int]] = deque()
        self.bytes = 0

    def send(self, line: bytes) -> Reply:
        if len(self.under_way) >= LINES_UNDER_WAY or self.bytes + len(line) > BYTES_WAITING:
            self._make_room()
        reply = self.index.send_line(line)
        self.under_way.append((reply, len(line)))
        self.bytes += len(line)
        self.shard.unmerged += len(line) + RECORD
        return reply

    def _make_room(self):
        """Waits for half of the replies."""
        for _ in range((len(self.under_way) + 1) // 2):
            reply, size = self.under_way.popleft()
            if not reply.wait(max(0.0, self.until - time.monotonic())):
                raise self.shard.rest()
            self.bytes -= size


class Changing:
    """One call that changes documents, up to a moment. A shard that fails takes no further line of it, so that their order stays."""

    def __init__(self, shard_at: Callable[[int], Shard], until: float):
        self.shard_at = shard_at
        self.until = until
        self.windows: Dict[int, Window] = {}
        self.failed: Dict[int, NotAnswered] = {}

    def outcomes(self, lines: List[Tuple[int, bytes]]) -> List[Outcome]:
        """What came of each line (shard, line), in order."""
        sent = [(shard, self._sent(shard, line)) for shard, line in lines]
        for window in self.windows.values():
            # What waits to be written, so that all shards work at the same time.
            window.index.settle(0)
        return [self._outcome(shard, reply) for shard, reply in sent]

    def _sent(self, shard, line):
        """The reply to come, or the error in its place."""
        if shard in self.failed:
            return self.failed[shard]
        try:
            if shard not in self.windows:
                self.windows[shard] = Window(self.shard_at(shard), self.until)
            return self.windows[shard].send(line)
        except Refused as refusal:
            return refusal
        except Error as error:
            return self._fail(shard, error)

    def _fail(self, shard, error):
        self.failed[shard] = error if isinstance(error, NotAnswered) else NotAnswered(str(error))
        return self.failed[shard]

    def _outcome(self, shard, reply):
        if isinstance(reply, Error):
            return reply
        if shard in self.failed and not reply.settled:
            return self.failed[shard]
        try:
            added, before, after, deleted = _CHANGED.fullmatch(self.shard_at(shard).result(reply, self.until)).groups()
        except Refused as refusal:
            return refusal
        except Error as error:
            return self._fail(shard, error)
        own = int(added or after or deleted)
        self.shard_at(shard).next = max(self.shard_at(shard).next, own + 1)
        return number_of(own, shard), before and number_of(int(before), shard)
