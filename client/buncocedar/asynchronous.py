"""An index from asyncio, by its server: many tasks ask at once over one connection.

    async with await AsyncIndex.connect("notes.alta") as index:
        rows, count = await asyncio.gather(index.search("fox"), index.count("dog"))

The lines and the replies are those of `buncocedar.Index`, and so are the errors. Each task waits for its own reply; one that no longer
waits, as behind `asyncio.wait_for`, leaves its line under way: it is done all the same, and disturbs no other.
"""

# Lines are made and replies read by the calls of `Commands` and by `Reply`, over an exchange that gives lines to a transport and
# never waits. A program of one's own has no asyncio: its pipes and its end are those of one thread, and who has many tasks has a server.

from __future__ import annotations

import asyncio
import copy
import os
from collections import deque
from typing import Any, Deque, Dict, List, Optional, Tuple, Union

from .commands import Commands
from .cursors import Cursor
from .errors import Closed, Error, ProtocolFault, ServerEnded, end_of
from .links import Service, connected
from .replies import Added, Dumped, Page, Reply, Row, Skipped, Stats, Top

LINES_UNDER_WAY = 64  # lines without a reply, at most: more wait for their turn


class _Exchange(asyncio.Protocol):
    """The lines of an index to its server, and their replies, each with a future."""

    def __init__(self, path):
        self.path = path
        self.link: Optional[Service] = None
        self.end: Optional[Error] = None
        self.untaken: Dict[Reply, None] = {}
        self.told = False
        self._futures: Deque[Tuple[Reply, asyncio.Future]] = deque()
        self._rest = b""
        self._transport: Any = None
        self.ended = asyncio.get_running_loop().create_future()

    # -- What the calls of an index use.

    def send(self, line, command, last, made, lines=None, query=None, behind=b"", after_refusal=False):
        if self.end is not None:
            raise copy.copy(self.end)
        reply = Reply(self, line + b"\n" + behind, command, last, made, lines, query, after_refusal)
        self._futures.append((reply, asyncio.get_running_loop().create_future()))
        self._transport.write(reply.line)
        return reply

    def turn_until(self, is_done, seconds=None):
        if not is_done():
            raise RuntimeError("a reply of an AsyncIndex is waited for by await alone")

    def keep_refusal(self, reply):
        """Whoever sent the line awaits its reply, and is told of it there."""

    def future_of(self, reply):
        return next(future for one, future in reversed(self._futures) if one is reply)

    # -- What the transport calls.

    def connection_made(self, transport):
        self._transport = transport

    def data_received(self, data):
        *lines, self._rest = (self._rest + data).split(b"\n")
        try:
            for line in lines:
                self._take(line.decode(errors="replace"))
        except ProtocolFault as fault:
            self.finish(fault)
            self._transport.abort()

    def _take(self, line):
        if self.link.takes(line):
            return
        if not self._futures:
            raise ProtocolFault("no line", line)
        reply, future = self._futures[0]
        if reply.take(line):
            self._futures.popleft()
            reply.settle()
            if not future.done():
                future.set_result(None)

    def connection_lost(self, error):
        self.finish(end_of(*self.link.status, self.path) if self.link.status[0] != 0 else Closed("the index was closed"))
        if not self.ended.done():
            self.ended.set_result(None)

    def finish(self, error):
        """Takes the end: what is under way gets no reply."""
        self.end = self.end or error
        while self._futures:
            reply, future = self._futures.popleft()
            reply.settle(self.end)
            if not future.done():
                future.set_result(None)

    def close(self):
        self.link.status = 0, ""
        self._transport.close()


class AsyncCursor:
    """The answers to a query as they were when it was opened, page by page."""

    def __init__(self, index, cursor):
        self._index = index
        self._cursor = cursor

    async def page(self, count: int) -> Page:
        """The next `Page` of at most so many rows. Raises `NoSuchCursor` behind `close`."""
        return await self._index._result(lambda: self._cursor.send_page(count))

    async def close(self) -> None:
        """Gives the cursor back."""
        await self._index._result(self._cursor.send_close)


class AsyncIndex:
    """An index by its server, for the tasks of one event loop. `connect` makes one; its calls are those of `Index`."""

    def __init__(self, exchange: _Exchange) -> None:
        self.path = exchange.path
        self._exchange = exchange
        self._calls = Commands()
        self._calls._exchange = exchange  # type: ignore[assignment]
        self._room = asyncio.Semaphore(LINES_UNDER_WAY)

    @classmethod
    async def connect(cls, path: Union[str, bytes, os.PathLike]) -> AsyncIndex:
        """The index at a path, by the server that listens there. Raises `ServerEnded` where none does, and `InUse` where it takes no
        client for ten seconds.
        """
        place = os.fsdecode(path)
        link = await asyncio.to_thread(connected, place)
        if link is None:
            raise ServerEnded(None, "no server of the index listens: bunco serve starts one", place)
        exchange = _Exchange(place)
        exchange.link = link
        loop = asyncio.get_running_loop()
        await loop.create_unix_connection(lambda: exchange, sock=link.connection)
        return cls(exchange)

    async def __aenter__(self) -> AsyncIndex:
        return self

    async def __aexit__(self, *what: Any) -> None:
        await self.close()

    async def close(self) -> None:
        """Ends the connection: of the lines without a reply the first eight may be done, and no other."""
        self._exchange.close()
        await self._exchange.ended

    async def _result(self, send):
        """The value of the reply to what this sends, or its refusal, or the end that came before it."""
        async with self._room:
            reply = send()
            await self._exchange.future_of(reply)
        return reply.result()

    # -- Documents.

    async def add(self, name: str, title: str, body: str, cut: bool = False) -> Added:
        """Stores a document, as `Index.add`."""
        return await self._result(lambda: self._calls.send_add(name, title, body, cut))

    async def delete(self, name: str) -> int:
        """Deletes a document, as `Index.delete`."""
        return await self._result(lambda: self._calls.send_delete(name))

    # -- Queries.

    async def search(self, query: str) -> List[Row]:
        """The rows (number, name) of the documents that match, in order of number. Raises `QueryFault`."""
        return await self._rows(lambda: self._calls.send_search(query))

    async def top(self, query: str, count: int) -> Top:
        """The best answers, as `Index.top`."""
        return await self._result(lambda: self._calls.send_top(query, count))

    async def count(self, query: str) -> int:
        """How many documents match, as `Index.count`."""
        return await self._result(lambda: self._calls.send_count(query))

    async def explain(self, query: str) -> str:
        """How a query is read, as `Index.explain`."""
        return await self._result(lambda: self._calls.send_explain(query))

    async def cursor(self, query: str) -> AsyncCursor:
        """A cursor over the documents that match now. Raises `QueryFault` and `TooManyCursors`."""
        cursor: Cursor = await self._result(lambda: self._calls.send_open(query))
        return AsyncCursor(self, cursor)

    async def stats(self) -> Stats:
        """The figures of the index, as `Index.stats`."""
        return await self._result(self._calls.send_stats)

    async def dump(self) -> List[Union[Dumped, Skipped]]:
        """The words of all documents, as `Index.dump`, all at once."""
        return await self._rows(self._calls.send_dump)

    async def _rows(self, send):
        async with self._room:
            reply = send()
            await self._exchange.future_of(reply)
        return list(reply.each())

    # -- Upkeep.

    async def flush(self) -> None:
        """Writes the journal's documents as a level, as `Index.flush`."""
        await self._result(lambda: self._calls.send_line(b"flush"))

    async def merge(self) -> None:
        """Joins all levels, as `Index.merge`: all clients of the server wait for it."""
        await self._result(lambda: self._calls.send_line(b"merge"))
