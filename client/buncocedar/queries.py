"""The queries of an index: each can be sent and waited for by one call, or sent by a call that answers its `Reply` at once.

In a query `id:` stands for the name of the message that has this Message-ID (`ids.py`), of whatever length.

Who asks several indexes sends to all of them before the first reply is waited for, so that they work at the same time.
"""

from __future__ import annotations

from typing import Iterable, Iterator, List, Union

from .cursors import Cursor
from .exchange import Exchange
from .ids import with_names
from .lines import LINE_LIMIT, too_long
from .replies import (
    CURSOR,
    DUMP_END,
    DUMPED,
    FOUND,
    ROWS,
    SCORED,
    STATS,
    TEXTS,
    Dumped,
    Reply,
    Row,
    Skipped,
    Stats,
    Top,
    first_number,
)
from .texts import one_line, whole


class Queries:
    """What an index is asked, over an exchange of lines."""

    _exchange: Exchange

    def search(self, query: str) -> Iterator[Row]:
        """The live documents that match, as an iterator of (number, name) in order of number. Raises `QueryFault`."""
        reply = self.send_search(query)
        reply.begin()
        return reply.each()

    def send_search(self, query: str) -> Reply[int]:
        """Sends what `search` sends: `each` of its `Reply` gives the rows, and `result` how many they are."""
        return self._ask("search", query, FOUND, first_number, ROWS)

    def top(self, query: str, count: int) -> Top:
        """The `Top` answers by falling score, and of one score by rising number: at most `count` of them, 1 to 1,000.

        Raises `QueryFault`, `BadLine` for another `count`, and `UnknownCommand` where the program is an older one.
        """
        return self.send_top(query, count).result()

    def send_top(self, query: str, count: int) -> Reply[Top]:
        """Sends what `top` sends: the `result` of its `Reply` is the `Top`."""
        return self._ask(f"top {whole(count, 'count')}", query, FOUND, lambda last, rows: Top(list(rows), int(last[1])), SCORED)

    def count(self, query: str) -> int:
        """How many live documents match. Raises `QueryFault`."""
        return self.send_count(query).result()

    def send_count(self, query: str) -> Reply[int]:
        """Sends what `count` sends: the `result` of its `Reply` is the number."""
        return self._ask("count", query, FOUND, first_number)

    def explain(self, query: str) -> str:
        """The query's canonical spelling and, in the lines behind it, its plan. Raises `QueryFault`."""
        return self.send_explain(query).result()

    def send_explain(self, query: str) -> Reply[str]:
        """Sends what `explain` sends: the `result` of its `Reply` is the text."""
        # The reply's end shows only by the next reply's begin.
        return self._ask("explain", query, STATS, lambda last, rows: "\n".join(rows), TEXTS, behind=b"stats\n", after_refusal=True)

    def cursor(self, query: str) -> Cursor:
        """A `Cursor` over the documents that match now. Raises `QueryFault` and `TooManyCursors`."""
        return self.send_open(query).result()

    def send_open(self, query: str) -> Reply[Cursor]:
        """Sends what `cursor` sends: the `result` of its `Reply` is the `Cursor`."""
        return self._ask("open", query, CURSOR, lambda last, rows: Cursor(self, int(last[1])))

    def stats(self) -> Stats:
        """The `Stats` of the index."""
        return self.send_stats().result()

    def send_stats(self) -> Reply[Stats]:
        """Sends what `stats` sends: the `result` of its `Reply` is the `Stats`."""
        return self._exchange.send(b"stats", "stats", STATS, lambda last, rows: Stats(int(last[1]), int(last[2]), int(last[3])))

    def gave(self, numbers: Iterable[int]) -> List[int]:
        """Those of the numbers that documents of this index ever had, live or not."""
        following = self.stats().next
        return [number for number in numbers if 1 <= number < following]

    def dump(self) -> Iterator[Union[Dumped, Skipped]]:
        """The words of all live documents in order of number, as an iterator: a `Dumped` each, or a `Skipped` where they give no line."""
        reply = self.send_dump()
        reply.begin()
        return reply.each()

    def send_dump(self) -> Reply[int]:
        """Sends what `dump` sends: `each` of its `Reply` gives what `dump` gives, and `result` how many documents have a line."""
        return self._exchange.send(b"dump", "dump", DUMP_END, first_number, DUMPED)

    def _ask(self, word, query, last, made, lines=None, behind=b"", after_refusal=False):
        query = with_names(one_line(query, "a query"))
        line = f"{word} {query}".encode()
        if len(line) > LINE_LIMIT:
            raise too_long(len(line), word)
        return self._exchange.send(line, word, last, made, lines, query, behind, after_refusal)
