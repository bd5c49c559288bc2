"""The queries of an index in shards: what its places say, put together."""

from __future__ import annotations

import heapq
import itertools
from typing import Any, Dict, Iterable, Iterator, List, Optional, Tuple, Union

from ..errors import Error
from ..replies import Dumped, Page, Row, Scored, Skipped, Stats, Top
from ..texts import one_line, whole
from .changes import Outbox
from .errors import Missing
from .names import number_of, own_number
from .places import SECONDS_OVER
from .shelf import best
from .whereabouts import Whereabouts

ROWS = 1_000  # of a place, at a time


class ShardedQueries:
    """What an index in shards is asked. Each call sees what this client has sent before it."""

    _where: Whereabouts
    _outbox: Outbox
    _held: Dict[Tuple[Any, int], None]  # the rows that places hold for this client, each by its place and key there

    @property
    def shards(self) -> int:
        """How many shards the index has."""
        return self._where.shards

    @property
    def name(self) -> str:
        """The name of the index, which all its shards have."""
        return self._where.name or ""

    @property
    def places(self) -> List[Any]:
        """The places that were found last."""
        return self._where.places

    def left_out(self) -> Dict[str, str]:
        """Of each place that was found last and has no part in the index, as it gave no answer, why, by its name."""
        return self._where.left_out()

    def place_of(self, shard: int) -> Any:
        """The place where a shard stands. Raises `Missing`."""
        if shard not in self._where.home:
            self._where.looks_again()
        if shard not in self._where.home:
            raise Missing({shard: self._where.why_missing(shard)})
        return self._where.home[shard]

    def shards_at(self, place: Any) -> List[int]:
        """The shards that stand at a place."""
        return sorted(shard for shard, home in self._where.home.items() if home is place)

    def count(self, query: str) -> int:
        """How many live documents match. Raises `QueryFault`, and `Missing`, whose `answer` is what the others say."""
        parts, missing = self._gathered("count", one_line(query, "a query"))
        return whole_answer(sum(found for _, found in parts), missing)

    def top(self, query: str, count: int) -> Top:
        """The `Top` answers of all shards by falling score, and of one score by age: at most `count` of them, 1 to 1,000.

        Raises `QueryFault`, `BadLine` for another `count`, and `Missing`.
        """
        whole(count, "count")
        parts, missing = self._gathered("top", one_line(query, "a query"), count)
        rows = best((row for _, rows, _ in parts for row in rows), count)
        answers = [Scored(number, name, score) for score, _, number, name in rows]
        return whole_answer(Top(answers, sum(found for *_, found in parts)), missing)

    def search(self, query: str) -> Iterator[Row]:
        """The live documents that match, as an iterator of (number, name) by age, the oldest first, each shard as it is now.

        Raises `QueryFault`, and `Missing` behind the last row.
        """
        parts, missing = self._gathered("begin", one_line(query, "a query"), undo="end")
        streams = [self._rows(place, key, missing) for place, key in parts]
        return _each_row(heapq.merge(*streams), missing)

    def _rows(self, place, key, missing) -> Iterator[tuple]:
        """The rows (age, number, name) of a place. What goes wrong is put into `missing`."""
        rows = self._begun_rows(place, key, missing)
        # A generator that never began has no end, which is what gives back what the place holds.
        next(rows)
        return rows

    def _begun_rows(self, place, key, missing):
        """Nothing, as it begins, and then the rows."""
        self._held[place, key] = None
        more = True
        try:
            yield ()
            future = place.call("more", key, ROWS)
            while more:
                try:
                    failed, rows, more = future.result(self._where.patience + SECONDS_OVER)
                except Exception as error:
                    more = False
                    failed, rows = dict.fromkeys(self.shards_at(place), f"{place.name}: {type(error).__name__}: {error}"), []
                missing.update(failed)
                if more and place.is_apart:
                    # The next ones are on their way while these are taken.
                    future = place.call("more", key, ROWS)
                yield from map(tuple, rows)
                if more and not place.is_apart:
                    future = place.call("more", key, ROWS)
            self._held.pop((place, key), None)
        finally:
            self._give_back(place, key)

    def _give_back(self, place, key):
        """Has a place let go of rows that it still holds."""
        if (place, key) in self._held:
            del self._held[place, key]
            place.call("end", key)

    def cursor(self, query: str) -> ShardedCursor:
        """A `ShardedCursor` over the documents that match now, in each shard. Raises `QueryFault` and `TooManyCursors`."""
        return ShardedCursor(self.search(query))

    def explain(self, query: str) -> str:
        """The query's canonical spelling and its plan, which are the same in each shard. Raises `QueryFault`, and `Missing` without any."""
        missing: Dict[int, str] = {}
        for place in dict.fromkeys(self._where.home.values()):
            shards = self.shards_at(place)
            ((_, told),) = self._where.ask([(place, "explain", shards, one_line(query, "a query"))])
            if not isinstance(told, Exception) and told[1]:
                return told[1]
            if isinstance(told, Exception) and not type(told) is Error:
                raise told
            missing.update(dict.fromkeys(shards, str(told)) if isinstance(told, Exception) else told[0])
        raise Missing(missing or {shard: self._where.why_missing(shard) for shard in range(self._where.shards)})

    def stats(self) -> Stats:
        """The `Stats` of all shards: `next` is above each number that a document of the index ever had. Raises `Missing`."""
        every, missing = self._stats()
        following = max((number_of(stats[2], shard) for shard, stats in every.items()), default=0)
        return whole_answer(Stats(sum(stats[0] for stats in every.values()), sum(stats[1] for stats in every.values()), following), missing)

    def _stats(self) -> Tuple[Dict[int, tuple], Dict[int, str]]:
        parts, missing = self._gathered("stats")
        return {shard: stats for _, told in parts for shard, stats in told.items()}, missing

    def stats_of_shards(self) -> Dict[int, Stats]:
        """Of each shard its `Stats`; `next` is the number that itself gives its next document. Raises `Missing`."""
        every, missing = self._stats()
        return whole_answer({shard: Stats(*every[shard]) for shard in sorted(every)}, missing)

    def gave(self, numbers: Iterable[int]) -> List[int]:
        """Those of the numbers that documents of this index ever had, live or not. Raises `Missing`."""
        every, missing = self._stats()
        parts = [(number, *own_number(number)) for number in numbers]
        return whole_answer([number for number, own, shard in parts if shard in every and 1 <= own < every[shard][2]], missing)

    def dump(self) -> Iterator[Union[Dumped, Skipped]]:
        """The words of all live documents, shard by shard, as an iterator: as `Index.dump`. Raises `Missing` behind the last."""
        self._outbox.settle()
        missing: Dict[int, str] = {}
        for shard in range(self._where.shards):
            place = self._where.home.get(shard)
            if place is None and self._where.looks_again():
                place = self._where.home.get(shard)
            if place is None:
                missing[shard] = self._where.why_missing(shard)
                continue
            ((_, key),) = self._where.ask([(place, "begin_dump", shard)])
            if isinstance(key, Exception):
                missing[shard] = str(key)
                continue
            for row in self._rows(place, key, missing):
                yield Dumped(*row) if len(row) == 3 else Skipped(*row)
        whole_answer(None, missing)

    def _gathered(self, method: str, *args: Any, undo: str = "") -> Tuple[List[tuple], Dict[int, str]]:
        self._outbox.settle()
        return self._where.gathered(method, *args, undo=undo)


def whole_answer(answer: Any, missing: Dict[int, str]) -> Any:
    """The answer, where no shard is missing."""
    if missing:
        raise Missing(missing, answer)
    return answer


def _each_row(rows, missing):
    for _, number, name in rows:
        yield number, name
    whole_answer(None, missing)


class ShardedCursor:
    """The answers of a query, in each shard as they were when it was opened, page by page, as those of a `Cursor`.

    An answer that lacks shards is told by its last page: that one raises `Missing`, whose `answer` is the `Page`.
    """

    def __init__(self, rows: Iterator[Row]):
        self._rows = rows
        self._ahead: List[Row] = []  # a row that shows that there are more
        self._missing: Optional[Missing] = None

    def __enter__(self) -> ShardedCursor:
        return self

    def __exit__(self, kind: Any, value: Any, trace: Any) -> None:
        self.close()

    def page(self, count: int) -> Page:
        """The next `Page`, of at most so many rows, 1 or more. Raises `Missing` in place of the last one."""
        if int(whole(count, "count")) < 1:
            raise ValueError(f"a page has 1 row or more, not {count}")
        rows = self._ahead + self._taken(count + 1 - len(self._ahead))
        rows, self._ahead = rows[:count], rows[count:]
        page = Page(rows, bool(self._ahead))
        if self._missing is not None and not page.more:
            raise Missing(self._missing.shards, page)
        return page

    def _taken(self, count):
        rows: List[Row] = []
        try:
            rows.extend(itertools.islice(self._rows, count))
        except Missing as missing:
            self._missing = missing
        return rows

    def pages(self, count: int) -> Iterator[Page]:
        """The pages up to the end, none of them empty."""
        more = True
        while more:
            page = self.page(count)
            more = page.more
            if page.rows:
                yield page

    def __iter__(self) -> Iterator[Row]:
        for page in self.pages(ROWS):
            yield from page.rows

    def close(self) -> None:
        """Gives the cursors of the shards back."""
        self._rows.close()  # type: ignore[attr-defined]
