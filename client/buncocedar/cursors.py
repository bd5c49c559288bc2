"""A cursor: the answers of a query as they were when it was opened."""

from __future__ import annotations

from typing import Any, Iterator

from .replies import CLOSED, PAGE_END, ROWS, Page, Reply, Row, nothing
from .texts import whole


class Cursor:
    """The answers of a query as they were when it was opened, page by page, whatever is added and deleted meanwhile.

    At most 64 are open at once; `close` gives one back, and so does the end of a `with`.
    """

    def __init__(self, index, number):
        self.number = number
        self._exchange = index._exchange

    def __enter__(self) -> Cursor:
        return self

    def __exit__(self, kind: Any, value: Any, trace: Any) -> None:
        if self._exchange.end is None:
            self.close()

    def page(self, count: int) -> Page:
        """The next `Page`, of at most so many rows, 1 to 1,000,000. Raises `NoSuchCursor` where it was closed."""
        return self.send_page(count).result()

    def send_page(self, count: int) -> Reply[Page]:
        """Sends what `page` sends, and answers its `Reply`: its `result` is the `Page`."""
        line = f"fetch {self.number} {whole(count, 'count')}"
        return self._exchange.send(line.encode(), line, PAGE_END, lambda last, rows: Page(list(rows), last[0] == "more"), ROWS)

    def pages(self, count: int) -> Iterator[Page]:
        """The pages up to the end, none of them empty."""
        more = True
        while more:
            page = self.page(count)
            more = page.more
            if page.rows:
                yield page

    def __iter__(self) -> Iterator[Row]:
        for page in self.pages(1000):
            yield from page.rows

    def close(self) -> None:
        """Gives the cursor back."""
        self.send_close().result()

    def send_close(self) -> Reply[None]:
        """Sends what `close` sends, and answers its `Reply`."""
        line = f"close {self.number}"
        return self._exchange.send(line.encode(), line, CLOSED, nothing)
