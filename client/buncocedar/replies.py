"""Replies: the form of each, what a call makes of it, and the one that is waited for."""

import copy
import re
from collections import deque
from typing import Any, Callable, Generic, Iterator, List, NamedTuple, Optional, Tuple, TypeVar

from .errors import Error, ProtocolFault, Refused, refusal_of
from .texts import NUMBER, Regular

Row = Tuple[int, str]  # number and name
MOST_BEST = 1_000  # of the best answers, that may be asked for at once
ADDED = Regular(f"added {NUMBER}|replaced {NUMBER} by {NUMBER}")
DELETED = Regular(f"deleted {NUMBER}")
FOUND = Regular(f"found {NUMBER}")
STATS = Regular(f"documents {NUMBER} words {NUMBER} next {NUMBER}")
CURSOR = Regular(f"cursor {NUMBER}")
CLOSED = Regular(f"closed {NUMBER}")
PAGE_END = Regular("more|end")
OK = Regular("ok")
DUMP_END = Regular(f"dumped {NUMBER}")


class Added(int):
    """A document's number.

    `replaced` is the number of the document of its name before, or None. `dropped` is how many bytes of its title and body
    were cut off.
    """

    replaced: Optional[int] = None
    dropped = 0


class Stats(NamedTuple):
    """Live documents, the words that they have, and the number that the next document gets."""

    documents: int
    words: int
    next: int


class Page(NamedTuple):
    """Rows (number, name) of a cursor, and whether there are more."""

    rows: List[Row]
    more: bool


class Scored(NamedTuple):
    """A document that matches, and its score: how often it has what the query asks for, each place in its title four times."""

    number: int
    name: str
    score: int


class Top(NamedTuple):
    """The best answers to a query, the first of them the best, and how many there are in all."""

    answers: List[Scored]
    found: int


class Dumped(NamedTuple):
    """The words of a document as the index has them, folded, with a space between two: it can be added again."""

    name: str
    title: str
    body: str


class Skipped(NamedTuple):
    """A document whose words give no line that would make it again."""

    number: int
    name: str


Value = TypeVar("Value")  # of a reply


class Lines(NamedTuple):
    """The lines of a reply before its last one: their form, and what is made of one. No last line has a form that is `apart`."""

    form: Regular
    made: Callable[[re.Match], Any]
    apart: bool = True


ROWS = Lines(Regular(f"{NUMBER} ([!-~]{{1,64}})"), lambda line: (int(line[1]), line[2]))
SCORED = Lines(Regular(f"{NUMBER} ([!-~]{{1,64}}) {NUMBER}"), lambda line: Scored(int(line[1]), line[2], int(line[3])))
TEXTS = Lines(Regular(".*", re.DOTALL), lambda line: line[0], apart=False)
DUMPED = Lines(
    Regular(f"add ([!-~]{{1,64}})\t([^\t]*)\t(.*)|skipped {NUMBER} ([!-~]{{1,64}})", re.DOTALL),
    lambda line: Skipped(int(line[4]), line[5]) if line[1] is None else Dumped(line[1], line[2], line[3]),
)


class Reply(Generic[Value]):
    """The reply to a line that was sent, `Reply[int]` where its value is an int. Replies come in the order of their lines.

    Its value is made of the match of its last line and of the rows that nobody has taken before that.
    """

    def __init__(self, exchange, line, command, last, made, lines=None, query=None, after_refusal=False):
        self.command = command
        self.changes = last in (ADDED, DELETED)  # the line adds or deletes a document
        self.rows = deque()
        self.answered = False  # the program has given the whole reply, be it a refusal
        self.settled = False  # it is answered, or never will be
        self._error = None
        self._exchange = exchange
        self.line = line
        self._last = last
        self._made = made
        self._lines = lines
        self._query = query
        self._after_refusal = after_refusal
        self._begun = False
        self._value = None

    @property
    def error(self) -> Optional[Error]:
        """The refusal, or what came in place of a reply. Whoever looks at it has been told."""
        self._exchange.untaken.pop(self, None)
        return self._error

    def wait(self, seconds: Optional[float] = None, rows: Optional[int] = None) -> bool:
        """Waits for the whole reply, for so many seconds at most, and tells whether it is settled: `result` does not wait then.

        With `rows` it waits no longer than until so many rows are there that nobody has taken. With 0 seconds it takes what has
        come. A reply that does not come in time may still come later.
        """
        self._exchange.turn_until(lambda: self.settled or (rows is not None and len(self.rows) >= rows), seconds)
        return self.settled

    def result(self) -> Value:
        """Waits for the reply and gives its value, or raises its refusal, or the end of the program that came before it."""
        self.wait()
        if not self.answered:
            self._exchange.told = True
        if self.error is not None:
            raise copy.copy(self.error)
        return self._value

    def lines(self) -> List[str]:
        """Waits for the reply and gives its lines, of a line that was sent by `send_line`; a refusal is one of them."""
        return list(self.each_line())

    def each_line(self) -> Iterator[str]:
        """The lines that `lines` gives, as they come."""
        try:
            yield from self.each()
        except Refused as refusal:
            yield refusal.reply
        else:
            yield from [] if self._after_refusal else [self._value]

    def begin(self) -> None:
        """Waits for the first line of the reply, and raises as `result` where there is no more to come."""
        self._exchange.turn_until(lambda: self._begun or self.settled)
        if self.settled:
            self.result()

    def each(self) -> Iterator[Any]:
        """The rows as they come, up to the end of the reply."""
        while True:
            while self.rows:
                yield self.rows.popleft()
            if self.settled:
                break
            self._exchange.turn()
        self.result()

    def take(self, line):
        """Takes the next line of the reply, and tells whether it was the last."""
        if self._begun and self._lines and self._lines.apart and not self._error:
            # Nearly all lines are such rows.
            row = self._lines.form.fullmatch(line)
            if row:
                self.rows.append(self._lines.made(row))
                return False
        first = not self._begun
        self._begun = True
        if first and line.startswith("! "):
            self._error = refusal_of(line, self.command, self._query)
            if isinstance(self._error, ProtocolFault):
                raise self._error
            return not self._after_refusal
        last = self._last.fullmatch(line)
        if last:
            self._value = None if self._error else self._made(last, self.rows)
            return True
        row = self._lines.form.fullmatch(line) if self._lines and not self._error else None
        if not row:
            raise ProtocolFault(self.command, line)
        self.rows.append(self._lines.made(row))
        return False

    def settle(self, error=None):
        """Marks it as answered, or as one that never will be for this reason."""
        self.answered = error is None
        self._error = self._error or error
        self.settled = True
        if self.answered and self._error is not None:
            self._exchange.keep_refusal(self)


# Of the reply to each command the last line, and the lines before it.
FORMS = {
    b"add": (ADDED, None),
    b"delete": (DELETED, None),
    b"search": (FOUND, TEXTS),
    b"top": (FOUND, TEXTS),
    b"count": (FOUND, None),
    b"explain": (STATS, TEXTS),
    b"dump": (DUMP_END, TEXTS),
    b"open": (CURSOR, None),
    b"fetch": (PAGE_END, TEXTS),
    b"close": (CLOSED, None),
    b"stats": (STATS, None),
    b"flush": (OK, None),
    b"merge": (OK, None),
    b"step": (OK, None),
}


def query_in(line, word):
    """The query of a line with this word; of one that has none, nothing."""
    if word not in (b"search", b"top", b"count", b"explain", b"open"):
        return ""
    return line.split(b" ", 2 if word == b"top" else 1)[-1].decode(errors="replace")


def whole_line(last, rows):
    return last[0]


def first_number(last, rows):
    return int(last[1])


def nothing(last, rows):
    return None
