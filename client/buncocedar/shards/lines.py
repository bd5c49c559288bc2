"""The program's command lines over an index in shards: each is read as the program reads it, and done by a call of the index."""

from __future__ import annotations

import re
from typing import Any, Callable, Dict, Iterator, NamedTuple, Optional

from ..errors import BadLine, NoSuchCursor, NotUtf8, TooManyCursors, UnknownCommand
from ..lines import LINE_LIMIT, too_long
from ..replies import Dumped
from .errors import Missing

MOST_CURSORS = 64  # that an index has open at once
MOST_COUNT = 1_000_000  # that a line may name, of rows or of terms
MOST_BEST = 1_000

_COUNT = "([1-9][0-9]{0,6})"
_TEXT = re.compile("(.*)", re.DOTALL)


class Form(NamedTuple):
    """What stands behind a command's word and a blank, None where the word stands alone, and what gives the lines of the reply."""

    rest: Optional[re.Pattern]
    reply: Callable[..., Iterator[str]]


class Lines:
    """Answers command lines over an index in shards, and keeps the cursors that they have opened."""

    def __init__(self, index: Any):
        self._index = index
        self._cursors: Dict[int, Any] = {}
        self._forms = {
            "add": Form(re.compile("([^\t]*)\t([^\t]*)\t(.*)", re.DOTALL), self._add),
            "delete": Form(_TEXT, self._delete),
            "search": Form(_TEXT, self._search),
            "top": Form(re.compile("([1-9][0-9]{0,3}) (.*)", re.DOTALL), self._top),
            "count": Form(_TEXT, self._count),
            "explain": Form(_TEXT, self._explain),
            "open": Form(_TEXT, self._open),
            "fetch": Form(re.compile(f"{_COUNT} {_COUNT}"), self._fetch),
            "close": Form(re.compile(_COUNT), self._close),
            "dump": Form(None, self._dump),
            "stats": Form(None, self._stats),
            "flush": Form(None, self._flush),
            "merge": Form(None, self._merge),
            "step": Form(re.compile(_COUNT), self._step),
        }

    def each_answer(self, line: bytes) -> Iterator[str]:
        """The lines of the reply to a command line, given in bytes without a newline, as they come.

        Raises the `Refused` that the program would answer with, `NotAnswered`, and `Missing` behind the lines that the others gave.
        """
        if len(line) > LINE_LIMIT:
            raise too_long(len(line), "a line")
        try:
            text = line.decode()
        except UnicodeDecodeError:
            raise NotUtf8("! not UTF-8") from None
        word, blank, rest = text.partition(" ")
        form = self._forms.get(word)
        if form is None:
            raise UnknownCommand("! unknown command")
        parts = _parts(form, blank, rest)
        if parts is None:
            raise BadLine("! bad line")
        return form.reply(*parts)

    # -- Documents.

    def _add(self, name, title, body):
        added = self._index.add(name, title, body)
        yield f"added {added}" if added.replaced is None else f"replaced {added.replaced} by {added}"

    def _delete(self, name):
        yield f"deleted {self._index.delete(name)}"

    # -- Queries.

    def _search(self, query):
        found = 0
        for number, name in self._index.search(query):
            found += 1
            yield f"{number} {name}"
        yield f"found {found}"

    def _top(self, count, query):
        top, missing = _with_missing(lambda: self._index.top(query, _upto(count, MOST_BEST)))
        yield from (f"{number} {name} {score}" for number, name, score in top.answers)
        yield f"found {top.found}"
        _tell(missing)

    def _count(self, query):
        found, missing = _with_missing(lambda: self._index.count(query))
        yield f"found {found}"
        _tell(missing)

    def _explain(self, query):
        yield from self._index.explain(query).splitlines()

    # -- Cursors.

    def _open(self, query):
        if len(self._cursors) == MOST_CURSORS:
            raise TooManyCursors("! too many cursors")
        number = next(number for number in range(1, MOST_CURSORS + 1) if number not in self._cursors)
        self._cursors[number] = self._index.cursor(query)
        yield f"cursor {number}"

    def _fetch(self, cursor, count):
        page, missing = _with_missing(lambda: self._cursor(cursor).page(_upto(count, MOST_COUNT)))
        yield from (f"{number} {name}" for number, name in page.rows)
        yield "more" if page.more else "end"
        _tell(missing)

    def _close(self, cursor):
        self._cursor(cursor).close()
        del self._cursors[int(cursor)]
        yield f"closed {cursor}"

    def _cursor(self, digits):
        cursor = self._cursors.get(_upto(digits, MOST_COUNT))
        if cursor is None:
            raise NoSuchCursor("! no such cursor")
        return cursor

    # -- The index.

    def _dump(self):
        dumped = 0
        for row in self._index.dump():
            if isinstance(row, Dumped):
                dumped += 1
                yield f"add {row.name}\t{row.title}\t{row.body}"
            else:
                yield f"skipped {row.number} {row.name}"
        yield f"dumped {dumped}"

    def _stats(self):
        stats, missing = _with_missing(self._index.stats)
        yield f"documents {stats.documents} words {stats.words} next {stats.next}"
        _tell(missing)

    def _flush(self):
        self._index.flush()
        yield "ok"

    def _merge(self):
        self._index.merge()
        yield "ok"

    def _step(self, terms):
        self._index.step(_upto(terms, MOST_COUNT))
        yield "ok"


def _parts(form, blank, rest):
    """The parts of a line behind its word, or None where they have not the form of the command."""
    if form.rest is None:
        return () if not blank else None
    match = form.rest.fullmatch(rest) if blank else None
    return match.groups() if match else None


def _upto(digits, most):
    """The number, where it is no greater than may be. Raises `BadLine`."""
    if int(digits) > most:
        raise BadLine("! bad line")
    return int(digits)


def _with_missing(call):
    """What a call answers; where shards are missing what the others say, and the `Missing` that says so."""
    try:
        return call(), None
    except Missing as missing:
        return missing.answer, missing


def _tell(missing):
    if missing is not None:
        raise missing
