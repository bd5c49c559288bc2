"""What a page shows: the answers to a query with their snippets, and a whole document."""

from __future__ import annotations

import collections
import os
import re
import threading
import time
from typing import Any, Dict, Iterator, List, NamedTuple, Optional, Tuple

from ..document import Text
from ..errors import CAUSES, QueryFault, Refused
from ..imports import archives, header
from ..imports.stamps import Found, name_of
from ..replies import MOST_BEST
from ..tools.documents import Places, text_at
from ..tools.hints import hints_of
from ..tools.rows import Best, whole_documents
from ..tools.matching import Wanted
from .questions import AnyIndex, Questions

ROWS = 20  # of a page
QUERY_LIMIT = 2_000  # characters of a query
SNIPPET = 240  # characters of a snippet
SNIPPET_SECONDS = 2.0  # that the snippets of one page may take
LINES = 20_000  # of a document that are shown
MOST_LINKED = 50  # messages that one answers, of which links are made
THREAD = re.compile(r"\bthread:[!-~]+")
IDENTIFIER = re.compile(rb"<([^<>\s]{1,998})>")
FIELDS = ("From", "To", "Cc", "Date")  # of a message that are shown


class Piece(NamedTuple):
    """A piece of a text, and whether it was looked for."""

    text: str
    is_marked: bool


class Answer(NamedTuple):
    """A document that was found. `kind` is what brought it in, empty where that is not known; `line` is that of the snippet."""

    number: int
    name: str
    score: Optional[int]
    kind: str
    title: str
    writer: str
    day: str
    path: str
    line: int
    snippet: List[Piece]


class Answers(NamedTuple):
    """A page of answers: how many there are in all, and where the next page begins, empty where there is none.

    `hints` say what of the query may mean something else than who wrote it thinks.
    """

    query: str
    order: str
    found: int
    rows: List[Answer]
    following: str
    hints: List[str]


class Fault(NamedTuple):
    """Why a query was not answered; `place` is the byte of its first fault, or None."""

    query: str
    why: str
    place: Optional[int]


class Link(NamedTuple):
    """Another document: its name, and what it is."""

    name: str
    about: str


class Shown(NamedTuple):
    """A whole document: the fields of a message or a package, its lines, and the line that answers best, from 1.

    `cut` says whether it has more lines; `linked` are the messages that it answers, as far as the index has them, and `thread` is
    the word that all of its thread have, empty where there is none.
    """

    name: str
    kind: str
    title: str
    path: str
    fields: List[Tuple[str, str]]
    attached: List[str]
    lines: List[List[Piece]]
    best: int
    cut: bool
    linked: List[Link]
    thread: str


class NotThere(Exception):
    """Why a document can't be shown."""


# --- Texts.


def pieces_of(text: str, spans: List[Tuple[int, int]]) -> List[Piece]:
    """The text in pieces; the spans rise and don't meet."""
    pieces, at = [], 0
    for begin, end in spans:
        pieces += [Piece(text[at:begin], False), Piece(text[begin:end], True)]
        at = end
    return [piece for piece in [*pieces, Piece(text[at:], False)] if piece.text]


def snippet_of(line: str, wanted: Wanted) -> List[Piece]:
    """A line with what was looked for in it; of a long one the part round the first of that."""
    line = " ".join(line.split())
    if len(line) > SNIPPET:
        spans = wanted.spans(line)
        begin = max(0, (spans[0][0] if spans else 0) - SNIPPET // 3)
        end = begin + SNIPPET
        line = f"{'…' if begin else ''}{line[begin:end]}{'…' if end < len(line) else ''}"
    return pieces_of(line, wanted.spans(line))


def best_of(text: Text, wanted: Wanted) -> Tuple[int, List[Piece]]:
    """The line of a text that answers best, counted from 1, and its snippet: of the body, or else of what stands above it."""
    body = text.body.split("\n")
    at = wanted.best_line(body)
    if at is not None:
        return at + 1, snippet_of(body[at], wanted)
    head = [text.title, *text.head.split("\n")]
    at = wanted.best_line(head)
    return 1, snippet_of(body[0] if at is None else head[at], wanted)


def head_of(text: Text) -> Dict[str, List[str]]:
    """The fields of a text's head, each with its values."""
    found: Dict[str, List[str]] = {}
    for line in text.head.split("\n"):
        field, colon, value = line.partition(": ")
        if colon:
            found.setdefault(field, []).append(value)
    return found


def first(values: Dict[str, List[str]], field: str) -> str:
    return next(iter(values.get(field, [])), "")


def day_of(values: Dict[str, List[str]]) -> str:
    """The day of a message, without the number by which ranges of values find it."""
    return first(values, "Date").partition(" ")[0]


def fields_of(kind: str, values: Dict[str, List[str]]) -> List[Tuple[str, str]]:
    """The fields of a document that are shown above its text."""
    fields = [(field, value) for field in FIELDS for value in values.get(field, [])]
    return [(field, day_of(values) if kind == "mail" and field == "Date" else value) for field, value in fields]


def thread_of(text: Text) -> str:
    """The word that the messages of one thread are found by, empty where a text has none."""
    found = THREAD.search(text.terms)
    return found[0] if found else ""


def named_before(raw: bytes) -> List[str]:
    """The Message-IDs that a message says it answers, each once, by its References and In-Reply-To (RFC 5322, section 3.6.4)."""
    fields, _ = header.parted(raw)
    said = b" ".join([*fields.values(b"references"), *fields.values(b"in-reply-to")])
    return list(dict.fromkeys(header.decoded(one) for one in IDENTIFIER.findall(said)))[:MOST_LINKED]


def with_text(bare: Answer, text: Text) -> Answer:
    """An answer with what its text says of it besides the snippet."""
    values = head_of(text)
    return bare._replace(title=text.title or bare.name, writer=first(values, "From"), day=day_of(values))


class LastRows:
    """The last rows of an answer that stand before the row of a number, one more than a page has; all where there is no number.

    Where that row is gone, those of lower numbers stand for them. The rows of shards do not rise by number.
    """

    def __init__(self, before: Optional[int]) -> None:
        self.before = before
        self.total = 0
        self.is_found = before is None
        self.above: "collections.deque[Tuple[int, str, None]]" = collections.deque(maxlen=ROWS + 1)
        self.lower: "collections.deque[Tuple[int, str, None]]" = collections.deque(maxlen=ROWS + 1)

    def take(self, number: int, name: str) -> None:
        """The next row."""
        self.total += 1
        if number == self.before:
            self.is_found = True
        elif self.before is None or not self.is_found:
            self.above.append((number, name, None))
        if self.before is not None and number < self.before:
            self.lower.append((number, name, None))

    def rows(self) -> "list":
        """The rows, the last one first."""
        return list(reversed(self.above if self.is_found else self.lower))


# --- The library: the index and what stands behind its answers.


class Library:
    """An index and the documents that were brought into it, for many threads."""

    def __init__(self, questions: Questions, moved: Optional[str] = None) -> None:
        self.questions = questions
        self.moved = moved
        self._lock = threading.Lock()
        self._places = Places(questions.path, moved)
        self._stamp: Any = None

    def places(self) -> Places:
        """Where the documents stand, as the imports have noted it by now."""
        with self._lock:
            try:
                found = os.stat(self._places.path)
                stamp = (found.st_ino, found.st_size, found.st_mtime_ns)
            except OSError:
                stamp = None
            if stamp != self._stamp:
                self._places, self._stamp = Places(self.questions.path, self.moved), stamp
            self._places.records()
            return self._places

    # -- Answers.

    def answers(self, query: str, order: str, begin: str) -> "Answers | Fault":
        """A page of answers, from where an earlier one said that it begins. Raises `Busy`."""
        if len(query) > QUERY_LIMIT:
            return Fault(query[:QUERY_LIMIT], f"a query has at most {QUERY_LIMIT:,} characters here", None)
        places = self.places()
        try:
            with self.questions.asked() as index:
                wanted = Wanted(index.explain(query))
                found, rows, following = (self._best if order == "best" else self._newest)(index, query, begin, places)
                hints = list(hints_of(query, index.count, True))
        except QueryFault as fault:
            return Fault(fault.query, CAUSES.get(fault.cause, fault.cause), fault.place)
        except Refused as refusal:
            return Fault(query, str(refusal), None)
        until = time.monotonic() + SNIPPET_SECONDS
        return Answers(query, order, found, [self._answer(places, wanted, until, *row) for row in rows], following, hints)

    def _best(self, index: AnyIndex, query: str, begin: str, places: Places) -> "Tuple[int, list, str]":
        at = min(int(begin), MOST_BEST - ROWS) if begin.isdecimal() and len(begin) < 5 else 0
        best = Best(index, query, min(at + ROWS + 1, MOST_BEST), places)
        rows = list(best)[at : at + ROWS]
        has_more = len(list(best)) > at + ROWS
        return best.total, rows, str(at + ROWS) if has_more else ""

    def _newest(self, index: AnyIndex, query: str, begin: str, places: Places) -> "Tuple[int, list, str]":
        """The rows before that of a number, the last ones first: whatever is added meanwhile, no row comes twice."""
        last = LastRows(int(begin) if begin.isdecimal() and len(begin) < 20 else None)
        for row in whole_documents(index.search(query), places):
            last.take(*row)
        rows = last.rows()
        return last.total, rows[:ROWS], str(rows[ROWS - 1][0]) if len(rows) > ROWS else ""

    def _answer(
        self, places: Places, wanted: Wanted, until: float, number: int, name: str, score: Optional[int]
    ) -> Answer:
        found = places.found(name)
        bare = Answer(number, name, score, found.kind if found else "", name, "", "", found.path if found else "", 1, [])
        if found is None or time.monotonic() >= until:
            return bare
        text = text_at(found)
        if isinstance(text, str):
            return bare._replace(snippet=[Piece(f"({text})", False)])
        line, snippet = best_of(text, wanted)
        return with_text(bare, text)._replace(line=line, snippet=snippet)

    # -- Whole documents.

    def found(self, name: str) -> Found:
        """Where the document of this name, or of a part of it, stands. Raises `NotThere`."""
        places = self.places()
        found = places.found(places.document(name))
        if found is None:
            raise NotThere("the index has no document of this name, or where it was found is not known")
        return found

    def text(self, found: Found) -> Text:
        """Its text. Raises `NotThere`."""
        text = text_at(found)
        if isinstance(text, str):
            raise NotThere(f"its text can't be had: {text}")
        return text

    def shown(self, name: str, query: str) -> Shown:
        """The document of this name, with what answers the query marked. Raises `NotThere` and `Busy`."""
        found = self.found(name)
        text = self.text(found)
        wanted = self._wanted(query)
        body = text.body.rstrip("\n").split("\n")
        values = head_of(text)
        # Fields stand above the lines, which are counted from the body's first.
        best = wanted.best_line(body[:LINES]) if wanted else None
        return Shown(
            name,
            found.kind,
            text.title or name,
            found.path,
            fields_of(found.kind, values),
            values.get("Attachment", []),
            [pieces_of(line, wanted.spans(line) if wanted else []) for line in body[:LINES]],
            0 if best is None else best + 1,
            len(body) > LINES,
            list(self._linked(found)) if found.kind == "mail" else [],
            thread_of(text),
        )

    def _wanted(self, query: str) -> Optional[Wanted]:
        if not query or len(query) > QUERY_LIMIT:
            return None
        try:
            with self.questions.asked() as index:
                return Wanted(index.explain(query))
        except Refused:
            return None

    def _linked(self, found: Found) -> Iterator[Link]:
        """The messages that a message names as those before it."""
        places = self.places()
        for wanted in named_before(archives.raw_at(found)):
            name = name_of(wanted)
            if places.found(name) is not None:
                yield Link(name, wanted)
