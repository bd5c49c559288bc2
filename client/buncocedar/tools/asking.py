"""Asking an index for `bunco find`: a query is taken with the index open, and answered when it is let go."""

import contextlib
import sys
from typing import Any, NamedTuple, Optional

from ..errors import NotUtf8, Refused, UnknownCommand
from ..replies import MOST_BEST
from ..terminal import paged
from .hints import hints_of, operator_hints, parted_hints

FAULT = 2
PROMPT_HELP = """A line is a query: words, "a phrase", qui*, title:fox, name:x, red NEAR/5 fox, AND, OR, NOT, ( ).
  show N    prints document N, or the one of this name
  edit N    opens it in the editor that VISUAL or EDITOR names
  top N QUERY    the N best, 1 to 1,000
  help      prints this
  quit      ends, as Ctrl-D does
These words are looked for in quotes: "help"."""


def is_text(query):
    """Whether the bytes that were given as a query are UTF-8: others stand in it as lone surrogates."""
    try:
        query.encode()
    except UnicodeEncodeError:
        return False
    return True


class Answered(NamedTuple):
    """What an index answers: its rows, and how many documents are found; or the status of a query that was refused."""

    rows: Any
    total: int
    refused: Optional[int] = None


def say(text):
    # The answers come also where standard error takes nothing.
    with contextlib.suppress(OSError):
        print(f"find: {text}", file=sys.stderr)


def take(index, query, view, limit, top=None):
    """Takes the answer to a query from the index; where `top` is given so many of the best. A fault is told."""
    query = composed(query)
    try:
        if not is_text(query):
            # As the program says it: in a query of the client these bytes would stand for others.
            raise NotUtf8("! not UTF-8")
        answered = taken(index, query, view, limit, top)
        view.wanted = wanted_by(index, query) if view.needs_wanted() else None
    except Refused as refusal:
        print(refusal, file=sys.stderr)
        answered = Answered((), 0, FAULT)
    for hint in hints(index, query, answered, view.terminal):
        say(hint)
    return answered


def composed(query):
    """The query with composed letters, as texts are stored."""
    if query.isascii():
        return query
    import unicodedata

    return unicodedata.normalize("NFC", query)


def wanted_by(index, query):
    """What documents are looked through for, that a query finds."""
    from .matching import Wanted

    return Wanted(index.explain(query))


def taken(index, query, view, limit, top):
    options, places = view.options, view.places
    if options.count and not options.thread and not places.has_parts():
        return Answered((), index.count(query))
    # Loaded here: a count of documents that are whole needs none of them.
    from .rows import Best, ByDate, Rows, Threads, whole_documents

    if options.count and not options.thread:
        return Answered((), sum(1 for _ in whole_documents(index.search(query), places)))
    if top is not None:
        rows = Best(index, query, top, places)
        return Answered(rows, rows.total)
    documents = whole_documents(index.search(query), places)
    if options.thread:
        rows = Threads(index, list(documents), limit, places)
    elif options.by_date:
        rows = ByDate(documents, limit, options.oldest, places)
    else:
        rows = Rows(documents, limit, options.oldest)
    return Answered(rows, rows.total)


def hints(index, query, answered, is_read):
    """What is said of a query that may mean something else than who wrote it thinks."""
    if answered.refused is not None:
        return [*operator_hints(query), *parted_hints(query)]
    return hints_of(query, index.count, is_read or not answered.total)


def answer(answered, view):
    """Prints what was answered, and gives the status."""
    options = view.options
    if answered.refused is not None:
        return answered.refused
    if options.count:
        print(answered.total, flush=True)
        return 0 if answered.total else 1
    given = 0
    for row in answered.rows:
        given += 1
        view.row(*row)
    if not view.has_rows_alone():
        if answered.total > given:
            print(f"... and {answered.total - given:,} more")
        print(f"found {answered.total}")
    sys.stdout.flush()
    return 0 if answered.total else 1


def knows_top(index):
    """Whether the program ranks answers; an older one does not."""
    # A query without words is refused before anything is read.
    try:
        index.top("", 1)
    except Refused as refusal:
        return not isinstance(refusal, UnknownCommand)
    return True


# --- The prompt.


class Asking:
    """The prompt over an index. `query` is the last query that was read: what was found by it is marked in a document."""

    commands = ("show", "edit")

    def __init__(self, source, prompt, view, limit, top):
        self.source = source
        self.prompt = prompt
        self.view = view
        self.limit = limit
        self.top = top
        self.query = None
        self._index = None  # is kept open where nobody types

    def run(self):
        """Answers the lines of the prompt, and gives the status of the last one."""
        status = 0
        with contextlib.ExitStack() as stack:
            if not self.prompt.typed:
                self._index = stack.enter_context(self.source.opened())
            for line in map(str.strip, self.prompt.lines("find> ")):
                status = self.status_of(line)
        return status

    def status_of(self, line):
        """Answers a line, and gives its status."""
        words = line.split() if self.prompt.typed else []
        if words in (["help"], ["?"]):
            print(PROMPT_HELP)
            return 0
        if len(words) == 2 and words[0] in self.commands:
            return self.document(*words)
        if len(words) == 1 and words[0] in self.commands:
            say(f'{words[0]} N is of document N, or of the one of this name; "{words[0]}" in quotes is looked for')
            return FAULT
        if len(words) > 2 and words[0] == "top" and words[1].isdecimal() and len(words[1]) <= 4 and 1 <= int(words[1]) <= MOST_BEST:
            return self.ask(line.split(None, 2)[2], int(words[1]))
        return self.ask(line, self.top)

    def ask(self, query, top):
        with self.opened() as index:
            answered = take(index, query, self.view, self.limit, top)
        self.query = None if answered.refused is not None else query
        return answer(answered, self.view)

    def opened(self):
        """The index, open for a question: while somebody reads or thinks others get at it."""
        return self.source.opened() if self._index is None else contextlib.nullcontext(self._index)

    def document(self, command, word):
        """Shows or edits the document of this number or name, and answers the status."""
        view = self.view
        if self.query is not None and view.wanted is None:
            with self.opened() as index:
                view.wanted = wanted_by(index, self.query)
        with paged(command == "show" and not view.options.no_pager):
            is_done = getattr(view, command)(view.places.named(word))
        sys.stdout.flush()
        return 0 if is_done else 1
