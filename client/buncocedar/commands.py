"""The calls of an index, each of which sends a line of the program and takes its reply."""

# The client knows no name that is taken. Whoever wants a name only where it is free asks first, by `count("name:a")`: one
# program has an index open, so nobody comes in between, save other clients of its server.
#
# The end of an `explain` shows by the next reply. Its plan has no last line of its own; the client sends `stats` behind it.
#
# `add_all` has 64 lines under way. More would hide no more of the program's time, and each is one more document that a stop
# leaves to be added again.

from __future__ import annotations

from collections import deque
from typing import Iterable, Iterator, List, Tuple, Union

from .errors import BadName, Error, NotUtf8, Refused, UnknownCommand
from .lines import LINE_LIMIT, add_line, too_long
from .queries import Queries
from .replies import ADDED, DELETED, FORMS, OK, Added, Reply, first_number, nothing, query_in, whole_line
from .texts import name_ok, whole

Document = Tuple[str, str, str]  # name, title and body


class Commands(Queries):
    """The calls that documents, queries and upkeep have, over an exchange of lines."""

    # -- Documents.

    def add(self, name: str, title: str, body: str, cut: bool = False) -> Added:
        """Stores a document and answers its number, an `Added`: it is stored when this returns.

        It takes the place of the document of its name, where there is one, in one step: a stop leaves the one or the other.
        `replaced` is that one's number, or None. Tabs, newlines and carriage returns in title and body become spaces. Raises
        `BadName`, `NoNumbersLeft`, and `LineTooLong` where the line is too long; with `cut` it is cut at a word's end, and
        `dropped` says how much.
        """
        return self.send_add(name, title, body, cut).result()

    def delete(self, name: str) -> int:
        """Deletes the document of this name and answers its number. Raises `BadName` and `NoSuchDocument`."""
        return self.send_delete(name).result()

    def send_add(self, name: str, title: str, body: str, cut: bool = False) -> Reply[Added]:
        """Sends what `add` sends, and answers its `Reply`: at once, or when half of 64 that are under way have come.

        While the program has others to do, what is sent goes to it together: once 64 wait or 64 kB, once a call of this index
        waits or asks something, or by `settle(0)`.
        """
        line, dropped = add_line(name, title, body, cut)
        line = line[:-1]

        def made(last, rows):
            number = Added(last[1] or last[3])
            number.replaced = last[2] and int(last[2])
            number.dropped = dropped
            return number

        return self._exchange.send(line, f"add {name}", ADDED, made)

    def send_delete(self, name: str) -> Reply[int]:
        """Sends what `delete` sends, as `send_add` does, and answers its `Reply`."""
        if not name_ok(name):
            raise BadName("! bad name", ascii(name[:80]))
        return self._exchange.send(f"delete {name}".encode(), f"delete {name}", DELETED, first_number)

    def add_all(self, documents: Iterable[Document], cut: bool = False) -> Iterator[Tuple[str, Union[Added, Refused]]]:
        """Adds documents, each a (name, title, body), with many under way, and gives for each in order (name, outcome).

        The outcome is the `Added` number or the `Refused`. Where the program ends, its `Ended` is raised behind the outcome
        of the last document that was answered, and no further document is taken. Nothing is sent before the first outcome is
        asked for: `add_many` is for who wants none of them.
        """
        sent: deque[Tuple[str, Union[Reply, Refused]]] = deque()
        for name, title, body in documents:
            try:
                sent.append((name, self.send_add(name, title, body, cut)))
            except Refused as refusal:
                sent.append((name, refusal))
            except Error:
                break
            while sent and _is_settled(sent[0][1]):
                name, outcome = sent.popleft()
                yield name, _outcome(outcome)
        for name, outcome in sent:
            yield name, _outcome(outcome)
        if self._exchange.end is not None:
            self._exchange.check()

    def add_many(self, documents: Iterable[Document], cut: bool = False) -> Tuple[int, List[Tuple[str, Refused]]]:
        """Adds documents, each a (name, title, body), and answers how many, and a (name, `Refused`) for each that was not."""
        added, refusals = 0, []
        for name, outcome in self.add_all(documents, cut):
            if isinstance(outcome, Refused):
                refusals.append((name, outcome))
            else:
                added += 1
        return added, refusals

    # -- Upkeep.

    def flush(self) -> None:
        """Writes the journal's documents as a level, and empties the journal."""
        self._say("flush", OK, nothing)

    def merge(self) -> None:
        """Joins all levels and the journal into one level, without the deleted documents."""
        self._say("merge", OK, nothing)

    def step(self, terms: int) -> None:
        """Moves the joining of the two oldest levels on by so many terms, 1 to 1,000,000."""
        self._say(f"step {whole(terms, 'terms')}", OK, nothing)

    # -- Any line.

    def answer(self, line: bytes) -> List[str]:
        """The lines that the program answers to a command line, given in bytes without a newline; a refusal is one of them.

        For who has lines from elsewhere, as a server. A line that this client cannot tell the end of a reply to is refused.
        """
        return list(self.each_answer(line))

    def each_answer(self, line: bytes) -> Iterator[str]:
        """The lines that `answer` gives, as they come."""
        try:
            reply = self.send_line(line)
        except Refused as refusal:
            yield refusal.reply
        else:
            yield from reply.each_line()

    def send_line(self, line: bytes) -> Reply[str]:
        """Sends what `answer` sends, an `add` and a `delete` as `send_add` does, and answers its `Reply`.

        Raises the `Refused` of a line that is not sent.
        """
        if not isinstance(line, bytes):
            raise TypeError(f"a line must be bytes, not {type(line).__name__}")
        word = line.partition(b" ")[0]
        if len(line) > LINE_LIMIT:
            raise too_long(len(line), "a line")
        if word not in FORMS:
            raise UnknownCommand("! unknown command") if _is_utf8(line) else NotUtf8("! not UTF-8")
        last, lines = FORMS[word]
        explains = word == b"explain"
        query = query_in(line, word)
        return self._exchange.send(line, word.decode(), last, whole_line, lines, query, b"stats\n" if explains else b"", explains)

    # -- Lines.

    def _say(self, line, last, made):
        return self._exchange.send(line.encode(), line, last, made).result()


def _is_utf8(line):
    try:
        line.decode()
    except UnicodeDecodeError:
        return False
    return True


def _is_settled(outcome):
    return not isinstance(outcome, Reply) or outcome.settled


def _outcome(outcome):
    """The number or the refusal of a document that was sent or refused."""
    if not isinstance(outcome, Reply):
        return outcome
    try:
        return outcome.result()
    except Refused as refusal:
        return refusal
