"""An index in shards that is open: its documents, its upkeep, and its end."""

from __future__ import annotations

import os
import warnings
from collections import deque
from typing import Any, Deque, Dict, Iterable, Iterator, List, Optional, Tuple, Union

from ..commands import Document
from ..errors import BadName, Error, Refused
from ..lines import add_line
from ..replies import Added
from ..texts import name_ok, whole
from .changes import BATCH, Change, Outbox, outcome_of
from .errors import NotAnswered
from .lines import Lines
from .places import places_of
from .queries import ShardedQueries, whole_answer
from .whereabouts import Whereabouts

BATCHES_AHEAD = 4  # of each place, without an answer, before the next document is taken

Outcome = Union[Added, Refused, NotAnswered]


class ShardedIndex(ShardedQueries):
    """An index in shards, over the places of a source. One thread at a time.

    `patience` is how many seconds each place has for an answer, and how long a shard that another program has open is waited
    for. `name` is that of the index, where its places may have others too. `path` is the folder, or the address, that it was
    opened by; `merges` whether the levels of shards that have filled are joined by themselves.

    Raises an `Error` that says why where no shards are found; shards that are missing are told by the calls that need them.
    """

    def __init__(self, source: Any, patience: float = 30.0, name: Optional[str] = None) -> None:
        self.path = source.path
        self._source = source
        try:
            self._where = Whereabouts(source, patience, name)
        except BaseException:
            source.close()
            raise
        self._outbox = Outbox(self._where)
        self._held = {}
        self._lines = Lines(self)

    @classmethod
    def here(
        cls, folder: Union[str, os.PathLike], processes: int = 0, program: Optional[str] = None, patience: float = 30.0
    ) -> ShardedIndex:
        """The index whose shards all stand in a folder of this machine; in so many processes, or in this one.

        Processes are started anew (`spawn`), so a script that asks for them keeps its own work below `if __name__ == "__main__"`.
        """
        return cls(places_of(os.fsdecode(folder), processes, program, patience), patience)

    @property
    def merges(self) -> bool:
        return self._outbox.merges

    @merges.setter
    def merges(self, wanted: bool) -> None:
        self._outbox.merges = wanted

    # -- Documents.

    def add(self, name: str, title: str, body: str, cut: bool = False) -> Added:
        """Stores a document, as `Index.add`, and answers its number: it is stored, in its shard, when this returns.

        Raises `NotAnswered` too, where its shard gives no answer.
        """
        return self.send_add(name, title, body, cut).result()

    def delete(self, name: str) -> int:
        """Deletes the document of this name and answers its number. Raises `BadName`, `NoSuchDocument` and `NotAnswered`."""
        return self.send_delete(name).result()

    def send_add(self, name: str, title: str, body: str, cut: bool = False) -> Change:
        """Sends what `add` sends, with others of its place, and answers its `Change` at once, or when others have come.

        What is sent goes to its place when it is much, or when another call of this index waits or asks something.
        """
        line, dropped = add_line(name, title, body, cut)
        return self._outbox.send(name, line[:-1], dropped)

    def send_delete(self, name: str) -> Change:
        """Sends what `delete` sends, as `send_add` does, and answers its `Change`."""
        if not name_ok(name):
            raise BadName("! bad name", ascii(name[:80]))
        return self._outbox.send(name, f"delete {name}".encode(), 0)

    def add_all(self, documents: Iterable[Document], cut: bool = False) -> Iterator[Tuple[str, Outcome]]:
        """Adds documents, each a (name, title, body), with many under way, and gives for each in order (name, outcome).

        The outcome is the `Added` number, the `Refused`, or a `NotAnswered`: that one may be stored, and can be added again.
        """
        sent: Deque[Tuple[str, Any]] = deque()
        for name, title, body in documents:
            try:
                sent.append((name, self.send_add(name, title, body, cut)))
            except Refused as refusal:
                sent.append((name, refusal))
            if len(sent) > BATCHES_AHEAD * BATCH * max(1, len(self.places)):
                self._outbox.settle()
            while sent and (isinstance(sent[0][1], Refused) or sent[0][1].settled):
                name, change = sent.popleft()
                yield name, outcome_of(change)
        self._outbox.settle()
        for name, change in sent:
            yield name, outcome_of(change)

    def add_many(self, documents: Iterable[Document], cut: bool = False) -> Tuple[int, List[Tuple[str, Error]]]:
        """Adds documents, each a (name, title, body), and answers how many, and (name, outcome) of each other one."""
        added = 0
        others: List[Tuple[str, Error]] = []
        for name, outcome in self.add_all(documents, cut):
            if isinstance(outcome, Error):
                others.append((name, outcome))
            else:
                added += 1
        return added, others

    def under_way(self) -> int:
        """How many changes were sent that have no answer yet."""
        return self._outbox.under_way()

    def settle(self) -> None:
        """Waits until every change that was sent is answered, or will not be."""
        self._outbox.settle()

    # -- Upkeep.

    def flush(self) -> None:
        """Has each shard write its journal as a level. Raises `Missing`."""
        self._upkeep("flush")

    def merge(self) -> None:
        """Has each shard join its levels, of each place one behind the other. Raises `Missing`."""
        self._upkeep("merge")

    def step(self, terms: int) -> None:
        """Has each shard move the joining of its oldest levels on by so many terms. Raises `Missing`."""
        self._upkeep(f"step {whole(terms, 'terms')}")

    def _upkeep(self, line):
        whole_answer(None, self._gathered("upkeep", line)[1])

    def copy(self, folder: str) -> Tuple[int, Dict[int, str]]:
        """Copies each shard, without its free room, into a folder of the machine where it stands, as for a backup.

        Answers how many bytes they are, and of each shard that is not copied why. Each has what was answered when it was copied.
        """
        parts, missing = self._gathered("copy", folder)
        return sum(size for _, size in parts), missing

    # -- Any line.

    def each_answer(self, line: bytes) -> Iterator[str]:
        """The lines of the reply to a command line, given in bytes without a newline, as they come.

        Raises the `Refused` that `Index.each_answer` gives as a line, `NotAnswered`, and `Missing` behind what the others say.
        """
        return self._lines.each_answer(line)

    # -- The end.

    def __enter__(self) -> ShardedIndex:
        return self

    def __exit__(self, kind: Any, value: Any, trace: Any) -> None:
        """Lets the shards go: at once where the block was broken off, and else when what was sent is answered."""
        if kind is None:
            self.close()
        elif issubclass(kind, (KeyboardInterrupt, SystemExit)):
            self.kill()
        else:
            # What broke the block goes on; what else went wrong is no more than told.
            try:
                self.close()
            except Error as error:
                warnings.warn(f"{self.path}: {error}", RuntimeWarning, stacklevel=2)

    def close(self) -> None:
        """Waits until every change is answered, and lets the shards go.

        Raises the first `Refused` or `NotAnswered` of a change that was sent and whose answer nobody has taken, or the first
        end of a program that nobody has seen.
        """
        try:
            self._outbox.settle()
            for place, key in list(self._held):
                self._give_back(place, key)
        finally:
            self._held.clear()
            self._source.close()
        self._outbox.raise_untaken()

    def kill(self) -> None:
        """Ends the programs of this machine at once. Of the changes without an answer any may be done."""
        self._held.clear()
        for place in self.places:
            place.kill()

    def break_off(self) -> None:
        """Ends the programs of this machine from a signal handler: the calls that wait for them then go on."""
        for place in self.places:
            place.break_off()
