"""Changes that are sent to places, many together."""

from __future__ import annotations

import copy
import itertools
import uuid
import warnings
from typing import Any, Dict, List, NamedTuple, Optional, cast

from ..errors import Error, Refused
from ..replies import Added
from .errors import NotAnswered, NotHere, Stale
from .names import shard_of
from .places import SECONDS_OVER
from .whereabouts import Whereabouts

BATCH = 1_000  # changes that go to a place together, at most
BATCH_BYTES = 1 << 20
SECONDS_TO_MERGE = 600.0  # that a place has for the levels of its shards
KEPT = 1_000  # changes that went wrong and that nobody has taken yet, before the oldest is warned of


class Change:
    """A change that was sent, as `Reply` is one of a single index: `answered` where its shard has answered, be it by a refusal."""

    def __init__(self, outbox: Outbox, place: Any, shard: int, dropped: int):
        self.place = place
        self.shard = shard
        self.answered = False
        self.settled = False
        self._outbox = outbox
        self._dropped = dropped
        self._error: Optional[Error] = None
        self._value: Optional[Added] = None

    @property
    def error(self) -> Optional[Error]:
        """The refusal, or a `NotAnswered`. Whoever looks at it has been told."""
        self._outbox.untaken.pop(self, None)
        return self._error

    def settle(self, outcome: Any) -> None:
        """Marks it as answered, or as one that never will be."""
        self.settled = True
        self.answered = not isinstance(outcome, NotAnswered)
        if isinstance(outcome, Error):
            self._error = outcome
            self._outbox.keep(self)
            return
        number, before = outcome
        self._value = Added(number)
        self._value.replaced = before
        self._value.dropped = self._dropped

    def result(self) -> Added:
        """Waits for the answer, and gives the number of the document, or raises the refusal, or a `NotAnswered`."""
        if not self.settled:
            self._outbox.wait_for(self)
        error = self.error
        if error is not None:
            raise copy.copy(error)
        return cast(Added, self._value)


class Batch:
    """Changes that go to a place together."""

    def __init__(self):
        self.changes: List[Change] = []
        self.lines: List[tuple] = []
        self.bytes = 0

    def put(self, change: Change, line: bytes) -> None:
        self.changes.append(change)
        self.lines.append((change.shard, line))
        self.bytes += len(line)

    def is_full(self) -> bool:
        return len(self.lines) >= BATCH or self.bytes >= BATCH_BYTES


class Call(NamedTuple):
    """A call that is under way at a place: the changes that it brings, none where it joins levels, and its seconds."""

    future: Any
    batch: Optional[Batch]
    seconds: float


class Outbox:
    """The changes of one client, at each place in their order: one call is under way there at a time.

    Each call has a number that rises, so that one which is held up on its way is not done behind a later one. `merges` says whether
    the levels of shards that have filled are joined, which is a call of its own behind the changes.
    """

    def __init__(self, where: Whereabouts):
        self.where = where
        self.merges = True
        self.client = uuid.uuid4().hex
        self.untaken: Dict[Change, None] = {}  # changes that went wrong and that nobody has taken yet, the oldest first
        self._numbers = itertools.count(1)
        self._waiting: Dict[Any, Batch] = {}
        self._calls: Dict[Any, Call] = {}

    def send(self, name: str, line: bytes, dropped: int) -> Change:
        """Puts a line beside others of its place, and sends them where they are many."""
        shard = shard_of(name, self.where.shards)
        if shard not in self.where.home:
            self.where.looks_again()
        place = self.where.home.get(shard)
        change = Change(self, place, shard, dropped)
        if place is None:
            change.settle(NotHere(self.where.why_missing(shard)))
            return change
        batch = self._waiting.setdefault(place, Batch())
        batch.put(change, line)
        if batch.is_full():
            self._dispatch(place)
        return change

    def under_way(self) -> int:
        """How many changes were sent that have no answer yet."""
        batches = [*self._waiting.values(), *(call.batch for call in self._calls.values() if call.batch)]
        return sum(len(batch.changes) for batch in batches)

    def settle(self) -> None:
        """Waits until every change is answered, or will not be, and for levels that are joined behind them."""
        for place in list(self._waiting):
            self._dispatch(place)
        for place in list(self._calls):
            self._take_all(place)

    def wait_for(self, change: Change) -> None:
        """Waits for the answer to a change."""
        waiting = self._waiting.get(change.place)
        if waiting is not None and change in waiting.changes:
            self._dispatch(change.place)
        while not change.settled:
            self._take(change.place)

    def _dispatch(self, place):
        """Gives a place the changes that wait for it, once it has answered those before."""
        self._take_all(place)
        batch = self._waiting.pop(place)
        future = place.call("change", self.client, next(self._numbers), batch.lines)
        self._calls[place] = Call(future, batch, self.where.patience + SECONDS_OVER)

    def _take_all(self, place):
        while place in self._calls:
            self._take(place)

    def _take(self, place):
        """Takes what came of the call that is under way at a place."""
        future, batch, seconds = self._calls.pop(place)
        try:
            told = future.result(seconds)
        except Exception as error:
            why = str(error) if isinstance(error, Error) else f"{type(error).__name__}: {error}"
            told = [NotAnswered(f"{place.name}: {why or 'no answer'}")] * len(batch.changes if batch else ()), ()
            if not isinstance(error, Stale):
                self.where.lose(place)
        if batch is not None:
            outcomes, due = told
            self._settle(batch.changes, outcomes)
            if due and self.merges:
                self._calls[place] = Call(place.call("upkeep", due, "merge"), None, SECONDS_TO_MERGE)

    def _settle(self, changes, outcomes):
        for change, outcome in zip(changes, outcomes):
            change.settle(outcome)
            if isinstance(outcome, NotHere):
                self.where.home.pop(change.shard, None)

    def keep(self, change: Change) -> None:
        """Keeps a change that went wrong until somebody looks at it."""
        self.untaken[change] = None
        if len(self.untaken) > KEPT:
            oldest = next(iter(self.untaken))
            warnings.warn(f"{oldest.error} (nobody took this answer)", RuntimeWarning, stacklevel=2)

    def raise_untaken(self) -> None:
        """Raises the first of the changes that went wrong and that nobody has taken, as `Index.close` does."""
        untaken = list(self.untaken)
        self.untaken.clear()
        if untaken:
            error = copy.copy(cast(Error, untaken[0].error))
            error.args = (f"{error} (nobody took the answers to {len(untaken):,} changes that went wrong: this is the first)",)
            raise error


def outcome_of(change: Any) -> Any:
    """The number of a document that was sent, or what came in its place."""
    return change if isinstance(change, Refused) else change.error or change.result()
