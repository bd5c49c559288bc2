"""A shard at its place: its file, and the program that has it open."""

from __future__ import annotations

import threading
import time
from typing import Any, Optional, Union, cast

from ..errors import Error, NoFile
from ..index import Index
from ..replies import Reply
from .errors import NotHere
from .folder import shard_path

SECONDS_SHUT = 1.0  # that a shard which could not be opened is not tried again
SECONDS_OF_REST = 10.0  # that a shard which gave no answer in time is not asked again
SECONDS_TO_TAKE = 0.05  # for what a program has said while another one was waited for

_STARTS = threading.BoundedSemaphore(8)  # programs that this process opens at a time


class NoAnswer(Error):
    """A shard that gave no answer in time."""


class Shard:
    """One shard: opened when it is asked for, by a thread of its own, so that one whose disk hangs holds no other up.

    `next` is the number that its next document gets; `unmerged` is how many bytes of lines went in since its levels were joined.
    """

    def __init__(self, folder, number, program, patience):
        self.number = number
        self.path = shard_path(folder, number)
        self.program = program
        self.patience = patience
        self.next = 1
        self.unmerged = 0
        self._index: Optional[Index] = None
        self._opening: Optional[threading.Thread] = None
        self._opened: Union[Index, Exception, None] = None  # what came of it
        self._since = 0.0  # when it was begun to be opened
        self._given_up = False  # nobody will take what came of it
        self._rests_until = 0.0
        self._why = ""  # it rests

    def begin(self):
        """Begins to open it, where nobody does yet."""
        if self._opening is None and self._index is None:
            self._since = time.monotonic()
            self._opening = threading.Thread(target=self._open, daemon=True)
            self._opening.start()

    def _open(self):
        try:
            with _STARTS:
                # Who has it open is known before who asks for it waits no more.
                index = Index(self.path, program=self.program, patience=self.patience / 2)
            self.next = index.stats().next
        except Exception as error:
            self._opened = error
            return
        self._opened = index
        if self._given_up:
            index.kill()

    def index(self, until: float) -> Index:
        """The open index, to which no line is under way. Raises an `Error` that says why there is none before that moment."""
        if time.monotonic() < self._rests_until:
            raise Error(self._why)
        if self._index is not None and self._index.ended is not None:
            self._index = None
        if self._index is None:
            self._take(until)
        index = cast(Index, self._index)
        if not index.settle(max(SECONDS_TO_TAKE, until - time.monotonic())):
            raise self.rest()
        return index

    def _take(self, until):
        """Takes what came of the opening, once it is done."""
        self.begin()
        self._opening.join(max(0.0, until - time.monotonic()))
        if self._opening.is_alive():
            raise Error(f"shard {self.number} is being opened, since {time.monotonic() - self._since:.0f} seconds")
        opened, self._opening, self._opened = self._opened, None, None
        try:
            if isinstance(opened, Exception):
                raise opened
            self._index = opened
        except NoFile:
            raise NotHere(f"shard {self.number} is not here: there is no file {self.path}") from None
        except (Error, OSError) as error:
            self._shut(SECONDS_SHUT, f"shard {self.number}: {error}")
            raise Error(self._why) from None

    def _shut(self, seconds, why):
        self._rests_until, self._why = time.monotonic() + seconds, why

    def rest(self) -> NoAnswer:
        """Notes that it gave no answer in time, and answers the error that says it. What it says later is nobody's."""
        self._shut(SECONDS_OF_REST, f"shard {self.number} gave no answer in {self.patience:g} seconds")
        return NoAnswer(self._why)

    def result(self, reply: Reply, until: float) -> Any:
        """The value of a reply of it, or its refusal; raises an `Error` where it does not come before that moment."""
        if not reply.wait(max(SECONDS_TO_TAKE, until - time.monotonic())):
            raise self.rest()
        return reply.result()

    def wakes(self) -> None:
        """It may be asked again at once, as one whose file was brought here."""
        self._rests_until = 0.0

    def has_ended(self) -> bool:
        """Whether its program was open and has ended."""
        return self._index is not None and self._index.ended is not None

    def is_served(self) -> bool:
        """Whether it is open behind a server, so that others may have it too."""
        return self._index is not None and self._index.by_server

    def break_off(self) -> None:
        """Ends its program from a signal handler."""
        if self._index is not None:
            self._index.break_off()

    def close(self, until: float) -> None:
        """Ends its program, by force where it gives no answer before that moment."""
        index = self._given(until)
        if index is not None:
            index.close(max(SECONDS_TO_TAKE, until - time.monotonic()))

    def kill(self) -> None:
        """Ends its program at once."""
        index = self._given(time.monotonic())
        if index is not None:
            index.kill()

    def _given(self, until) -> Optional[Index]:
        """The index where it is open, or is before that moment, which this then has no more."""
        if self._opening is not None:
            self._opening.join(max(0.0, until - time.monotonic()))
            self._given_up = self._opening.is_alive()
            if isinstance(self._opened, Index) and not self._given_up:
                self._index = self._opened
        index, self._index, self._opening, self._opened = self._index, None, None, None
        return index
