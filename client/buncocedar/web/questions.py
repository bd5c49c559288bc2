"""Questions of many threads to one index, which is closed while nobody asks, so that an import gets at it."""

from __future__ import annotations

import contextlib
import os
import threading
import time
from typing import Callable, Iterator, Optional, Union

from ..errors import Ended, Error, InUse, Refused
from ..index import Index
from ..shards import ShardedIndex, open_index
from ..tools.reading import Readable

PATIENCE = 3.0  # seconds that a question waits for who has the index open
TURN_SECONDS = 10.0  # that it waits for the questions before it
QUESTION_SECONDS = 20.0  # that it may take
IDLE_SECONDS = 2.0  # without a question, before the index is closed

AnyIndex = Union[Index, ShardedIndex]


def state_of(path: str) -> tuple:
    """What is another one where a file, or its rights, have changed, or another file stands at its place."""
    try:
        found = os.stat(path)
    except OSError:
        return ()
    return found.st_dev, found.st_ino, found.st_ctime_ns


class Busy(Exception):
    """Why the index can't be asked now."""


class Questions:
    """The index at a path, a file or a folder of shards: by its server where one listens, and else by programs of its own.

    A file that may not be written is asked by a private copy; `say` is told of each.
    """

    def __init__(
        self,
        path: str,
        patience: float = PATIENCE,
        seconds: float = QUESTION_SECONDS,
        idle: float = IDLE_SECONDS,
        say: Callable[[str], object] = lambda text: None,
    ) -> None:
        self.path = path
        self.patience = patience
        self.seconds = seconds
        self.idle = idle
        self.say = say
        self._source = contextlib.ExitStack()  # what holds the private copy
        self._place = path  # where the index is opened
        self._seen: Optional[tuple] = None  # what the file was when that was settled
        self._turn = threading.Lock()
        self._index: Optional[AnyIndex] = None
        self._asked_at = 0.0
        self._ends = threading.Event()
        self._tidies = threading.Thread(target=self._close_idle, daemon=True)
        self._tidies.start()

    @contextlib.contextmanager
    def asked(self) -> Iterator[AnyIndex]:
        """The index, for one thread at a time. Raises `Busy` where it can't be had, or takes too long; a `Refused` is handed on."""
        if not self._turn.acquire(timeout=TURN_SECONDS):
            raise Busy("too many questions wait for the index")
        try:
            with self._limited(self._opened()) as index:
                yield index
        except Refused:
            raise
        except (Error, OSError) as error:
            self._drop()
            raise Busy(str(error)) from None
        finally:
            self._asked_at = time.monotonic()
            self._turn.release()

    def refusal(self) -> str:
        """Why there is nothing to ask; empty where there is, also while somebody else has it open."""
        with self._turn:
            try:
                open_index(self._place_of(0), patience=0).close()
            except InUse:
                pass
            except (Error, OSError) as error:
                return str(error)
        return ""

    def close(self) -> None:
        """Ends the program; nothing may be asked any more."""
        self._ends.set()
        with self._turn:
            self._drop()
            self._source.close()

    @contextlib.contextmanager
    def _limited(self, index: AnyIndex) -> Iterator[AnyIndex]:
        """A question that takes too long is broken off, with its program."""
        timer = threading.Timer(self.seconds, index.break_off)
        timer.daemon = True
        timer.start()
        begun = time.monotonic()
        try:
            yield index
        except Ended:
            if time.monotonic() - begun >= self.seconds:
                raise Busy(f"the question took more than {self.seconds:g} seconds") from None
            raise
        finally:
            timer.cancel()

    def _opened(self) -> AnyIndex:
        """The index that is open still, or is opened anew."""
        if self._index is not None:
            try:
                self._index.stats()
                return self._index
            except Error:
                self._drop()
        self._index = open_index(self._place_of(self.patience), patience=self.patience)
        return self._index

    def _place_of(self, patience: float) -> str:
        """Where the index is opened: a private copy is made anew where the file has changed since."""
        seen = state_of(self.path)
        if seen != self._seen:
            self._seen = None
            self._source.close()
            self._place = self._source.enter_context(Readable(self.path, patience, self.say)).place
            self._seen = seen
        return self._place

    def _drop(self) -> None:
        index, self._index = self._index, None
        if index is not None:
            with contextlib.suppress(Error):
                index.close()

    def _close_idle(self) -> None:
        while not self._ends.wait(self.idle / 4):
            if self._index is not None and time.monotonic() - self._asked_at >= self.idle and self._turn.acquire(blocking=False):
                try:
                    if time.monotonic() - self._asked_at >= self.idle:
                        self._drop()
                finally:
                    self._turn.release()
