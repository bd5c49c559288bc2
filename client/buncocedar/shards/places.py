"""Where shelves are on one machine: in this process, or in processes of their own.

A place has a `name`, a `call` of a method of its shelf that answers a future at once, whose `result` takes the seconds that it
has, and `close`, `kill` and `break_off`. What has places, a source, answers them by `find`, has the `path` by which its user
knows it, and a `close`.
"""

from __future__ import annotations

import signal
from concurrent.futures import Future
from concurrent.futures import TimeoutError as NoAnswerYet
from typing import Any, List, Optional

from ..errors import Error
from .folder import shards_in
from .shelf import Shelf


SECONDS_OVER = 2.0  # that a place has for an answer beside those that its shards have


class Here:
    """A shelf of this process. A call is done when its future is answered."""

    is_apart = False  # a call is under way while its caller goes on

    def __init__(self, shelf: Shelf):
        self.shelf = shelf
        self.name = shelf.folder

    def call(self, method: str, *args: Any) -> Future:
        future: Future = Future()
        try:
            future.set_result(getattr(self.shelf, method)(*args))
        except Exception as error:
            future.set_exception(error)
        return future

    def close(self) -> None:
        self.shelf.close()

    def kill(self) -> None:
        self.shelf.kill()

    def break_off(self) -> None:
        self.shelf.break_off()


_shelf: Optional[Shelf] = None  # of a process that is a place


def _begin_shelf(*args):
    global _shelf
    # An interrupt from the terminal is for the process that asks.
    signal.signal(signal.SIGINT, signal.SIG_IGN)
    _shelf = Shelf(*args)


def _call_shelf(method, args):
    return getattr(_shelf, method)(*args)


class InProcess:
    """A shelf in a process of its own: the standard library's pool, with one process."""

    is_apart = True

    def __init__(self, folder: str, only: List[int], program: Optional[str], patience: float):
        self.args = folder, only, program, patience
        self.patience = patience
        self.name = f"{folder}, shards {only[0]}, .."
        self._begin()

    def _begin(self):
        import multiprocessing
        from concurrent.futures import ProcessPoolExecutor

        self.pool = ProcessPoolExecutor(1, multiprocessing.get_context("spawn"), _begin_shelf, self.args)

    def call(self, method: str, *args: Any) -> Future:
        try:
            return self.pool.submit(_call_shelf, method, args)
        except RuntimeError:
            # Its process was killed: the next one opens the shards again.
            self.pool.shutdown(wait=False)
            self._begin()
            return self.pool.submit(_call_shelf, method, args)

    def close(self) -> None:
        try:
            self.pool.submit(_call_shelf, "close", ()).result(self.patience + SECONDS_OVER)
        except RuntimeError:
            # It was killed, and so its programs have ended.
            pass
        except NoAnswerYet:
            self.kill()
        else:
            self.pool.shutdown()

    def kill(self) -> None:
        """Ends the process; its programs end as their input does."""
        for process in list((self.pool._processes or {}).values()):
            process.kill()
        self.pool.shutdown(wait=False)

    break_off = kill


class Fixed:
    """Places that are always the same."""

    def __init__(self, places: list, path: str):
        self.places = places
        self.path = path

    def find(self) -> list:
        return self.places

    def close(self) -> None:
        errors = []
        for place in self.places:
            try:
                place.close()
            except Error as error:
                errors.append(error)
        if errors:
            raise errors[0]


def places_of(folder: str, processes: int, program: Optional[str], patience: float) -> Fixed:
    """The places of a folder: this process, or so many of their own, each with some of its shards."""
    if not processes:
        return Fixed([Here(Shelf(folder, None, program, patience))], folder)
    shards = shards_in(folder)
    parts = [shards[each::processes] for each in range(processes)]
    return Fixed([InProcess(folder, part, program, patience) for part in parts if part], folder)
