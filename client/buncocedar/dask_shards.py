"""Shards on several machines, by dask.distributed: a worker on each machine, and the shelf of its folder there.

    dask-scheduler --host 10.0.0.1                                                   # on one machine
    BUNCOCEDAR_SHARDS=/srv/mail.shards dask-worker 10.0.0.1:8786 --nthreads 1 --memory-limit 0 --resources shards=1

    with on_workers("10.0.0.1:8786") as index:
        print(index.count("fox"))

The scheduler knows which workers there are. Lines and rows go from the client to the workers and back, and not through it. Clients
of one cluster share the shelves. Nothing rests on what the scheduler or a worker remembers: what counts is in the files.

Needs dask.distributed 2022.12 or later: Debian's package `python3-distributed`.
"""

from __future__ import annotations

import os
import pickle
import threading
import time
from concurrent.futures import Future
from concurrent.futures import TimeoutError as NoAnswerYet
from typing import Any, Dict, List, Optional

try:
    from distributed import Client  # type: ignore[import]
except ImportError as error:
    raise ImportError("shards on workers need dask.distributed: Debian's package python3-distributed has it") from error

from .errors import Error
from .shards import Shelf, ShardedIndex

SECONDS_TO_CONNECT = 3.0
SECONDS_TO_BEGIN = 10.0  # that a worker has for its shelf, whose shards are opened behind that
LOOK_SECONDS = 0.2  # between two looks whether the worker that is waited for is still there
KEY = "buncocedar-shelf"
RESOURCE = "shards"  # that a worker which has shards says it has
FOLDER = "BUNCOCEDAR_SHARDS"  # the variable that says where they are

# --- In a worker.

_shelf: Optional[Shelf] = None  # it stays when all clients leave, so that the next one finds its shards open
_one_at_a_time = threading.Lock()


class OfWorker:
    """The shelf of a worker, where it is: an actor. A call and its answer are one piece of bytes each.

    Dask would look at each row and line by itself, which takes several times longer than to pack them. An actor stays with its
    worker; a task of Dask would be run again elsewhere, and two changes of one name could change their order.
    """

    def __init__(self) -> None:
        global _shelf
        with _one_at_a_time:
            if FOLDER not in os.environ:
                raise Error(f"the variable {FOLDER} of this worker does not say where its shards are")
            _shelf = _shelf or Shelf(os.environ[FOLDER])

    def do(self, data: bytes) -> bytes:
        """Calls a method of the shelf, whose shards have the seconds that the client says."""
        patience, method, args = pickle.loads(data)
        with _one_at_a_time:
            try:
                assert _shelf is not None
                _shelf.patience = patience
                return pickle.dumps((getattr(_shelf, method)(*args), None))
            except Exception as error:
                return pickle.dumps((None, error))


# --- In a client.


class Answer:
    """What a call answers, once a worker has said it; Dask's own future waits for a worker that is gone without an end."""

    def __init__(self, place: Any, told: Future):
        self.place = place
        self.told = told

    def result(self, seconds: float) -> Any:
        """What the method answers or raises; an `Error` where the worker is lost, `TimeoutError` where it takes too long."""
        until = time.monotonic() + seconds
        while True:
            left = until - time.monotonic()
            try:
                told, error = pickle.loads(self.told.result(max(0.001, min(left, LOOK_SECONDS))))
                break
            except NoAnswerYet:
                if self.place.is_lost():
                    raise Error("the worker is lost") from None
                if left < LOOK_SECONDS:
                    raise TimeoutError(f"no answer in {seconds:g} seconds") from None
        if error is not None:
            raise error
        return told


def failed(error: Exception) -> Future:
    """A future that has failed."""
    future: Future = Future()
    future.set_exception(error)
    return future


class OnWorker:
    """The shelf of a worker, from elsewhere."""

    is_apart = True

    def __init__(self, name: str, future: Any, actor: Any, client: Any, patience: float):
        self.name = name
        self.future = future  # the actor lives as long as a client has this
        self.actor = actor
        self.client = client
        self.patience = patience

    def is_lost(self) -> bool:
        return self.future.status not in ("finished", "pending")

    def call(self, method: str, *args: Any) -> Answer:
        told: Future = Future()
        try:
            said = self.actor.do(pickle.dumps((self.patience, method, args)))
        except ValueError as lost:
            return Answer(self, failed(Error(str(lost))))

        async def hand_on():
            try:
                told.set_result(await said)
            except Exception as error:
                told.set_exception(error)

        # Its own `result` leaves a failure in the loop for each wait that ends in between.
        self.client.loop.add_callback(hand_on)
        return Answer(self, told)

    def close(self) -> None:
        """Lets the actor go; the shelf stays, with its worker."""
        self.future.release()

    def kill(self) -> None:
        """The programs of a worker are those of other clients too."""

    break_off = kill


class Unbegun:
    """A worker whose shelf could not be begun: each call of it says why."""

    is_apart = True

    def __init__(self, name: str, error: Exception):
        self.name = name
        self.error = error

    def call(self, method: str, *args: Any) -> Answer:
        return Answer(self, failed(Error(f"its shelf could not be begun: {self.error}")))

    def close(self) -> None:
        pass

    kill = break_off = close


class Workers:
    """The places of a cluster. A worker that was found before, and still runs, is the same place as before."""

    def __init__(self, address: str, patience: float, security: Any = None):
        self.path = address
        self.patience = patience
        self.security = security
        self.client: Optional[Client] = None
        self.known: Dict[str, OnWorker] = {}

    def find(self) -> List[Any]:
        """The places that there are now. Raises what the connection to the scheduler raises."""
        if self.client is None or self.client.status != "running":
            # A client ends where its scheduler does.
            self.close()
            self.client = Client(
                self.path, direct_to_workers=True, security=self.security, timeout=SECONDS_TO_CONNECT, set_as_default=False
            )
        # An actor takes the client that is the current one.
        with self.client.as_current():
            return self._find()

    def _find(self):
        now = self.client.run_on_scheduler(_runs_by_address())
        for run in [run for run in self.known if run not in now]:
            self.known.pop(run).close()
        # All at once, since each opens its shards.
        futures = {run: self._begun(run, address) for run, address in now.items() if run not in self.known}
        failed = [place for place in (self._place(run, now[run], future) for run, future in futures.items()) if place]
        return [*self.known.values(), *failed]

    def _begun(self, run, address):
        return self.client.submit(
            OfWorker, key=f"{KEY}-{run}", workers=[address], actor=True, pure=False, retries=0, allow_other_workers=False
        )

    def _place(self, run, address, future):
        """Takes a worker's shelf for a place that is known, or answers one that says why there is none."""
        try:
            self.known[run] = OnWorker(address, future, future.result(SECONDS_TO_BEGIN), self.client, self.patience)
            return None
        except Exception as error:
            future.cancel()
            return Unbegun(address, error)

    def close(self) -> None:
        for place in self.known.values():
            place.close()
        self.known.clear()
        if self.client is not None:
            self.client.close(SECONDS_TO_CONNECT)
            self.client = None


def _runs_by_address():
    """A function for the scheduler, which needs no file of this package there: of each worker's run that has shards its address.

    A worker that was started anew at its old address is another run.
    """
    resource = RESOURCE

    def runs(dask_scheduler):
        return {worker.server_id: worker.address for worker in dask_scheduler.workers.values() if resource in worker.resources}

    return runs


def on_workers(address: str, patience: float = 30.0, security: Any = None, name: Optional[str] = None) -> ShardedIndex:
    """The index whose shards stand on the workers of the scheduler at this address.

    `patience` is how many seconds a worker has for each answer; `security` is the `distributed.security.Security` with the
    certificates of a cluster that has some; `name` is the name of the index, where the workers have shards of several. Raises an
    `Error` where there is no scheduler, or no worker with shards.
    """
    return ShardedIndex(Workers(address, patience, security), patience, name)
