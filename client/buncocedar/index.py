"""An index that is open: how it is opened, and how it ends."""

# An index opens when the client asks for its first `stats`, so that a damaged one is an exception where it is opened.
#
# A second thread is refused, and not made to wait. Who shares an index between threads has a lock of his own, or a server. A
# lock in each turn would let two threads share a reply's wait without saying in which order their lines are sent.
#
# A refusal that nobody took is raised by `close`, and told as a warning where an error is already on its way. A warning alone
# is easily not seen, and an exception at the next line would be one of another line. A thousand are kept; of more the oldest
# are warned of.

from __future__ import annotations

import os
import warnings
from typing import Any, Callable, Optional, Union

from .commands import Commands
from .errors import DiskFault, Error, InUse, NoFile, ServerEnded
from .exchange import Exchange
from .holders import Waiting, in_use, is_locked, turn
from .links import Program, Service, connected, default_program
from .making import holds_bytes, make_index

SECONDS_FOR_A_SERVER = 5.0  # at least, that a server has to answer who opens the index by it
HELD = "another program has the file open"  # that the program says of a lock which it does not get


class Index(Commands):
    """An index in a file, by a program of its own that ends with `close` or at the end of a `with`.

    `create` makes the index where there is no file, or an empty one. `program` is the program's path: by default what
    `default_program` finds. The program locks the file as long as it runs; where another program has it, `patience` says how
    many seconds to wait before `InUse`, and `on_wait` is called once, with who is waited for, when that takes more than a
    moment.

    Where a server of the index listens (`server.py`), the index is opened by it, and shared with its other clients; with
    `server=False` it is not. A server that does not answer for so many seconds, or for five where that is more, is `InUse` too.

    One thread at a time: a call while another one waits for the program raises `RuntimeError`. So does each call in a process that
    was forked, where `close` and `kill` do nothing: open the index anew there. Raises `Ended` where the index does not open. An
    index that is dropped without `close` lets its program end, and so does the end of Python.
    """

    path: str

    def __init__(
        self,
        path: Union[str, bytes, os.PathLike],
        create: bool = False,
        program: Optional[str] = None,
        patience: float = 10.0,
        on_wait: Optional[Callable[[str], object]] = None,
        server: Optional[bool] = None,
    ) -> None:
        self.path = os.fsdecode(path)
        waiting = Waiting(self.path, patience, on_wait)
        waits = False
        while not (server is not False and self._is_served(waiting) or self._is_started(create, program or default_program(), waits)):
            waits = True
            if waiting.is_over():
                raise in_use(self.path)

    def _is_served(self, waiting):
        """Opens the index by its server, where one listens and goes on."""
        service = connected(self.path, max(waiting.patience, SECONDS_FOR_A_SERVER))
        try:
            if service is not None:
                self._begin(service, waiting)
        except ServerEnded:
            return False
        return service is not None

    def _is_started(self, create, program, waits):
        """Opens the index by a program of its own, where no other one has it."""
        if create and not holds_bytes(self.path):
            make_index(program, self.path)
        if not os.path.exists(self.path):
            raise NoFile(self.path)
        with turn(self.path, waits) as is_free:
            try:
                if is_free:
                    self._begin(Program(program, self.path))
            except DiskFault as fault:
                # One that does not ask for its turn, as one by hand, may have been sooner, and may have ended since.
                if HELD not in fault.line and not is_locked(self.path):
                    raise
                return False
            return is_free

    def _begin(self, link, waiting=None):
        """Takes the program or the server behind this link, once it has answered; a server is waited for as others are."""
        self._exchange = Exchange(self.path, link)
        try:
            reply = self.send_stats()
            if waiting is not None and not waiting.comes(reply, SECONDS_FOR_A_SERVER):
                seconds = max(waiting.patience, SECONDS_FOR_A_SERVER)
                raise InUse(
                    f"{in_use(self.path)}: its server does not answer within {seconds:g} seconds: it is busy with a long line, as a merge, or "
                    "it is stopped; a longer wait may do (--wait of a command, `patience` of a call)"
                )
            reply.result()
            self._exchange.opened = True
        except BaseException:
            self.kill()
            raise

    def __enter__(self) -> Index:
        return self

    def __exit__(self, kind: Any, value: Any, trace: Any) -> None:
        """Ends the program: at once where the block was broken off, and else when what was sent is answered."""
        if kind is None:
            self.close()
        elif issubclass(kind, (KeyboardInterrupt, SystemExit)):
            self.kill()
        else:
            # What broke the block goes on; a refusal or an end beside it is no more than told.
            try:
                self.close()
            except Error as error:
                warnings.warn(f"{self.path}: {error}", RuntimeWarning, stacklevel=2)

    def under_way(self) -> int:
        """How many lines were sent that have no reply yet: 64 at most."""
        return self._exchange.under_way()

    @property
    def by_server(self) -> bool:
        """Whether a server has the index open for this client, so that others may have it too."""
        return isinstance(self._exchange.link, Service)

    @property
    def ended(self) -> Optional[Error]:
        """How the program has ended, an `Ended`, or a `Closed` after `close`; None before a call has found that it has.

        Whoever looks at it has been told.
        """
        self._exchange.told = self._exchange.told or self._exchange.end is not None
        return self._exchange.end

    def settle(self, seconds: Optional[float] = None) -> bool:
        """Waits until every line that was sent is answered, or will not be, for so many seconds at most; tells whether it is so.

        With 0 seconds it gives the program what waits for it, and takes what has come.
        """
        return self._exchange.settle(seconds)

    def close(self, seconds: Optional[float] = None) -> None:
        """Waits until every line is answered, and ends the program.

        Raises its `Ended` where nothing raised it yet, or the first `Refused` of a line that was sent and whose reply nobody
        has taken. A program that does not end in so many `seconds` is killed, and an `Ended` says so.
        """
        self._exchange.close(seconds)

    def kill(self) -> None:
        """Ends the program at once. Of the lines without a reply the first one may be done, and no other."""
        self._exchange.kill()

    def break_off(self) -> None:
        """Ends the program from a signal handler: the calls that wait for it then go on as where it was killed."""
        self._exchange.break_off()
