"""The lines that go to the program of an index, and the replies that come back."""

from __future__ import annotations

import copy
import os
import select
import signal
import threading
import time
import warnings
import weakref
from collections import deque

from .errors import BadLine, Closed, Ended, Error, ProtocolFault, end_of
from .links import SECONDS_TO_END, let_go
from .replies import Reply

LINES_UNDER_WAY = 64  # lines without a reply, at most; where there are as many, half of them are waited for
BYTES_TOGETHER = 65_536  # bytes of changes that wait to be written together, at most
BYTES_WAITING = 262_144  # bytes of lines that wait to be written, before one more is sent
REFUSALS_KEPT = 1_000  # refused replies that nobody has taken yet, before the oldest is warned of


class Exchange:
    """The lines to the program or the server behind a link, and their replies, up to its end; the path is that of the index.

    What is dropped before its end lets the program end.
    """

    def __init__(self, path, link):
        self.path = path
        self.link = link
        self.end = None  # how the program has ended
        self.told = False  # that end was raised, or was asked for
        self.opened = False  # the program has answered
        self.fresh = deque()  # replies to lines that no turn has looked at yet
        self.pending = deque()  # replies to the lines before them
        self.out = bytearray()
        self.front = bytearray()  # the front of a line whose end has not come
        self.untaken = {}  # refused replies that nobody has taken, the oldest first
        self.alone = threading.Lock()
        self.owner = os.getpid()
        self.let_go = weakref.finalize(self, let_go, link, self.out, path, self.owner)
        _LINKS.add(link)

    def is_mine(self):
        """Whether this process has opened the index: one that was forked has a copy, with which nothing can be asked."""
        return os.getpid() == self.owner

    def under_way(self):
        """How many lines were sent that have no reply yet: 64 at most."""
        return len(self.fresh) + len(self.pending)

    def settle(self, seconds=None):
        """Waits until every line that was sent is answered, or will not be, for so many seconds at most; tells whether it is so."""
        return self.turn_until(lambda: not self.under_way(), seconds)

    def send(self, line, command, last, made, lines=None, query=None, behind=b"", after_refusal=False):
        """Sends a line, and a line of this client `behind` it, where the reply's end shows only by that one's."""
        if b"\n" in line:
            raise BadLine("! bad line", f"a newline in the line of {ascii(command[:80])}")
        self.check()
        reply = Reply(self, line + b"\n" + behind, command, last, made, lines, query, after_refusal)
        self._make_room()
        # One step, so that an interrupt leaves no line without its reply and no reply without its line.
        self.turn(0, reply)
        return reply

    def _make_room(self):
        """Waits until a line more may be sent: for half of the replies, so that lines and replies go together and not one by one."""
        if self.under_way() >= LINES_UNDER_WAY or len(self.out) > BYTES_WAITING:
            few = LINES_UNDER_WAY // 2
            self.turn_until(lambda: self.end is not None or (self.under_way() <= few and len(self.out) <= BYTES_WAITING))
            self.check()

    def check(self):
        """Raises the end of the program where it has ended."""
        if self.end is not None:
            self.told = True
            raise copy.copy(self.end)

    def keep_refusal(self, reply):
        self.untaken[reply] = None
        if len(self.untaken) > REFUSALS_KEPT:
            oldest = next(iter(self.untaken))
            warnings.warn(f"{self.path}: {oldest.error} (nobody took this reply)", RuntimeWarning, stacklevel=2)

    def close(self, seconds=None):
        """Waits until every line is answered, and ends the program; kills it where that takes more than so many seconds.

        Raises its `Ended` where nothing raised it yet, or the first `Refused` of a line that was sent and whose reply nobody
        has taken.
        """
        if not self.is_mine():
            # The program is that of another process.
            return
        until = None if seconds is None else time.monotonic() + seconds
        if self.settle(seconds) and self.end is None:
            self.link.close_input()
            self.turn_until(lambda: self.end is not None, _left(until))
        if self.end is None:
            self._end_by_force(f"gave no answer in {seconds:g} seconds, and was killed")
        untaken = list(self.untaken)
        self.untaken.clear()
        if not self.told and not isinstance(self.end, Closed):
            self.check()
        if untaken:
            error = copy.copy(untaken[0].error)
            error.args = (f"{error} (nobody took the replies to {len(untaken):,} refused lines: this is the first)",)
            raise error

    def kill(self):
        """Ends the program at once. Of the lines without a reply the first one may be done, and no other."""
        self.told = True
        if self.end is None and self.is_mine():
            self._end_by_force("")

    def _end_by_force(self, why):
        """Kills the program, and takes what it has answered. Where its disk hangs it ends when that answers, and is not waited for."""
        self.link.kill()
        self.turn_until(lambda: self.end is not None, SECONDS_TO_END)
        if self.end is None:
            self._finish(Ended(-signal.SIGKILL, why or "was killed, and has not ended yet", self.path))
        elif why:
            self.end = Ended(-signal.SIGKILL, why, self.path)

    def break_off(self):
        """Ends the program from a signal handler: the calls that wait for it then go on as where it was killed."""
        if self.is_mine():
            self.link.kill()

    def turn_until(self, is_done, seconds=None):
        """Takes turns until this is so, or for so many seconds, one at least; tells whether it is so."""
        until = None if seconds is None else time.monotonic() + seconds
        left = None
        while not is_done() and left != 0:
            left = _left(until)
            self.turn(left)
        return is_done()

    def turn(self, seconds=None, reply=None):
        """Waits until the program takes or gives something, or so many seconds, and moves all that can be moved.

        The one place that reads and writes, so that neither side waits for the other. Where there is a `reply` it takes its line
        first, and moves nothing yet where that can wait for others. A call that is interrupted in here may have lost a piece of
        a reply: nothing is read any more then, and the program is ended.
        """
        if not self.is_mine():
            raise RuntimeError(f"{self.path}: opened by another process, of which this is a fork: open the index anew")
        if not self.alone.acquire(blocking=False):
            raise RuntimeError(f"{self.path}: another thread, or what a signal has interrupted, waits for the program")
        try:
            if reply is not None:
                self.fresh.append(reply)
            if self.end is not None:
                self._give_up()
            else:
                self._take_lines()
                if not self._can_wait(reply):
                    self._move(seconds)
        except BaseException as error:
            self.link.kill()
            self._finish(error if isinstance(error, Error) else self._broken_off())
            if not isinstance(error, Error):
                raise
        finally:
            self.alone.release()

    def _take_lines(self):
        while self.fresh:
            reply = self.fresh.popleft()
            self.pending.append(reply)
            self.out += reply.line
            reply.line = None

    def _can_wait(self, reply):
        """Whether the line behind which a reply comes can wait for others: it changes a document, and the program has others to do."""
        return reply is not None and reply.changes and len(self.pending) > 1 and len(self.out) < BYTES_TOGETHER

    def _move(self, seconds):
        link = self.link
        wanted = {link.output: select.POLLIN}
        if link.said is not None and link.said.open:
            wanted[link.said.file] = select.POLLIN
        if self.out and link.input is not None:
            wanted[link.input] = wanted.get(link.input, 0) | select.POLLOUT
        poll = select.poll()
        for file, events in wanted.items():
            poll.register(file, events)
        for file, events in poll.poll(None if seconds is None else seconds * 1000):
            # A socket is both input and output.
            if file == link.input and (events & select.POLLOUT or file != link.output):
                self._write(file)
            if file == link.output and events & ~select.POLLOUT:
                self._read(file)
            elif link.said is not None and file == link.said.file:
                link.said.take()
            if self.end is not None:
                break

    def _write(self, file):
        try:
            del self.out[: os.write(file, self.out)]
        except BlockingIOError:
            pass
        except (BrokenPipeError, ConnectionResetError):
            # The other side has ended or takes no more; what it gave is still to be read.
            self.out.clear()
            self.link.give_up_input()

    def _read(self, file):
        try:
            data = os.read(file, 1 << 16)
        except ConnectionResetError:
            data = b""
        if not data:
            self._finish(None)
            return
        *lines, rest = data.split(b"\n")
        if lines:
            lines[0] = bytes(self.front) + lines[0]
            self.front.clear()
        self.front += rest
        for line in lines:
            text = line.decode(errors="replace")
            if self.link.takes(text):
                continue
            if not self.pending:
                raise ProtocolFault("no line", text)
            if self.pending[0].take(text):
                self.pending.popleft().settle()

    def _finish(self, error):
        """Takes the end of the program, once its output has ended or it was killed. What is under way gets no reply."""
        self.let_go.detach()
        status, line = self.link.ended()
        if error is None:
            asked = status == 0 and not self.under_way()
            error = Closed("the index was closed") if asked else end_of(status, line, self.path, self.opened)
        self.end = error
        self._give_up()
        self.out.clear()
        self.front.clear()

    def _broken_off(self):
        return Ended(-signal.SIGKILL, "ended after an interrupt", self.path)

    def _give_up(self):
        """Settles what is under way: behind the end it gets no reply."""
        for replies in (self.pending, self.fresh):
            while replies:
                replies.popleft().settle(self.end)


# The links of this process. A fork has copies of their handles, which would keep a program at work whose client has closed it.
_LINKS: weakref.WeakSet = weakref.WeakSet()


def _leave_links():
    """Lets a process that was forked go of the programs and servers of the one before."""
    for link in list(_LINKS):
        link.leave()
    _LINKS.clear()


os.register_at_fork(after_in_child=_leave_links)


def _left(until):
    """The seconds up to a moment, 0 behind it, and None where there is none."""
    return None if until is None else max(0, until - time.monotonic())
