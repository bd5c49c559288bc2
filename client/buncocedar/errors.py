"""What a call may raise: a refusal, which changed nothing, the end of the program, or a fault between client and program."""

from __future__ import annotations

import contextlib
import os
import re
import signal
import stat
from typing import Optional

from .texts import NUMBER, Regular, marked

SCANT_ROOM = 4_194_304  # bytes: with fewer free a disk counts as full
ROOTS = 8_192  # bytes at the front of an index, where its roots stand
ROOT_FIELDS = 24  # bytes of the first root that the making of an index writes, behind a first byte of zero that it changes last


class Error(Exception):
    """What may go wrong between a caller, this client and the program."""

    def __reduce__(self):
        """So that it can be copied and pickled, whatever its kind is made of."""
        return _made_again, (type(self), self.args, self.__dict__)


def _made_again(kind, words, fields):
    error = kind.__new__(kind, *words)
    error.__dict__.update(fields)
    return error


# --- Refusals: the line changed nothing, and the index goes on.


class Refused(Error):
    """A line that was refused. `reply` is the program's reply, also where this client refuses the line before it is sent."""

    def __init__(self, reply, about=""):
        super().__init__(f"{reply}: {about}" if about else reply)
        self.reply = reply


class LineTooLong(Refused):
    """The line has more than 262,143 bytes; `length` is how many, where this client refused it."""

    length = None


class NotUtf8(Refused):
    """The bytes are no UTF-8."""


class UnknownCommand(Refused):
    """The program does not know the command: it is older than this client."""


class BadLine(Refused):
    """The line has not the form of its command."""


class BadName(Refused):
    """The name is not 1 to 64 graphic ASCII bytes."""


class NoNumbersLeft(Refused):
    """The index has given out its last number."""


class NoSuchDocument(Refused):
    """No document has the name."""


class TooManyCursors(Refused):
    """64 cursors are open."""


class NoSuchCursor(Refused):
    """No open cursor has the number."""


REFUSALS = {
    "! line too long": LineTooLong,
    "! not UTF-8": NotUtf8,
    "! unknown command": UnknownCommand,
    "! bad line": BadLine,
    "! bad name": BadName,
    "! no numbers left": NoNumbersLeft,
    "! no such document": NoSuchDocument,
    "! too many cursors": TooManyCursors,
    "! no such cursor": NoSuchCursor,
}

CAUSES = {
    "Empty": "the query is empty",
    "Word": "a text without a word, or with one of more than 128 bytes",
    "Prefix": "before a * stands one whole word of two characters or more",
    "Near": "NEAR/k stands between two words or prefixes, with k from 1 to 1,000",
    "Name": "what stands behind name: is no name",
    "Value": "behind value: stand two numbers below 2^32 with two dots between them, the second no lower",
    "Quote": "a quote is not closed",
    "Paren": "a ) closes nothing, or a ( is not closed",
    "Operand": "something to look for is missing",
    "Deep": "more than 32 parentheses and NOT are open",
    "Many": "there are more than 64 words",
}


class QueryFault(Refused):
    """A query that cannot be read: `query` its text, `place` the byte of its first fault, `cause` the cause's word."""

    def __init__(self, query: str, place: int, cause: str) -> None:
        super().__init__(f"! query {place} {cause}", f"{CAUSES.get(cause, cause)}\n{marked(query, place)}")
        self.query = query
        self.place = place
        self.cause = cause


_QUERY_FAULT = Regular(f"! query {NUMBER} ([A-Za-z]+)")


def refusal_of(reply, command, query):
    fault = _QUERY_FAULT.fullmatch(reply)
    if fault and query is not None:
        return QueryFault(query, int(fault[1]), fault[2])
    kind = REFUSALS.get(reply)
    if kind is None:
        return ProtocolFault(command, reply)
    older = ", by a program that is older than this client" if kind is UnknownCommand else ""
    return kind(reply, command + older)


# --- Ends: the program runs no more. What was answered stands in the index.


class Ended(Error):
    """The program ended, by `status`: its exit status, or a signal's number below 0. `line` is what it said, `path` the index.

    Of the lines without a reply the first one may be done, and no other; behind a server, the first eight. Only where this client
    was interrupted while it read, as by a KeyboardInterrupt, may it have lost replies, so that any of them may be done.
    """

    advice = ""
    stored = "what was answered is stored"

    def __init__(self, status: Optional[int], line: str = "", path: Optional[str] = None, opened: bool = True) -> None:
        said = line or (f"ended by signal {_signal_name(-status)}" if status and status < 0 else "ended without a word")
        place = "" if path is None else f"{path}: "
        hints = "; ".join(filter(None, (self.hint(path), self.stored if opened else "")))
        number = "" if status is None else f" (status {status})"
        super().__init__(f"{place}{said}{number}{': ' if hints else ''}{hints}")
        self.status = status
        self.line = line
        self.path = path

    def hint(self, path):
        """What there is to be said of the cause, or to be done."""
        return self.advice

    def number(self, at: int) -> Optional[int]:
        """One of the numbers in the program's line, counted from 0, or None."""
        digits = re.findall("[0-9]+", self.line)
        return int(digits[at]) if at < len(digits) else None


def _signal_name(number):
    try:
        return f"{number}, {signal.strsignal(number)}"
    except ValueError:
        return str(number)


class Usage(Ended):
    """Status 1."""

    advice = "the program does not know the words that it was started with, or the path is no UTF-8"
    stored = ""


class DiskFault(Ended):
    """Status 2: a call of the disk failed. The message says why, where the system does: `disk_cause`."""

    advice = "the file could not be read or written"

    def hint(self, path):
        return (path and disk_cause(path)) or self.advice


class InputFault(Ended):
    """Status 3."""

    advice = "the program could not read its lines"


class OutputFault(Ended):
    """Status 4."""

    advice = "the program could not write its replies"


class OutOfMemory(Ended):
    """Status 5."""

    advice = "with more memory the index opens again"


class Damaged(Ended):
    """Status 6: `place` is the first byte of the file that breaks a rule of the format, or None."""

    advice = "the file was changed by something else; use a copy of it, or make the index again"
    stored = ""

    @property
    def place(self) -> Optional[int]:
        return self.number(0)


class NoIndex(Ended):
    """Status 7."""

    advice = "the file is no index; if making it was stopped, delete it and make it again"
    stored = ""

    def hint(self, path):
        return "the file holds something else: is this the right path?" if path and holds_something_else(path) else self.advice


class NoFile(NoIndex):
    """There is no file where an index was to be opened; no program was started."""

    advice = "make it first, by create=True, by `bunco init`, or by an import"

    def hint(self, path):
        return self.advice

    def __init__(self, path):
        super().__init__(7, "no index: there is no such file", path)


class Full(Ended):
    """Status 8: a level or the deletion list needs `need` bytes, and the greatest gap has `gap`. No line without a reply was done."""

    advice = "the index is full, and the rest needs another one"

    @property
    def need(self) -> Optional[int]:
        return self.number(0)

    @property
    def gap(self) -> Optional[int]:
        return self.number(1)


class InputTooLong(Ended):
    """Status 9: more than 2^40 bytes of lines in one run."""

    advice = "the index opens again"


class IndexExists(Ended):
    """Status 10: the file that was to be made is an index already; or, by the launcher, it holds something else."""

    advice = "no file that holds something is ever made an index"
    stored = ""


class ServerEnded(Ended):
    """The server of the index has ended; `status` is None. The index can be opened again, with or without a server."""

    advice = "open the index again"


ENDS = {
    1: Usage,
    2: DiskFault,
    3: InputFault,
    4: OutputFault,
    5: OutOfMemory,
    6: Damaged,
    7: NoIndex,
    8: Full,
    9: InputTooLong,
    10: IndexExists,
}


def end_of(status, line, path=None, opened=True):
    """The end with this status. Only the program itself says why, save where it has no memory for that."""
    if status is None:
        return ServerEnded(status, line, path, opened)
    known = line or status == 5
    return (ENDS.get(status, Ended) if known else Ended)(status, line, path, opened)


def holds_something_else(path):
    """Whether a plain file has, where an index has its roots, what a making of an index that was stopped does not leave."""
    try:
        handle = os.open(path, os.O_RDONLY | os.O_NONBLOCK)
    except OSError:
        return False
    try:
        head = os.pread(handle, ROOTS, 0) if stat.S_ISREG(os.fstat(handle).st_mode) else b""
        return any(head[:1]) or any(head[ROOT_FIELDS:])
    except OSError:
        return False
    finally:
        os.close(handle)


def disk_cause(path: str) -> Optional[str]:
    """Why the file at the path may be one that can't be read or written, as far as the system tells, or None."""
    import resource

    folder = os.path.dirname(os.path.abspath(path))
    found = None
    try:
        # A file that was to be made may not be there yet.
        with contextlib.suppress(FileNotFoundError):
            found = os.stat(path)
        room = os.statvfs(folder)
    except FileNotFoundError:
        return f"there is no folder {folder}"
    except OSError as error:
        return f"{path}: {error.strerror}"
    size, kind = (found.st_size, found.st_mode) if found else (0, stat.S_IFREG)
    is_there = found is not None
    free = (room.f_bavail if os.geteuid() else room.f_bfree) * room.f_frsize
    most = resource.getrlimit(resource.RLIMIT_FSIZE)[0]
    causes = {
        f"{path} is a folder": stat.S_ISDIR(kind),
        f"{path} is no plain file": not stat.S_ISREG(kind),
        f"the file system of {path} is for reading only": room.f_flag & os.ST_RDONLY,
        f"no right to read {path}": is_there and not os.access(path, os.R_OK),
        f"no right to write {path}": is_there and not os.access(path, os.W_OK),
        f"a file may have {most:,} bytes at most here (ulimit -f)": most <= size + SCANT_ROOM and most >= 0,
        f"the disk of {path} is full: {free:,} bytes free; make room, then run this again": free < SCANT_ROOM,
        f"there is no file {path}": not is_there,
    }
    return next((cause for cause, applies in causes.items() if applies), None)


class ProtocolFault(Error):
    """A reply that is none to its line: the program is another one, or an older or a newer one. The index is closed then."""

    def __init__(self, command, reply):
        super().__init__(f"{reply[:200]!r} is no reply to {command}")


class InUse(Error):
    """Another program has the index open: another client's, one that a client left, or one by hand. The message says which."""


class Closed(Error):
    """The index was closed."""
