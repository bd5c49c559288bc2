"""Who has an index open: the turn to open it, the wait for another one, and which process that is, in words."""

# A client takes no lock that its program would meet. It looks whether the file's lock is free, and then starts the program.
# Meanwhile it holds the lock of an empty file beside the index, which it takes away then, so that no two clients start one at
# once. Where no file can be made it holds the folder's lock. A program that is started by hand just between has the index,
# and the client goes on waiting for it.
#
# The program of a client that was killed keeps its lock until it ends; one that ends, however it does, leaves none.

from __future__ import annotations

import contextlib
import os
import stat
import time
from typing import Optional

from .beside import is_at, lock
from .errors import InUse
from .texts import printable_line

SECONDS_OF_SILENCE = 0.5  # of a wait for an index that is in use, before it is told
STOPPED = "T"  # states of a process, as the system names them
WAITS_FOR_ITS_DISK = "D"
TICKS_OF_WORK = 10  # hundredths of a second of the processor
TURN = ".turn.alta"  # how the name of the file ends whose lock is the turn to open an index; no import takes such a file in


@contextlib.contextmanager
def turn(path, waits=False):
    """Whether it is this client's turn to open the index at this path: no program has the file then. `waits` says that it asked before.

    The program locks the file itself, and ends where another has it. So that no two clients start one at once, each holds
    the lock of an empty file beside the index until its program has that, and takes it away then. Where none can be made it
    is the lock of the folder, and where there are no locks it is always its turn.
    """
    if waits and owner_of(path) is not None:
        # Who waits looks time and again, and makes no file each time. The system may take ten milliseconds to list its locks.
        yield False
        return
    folder, name = os.path.split(os.path.realpath(path))
    place = os.path.join(folder, f".{name}{TURN}")
    with _opened(place, os.O_RDONLY | os.O_CREAT | os.O_NOFOLLOW | os.O_NONBLOCK) as file:
        if file is None or not _is_empty_file(file):
            # Something else stands there, or nothing can.
            with _opened(folder, os.O_RDONLY) as handle:
                yield _lock(handle) and not is_locked(path)
            return
        # Who comes later locks another one, where this was taken away meanwhile.
        is_mine = lock(file) and is_at(file, place)
        try:
            yield is_mine and not is_locked(path)
        finally:
            if is_mine:
                with contextlib.suppress(OSError):
                    os.unlink(place)


def _is_empty_file(handle):
    found = os.fstat(handle)
    return stat.S_ISREG(found.st_mode) and found.st_size == 0


def is_locked(path):
    """Whether a program has locked the file. A program that locks it at this moment fails, so only who has the turn may look."""
    with _opened(path, os.O_RDWR) as file:
        return not _lock(file)


@contextlib.contextmanager
def _opened(path, flags):
    """A handle, or None where it can't be had: the program then says why."""
    try:
        handle = os.open(path, flags, 0o666)
    except OSError:
        yield None
        return
    try:
        yield handle
    finally:
        os.close(handle)


def _lock(handle):
    """Locks what the handle is of, as `lock` does; without a handle there is nothing to lock."""
    return handle is None or lock(handle)


class Waiting:
    """A wait for an index that another one has open: for so many seconds, and told once."""

    def __init__(self, path, patience, on_wait):
        self.path = path
        self.begun = time.monotonic()
        self.patience = patience
        self.on_wait = on_wait

    def is_over(self):
        """Waits a moment, and tells whether that was the last one."""
        waited = time.monotonic() - self.begun
        # A look may take longer than the wait has left: what is told hangs on the patience alone.
        if min(waited, self.patience) >= SECONDS_OF_SILENCE:
            self.tell()
        if waited < self.patience:
            time.sleep(0.02)
        return waited >= self.patience

    def tell(self):
        """Says once who is waited for."""
        if self.on_wait is not None:
            self.on_wait(str(in_use(self.path)))
            self.on_wait = None

    def comes(self, reply, least):
        """Whether the reply to a line comes in time, counted from now, which is so many seconds at least."""
        seconds = max(self.patience, least)
        if reply.wait(min(SECONDS_OF_SILENCE, seconds)):
            return True
        self.tell()
        return reply.wait(max(0, seconds - SECONDS_OF_SILENCE))


def in_use(path):
    return InUse(f"{path} is open in {holder(path) or 'another program, or another client is opening it'}")


def holder(path: str) -> Optional[str]:
    """Which process has the index open, by whom it was started and since when, in words; None where the system tells none."""
    owner = owner_of(path)
    return None if owner is None else _process_words(owner)


def owner_of(path):
    """The number of the process that has locked the file, None where the system tells none."""
    try:
        found = os.stat(path)
        with open("/proc/locks", encoding="utf-8") as file:
            locks = [line.split() for line in file]
    except OSError:
        return None
    place = f"{os.major(found.st_dev):02x}:{os.minor(found.st_dev):02x}:{found.st_ino}"
    owners = (int(words[4]) for words in locks if words[1] == "FLOCK" and words[5] == place)
    return next((owner for owner in owners if owner > 0), None)


def work_of(number):
    """What changes while a process works, or waits for its disk; None where the system tells nothing of it."""
    try:
        fields = _fields_of(number)
    except OSError:
        return None
    # Its own time of the processor, and the system's for it. What a question costs is no work.
    return time.monotonic() if fields[0] == WAITS_FOR_ITS_DISK else (int(fields[11]) + int(fields[12])) // TICKS_OF_WORK


def _fields_of(number):
    """What the system tells of a process, from its state on."""
    with open(f"/proc/{number}/stat", encoding="utf-8", errors="replace") as file:
        return file.read().rpartition(")")[2].split()


def _process_words(number):
    """A process in words: its number, its command, since when it runs, whether it is stopped, and what has started it."""
    try:
        fields = _fields_of(number)
        with open("/proc/uptime", encoding="ascii") as file:
            booted = time.time() - float(file.read().split()[0])
    except OSError:
        return f"process {number}"
    began = time.localtime(booted + int(fields[19]) / os.sysconf("SC_CLK_TCK"))
    parent = int(fields[1])
    stopped = f", stopped (kill -CONT {number} lets it go on)" if fields[0] == STOPPED else ""
    starter = f", started by process {parent} ({_command_words(parent)})" if parent > 1 else ""
    return f"process {number} ({_command_words(number)}) since {time.strftime('%Y-%m-%d %H:%M:%S', began)}{stopped}{starter}"


def _command_words(number):
    try:
        with open(f"/proc/{number}/cmdline", "rb") as file:
            words = file.read().rstrip(b"\0").replace(b"\0", b" ").decode(errors="replace")
    except OSError:
        words = "?"
    return printable_line(words if len(words) <= 80 else words[:77] + "...")
