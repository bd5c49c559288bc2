"""What is made beside an index: who may use it, its lock, and folders for a file that is to be whole or not there.

Such a file is made in a folder of its own, and moved into place at the end.

Who makes something holds the lock of a file in its folder (`flock`). So a folder whose file is not locked was left by one that was
killed. The folder itself is not locked, since a client that can make no file beside an index locks its folder while it opens that.
"""

# The age of a folder says nothing, since a long import is no dead one. Only a folder with such a name and nothing in it but
# what is made there is taken away: a user's own may be called alike. Where a file system has no locks it stays.

from __future__ import annotations

import contextlib
import fcntl
import functools
import operator
import os
import re
import stat
from typing import Iterable, Iterator, List

PREFIX = ".making-"
MADE = "index.alta"  # the file that is made; what stands beside it has its name and an ending
LOCK = "lock"  # the file that the maker locks

_ODD = "[a-z0-9_]{8}"  # what tempfile puts behind a prefix


def give_rights(path: str, like: os.stat_result) -> None:
    """Lets those read and write what was made at the path who may do so with a file: who made it, and nobody whom the file shuts out."""
    # Only the system's own user gives away what is his; whoever is of the file's group may give it to that.
    for owner in (like.st_uid, -1):
        with contextlib.suppress(OSError):
            os.chown(path, owner, like.st_gid)
            break
    rights = stat.S_IMODE(like.st_mode) & 0o666
    if os.stat(path).st_gid != like.st_gid:
        # Here the file's group is among the others, and another group has nothing to look for.
        rights &= 0o600 | rights >> 3 & 0o006
    os.chmod(path, 0o600 | rights)


@contextlib.contextmanager
def no_wider_than(paths: Iterable[str]) -> Iterator[None]:
    """Makes what this process makes meanwhile for nobody whom one of these files or folders shuts out; those that are missing count for nothing.

    It is the process's own mask of rights, so what other threads make meanwhile gets no wider rights either.
    """
    before = os.umask(0o077)
    try:
        os.umask(before | functools.reduce(operator.or_, map(_shut_out, paths), 0))
        yield
    finally:
        os.umask(before)


def _shut_out(path):
    """The rights to a file that its group and others do not have."""
    try:
        found = os.stat(path)
    except OSError:
        return 0
    rights = stat.S_IMODE(found.st_mode)
    if found.st_gid != os.getegid():
        # What is made has another group, which is among the others there.
        rights &= ~0o060 | rights << 3
    return ~rights & 0o066


def lock(handle: int) -> bool:
    """Locks what the handle is of until it is closed; false where another handle has it locked."""
    try:
        fcntl.flock(handle, fcntl.LOCK_EX | fcntl.LOCK_NB)
    except BlockingIOError:
        return False
    except OSError:
        # The file system has no locks.
        pass
    return True


def is_at(handle: int, path: str) -> bool:
    """Whether the handle is of the file at the path: another one may stand there by now."""
    try:
        return os.path.samestat(os.fstat(handle), os.stat(path))
    except OSError:
        return False


@contextlib.contextmanager
def making(parent: str, prefix: str = PREFIX) -> Iterator[str]:
    """The path for a file to be made at, in a folder of its own in this one, which is taken away at the end.

    What was left in this one is taken away first.
    """
    import shutil

    with contextlib.suppress(OSError):
        remove_left(parent, prefix)
    try:
        folder, handle = _locked_folder(parent, prefix)
    except OSError as error:
        # The name of what could not be made there says nothing.
        raise OSError(error.errno, error.strerror, parent) from None
    try:
        yield os.path.join(folder, MADE)
    finally:
        shutil.rmtree(folder, ignore_errors=True)
        os.close(handle)


def remove_left(parent: str, prefix: str = PREFIX) -> List[str]:
    """Takes away the folders that this user's programs have left as they were killed, and answers their paths.

    Only what is made in such a folder is taken away: one that has anything else stays.
    """
    with os.scandir(parent) as entries:
        found = [entry for entry in entries if re.fullmatch(re.escape(prefix) + _ODD, entry.name)]
    return [entry.path for entry in found if entry.is_dir(follow_symlinks=False) and _is_removed(entry.path)]


def _is_removed(folder):
    try:
        handle = os.open(os.path.join(folder, LOCK), os.O_RDWR | os.O_NOFOLLOW)
    except OSError:
        # Its maker was killed before it could make the file, or has just made the folder and will make another one.
        return _is_done(os.rmdir, folder)
    try:
        fcntl.flock(handle, fcntl.LOCK_EX | fcntl.LOCK_NB)
        return os.fstat(handle).st_uid == os.geteuid() and _is_emptied(folder) and _is_done(os.rmdir, folder)
    except OSError:
        # Somebody makes something there, or the file system has no locks, so that nobody knows.
        return False
    finally:
        os.close(handle)


def _is_emptied(folder):
    """Takes away what was made in a folder, where nothing else is there, and tells whether that is so."""
    remove_left(folder)
    names = os.listdir(folder)
    is_ours = all(name == LOCK or name.startswith(MADE) for name in names)
    return is_ours and all([_is_done(os.unlink, os.path.join(folder, name)) for name in names])


def _is_done(call, path):
    try:
        call(path)
        return True
    except OSError:
        return False


def _locked_folder(parent, prefix):
    """A new folder and the handle that locks it."""
    import tempfile

    while True:
        folder = tempfile.mkdtemp(prefix=prefix, dir=parent)
        try:
            handle = os.open(os.path.join(folder, LOCK), os.O_RDWR | os.O_CREAT, 0o600)
        except FileNotFoundError:
            # It was taken for one that was left, before it was locked.
            continue
        with contextlib.suppress(OSError):
            fcntl.flock(handle, fcntl.LOCK_EX)
        if os.path.isdir(folder):
            return folder, handle
        os.close(handle)
