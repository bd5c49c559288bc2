"""Making the file of an index: whole, or not at all."""

# The client makes an index beside its place and renames it. So a stopped `init` leaves no file that is no index, and a file
# that holds anything else is never written over.

from __future__ import annotations

import contextlib
import errno
import os

from .beside import give_rights, making
from .errors import end_of
from .links import Said, kill, started


def holds_bytes(path):
    return os.path.exists(path) and os.path.getsize(path) > 0


def make_index(program, path):
    """Makes an index at the path: whole, or not at all. Where this is killed a folder may stay, which the next one takes away.

    Of a link it is made where that leads. Where another client has made one meanwhile, that one stays.
    """
    place = os.path.realpath(path)
    folder = os.path.dirname(place)
    with contextlib.ExitStack() as stack:
        try:
            if os.path.islink(place):
                raise OSError(errno.ELOOP, os.strerror(errno.ELOOP))
            fresh = stack.enter_context(making(folder))
        except OSError as error:
            raise OSError(error.errno, f"no index can be made: {error.strerror}", path) from None
        status, line = _initialised(program, fresh)
        if status != 0:
            raise end_of(status, line, path, opened=False)
        if os.path.exists(place):
            _replace_empty(fresh, place)
        else:
            _put(fresh, place)
    handle = os.open(folder, os.O_RDONLY)
    try:
        os.fsync(handle)
    finally:
        os.close(handle)


def _initialised(program, path):
    """Has the program make an index at a path, and answers its status and the line of it."""
    process = started(program, path, "init")
    said = Said(process.stderr.fileno())
    try:
        process.stdin.close()
        said.take_all()
        return process.wait(), said.line
    except BaseException:
        kill(process)
        process.wait()
        raise
    finally:
        process.stdout.close()
        process.stderr.close()


def _put(fresh, path):
    """Moves a file to a path where there is none."""
    try:
        os.link(fresh, path)
    except FileExistsError:
        pass
    except OSError:
        # The file system has no links.
        os.rename(fresh, path)


def _replace_empty(fresh, path):
    """Moves a file to the place of an empty one, whose rights it gets."""
    if not holds_bytes(path):
        give_rights(fresh, os.stat(path))
        os.replace(fresh, path)
