"""An index that is only asked: where it stands, or as a private copy where it may not be written.

The program locks the file that it opens, and opens none that it may not write. So a file in a read-only place, or of somebody
else, is read by a copy without free room in a temporary folder, which goes at the end.
"""

from __future__ import annotations

import contextlib
import os

from ..errors import InUse
from ..links import connected
from ..shards import open_index
from ..terminal import waits

COPY = "copy.alta"


def is_for_reading_only(path):
    """Whether a plain file may be read and not written, for its rights or for its file system."""
    return os.path.isfile(path) and os.access(path, os.R_OK) and not os.access(path, os.W_OK)


class Readable:
    """The index at a path, to be opened for questions, in a `with`; `say` is told of a copy, and of who has it open.

    `place` is where it is opened: at the path, or where its copy stands.
    """

    def __init__(self, path, patience, say):
        self.path = self.place = path
        self._patience = patience
        self._say = say
        self._stack = contextlib.ExitStack()

    def __enter__(self):
        if is_for_reading_only(self.path) and not is_served(self.path):
            import tempfile

            # Where no copy can be made, nothing stays of it.
            with contextlib.ExitStack() as stack:
                folder = stack.enter_context(tempfile.TemporaryDirectory(prefix="bunco-"))
                place = os.path.join(folder, COPY)
                size = private_copy(self.path, place, self._patience)
                self._stack = stack.pop_all()
            self.place = place
            self._say(f"{self.path} may not be written: a private copy of it is read, of {size:,} bytes")
        return self

    def __exit__(self, *what):
        self._stack.close()

    @property
    def is_copy(self):
        return self.place != self.path

    def opened(self, create=False):
        """The index: until it is closed others wait for it."""
        return open_index(self.place, create=create, patience=self._patience, on_wait=waits(self._say))


def is_served(path):
    """Whether a server of the index listens to this user."""
    link = connected(path)
    if link is not None:
        link.leave()
    return link is not None


def private_copy(path, place, patience):
    """Copies an index that nobody has open to a new place, without its free room, and answers how many bytes that has."""
    from ..copying import locked, write_packed
    from ..fileformat import Unusable, read_root

    try:
        with locked(path, patience) as file, open(place, "wb") as target:
            write_packed(file, read_root(file), target)
            return target.tell()
    except Unusable as fault:
        raise InUse(str(fault) if path in str(fault) else f"{path}: {fault}") from None
