"""The files of shards: copied, let go, taken."""

from __future__ import annotations

import contextlib
import os
from typing import Callable, Dict, List, Optional, Tuple

from ..copying import put, put_copy
from ..errors import Error
from ..fileformat import Unusable
from ..holders import holder, is_locked
from .folder import Settings, shard_path, sync_folder, write_settings
from .shard import Shard

RELEASED = ".released"  # how the name of a file ends that was let go
INCOMING = ".incoming"  # and of one that is to be taken


Failed = Dict[int, str]  # of each shard without an answer why


class Files:
    """What a shelf does with the files of its shards."""

    folder: str
    settings: Settings
    _shard: Callable[[int], Shard]
    _until: Callable[[], float]

    def copy(self, shards: List[int], folder: str) -> Tuple[Failed, int]:
        """Copies the files of shards, without their free room, into a folder of this machine, and answers their bytes.

        No line is under way to a shard meanwhile, and a search writes nothing, so its copy has all that it answered.
        """
        failed: Failed = {}
        size = 0
        os.makedirs(folder, exist_ok=True)
        for shard in shards:
            try:
                self._shard(shard).index(self._until())
                if self._shard(shard).is_served():
                    raise Error(f"shard {shard} is behind a server, and others may change it: copy it when that has ended")
                size += copied(self._shard(shard).path, shard_path(folder, shard))
            except (Error, OSError) as error:
                failed[shard] = str(error)
        # Last, so that a folder whose copies were stopped is none.
        write_settings(folder, self.settings)
        return failed, size

    def release(self, shard: int) -> int:
        """Lets a shard go: its program ends, and its file gets a name under which no shelf takes it. Answers its bytes."""
        with contextlib.suppress(Error):
            # One that gave no answer was killed; what it had answered is stored.
            self._shard(shard).close(self._until())
        return os.path.getsize(released(self.folder, shard))

    def take_back(self, shard: int) -> None:
        """Takes a shard again that was let go."""
        self.adopt(shard, shard_path(self.folder, shard) + RELEASED)

    def piece(self, shard: int, begin: int, count: int) -> bytes:
        """Bytes of the file of a shard that was let go."""
        return piece_of(shard_path(self.folder, shard) + RELEASED, begin, count)

    def receive(self, shard: int, begin: int, data: bytes) -> None:
        """Takes a piece of the file of a shard that is to come here, the first one first."""
        if not 0 <= shard < self.settings.shards:
            raise Error(f"the shards are 0 to {self.settings.shards - 1:,}, not {shard:,}")
        put_piece(shard_path(self.folder, shard) + INCOMING, begin, data)

    def adopt(self, shard: int, path: Optional[str] = None) -> None:
        """Takes a shard whose file was received, or stands at a path on the same file system, and opens it."""
        adopted(self.folder, shard, path or shard_path(self.folder, shard) + INCOMING)
        self._shard(shard).wakes()
        self._shard(shard).index(self._until())


def copied(path: str, new: str) -> int:
    """Copies the file of an index without its free room to a path where there is none, and answers its bytes."""
    try:
        with open(path, "rb") as file:
            put_copy(file, path, new)
        return os.path.getsize(new)
    except Unusable as fault:
        raise Error(f"{path}: {fault}") from None


def released(folder: str, shard: int) -> str:
    """Gives the file of a shard a name under which it is none, and answers its path. Nothing may have it open."""
    path = shard_path(folder, shard)
    if is_locked(path):
        raise Error(f"shard {shard} is open in {holder(path) or 'another program'}")
    os.rename(path, path + RELEASED)
    sync_folder(folder)
    return path + RELEASED


def adopted(folder: str, shard: int, path: str) -> None:
    """Makes a file that was brought here that of a shard, which has none."""
    with open(path, "rb") as file:
        os.fsync(file.fileno())
    try:
        put(path, shard_path(folder, shard))
    except Unusable as fault:
        raise Error(str(fault)) from None
    if os.path.exists(path):
        os.unlink(path)
    sync_folder(folder)


def piece_of(path: str, begin: int, count: int) -> bytes:
    with open(path, "rb") as file:
        file.seek(begin)
        return file.read(count)


def put_piece(path: str, begin: int, data: bytes) -> None:
    """Writes a piece of a file, the first of which makes it anew."""
    with open(path, "wb" if begin == 0 else "r+b") as file:
        file.seek(begin)
        file.write(data)
