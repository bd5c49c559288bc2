"""Shards that move, and shards made twice as many."""

from __future__ import annotations

import os
import shutil
import uuid
from typing import Any, Dict, Iterable, List, NamedTuple, Optional

from ..beside import making
from ..copying import write_packed
from ..errors import Error
from ..fileformat import read_root
from ..imports.bringing import memory_folder
from ..imports.engine import EVERY_DOCUMENT
from ..imports.stampfile import stamps_path
from ..imports.stamps import Records, Stamps
from ..index import Index
from .files import RELEASED, copied
from .folder import Settings, is_folder_of_shards, settings_of, shard_path, shards_in, write_settings
from .names import MOST_SHARDS, number_of, own_number, shard_of
from .places import SECONDS_OVER

PIECE = 1 << 20  # bytes of a file, at a time
ROOM = 4  # times the bytes of a file that are to be free in memory, where a copy of it becomes smaller there


class Move(NamedTuple):
    """A shard that goes from one place to another."""

    shard: int
    source: str
    target: str


def moves(spread: Dict[str, Iterable[int]]) -> List[Move]:
    """Which shards go where, as few as must, so that each place has as many, or one more. `spread` has of each place its shards."""
    held = {place: sorted(shards) for place, shards in spread.items()}
    every = sum(map(len, held.values()))
    fullest = sorted(held, key=lambda place: -len(held[place]))
    room = {place: every // len(held) + (number < every % len(held)) for number, place in enumerate(fullest)}
    spare = [(shard, place) for place in fullest for shard in held[place][room[place] :]]
    wanting = [place for place in fullest for _ in range(room[place] - len(held[place]))]
    return [Move(shard, source, target) for (shard, source), target in zip(spare, wanting)]


def moved(shard: int, source: Any, target: Any, patience: float) -> int:
    """Moves a shard from one place to another, and answers its bytes. It is missing meanwhile, and in no two places at any time.

    The source keeps the old file, under a name by which it is none. Raises an `Error`: where the shard was not taken by then, it is
    at its source again; where nobody knows whether it was, it is at neither, and the error says what to do.
    """

    def asked(place, method, *args):
        return place.call(method, shard, *args).result(patience + SECONDS_OVER)

    size = asked(source, "release")
    try:
        for begin in range(0, size, PIECE):
            asked(target, "receive", begin, asked(source, "piece", begin, PIECE))
    except Exception as error:
        asked(source, "take_back")
        raise Error(f"shard {shard} could not be brought to {target.name}, and is at {source.name} as before: {error}") from None
    try:
        asked(target, "adopt")
    except Exception as error:
        raise Error(
            f"{target.name} did not say that it has shard {shard}: {error}; where it has not, take the ending {RELEASED} "
            f"off its file at {source.name}"
        ) from None
    return size


class Source(NamedTuple):
    """A file whose documents go into some of the shards of a new folder."""

    path: str
    shards: Iterable[int]


def split(old: str, new: str, shards: int, program: Optional[str] = None, patience: float = 10.0) -> int:
    """Makes a folder with so many shards of an index in one file, or of a folder with half as many.

    Each shard is a copy, out of which goes what belongs into the others. So no text is read again, and spellings and numbers of texts
    stay. Stamps beside the old index are made anew, with the new numbers. Answers how many documents the shards have. Raises
    `FileExistsError` where the new folder has shards already, and `InUse` where a program or a server has the old index.
    """
    if not 1 <= shards <= MOST_SHARDS:
        raise Error(f"an index has 1 to {MOST_SHARDS:,} shards, not {shards:,}")
    if os.path.exists(new) and (is_folder_of_shards(new) or shards_in(new)):
        raise FileExistsError(17, "shards stand there already", new)
    is_folder = is_folder_of_shards(old)
    sources = _halved(old, shards) if is_folder else [Source(old, range(shards))]
    name = settings_of(old).name if is_folder else uuid.uuid4().hex
    os.makedirs(new, exist_ok=True)
    documents = sum(_put_into_shards(source, new, shards, program, patience) for source in sources)
    put_stamps(old, new, shards, is_folder)
    write_settings(new, Settings(name, shards))
    return documents


def _halved(folder, shards):
    """The shards of a folder, each with the two that it becomes."""
    before = settings_of(folder).shards
    if shards != 2 * before:
        raise Error(f"{folder} has {before:,} shards, of which {2 * before:,} can be made, and not {shards:,}")
    return [Source(shard_path(folder, shard), (shard, shard + before)) for shard in shards_in(folder)]


def _put_into_shards(source, new, shards, program, patience):
    """Makes those shards of a new folder that have the documents of a file, and answers how many documents that has."""
    # It is held while it is copied, so that nothing changes, and a server is none of those who may have it.
    with Index(source.path, program=program, patience=patience, server=False) as index:
        for shard in source.shards:
            with making(_room_for(source.path, new)) as fresh:
                with open(source.path, "rb") as file, open(fresh, "wb") as copy:
                    write_packed(file, read_root(file), copy)
                _keep_own(fresh, shard, shards, program)
                copied(fresh, shard_path(new, shard))
        return index.stats().documents


def _room_for(path, new):
    """The folder in which the copies of a file become smaller: in memory, without a sync for each deletion, where there is much room."""
    memory = memory_folder()
    return memory if shutil.disk_usage(memory).free > ROOM * os.path.getsize(path) else new


def _keep_own(path, shard, shards, program):
    """Takes out of a copy what belongs into another shard."""
    with Index(path, program=program) as index:
        for name in [name for _, name in index.search(EVERY_DOCUMENT) if shard_of(name, shards) != shard]:
            index.send_delete(name)
        index.merge()


def put_stamps(old: str, new: str, shards: int, is_folder: bool) -> None:
    """Writes the stamps of an index beside a folder with more shards, where there are some: each number is that of the new shard."""
    if not os.path.exists(stamps_path(old)):
        return
    records = Records(stamps_path(old))
    records.copy(stamps_path(new))

    def moved_to(number, name):
        return number_of(own_number(number)[0] if is_folder else number, shard_of(name, shards))

    stamps = Stamps(stamps_path(new))
    try:
        stamps.put(
            {
                name: stamp._replace(numbers=tuple(moved_to(number, name) for number in stamp.numbers))
                for name, stamp in records.of.items()
            }
        )
    finally:
        stamps.close()
