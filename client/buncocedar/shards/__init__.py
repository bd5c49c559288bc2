"""An index in several files: its shards, which stand on one machine or on many.

    make("mail.shards", 8)
    with ShardedIndex.here("mail.shards") as index:
        index.add("first", "Red Fox", "the quick red fox")
        for number, name in index.search('"red fox"'):
            print(number, name)

Each shard is an index of its own, with a file and a program of its own, and a document stands in the shard that its name says
(`shard_of`). So each name is there once, and what the program promises of one file holds of each shard. An answer is put together
of those of all shards, and equals that of one index with all documents: counts are added, rows are brought into one order, and the
best are the best of each shard's best, since a score hangs on nothing but its document. An answer that lacks a shard is never given
as a whole one: `Missing` is raised, and has what the others say.

The number of a document is its number in its shard times 65,536, and the shard's: it stays when a shard moves to another machine.
Rows go by age, which is the part of its shard's numbers that was given out before a document; nearly as they were added. What is
lost beside one index is the one order of all changes, also in time: those of one client to one shard are done in its order, and of
two shards nothing is said.

A *shelf* has the shards of one folder, each with its program. A *place* is where a shelf is: this process, a process of its own,
or a worker of dask.distributed (`buncocedar.dask_shards`). `python3 -m buncocedar.shards` makes, moves, splits and copies shards.
"""

from __future__ import annotations

import importlib
import os
from typing import TYPE_CHECKING, Any, Union

from ..index import Index
from ..texts import Regular

if TYPE_CHECKING:
    from .changes import Change
    from .errors import Missing, NotAnswered, NotHere, Stale
    from .folder import Settings, is_folder_of_shards, make, settings_of, shard_path, shards_in
    from .index import ShardedIndex
    from .names import MOST_SHARDS, age, number_of, own_number, shard_of
    from .queries import ShardedCursor
    from .shelf import Shelf

# The module of each name. It is loaded when the name is asked for: most who open an index have one file.
_HOMES = {
    "changes": ("Change",),
    "errors": ("Missing", "NotAnswered", "NotHere", "Stale"),
    "folder": ("Settings", "is_folder_of_shards", "make", "settings_of", "shard_path", "shards_in"),
    "index": ("ShardedIndex",),
    "names": ("MOST_SHARDS", "age", "number_of", "own_number", "shard_of"),
    "queries": ("ShardedCursor",),
    "shelf": ("Shelf",),
}
_HOME_OF = {name: module for module, names in _HOMES.items() for name in names}

__all__ = [
    "Change",
    "MOST_SHARDS",
    "Missing",
    "NotAnswered",
    "NotHere",
    "Settings",
    "ShardedCursor",
    "ShardedIndex",
    "Shelf",
    "Stale",
    "age",
    "is_address",
    "is_folder_of_shards",
    "make",
    "number_of",
    "open_index",
    "own_number",
    "settings_of",
    "shard_of",
    "shard_path",
    "shards_in",
]


SECONDS_FOR_AN_ANSWER = 30.0

_ADDRESS = Regular(r"(?:[a-z]+://)?[^/\s]+:[0-9]+")


def is_address(path: str) -> bool:
    """Whether this is the address of a scheduler, as `10.0.0.1:8786`: a file that has this name comes first."""
    return _ADDRESS.fullmatch(path) is not None and not os.path.lexists(path)


def open_index(path: Union[str, bytes, os.PathLike], create: bool = False, patience: float = 10.0, **words: Any) -> Union[Index, ShardedIndex]:
    """The `Index` in a file, with the words that it takes, or a `ShardedIndex`: of a folder of shards, or of the workers of a scheduler,
    where the path is its address, as `10.0.0.1:8786`.

    Shards are made by `make`, and not by `create`. They have `patience` for an answer too, and half a minute at least: who has one
    open is told by the first call.
    """
    folder = os.fsdecode(path)
    if os.path.isdir(folder):
        from .folder import is_folder_of_shards
        from .index import ShardedIndex

        if is_folder_of_shards(folder):
            return ShardedIndex.here(folder, program=words.get("program"), patience=max(patience, SECONDS_FOR_AN_ANSWER))
    if is_address(folder):
        from ..dask_shards import on_workers

        return on_workers(folder, patience=max(patience, SECONDS_FOR_AN_ANSWER))
    return Index(path, create=create, patience=patience, **words)


def __getattr__(name: str) -> Any:
    """Loads the module that has this name."""
    if name not in _HOME_OF:
        raise AttributeError(f"module {__name__!r} has no attribute {name!r}")
    return getattr(importlib.import_module(f".{_HOME_OF[name]}", __name__), name)
