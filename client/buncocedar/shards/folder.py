"""A folder of shards: a file for each shard, `00007.alta`, and `shards.json`, which says of which index they are.

The settings are `form`, 1; `name`, that of the index, by which folders on several machines know that they belong together; and
`shards`, how many the index has in all.
"""

from __future__ import annotations

import errno
import json
import os
import re
import uuid
from typing import Iterable, List, NamedTuple, Optional

from ..errors import Error, NoFile
from ..links import default_program
from ..making import make_index
from .names import MOST_SHARDS

SETTINGS = "shards.json"
FORM = 1

_SHARD = re.compile(r"([0-9]{5})\.alta")


class Settings(NamedTuple):
    """The index that the shards of a folder belong to: its name, and how many shards it has in all."""

    name: str
    shards: int


def is_folder_of_shards(path: str) -> bool:
    return os.path.exists(os.path.join(path, SETTINGS))


def shard_path(folder: str, shard: int) -> str:
    return os.path.join(folder, f"{shard:05}.alta")


def shards_in(folder: str) -> List[int]:
    """The shards whose files stand in a folder."""
    found = (_SHARD.fullmatch(name) for name in os.listdir(folder))
    return sorted(int(match[1]) for match in found if match)


def settings_of(folder: str) -> Settings:
    """What the folder says of its index. Raises `NoFile` where it holds no shards, and `Error` where it can't be read."""
    place = os.path.join(folder, SETTINGS)
    try:
        with open(place, encoding="utf-8") as file:
            read = json.load(file)
        form, settings = read["form"], Settings(str(read["name"]), int(read["shards"]))
    except FileNotFoundError:
        raise NoFile(place) from None
    except (ValueError, KeyError, TypeError) as error:
        raise Error(f"{place}: no settings of shards: {error!r}") from None
    if form != FORM or not 1 <= settings.shards <= MOST_SHARDS:
        raise Error(f"{place}: shards of another form, {form!r}, or too many: {settings.shards:,}")
    return settings


def write_settings(folder: str, settings: Settings) -> None:
    place = os.path.join(folder, SETTINGS)
    # Several workers of one machine may write the same settings at once, as those of a copy.
    new = f"{place}.{uuid.uuid4().hex}.new"
    with open(new, "w", encoding="utf-8") as file:
        json.dump({"form": FORM, **settings._asdict()}, file)
        file.flush()
        os.fsync(file.fileno())
    os.rename(new, place)
    sync_folder(folder)


def sync_folder(folder: str) -> None:
    handle = os.open(folder, os.O_RDONLY)
    try:
        os.fsync(handle)
    finally:
        os.close(handle)


def make(
    folder: str, shards: int, only: Optional[Iterable[int]] = None, name: str = "", program: Optional[str] = None
) -> Settings:
    """Makes a folder with the new, empty shards of an index: all of them, or `only` some, as where others are on other machines.

    Those of one index have the same `name` and number of `shards` everywhere; without a name it gets one that no other has.
    Raises `ValueError` for a number of shards that is none of 1 to 65,536 and for a shard that is none of them, and
    `FileExistsError` where the folder has shards already.
    """
    if not 1 <= shards <= MOST_SHARDS:
        raise ValueError(f"an index has 1 to {MOST_SHARDS:,} shards, not {shards:,}")
    wanted = sorted(set(range(shards) if only is None else only))
    if wanted and not 0 <= wanted[0] <= wanted[-1] < shards:
        raise ValueError(f"the shards are 0 to {shards - 1:,}, not {wanted[0]:,} to {wanted[-1]:,}")
    os.makedirs(folder, exist_ok=True)
    if is_folder_of_shards(folder) or shards_in(folder):
        # Those of a making that was stopped are empty; which they are is for their owner to say.
        raise FileExistsError(errno.EEXIST, "shards stand there already", folder)
    for shard in wanted:
        make_index(program or default_program(), shard_path(folder, shard))
    settings = Settings(name or uuid.uuid4().hex, shards)
    # Last, so that a folder whose making was stopped is none.
    write_settings(folder, settings)
    return settings
