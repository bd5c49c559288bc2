"""Makes an index in shards, several files that are asked as one, and moves, splits, copies and checks them.

INDEX is a folder of shards, or the address of a scheduler of dask.distributed, as 10.0.0.1:8786, on whose workers they stand.

`make FOLDER N` makes a folder with N empty shards; with `--of I/M --name NAME` those of the machine I of M, from 0, where the name is
the same on all. `stats INDEX` says what each shard has, where it stands, and which are missing.

`plan INDEX FOLDER ..` prints the moves that spread the shards evenly over the workers, or over these folders too. `move INDEX SHARD TO`
moves a shard to another folder, or to the worker whose address is TO; its old file stays, with the ending `.released`.

`split INDEX NEW N` makes a folder NEW with N shards of an index in one file, and `split FOLDER NEW` one with twice as many: all that it
had is in them, with its stamps, and it stays as it is. `copy INDEX NEW` copies each shard to the folder NEW of the machine where it
stands, as for a backup. `check FOLDER` reads all of each shard, and says whether it is whole.

The status is 0; 1 where a shard is missing or damaged; 2 for bad use; and 3 where it could not be done.
"""

import argparse
import os
import re
import sys

from ..errors import Error
from ..imports.log import several
from ..imports.stampfile import stamps_path
from . import is_address
from .errors import Missing
from .folder import is_folder_of_shards, make, settings_of, shard_path, shards_in, write_settings
from .index import ShardedIndex
from .moving import moved, moves, split
from .places import Here
from .shelf import Shelf

SOME_MISSING = 1
BAD_USE = 2
STOPPED = 3

_PART = re.compile("([0-9]+)/([0-9]+)")


class BadUse(Exception):
    """Words that do not go together."""


def parser():
    """What the words of the command may be."""
    parser = argparse.ArgumentParser(
        prog="bunco shards", description=__doc__, formatter_class=argparse.RawDescriptionHelpFormatter
    )
    parser.add_argument("what", metavar="WHAT", choices=tuple(DONE), help="what is to be done")
    parser.add_argument("index", metavar="INDEX", help="a folder of shards, or the address of a scheduler; split: or one file")
    parser.add_argument("words", metavar="WORD", nargs="*", help="what it takes besides")
    parser.add_argument("--of", metavar="I/M", help="make: only the shards of the machine I of M, from 0")
    parser.add_argument("--name", metavar="NAME", default="", help="the name of the index: the same on all machines")
    parser.add_argument("--wait", metavar="SECONDS", type=float, default=30.0, help="how long a shard has for an answer")
    return parser


def say(text):
    print(f"shards: {text}", file=sys.stderr, flush=True)


def opened(options):
    """The index: of a folder, or of the workers of a scheduler."""
    if is_address(options.index):
        from ..dask_shards import on_workers

        return on_workers(options.index, options.wait, name=options.name or None)
    return ShardedIndex.here(options.index, patience=options.wait)


def numbered(text, about):
    if not text.isdecimal():
        raise BadUse(f"{text} is no {about}")
    return int(text)


def words_of(options, count):
    """The words behind the index, so many."""
    if len(options.words) != count:
        raise BadUse(f"{options.what} takes {count} word{'' if count == 1 else 's'} behind INDEX, not {len(options.words)}")
    return options.words


# --- What is done.


def make_shards(options):
    (count,) = words_of(options, 1)
    shards = numbered(count, "number of shards")
    part = _PART.fullmatch(options.of or "0/1")
    if part is None or not int(part[1]) < int(part[2]):
        raise BadUse(f"--of {options.of}: the machines of 3 are 0/3, 1/3 and 2/3")
    if options.of and not options.name:
        raise BadUse("--of goes with --name: the shards of one index know each other by it")
    only = range(int(part[1]), shards, int(part[2]))
    settings = make(options.index, shards, only, options.name)
    say(f"{options.index}: {len(only):,} of the {shards:,} shards of {settings.name}")
    return 0


def show_stats(options):
    words_of(options, 0)
    with opened(options) as index:
        try:
            every, missing = index.stats_of_shards(), {}
        except Missing as error:
            every, missing = error.answer, error.shards
        where = {shard: place.name for place in index.places for shard in index.shards_at(place)}
        for shard, stats in every.items():
            print(f"{shard:5} {where.get(shard, '?')} {stats.documents:,} documents of {stats.words:,} words")
        for shard, why in missing.items():
            print(f"{shard:5} missing: {why}")
        documents = sum(stats.documents for stats in every.values())
        print(f"{index.name}: {documents:,} documents in {len(every):,} of {index.shards:,} shards")
    return SOME_MISSING if missing else 0


def show_plan(options):
    with opened(options) as index:
        left_out = index.left_out()
        spread = {place.name: index.shards_at(place) for place in index.places if place.name not in left_out}
    for place, why in left_out.items():
        say(f"{place} is left out: {why}")
    spread.update((folder, shards_in(folder) if os.path.isdir(folder) else []) for folder in options.words)
    for move in moves(spread):
        print(f"bunco shards move {move.source if os.path.isdir(move.source) else options.index} {move.shard} {move.target}")
    return 0


def move_shard(options):
    number, target = words_of(options, 2)
    shard = numbered(number, "shard")
    if os.path.isdir(options.index):
        return move_between_folders(options, shard, target)
    with opened(options) as index:
        places = {place.name: place for place in index.places}
        if target not in places:
            raise BadUse(f"{target} is none of the workers with shards: {', '.join(sorted(places))}")
        source = index.place_of(shard)
        if source is places[target]:
            raise BadUse(f"shard {shard} is at {target} already")
        size = moved(shard, source, places[target], options.wait)
    say(f"shard {shard}, {size:,} bytes, is at {target}")
    return 0


def move_between_folders(options, shard, target):
    if shard not in shards_in(options.index):
        raise Error(f"shard {shard} is not in {options.index}")
    if not is_folder_of_shards(target):
        os.makedirs(target, exist_ok=True)
        write_settings(target, settings_of(options.index))
    if settings_of(target) != settings_of(options.index):
        raise Error(f"{target} has shards of another index")
    source, place = (Here(Shelf(folder, [], patience=options.wait)) for folder in (options.index, target))
    size = moved(shard, source, place, options.wait)
    place.close()
    say(f"shard {shard}, {size:,} bytes, is in {target}")
    return 0


def split_shards(options):
    if os.path.isfile(options.index):
        new, count = words_of(options, 2)
        shards = numbered(count, "number of shards")
    else:
        (new,) = words_of(options, 1)
        shards = 2 * settings_of(options.index).shards
    documents = split(options.index, new, shards, patience=options.wait)
    say(f"{new}: {several(documents)} in {shards:,} shards; {options.index} stays as it is")
    return 0


def copy_shards(options):
    (new,) = words_of(options, 1)
    with opened(options) as index:
        sizes, missing = index.copy(new)
    for shard, why in missing.items():
        say(f"shard {shard} is not copied: {why}")
    say(f"{new}: {index.shards - len(missing):,} of {index.shards:,} shards, {sizes:,} bytes")
    return STOPPED if missing else 0


def check_shards(options):
    from ..tools.check import check, check_stamps

    words_of(options, 0)
    settings = settings_of(options.index)
    missing = set(range(settings.shards)) - set(shards_in(options.index))
    worst = max([check(shard_path(options.index, shard)) for shard in shards_in(options.index)], default=0)
    if missing:
        print(f"check: {options.index}: {len(missing):,} of {settings.shards:,} shards are not here: {sorted(missing)[0]}, ..")
        return SOME_MISSING
    if worst == 0 and os.path.exists(stamps_path(options.index)):
        with opened(options) as index:
            worst = check_stamps(options.index, {name: number for number, name in index.search("NOT name:! OR name:!")})
    return worst


DONE = {
    "make": make_shards,
    "stats": show_stats,
    "plan": show_plan,
    "move": move_shard,
    "split": split_shards,
    "copy": copy_shards,
    "check": check_shards,
}


def main(arguments=None):
    words = parser()
    options = words.parse_args(arguments)
    try:
        return DONE[options.what](options)
    except (BadUse, ValueError) as fault:
        words.print_usage(sys.stderr)
        say(fault)
        return BAD_USE
    except (Error, OSError, ImportError) as error:
        say(error)
        return STOPPED
    except KeyboardInterrupt:
        return 130
