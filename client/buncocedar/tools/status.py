"""Says what an index has: documents and words, levels and free room of its file, who has it open, and what was brought in.

INDEX is a file, a folder of shards, or the address of a scheduler whose workers have them. Of shards the figures are summed up, and
each one that is missing is named.

Nothing is read but the root of each file, the figures that the program gives, and the stamps that the imports keep beside the index.
Where the file may not be written, the program has a private copy of it.

The status is 0, and 3 where the index, or a shard of it, could not be asked: what the files say is said then all the same.
"""

import argparse
import collections
import json
import os
import re
import sys

from ..errors import Error
from ..fileformat import HEAD, Unusable, read_root
from ..growth import Growth
from ..holders import holder
from ..imports.stampfile import stamps_path
from ..imports.stamps import Records
from ..index import SECONDS_FOR_A_SERVER, Index
from ..links import FIGURES_LINE, asked
from ..shards import Missing, is_address, is_folder_of_shards, open_index, shard_path, shards_in
from .reading import Readable

STOPPED = 3
FIGURES = re.compile(rb"figures clients ([0-9]+) waiting ([0-9]+) cursors ([0-9]+)\n")


def parser():
    """What the words of the command may be."""
    parser = argparse.ArgumentParser(
        prog="bunco status", description=__doc__, formatter_class=argparse.RawDescriptionHelpFormatter
    )
    parser.add_argument("index", metavar="INDEX")
    parser.add_argument("--json", action="store_true", help="print an object, for other programs")
    parser.add_argument("--wait", metavar="SECONDS", type=float, default=0.0, help="how long to wait for who has it open")
    return parser


def say(text):
    print(f"status: {text}", file=sys.stderr)


def of_file(path):
    """What the file says: its bytes, how many of them nothing stands in, and its levels."""
    with open(path, "rb") as file:
        root = read_root(file)
        size = os.fstat(file.fileno()).st_size
    used = HEAD + sum(extent.length for extent in root.extents())
    return {"bytes": size, "free": max(0, size - used), "levels": len(root.levels)}


def of_program(path, patience):
    """What the program says: where the file may not be written, over a private copy."""
    with Readable(path, patience, say) as source, Index(source.place, patience=patience) as index:
        return index.stats()._asdict()


def of_server(path, patience):
    """What the server of the index says of its clients; nothing where none listens, or an older one.

    Raises `InUse` or `OSError` where it gives no answer for so many seconds, or for five where that is more.
    """
    seconds = max(patience, SECONDS_FOR_A_SERVER)
    told = FIGURES.fullmatch(asked(path, FIGURES_LINE, seconds) or b"")
    return {"server": dict(zip(("clients", "waiting", "cursors"), map(int, told.groups())))} if told else {}


def of_stamps(path):
    """What was brought in: of each source its kind, its path, and how many documents are its."""
    records = Records(stamps_path(path))
    known = (stamp for stamp in records.of.values() if stamp.source in records.sources)
    counts = collections.Counter((records.sources[stamp.source].kind, records.archive(stamp)) for stamp in known)
    return [{"kind": kind, "path": archive, "documents": count} for (kind, archive), count in sorted(counts.items())]


def of_shards(path, patience):
    """What the shards of an index say together, and why each one that is missing says nothing."""
    with open_index(path, patience=patience) as index:
        try:
            told, missing = index.stats_of_shards(), {}
        except Missing as lack:
            told, missing = lack.answer, lack.shards
    return {
        "shards": index.shards,
        "missing": missing,
        "documents": sum(stats.documents for stats in told.values()),
        "words": sum(stats.words for stats in told.values()),
    }


def of_files(folder):
    """What the files of a folder of shards say: their bytes, their free room, and the levels of the one that has most."""
    files = [of_file(shard_path(folder, shard)) for shard in shards_in(folder)]
    return {
        "bytes": sum(file["bytes"] for file in files),
        "free": sum(file["free"] for file in files),
        "levels": max((file["levels"] for file in files), default=0),
    }


def of_imports(path):
    """The sources that were brought in."""
    return {"sources": of_stamps(path)}


def looks(path, patience):
    """The ways to look at what stands there, each of which answers what it finds."""
    server, program, shards = (lambda path, of=of: of(path, patience) for of in (of_server, of_program, of_shards))
    if is_address(path):
        return shards, of_imports
    if is_folder_of_shards(path):
        return of_files, shards, of_imports
    return of_file, server, program, of_imports


def holders(path):
    """Who has the index open: of shards the first that is open, and how many others are. Of workers elsewhere nobody knows."""
    files = [shard_path(path, shard) for shard in shards_in(path)] if is_folder_of_shards(path) else [path]
    known = list(filter(None, map(holder, files)))
    if len(known) < 2:
        return known[0] if known else None
    return f"{known[0]}, and {len(known) - 1:,} more shards by others"


def shown(path, known):
    """The lines that say what is known of an index."""
    if "shards" in known:
        yield f"{path}: {known['documents']:,} documents of {known['words']:,} words in {known['shards'] - len(known['missing']):,} of {known['shards']:,} shards"
        for shard, why in known["missing"].items():
            yield f"{path}: shard {shard} is missing: {why}"
    elif "documents" in known:
        yield f"{path}: {known['documents']:,} documents of {known['words']:,} words; the next one gets the number {known['next']:,}"
    if "bytes" in known:
        yield f"{path}: {known['bytes']:,} bytes, of which {known['free']:,} are free room; levels: {known['levels']}"
    if "server" in known:
        # The client that asks is one of them.
        yield "{}: clients of its server: {clients:,}; lines that wait: {waiting:,}; open cursors: {cursors:,}".format(path, **known["server"])
    if known["holder"]:
        yield f"{path}: open in {known['holder']}"
    for source in known["sources"]:
        yield f"{path}: {source['documents']:,} documents by bunco {source['kind']} from {source['path']}"


def main(arguments=None):
    options = parser().parse_args(arguments)
    path, faults = options.index, []
    known = {"holder": holders(path), "sources": []}
    for look in looks(path, options.wait):
        try:
            known.update(look(path))
        except (Error, OSError, Unusable) as error:
            faults.append(error)
    if options.json:
        print(json.dumps({"index": path, **known}))
    else:
        print(*shown(path, known), sep="\n")
    Growth(path, say).put(0)
    for why in map(str, faults):
        say(why if path in why else f"{path}: {why}")
    return STOPPED if faults or known.get("missing") else 0
