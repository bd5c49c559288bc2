"""An index of Buncocedar, from Python.

    with Index("notes.alta", create=True) as index:
        index.add("first", "Red Fox", "the quick red fox")
        for number, name in index.search('"red fox"'):
            print(number, name)

An `Index` starts the program, gives it command lines and reads its replies. A line that is refused raises a `Refused`, and
changed nothing; a program that ends raises an `Ended` for its status. `add`, `delete` and the other calls answer when the
program has; `send_add`, `send_delete` and `add_all` keep many lines under way at a time. Needs a POSIX system, Python 3.9
and its standard library.
"""

from __future__ import annotations

import importlib
from typing import TYPE_CHECKING, Any

if TYPE_CHECKING:
    from .asynchronous import AsyncCursor, AsyncIndex
    from .cursors import Cursor
    from .errors import (
        BadLine,
        BadName,
        Closed,
        Damaged,
        DiskFault,
        Ended,
        Error,
        Full,
        IndexExists,
        InputFault,
        InputTooLong,
        InUse,
        LineTooLong,
        NoFile,
        NoIndex,
        NoNumbersLeft,
        NoSuchCursor,
        NoSuchDocument,
        NotUtf8,
        OutOfMemory,
        OutputFault,
        ProtocolFault,
        QueryFault,
        Refused,
        ServerEnded,
        TooManyCursors,
        UnknownCommand,
        Usage,
        disk_cause,
    )
    from .holders import holder
    from .index import Index
    from .lines import LINE_LIMIT, add_line, value_range
    from .links import default_program, server_path
    from .replies import MOST_BEST, Added, Dumped, Page, Reply, Scored, Skipped, Stats, Top
    from .texts import marked, name_ok
    from .wording import phrase, words

# The module of each name. It is loaded when the name is asked for: who counts answers needs a third of them.
_HOMES = {
    "asynchronous": "AsyncCursor AsyncIndex",
    "cursors": "Cursor",
    "errors": "BadLine BadName Closed Damaged DiskFault Ended Error Full IndexExists InputFault InputTooLong InUse LineTooLong NoFile "
    "NoIndex NoNumbersLeft NoSuchCursor NoSuchDocument NotUtf8 OutOfMemory OutputFault ProtocolFault QueryFault Refused "
    "ServerEnded TooManyCursors UnknownCommand Usage disk_cause",
    "holders": "holder",
    "index": "Index",
    "lines": "LINE_LIMIT add_line value_range",
    "links": "default_program server_path",
    "replies": "MOST_BEST Added Dumped Page Reply Scored Skipped Stats Top",
    "texts": "marked name_ok",
    "wording": "phrase words",
}
_HOME_OF = {name: module for module, names in _HOMES.items() for name in names.split()}

__version__ = "0.8.0"
__all__ = [
    "Added",
    "AsyncCursor",
    "AsyncIndex",
    "BadLine",
    "BadName",
    "Closed",
    "Cursor",
    "Damaged",
    "DiskFault",
    "Dumped",
    "Ended",
    "Error",
    "Full",
    "InUse",
    "Index",
    "IndexExists",
    "InputFault",
    "InputTooLong",
    "LINE_LIMIT",
    "LineTooLong",
    "MOST_BEST",
    "NoFile",
    "NoIndex",
    "NoNumbersLeft",
    "NoSuchCursor",
    "NoSuchDocument",
    "NotUtf8",
    "OutOfMemory",
    "OutputFault",
    "Page",
    "ProtocolFault",
    "QueryFault",
    "Refused",
    "Reply",
    "Scored",
    "ServerEnded",
    "Skipped",
    "Stats",
    "TooManyCursors",
    "Top",
    "UnknownCommand",
    "Usage",
    "add_line",
    "default_program",
    "disk_cause",
    "holder",
    "marked",
    "name_ok",
    "phrase",
    "server_path",
    "value_range",
    "words",
]


def __getattr__(name: str) -> Any:
    """Loads the module that has this name, or is called so."""
    if name in _HOMES:
        return importlib.import_module(f".{name}", __name__)
    if name not in _HOME_OF:
        raise AttributeError(f"module {__name__!r} has no attribute {name!r}")
    value = globals()[name] = getattr(importlib.import_module(f".{_HOME_OF[name]}", __name__), name)
    return value


def __dir__() -> Any:
    return sorted({*globals(), *__all__})
