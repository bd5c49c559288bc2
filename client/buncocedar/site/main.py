"""Writes a site whose page searches by itself: a folder that any web server gives out, or that is opened as a file.

FOLDER is a new or an empty folder, or one that this command has made before: then what is old is taken away. It gets a page, the module
that searches, a copy of the index, and titles and texts of the documents, as far as they stand where they were brought in from. A
query stays in the browser. Which of the texts are loaded, the web server sees.

Whoever reads the site can read all words of the index, and the first 100,000 characters of each text. Nothing of deleted documents is in it.

With --base the title of an answer leads to the document itself: to this address with the document's place behind it, or in the place of
`{}`. The place is the path of a file below its folder, or else the name, as a Message-ID or a package. Without --base it shows the text
in the page. INDEX stays as it is.

The status is 0 where the site is there, 2 for wrong words, and 3 where it could not be made.
"""

from __future__ import annotations

import argparse
import json
import os
import sys
from typing import List, NamedTuple, Optional, Tuple
from urllib.parse import urlsplit

from ..errors import CAUSES, Error, NoFile
from ..fileformat import Unusable
from ..terminal import why
from ..tools.documents import Places
from ..web import pages
from ..web.markup import element
from ..web.server import FOLDER as SHARED
from .compacted import Compacted, compacted
from .documents import Documents, files_of
from .folder import FILES, Folder, Taken
from .module import NoModule, module

STOPPED = 3
ASSETS = os.path.join(os.path.dirname(os.path.abspath(__file__)), "assets")
SEARCHER = ("marks.js", "searcher.js", "worker.js")  # the scripts that a worker runs as one
# Where no server says it, the page says itself what it may load: its own files, and a module from them.
POLICY = (
    "default-src 'none'; style-src 'self'; script-src 'self' 'wasm-unsafe-eval'; worker-src 'self'; img-src 'self'; connect-src 'self'; "
    "form-action 'self'; base-uri 'none'"
)
NO_SCRIPTS = "This page searches by a script, which is not run here."
LOADING = "Loading the index"


class Made(NamedTuple):
    """A site: its documents, how many of them have a text, and the packed bytes that are loaded before the first answer."""

    documents: int
    texts: int
    loaded: int


def base_of(text: str) -> str:
    """The address below which the documents stand: of the web, or relative to the page."""
    if urlsplit(text).scheme not in ("", "http", "https") or not text:
        raise argparse.ArgumentTypeError(f"{text} is no address of the web, and no path below the page")
    return text


def parser() -> argparse.ArgumentParser:
    """What the words of the command may be."""
    parser = argparse.ArgumentParser(
        prog="bunco site", description=__doc__, formatter_class=argparse.RawDescriptionHelpFormatter
    )
    parser.add_argument("index", metavar="INDEX", help="an index, one file")
    parser.add_argument("folder", metavar="FOLDER", help="the folder of the site")
    parser.add_argument("--title", metavar="TITLE", default="Buncocedar", help="the name of the site, Buncocedar without this")
    parser.add_argument("--base", metavar="URL", type=base_of, help="where the documents are, below which links lead")
    parser.add_argument("--source", metavar="PATH", help="where the folder or archive stands, if it has moved since")
    return parser


def say(text: str) -> None:
    print(f"site: {text}", file=sys.stderr, flush=True)


def read(path: str) -> bytes:
    with open(path, "rb") as file:
        return file.read()


def scripts(names: List[str]) -> bytes:
    """Scripts as one, each of which sees what the ones before it have."""
    return b'"use strict";\n{\n' + b"\n".join(read(os.path.join(ASSETS, name)) for name in names) + b"}\n"


def put_data(folder: Folder, options: argparse.Namespace, code: bytes, index: Compacted) -> Tuple[str, Made]:
    """Writes the module, the index and what is known of its documents; answers the name of the table that has the others' names."""
    documents = Documents(index.rows, Places(options.index, options.source))
    texts = [(first, folder.put_packed("texts", data)[0]) for first, data in files_of(documents.records())]
    packed = {what: folder.put_packed(what, data) for what, data in (("module", code), ("index", index.data))}
    table = {
        "base": options.base or "",
        "causes": CAUSES,
        "parts": documents.parts,
        "texts": texts,
        **{what: {"name": name, "size": size} for what, (name, size) in packed.items()},
    }
    name, size = folder.put_packed("table", json.dumps(table).encode())
    loaded = size + sum(size for _, size in packed.values())
    return name, Made(len(index.rows) - len(documents.parts), documents.texts, loaded)


def page_of(title: str, table: str, folder: Folder) -> bytes:
    """The page, whose own files are written into the folder."""

    def put(path: str, name: str) -> str:
        stem, _, ending = name.partition(".")
        return f"{FILES}/{folder.put(stem, ending, read(os.path.join(path, name)))}"

    frame = pages.Frame(
        name=title,
        home="#",
        style=put(SHARED, "style.css"),
        icon=put(SHARED, "icon.svg"),
        search="",
        scripts=(put(ASSETS, "engine.js"), put(SHARED, "page.js")),
        policy=POLICY,
        data={"data-table": table, "data-searcher": folder.put("searcher", "js", scripts(list(SEARCHER)))},
    )
    loading = element("p", {"class": "count"}, LOADING, " ", element("progress", {"id": "progress"}))
    without = element("noscript", None, element("p", {"class": "fault"}, NO_SCRIPTS))
    return pages.page(title, "", "best", loading, without, frame=frame)


def make(options: argparse.Namespace) -> Made:
    """Makes the site that the words of the command ask for."""
    folder = Folder(options.folder)
    # Where one of these can't be had, nothing is written.
    code, index = module(), compacted(options.index)
    folder.begin()
    table, made = put_data(folder, options, code, index)
    folder.finish(page_of(options.title, table, folder))
    return made


def main(arguments: Optional[List[str]] = None) -> int:
    options = parser().parse_args(arguments)
    try:
        if not os.path.exists(options.index):
            raise NoFile(options.index)
        if os.path.isdir(options.index):
            raise Unusable(f"{options.index} is a folder: a site is made of one index, in one file")
        made = make(options)
    except (Taken, NoModule, Unusable, Error) as fault:
        say(str(fault))
        return STOPPED
    except OSError as error:
        say(why(error))
        return STOPPED
    except KeyboardInterrupt:
        return 130
    texts = "" if made.texts == made.documents else f", {made.texts:,} of them with their text"
    say(f"{pages.count(made.documents, 'document')}{texts}; {made.loaded:,} bytes are loaded before the first answer")
    return 0
