"""Serves a page to search on, for the browser of this machine: its address is printed, and --open opens it.

Answers come as one types, best or newest first, with the lines that answer; a document is shown whole, with what was looked for
marked. The page only reads. While nobody asks the index is closed, so that an import can have it; where a server of the index
listens, it is asked through that. A file that may not be written is read by a private copy, which is made anew where that has changed.
JSON stands under `/api/`.

Only programs of this machine reach the page. Behind a web server of your own, which says who may read, --url is the address under
which that is reached. With --listen others reach it, too: whoever does may read every document.

An interrupt ends it. The status is 0 then, 2 for wrong words, and 3 where it could not be served.
"""

from __future__ import annotations

import argparse
import ipaddress
import signal
import sys
import webbrowser
from typing import Any, List, Optional
from urllib.parse import urlsplit

from .answers import Library
from .questions import Questions
from .server import Server, Site

STOPPED = 3


def port_of(text: str) -> int:
    if not text.isdecimal() or len(text) > 5 or int(text) > 65_535:
        raise argparse.ArgumentTypeError(f"{text} is no port, of 0 to 65535")
    return int(text)


def url_of(text: str) -> str:
    """An address of the web, with a `/` at its end."""
    parts = urlsplit(text)
    if parts.scheme not in ("http", "https") or not parts.netloc or "@" in parts.netloc or parts.query or parts.fragment:
        raise argparse.ArgumentTypeError(f"{text} is no address of the web, as https://example.org/mail/")
    return text if text.endswith("/") else f"{text}/"


def parser() -> argparse.ArgumentParser:
    """What the words of the command may be."""
    parser = argparse.ArgumentParser(
        prog="bunco web", description=__doc__, formatter_class=argparse.RawDescriptionHelpFormatter
    )
    parser.add_argument("index", metavar="INDEX", help="an index, or a folder of shards")
    parser.add_argument("--port", metavar="N", type=port_of, default=8033, help="the port, 8033 without this; 0 takes a free one")
    parser.add_argument("--open", action="store_true", help="open the page in the browser")
    parser.add_argument("--url", metavar="URL", type=url_of, help="where your own web server is reached that stands before it")
    parser.add_argument("--listen", metavar="ADDRESS", default="127.0.0.1", help="listen at another address of this machine, for others")
    parser.add_argument("--source", metavar="PATH", help="where the folder or archive stands, if it has moved since")
    return parser


def say(text: str) -> None:
    print(f"web: {text}", file=sys.stderr, flush=True)


def is_own(address: str) -> bool:
    """Whether only programs of this machine reach an address."""
    try:
        return ipaddress.ip_address(address).is_loopback
    except ValueError:
        return address == "localhost"


def end(number: int, frame: Any) -> None:
    raise KeyboardInterrupt


def serve(options: argparse.Namespace, questions: Questions) -> None:
    """Serves the page until an interrupt."""
    library = Library(questions, options.source)
    with Server((options.listen, options.port), Site(library), options.url or "", say) as server:
        if not is_own(options.listen):
            say(f"whoever reaches {options.listen} may read every document")
        try:
            # Whoever has read where the page is may end it.
            signal.signal(signal.SIGTERM, end)
            say(f"the page is at {server.address()}")
            if options.open:
                webbrowser.open(server.address())
            server.serve_forever(poll_interval=0.2)
        except KeyboardInterrupt:
            pass


def main(arguments: Optional[List[str]] = None) -> int:
    options = parser().parse_args(arguments)
    questions = Questions(options.index, say=say)
    try:
        refusal = questions.refusal()
        if refusal:
            say(refusal)
            return STOPPED
        serve(options, questions)
    except OSError as error:
        say(f"{options.listen}:{options.port}: {error.strerror or error}")
        return STOPPED
    finally:
        questions.close()
    return 0
