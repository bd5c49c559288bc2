"""The web server of the page: it answers whoever reaches it, under the names that it knows, and only to read.

Each client has a connection for each request, 32 at once at most. No file is given out but those of `assets/`, and the documents
that the stamps of the index name. A request under an unknown host name is refused: any web site can have a name that leads here, and
its scripts may read what they get under that. No site has an address in the place of a name.
"""

from __future__ import annotations

import contextlib
import http.server
import ipaddress
import json
import os
import socket
import sys
import threading
from typing import Any, Callable, Dict, NamedTuple, Optional, Tuple, Union
from urllib.parse import parse_qs, urlsplit

from .. import __version__
from ..document import TEXT_LIMIT
from ..imports.archives import raw_at
from . import pages
from .answers import Answer, Fault, Library, NotThere
from .questions import Busy

CLIENTS = 32  # at once
REQUEST_SECONDS = 10  # that a client has to send its request, and to take a piece of the reply
PIECE = 1 << 16  # bytes of a reply, at a time
REQUEST_LIMIT = 16_384  # bytes of an address
FIELDS = 20  # of an address
ASSETS = {
    "/style.css": "text/css; charset=utf-8",
    "/http.js": "text/javascript; charset=utf-8",
    "/page.js": "text/javascript; charset=utf-8",
    "/icon.svg": "image/svg+xml",
}
FOLDER = os.path.join(os.path.dirname(os.path.abspath(__file__)), "assets")
HTML = "text/html; charset=utf-8"
POLICY = (
    "default-src 'none'; style-src 'self'; script-src 'self'; img-src 'self'; connect-src 'self'; form-action 'self'; "
    "base-uri 'none'; frame-ancestors 'none'"
)
HEADERS = {
    "Content-Security-Policy": POLICY,
    "X-Content-Type-Options": "nosniff",
    "X-Frame-Options": "DENY",
    "Referrer-Policy": "no-referrer",
    "Cross-Origin-Opener-Policy": "same-origin",
    "Cross-Origin-Resource-Policy": "same-origin",
    "Cache-Control": "no-store",
}
OPEN_SEARCH = """<?xml version="1.0" encoding="UTF-8"?>
<OpenSearchDescription xmlns="http://a9.com/-/spec/opensearch/1.1/">
<ShortName>Buncocedar</ShortName>
<Description>Searches an index of Buncocedar</Description>
<InputEncoding>UTF-8</InputEncoding>
<Image width="32" height="32" type="image/svg+xml">{base}icon.svg</Image>
<Url type="text/html" template="{base}?q={{searchTerms}}"/>
</OpenSearchDescription>
"""


class Reply(NamedTuple):
    """What is answered to a request; `file_name` is that under which a browser keeps it."""

    status: int
    kind: str
    body: bytes
    file_name: str = ""


class Asked(NamedTuple):
    """What an address asks for; `base` is where people reach the page, with a `/` at its end."""

    path: str
    fields: Dict[str, str]
    base: str

    def field(self, name: str, default: str = "") -> str:
        return self.fields.get(name, default)

    def order(self) -> str:
        return "newest" if self.field("order") == "newest" else "best"


class Site:
    """What the server answers, by address."""

    def __init__(self, library: Library) -> None:
        self.library = library
        self.routes: Dict[str, Callable[[Asked], Reply]] = {
            "/": self.search,
            "/document": self.document,
            "/raw": self.raw,
            "/opensearch.xml": self.open_search,
            "/api/search": self.api_search,
            "/api/document": self.api_document,
            "/api/status": self.api_status,
        }

    def reply(self, asked: Asked) -> Reply:
        """The reply to a request: an error is one, too."""
        if asked.path in ASSETS:
            return asset(asked.path)
        route = self.routes.get(asked.path)
        is_api = asked.path.startswith("/api/")
        if route is None:
            return failure(404, "There is no such page.", is_api)
        try:
            return route(asked)
        except NotThere as why:
            return failure(404, str(why), is_api)
        except Busy as why:
            return failure(503, str(why), is_api)

    # -- Pages.

    def search(self, asked: Asked) -> Reply:
        query = asked.field("q").strip()
        if not query:
            stats = self.stats()
            return Reply(200, HTML, pages.welcome(stats["documents"], stats["words"], asked.order()))
        found = self.library.answers(query, asked.order(), asked.field("begin"))
        if isinstance(found, Fault):
            return Reply(400, HTML, pages.fault(found, asked.order()))
        return Reply(200, HTML, pages.answers(found))

    def document(self, asked: Asked) -> Reply:
        query = asked.field("q")
        return Reply(200, HTML, pages.document(self.library.shown(asked.field("name"), query), query))

    def raw(self, asked: Asked) -> Reply:
        """A document as it stands, as plain text: no browser takes it for anything else."""
        found = self.library.found(asked.field("name"))
        try:
            body = raw_at(found) if found.kind == "mail" else self.library.text(found).body.encode(errors="replace")
        except OSError as error:
            raise NotThere(f"its text can't be had: {error.strerror}") from None
        return Reply(200, "text/plain; charset=utf-8", body[:TEXT_LIMIT], "document.txt")

    def open_search(self, asked: Asked) -> Reply:
        """The description by which a browser takes the page as a search engine (OpenSearch 1.1)."""
        return Reply(200, "application/opensearchdescription+xml", OPEN_SEARCH.format(base=asked.base).encode())

    # -- For programs.

    def stats(self) -> Dict[str, int]:
        with self.library.questions.asked() as index:
            return index.stats()._asdict()

    def api_status(self, asked: Asked) -> Reply:
        return as_json(200, self.stats())

    def api_search(self, asked: Asked) -> Reply:
        found = self.library.answers(asked.field("q").strip(), asked.order(), asked.field("begin"))
        if isinstance(found, Fault):
            return as_json(400, {"fault": found.why, "place": found.place})
        return as_json(200, {**found._asdict(), "rows": [row_of(row, found.query) for row in found.rows]})

    def api_document(self, asked: Asked) -> Reply:
        shown = self.library.shown(asked.field("name"), asked.field("q"))
        lines = ["".join(piece.text for piece in line) for line in shown.lines]
        return as_json(200, {**shown._asdict(), "lines": lines, "linked": [link._asdict() for link in shown.linked]})


def row_of(row: Answer, query: str) -> Dict[str, Any]:
    """An answer for programs: its snippet is texts, each with whether it was looked for."""
    snippet = [{"text": piece.text, "marked": piece.is_marked} for piece in row.snippet]
    return {**row._asdict(), "snippet": snippet, "facts": pages.facts_of_answer(row), "link": pages.link_of(row, query)}


def as_json(status: int, value: Any) -> Reply:
    return Reply(status, "application/json", json.dumps(value).encode())


def failure(status: int, why: str, is_api: bool = False) -> Reply:
    return as_json(status, {"fault": why, "place": None}) if is_api else Reply(status, HTML, pages.failure(why))


def asset(path: str) -> Reply:
    with open(os.path.join(FOLDER, path[1:]), "rb") as file:
        return Reply(200, ASSETS[path], file.read())


def asked_of(target: str, base: str) -> Asked:
    """What the target of a request asks for. Raises `ValueError` where it is none."""
    if len(target) > REQUEST_LIMIT or not target.startswith("/"):
        raise ValueError("no address of this site")
    parts = urlsplit(target)
    fields = parse_qs(parts.query, max_num_fields=FIELDS, errors="replace")
    return Asked(parts.path, {name: values[0] for name, values in fields.items()}, base)


class Handler(http.server.BaseHTTPRequestHandler):
    """One request."""

    server: "Server"
    server_version = f"Buncocedar/{__version__}"
    sys_version = ""
    default_request_version = "HTTP/1.0"  # where a request says none, so that each reply has its headers
    timeout = REQUEST_SECONDS

    def setup(self) -> None:
        super().setup()
        # A client that sends a byte now and then would never be too late for one of them.
        self.patience = threading.Timer(self.timeout, self.break_off)
        self.patience.daemon = True
        self.patience.start()

    def break_off(self) -> None:
        """Takes no more from the client."""
        with contextlib.suppress(OSError):
            self.connection.shutdown(socket.SHUT_RD)

    def finish(self) -> None:
        super().finish()
        if getattr(self, "command", None) not in ("GET", "HEAD"):
            self.drop_body()
        self.patience.cancel()

    def drop_body(self) -> None:
        """Reads what the client still sends: a connection that is closed before is reset, and the reply may be lost with it."""
        with contextlib.suppress(OSError):
            self.connection.shutdown(socket.SHUT_WR)
            while self.connection.recv(PIECE):
                pass

    def do_GET(self) -> None:
        self.patience.cancel()
        self.give(self.reply())

    do_HEAD = do_GET

    def reply(self) -> Reply:
        """The reply to the request, whatever happens."""
        host = self.headers.get("Host", "").lower()
        if not self.server.knows(host):
            return failure(421, "This site has another name: start bunco web with --url, where it is reached by this one.")
        try:
            asked = asked_of(self.path, self.server.url or f"http://{host}/")
        except ValueError:
            return failure(400, "This is no address of this site.")
        try:
            return self.server.site.reply(asked)
        except Exception as error:
            self.server.say(f"{asked.path}: {error!r}")
            return failure(500, "Something went wrong; what it was stands where bunco web was started.")

    def give(self, reply: Reply) -> None:
        self.send_response(reply.status)
        self.send_header("Content-Type", reply.kind)
        self.send_header("Content-Length", str(len(reply.body)))
        if reply.file_name:
            self.send_header("Content-Disposition", f'inline; filename="{reply.file_name}"')
        for name, value in HEADERS.items():
            self.send_header(name, value)
        self.end_headers()
        if self.command != "HEAD":
            for begin in range(0, len(reply.body), PIECE):
                self.wfile.write(reply.body[begin : begin + PIECE])

    def send_error(self, code: int, message: Optional[str] = None, explain: Optional[str] = None) -> None:
        """What http.server refuses by itself, as an unknown method, in the form of all replies."""
        self.give(failure(code, message or self.responses[code][0]))

    def log_message(self, format: str, *arguments: Any) -> None:
        """Nothing: queries are nobody else's."""


class Server(http.server.ThreadingHTTPServer):
    """The listening socket; `url` is where a web server that stands before it is reached, empty where there is none."""

    request_queue_size = CLIENTS
    daemon_threads = True

    def __init__(self, place: Tuple[str, int], site: Site, url: str = "", say: Callable[[str], None] = print) -> None:
        self.address_family = socket.AF_INET6 if ":" in place[0] else socket.AF_INET
        super().__init__(place, Handler)
        self.say = say
        self.clients = threading.BoundedSemaphore(CLIENTS)
        self.url = url
        self.site = site

    def address(self) -> str:
        """Where the page is."""
        return self.url or f"http://{host_of(self.server_name)}:{self.server_port}/"

    def knows(self, host: str) -> bool:
        """Whether the page may be asked for under this host: an address, this machine's own name for itself, or the name of the URL."""
        name = host.partition("]")[0][1:] if host.startswith("[") else host.partition(":")[0]
        return name == "localhost" or is_address(name) or bool(host) and host == urlsplit(self.url).netloc.lower()

    def server_bind(self) -> None:
        """Without the look for this machine's name that http.server does, which may take long and is not needed."""
        socket_address: Union[Tuple[str, int], Any] = self.server_address
        if self.allow_reuse_address:
            self.socket.setsockopt(socket.SOL_SOCKET, socket.SO_REUSEADDR, 1)
        self.socket.bind(socket_address)
        self.server_address = self.socket.getsockname()
        self.server_name, self.server_port = str(self.server_address[0]), int(self.server_address[1])

    def process_request(self, request: Any, client_address: Any) -> None:
        """A thread for a client, where few are there; else it is told at once to come again."""
        if self.clients.acquire(blocking=False):
            try:
                super().process_request(request, client_address)
            except RuntimeError:
                # There are too many threads.
                self.clients.release()
                self.shutdown_request(request)
            return
        with contextlib.suppress(OSError):
            request.setblocking(False)
            request.send(b"HTTP/1.0 503 Service Unavailable\r\nRetry-After: 1\r\nContent-Length: 0\r\n\r\n")
        self.shutdown_request(request)

    def process_request_thread(self, request: Any, client_address: Any) -> None:
        try:
            super().process_request_thread(request, client_address)
        finally:
            self.clients.release()

    def handle_error(self, request: Any, client_address: Any) -> None:
        """A client that has gone, or that is too slow, is no fault of the server's."""
        error = sys.exc_info()[1]
        if not isinstance(error, (ConnectionError, TimeoutError, socket.timeout)):
            self.say(f"{error!r}")


def host_of(address: str) -> str:
    """An address as it stands in an URL."""
    return f"[{address}]" if ":" in address else address


def is_address(name: str) -> bool:
    """Whether a host is an address, and no name that somebody has."""
    try:
        ipaddress.ip_address(name)
    except ValueError:
        return False
    return True
