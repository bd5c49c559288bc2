#!/usr/bin/env python3
"""Tests of `bunco web`: what it answers over HTTP, and the page in a browser, headless Chromium.

usage: tests/web.py [--program PATH] [NAME ..]

Without --program the fake program stands for the real one. Where Chromium is missing the tests of the page in a browser are left
out, and that is said. The variable PICTURES names a folder into which three pictures of the page are written.
"""

import contextlib
import html.parser
import http.client
import json
import os
import re
import signal
import socket
import subprocess
import sys
import tempfile
import threading
import unittest
import unittest.mock
from urllib.parse import quote

# It lets the others find the client of the checkout.
from support import BUNCO, PATIENCE, run_tests, until  # isort: skip

import fake
from browser import EVIL, LETTER, Browser, chromium
from buncocedar import Index
from buncocedar.shards import make, open_index
from buncocedar.web import answers
from buncocedar.web import server as web
from buncocedar.web.answers import Library, Piece, pieces_of
from buncocedar.web.markup import Markup, element, escaped
from buncocedar.web.questions import Busy, Questions

FAKE = fake.installed()
PROGRAM = FAKE
MAIL = LETTER + """From bob@x Tue Jan  2 09:00:00 2024
Message-ID: <second@x>
References: <none@x> <first@x>
In-Reply-To: <first@x>
From: Bob <bob@x>
Date: Tue, 2 Jan 2024 09:00:00 +0000
Subject: Re: The red fox

A quick reply.

"""
PICTURED = """From ann@example.org Mon Jan  1 09:00:00 2024
Message-ID: <first@example.org>
From: Ann <ann@example.org>
To: Bob <bob@example.org>
Date: Mon, 1 Jan 2024 09:00:00 +0000
Subject: A fox in the garden

Good morning Bob,

this night a red fox sat in our garden. Have you seen it, too?

From bob@example.org Tue Jan  2 09:00:00 2024
Message-ID: <reply@example.org>
References: <first@example.org>
From: Bob <bob@example.org>
To: Ann <ann@example.org>
Date: Tue, 2 Jan 2024 09:00:00 +0000
Subject: Re: A fox in the garden
Content-Type: text/plain; charset=utf-8

Yes: the fox has gone through the hole in the fence,
where the hedgehogs come in.

I leave the fence as it is.

"""
# A query with a fault: the fake program has it by what the query says.
FAULTY = "fault 8 Paren fox)"
# Elements and attributes that a page has, and no others.
ELEMENTS = set(
    "html head meta title link script body form a input select option button main p pre ol li h1 h2 span mark table tr td th "
    "details summary code kbd".split()
)
ATTRIBUTES = set(
    "lang charset name content rel href type title src defer id action method role class value placeholder aria-label autocomplete "
    "autocapitalize spellcheck autofocus maxlength selected aria-live".split()
)


class Outline(html.parser.HTMLParser):
    """The elements and attributes of a page, its links, and its text."""

    def __init__(self, page):
        super().__init__()
        self.elements, self.attributes, self.links, self.texts = set(), set(), [], []
        self.feed(page)
        self.close()

    def handle_starttag(self, tag, attributes):
        self.elements.add(tag)
        self.attributes |= {name for name, _ in attributes}
        self.links += [value for name, value in attributes if name in ("href", "src", "action")]

    def handle_data(self, data):
        self.texts.append(data)

    def text(self):
        return "".join(self.texts)


class Case(unittest.TestCase):
    def setUp(self):
        folder = tempfile.TemporaryDirectory()
        self.addCleanup(folder.cleanup)
        self.folder = folder.name
        self.path = os.path.join(folder.name, "x.alta")
        # On a busy machine some seconds are none.
        for patched in (
            unittest.mock.patch.dict(os.environ, {"BUNCOCEDAR_PROGRAM": PROGRAM}),
            unittest.mock.patch.object(answers, "SNIPPET_SECONDS", PATIENCE),
            unittest.mock.patch("buncocedar.web.questions.TURN_SECONDS", PATIENCE),
            unittest.mock.patch.object(web.Handler, "timeout", PATIENCE),
        ):
            patched.start()
            self.addCleanup(patched.stop)
        self.said = []

    def write(self, name, text):
        path = os.path.join(self.folder, name)
        os.makedirs(os.path.dirname(path), exist_ok=True)
        with open(path, "w", encoding="utf-8", errors="surrogateescape") as file:
            file.write(text)
        return path

    def bunco(self, *words):
        done = subprocess.run([sys.executable, BUNCO, *words], capture_output=True, text=True, timeout=PATIENCE)
        self.assertEqual(done.returncode, 0, done.stderr)

    def filled(self):
        """An index with two messages and two files."""
        self.bunco("mail", self.path, self.write("mail.mbox", MAIL))
        self.write("notes/a.txt", "first line\nthe quick brown fox\nlast line\n")
        self.write(f"notes/{EVIL.replace('/', '')}.txt", f"quick {EVIL}\n")
        self.bunco("folder", self.path, os.path.join(self.folder, "notes"))

    def many(self, count):
        with Index(self.path, create=True) as index:
            index.add_many((f"n{number}", "", "quick") for number in range(1, count + 1))

    def site(self, url="", **options):
        """A page over the index, served by a thread of this process."""
        questions = Questions(self.path, **{"patience": 0.2, "seconds": PATIENCE, **options})
        self.addCleanup(questions.close)
        server = web.Server(("127.0.0.1", 0), web.Site(Library(questions)), url, self.said.append)
        thread = threading.Thread(target=server.serve_forever, kwargs={"poll_interval": 0.02})
        thread.start()
        self.addCleanup(thread.join)
        self.addCleanup(server.server_close)
        self.addCleanup(server.shutdown)
        self.port = server.server_port
        return server

    def ask(self, target, status=200, method="GET", host=None, sent=None):
        """The body of a reply, whose headers are kept; a page has only what pages may have."""
        connection = http.client.HTTPConnection("127.0.0.1", self.port, timeout=PATIENCE)
        with contextlib.closing(connection):
            connection.request(method, target, sent, {} if host is None else {"Host": host})
            reply = connection.getresponse()
            body = reply.read().decode()
        self.headers = reply.headers
        self.assertIn(reply.status, status if isinstance(status, tuple) else (status,), body)
        for name, value in web.HEADERS.items():
            self.assertEqual(reply.headers[name], value)
        if reply.headers["Content-Type"] == web.HTML and body:
            outline = Outline(body)
            self.assertLessEqual(outline.elements, ELEMENTS)
            self.assertLessEqual(outline.attributes, ATTRIBUTES)
            self.assertTrue(all(link.startswith(("./", "#")) for link in outline.links), outline.links)
        return body

    def text(self, target, status=200):
        return Outline(self.ask(target, status)).text()

    def names(self, target):
        """The names that a page of answers has, and the address of the next one."""
        page = self.ask(target)
        following = re.search('href="([^"]*)" rel="next"', page)
        return re.findall(r"document\?name=(n[0-9]+)&", page), following and following[1].replace("&amp;", "&")[1:]


class Texts(unittest.TestCase):
    def test_every_text_is_escaped(self):
        self.assertEqual(escaped("<a href='x'>&\"\0\ud800\x1b"), "&lt;a href=&#x27;x&#x27;&gt;&amp;&quot;\ufffd\ufffd\ufffd")
        self.assertEqual(escaped("\u00a0\u65e5\t\n"), "\u00a0\u65e5\t\n")
        self.assertEqual(element("p", {"title": '"', "hidden": "", "id": None}, "<b>", Markup("<i>")), '<p title="&quot;" hidden>&lt;b&gt;<i></p>')

    def test_pieces(self):
        pieces = pieces_of("the red fox", [(0, 3), (8, 11)])
        self.assertEqual(pieces, [Piece("the", True), Piece(" red ", False), Piece("fox", True)])
        self.assertEqual(pieces_of("", []), [])


class Pages(Case):
    def test_answers(self):
        self.filled()
        self.site()
        self.assertIn("4 documents, ", self.text("/"))
        page = self.ask("/?q=quick")
        self.assertIn('<p class="count">4 documents</p>', page)
        self.assertIn('<a href="./document?name=first%40x&amp;q=quick">The &lt;red&gt; fox</a>', page)
        self.assertIn("2024-01-01 · Ann &lt;ann@x&gt;", page)
        self.assertIn("The <mark>quick</mark> red fox jumps", page)
        self.assertIn('<a href="./document?name=a.txt&amp;q=quick#L2">a.txt</a>', page)
        self.assertIn('<span class="number">2: </span>the <mark>quick</mark> brown fox', page)
        self.assertIn('value="quick"', page)
        self.assertIn("No document has that.", self.text("/?q=zebra"))
        # What is typed may be of any kind.
        for query in ("%3Cscript%3E", "%00", "%ff", "%F0%9F%A6%8A", "a" * 1_999):
            self.ask(f"/?q={query}", (200, 400))

    def test_hints(self):
        self.filled()
        self.site()
        hint = "or is a word here; OR is the operator"
        self.assertIn(f'<p class="hint">{hint}</p>', self.ask("/?q=quick+or+zebra"))
        self.assertEqual(json.loads(self.ask("/api/search?q=quick+or+zebra"))["hints"], [hint])
        self.assertNotIn("hint", self.ask("/?q=quick+zebra"))

    def test_faults(self):
        self.filled()
        self.site()
        # The fake program has the fault where the query says.
        query, place = ("fault 8 Paren \u65e5)", 8) if PROGRAM is FAKE else ("fox \u65e5)", 6)
        page = self.text(f"/?q={quote(query)}", 400)
        self.assertIn(f"a ) closes nothing, or a ( is not closed  {query}\n  {' ' * place}^", page)
        self.assertIn("at most 2,000 characters", self.text(f"/?q={'a' * 2_001}", 400))
        self.assertIn("no such page", self.text("/nothing", 404))
        self.assertIn("no address", self.text("/?" + "&".join(f"a{n}=1" for n in range(30)), 400))
        self.assertIn("no address", self.text(f"/?q={'a' * 20_000}", 400))
        for method in ("POST", "PUT", "DELETE", "OPTIONS"):
            self.ask("/", 501, method)
        # The reply comes also where the client is still sending.
        self.ask("/", 501, "POST", sent=b"a" * 8_000_000)

    def test_phrases(self):
        if PROGRAM is FAKE:
            self.skipTest("the fake program knows no phrases")
        self.filled()
        self.site()
        self.assertIn("  red AND\n         ^", self.text("/?q=red+AND", 400))
        self.assertIn("<mark>red fox</mark>", self.ask("/?q=%22red+fox%22"))

    def test_ids(self):
        if PROGRAM is FAKE:
            self.skipTest("the fake program knows no names")
        self.bunco("mail", self.path, self.write("mail.mbox", MAIL.replace("second@x", f"{'2' * 90}@x")))
        self.site()
        page = self.ask(f"/?q=id:%3C{'2' * 90}@x%3E")
        self.assertIn('<p class="count">1 document</p>', page)
        self.assertIn("Re: The red fox", page)

    def test_pages_of_answers(self):
        self.many(45)
        self.site()
        for order, last in (("newest", 45), ("best", None)):
            target, seen = f"/?q=quick&order={order}", []
            for wanted in (20, 20, 5):
                names, following = self.names(target)
                self.assertEqual(len(names), wanted)
                seen += names
                target = following
            self.assertIsNone(target)
            self.assertEqual(set(seen), {f"n{number}" for number in range(1, 46)})
            if last:
                self.assertEqual(seen[:2], ["n45", "n44"])

    def test_pages_of_shards(self):
        make(self.path, 3)
        with open_index(self.path) as index:
            for number in range(1, 46):
                index.add(f"n{number}", "", "quick")
        self.site()
        seen, target = [], "/?q=quick&order=newest"
        while target:
            names, target = self.names(target)
            seen += names
        self.assertEqual((len(seen), set(seen)), (45, {f"n{number}" for number in range(1, 46)}))
        self.assertEqual(len(self.names("/?q=quick")[0]), 20)

    def test_snippets_that_take_too_long(self):
        self.filled()
        self.site()
        with unittest.mock.patch.object(answers, "SNIPPET_SECONDS", 0):
            page = self.ask("/?q=quick")
        self.assertIn('<p class="count">4 documents</p>', page)
        self.assertNotIn("<mark>", page)

    def test_a_row_that_is_gone(self):
        self.many(45)
        site = self.site()
        names, following = self.names("/?q=quick&order=newest")
        with site.site.library.questions.asked() as index:
            index.delete(names[-1])
        self.assertEqual(self.names(following)[0], [f"n{number}" for number in range(25, 5, -1)])

    def test_what_is_added_meanwhile_comes_on_no_later_page(self):
        self.many(25)
        site = self.site()
        names, following = self.names("/?q=quick&order=newest")
        with site.site.library.questions.asked() as index:
            index.add("n99", "", "quick")
        self.assertEqual(self.names(following)[0], [f"n{number}" for number in range(5, 0, -1)])
        self.assertEqual(self.names("/?q=quick&order=newest")[0][0], "n99")

    def test_documents(self):
        self.filled()
        self.site()
        page = self.ask("/document?name=second%40x&q=quick")
        for text in ("<h1>Re: The red fox</h1>", "Bob &lt;bob@x&gt;", "<td>2024-01-02</td>", "A <mark>quick</mark> reply."):
            self.assertIn(text, page)
        # Of the messages that it answers the one that the index has.
        self.assertIn('<a href="./document?name=first%40x">first@x</a>', page)
        self.assertNotIn("none@x", page)
        page = self.ask("/document?name=a.txt&q=fox")
        self.assertIn('<span id="L2" class="line best">the quick brown <mark>fox</mark>\n</span>', page)
        self.assertIn(os.path.join(self.folder, "notes", "a.txt"), page)
        self.assertNotIn("<mark>", self.ask("/document?name=a.txt"))
        self.assertIn("From: Bob", self.ask("/raw?name=second%40x"))
        self.assertEqual(self.headers["Content-Type"], "text/plain; charset=utf-8")
        self.assertEqual(self.ask("/raw?name=a.txt"), "first line\nthe quick brown fox\nlast line\n")

    def test_what_is_no_document(self):
        self.filled()
        self.site()
        for name in ("", "none", "../x.alta", "/etc/passwd", "mail.mbox", "x.alta.stamps", "a.txt%00", "%2e%2e/x"):
            for page in ("document", "raw", "api/document"):
                self.ask(f"/{page}?name={name}", 404)
        for path in ("/x.alta", "/../x.alta", "/assets/style.css", "/style.css/", "//etc/passwd", "/server.py", "/%2e%2e/server.py"):
            self.ask(path, 404)
        os.remove(os.path.join(self.folder, "notes", "a.txt"))
        self.assertIn("gone", self.text("/document?name=a.txt", 404))
        self.assertIn("(gone)", self.text("/?q=brown"))

    def test_texts_that_are_no_texts(self):
        self.filled()
        self.site()
        page = self.ask("/?q=quick")
        self.assertIn("&lt;script&gt;window.hacked", page)
        name = re.search(r"name=(%3Cscript[^&]*|[^&]*script[^&]*)&amp;", page)[1]
        self.assertIn("&lt;script&gt;window.hacked = 1&lt;/script&gt;", self.ask(f"/document?name={name}&q=quick"))
        self.write("notes/binary.txt", "quick \x1b]0;x\x07 \udcff\n")
        self.bunco("folder", "--latin-1", self.path, os.path.join(self.folder, "notes"))
        self.assertIn("\ufffd]0;x\ufffd", self.ask("/document?name=binary.txt"))

    def test_nothing_is_written(self):
        self.filled()
        before = {name: os.stat(os.path.join(self.folder, name)).st_mtime_ns for name in os.listdir(self.folder)}
        self.site()
        for target in ("/", "/?q=quick", "/?q=quick&order=newest", "/document?name=first%40x&q=fox", "/api/search?q=fox", "/api/status"):
            self.ask(target)
        self.assertEqual(before, {name: os.stat(os.path.join(self.folder, name)).st_mtime_ns for name in os.listdir(self.folder)})

    def test_assets(self):
        self.many(1)
        self.site()
        for path, kind in web.ASSETS.items():
            self.assertTrue(self.ask(path))
            self.assertEqual(self.headers["Content-Type"], kind)
        self.assertEqual(self.ask("/?q=quick", method="HEAD"), "")
        self.assertGreater(int(self.headers["Content-Length"]), 1_000)


class Programs(Case):
    def test_json(self):
        self.filled()
        self.site()
        found = json.loads(self.ask("/api/search?q=quick&order=newest"))
        self.assertEqual((found["found"], found["order"], found["following"]), (4, "newest", ""))
        rows = {row["name"]: row for row in found["rows"]}
        self.assertEqual(rows["second@x"]["writer"], "Bob <bob@x>")
        self.assertEqual(rows["second@x"]["snippet"][1], {"text": "quick", "marked": True})
        self.assertEqual(rows["a.txt"]["line"], 2)
        self.assertEqual(json.loads(self.ask("/api/status"))["documents"], 4)
        shown = json.loads(self.ask("/api/document?name=second%40x"))
        self.assertEqual((shown["lines"], shown["linked"]), (["A quick reply."], [{"name": "first@x", "about": "first@x"}]))
        query, place = ("fault 2 Quote", 2) if PROGRAM is FAKE else ('"fox', 0)
        fault = json.loads(self.ask(f"/api/search?q={quote(query)}", 400))
        self.assertEqual(fault, {"fault": "a quote is not closed", "place": place})
        self.assertEqual(json.loads(self.ask("/api/nothing", 404))["place"], None)


class Hosts(Case):
    def test_names(self):
        self.many(1)
        self.site()
        # Also through a tunnel, which has another port, and from another machine, where others may reach it.
        for host in (f"127.0.0.1:{self.port}", "localhost:9000", "LOCALHOST", "[::1]:9000", "192.168.1.5:8033"):
            self.ask("/", host=host)
        named = f"evil.example:{self.port}"
        for host in ("evil.example", named, "localhost.evil.example", "127.0.0.1.evil.example", "[evil.example]", "a:b:c", ""):
            for target in ("/", "/api/search?q=quick", "/style.css"):
                self.ask(target, 421, host=host)

    def test_behind_another_web_server(self):
        self.many(1)
        self.site(url="https://search.example.org/mail/")
        self.ask("/", host="search.example.org")
        self.assertIn('template="https://search.example.org/mail/?q={searchTerms}"', self.ask("/opensearch.xml"))
        self.ask("/", 421, host="example.org")

    def test_a_browser_takes_it_as_a_search_engine(self):
        self.many(1)
        self.site()
        self.assertIn(f'template="http://127.0.0.1:{self.port}/?q={{searchTerms}}"', self.ask("/opensearch.xml"))
        self.assertIn('template="http://localhost:9000/?q={searchTerms}"', self.ask("/opensearch.xml", host="localhost:9000"))
        self.assertIn('href="./opensearch.xml" type="application/opensearchdescription+xml"', self.ask("/"))


class Limits(Case):
    def connect(self):
        connection = socket.create_connection(("127.0.0.1", self.port), timeout=PATIENCE)
        self.addCleanup(connection.close)
        return connection

    def test_clients(self):
        self.many(1)
        self.site()
        waiting = [self.connect() for _ in range(web.CLIENTS)]
        late = self.connect()
        self.assertTrue(late.recv(100).startswith(b"HTTP/1.0 503 "))
        for connection in waiting:
            connection.close()

        def is_free():
            with contextlib.suppress(OSError, AssertionError):
                self.ask("/")
                return True

        until(is_free)

    def test_a_client_that_says_nothing(self):
        self.many(1)
        with unittest.mock.patch.object(web.Handler, "timeout", 0.2):
            self.site()
            self.assertEqual(self.connect().recv(100), b"")
        self.assertEqual(self.said, [])

    def sent_in(self, seconds):
        """How many bytes a client sends, one now and then, before it is told the end: a server waits so many seconds for a request."""
        with unittest.mock.patch.object(web.Handler, "timeout", seconds):
            connection = self.connect()
            connection.setblocking(False)
            sent = 0

            def is_ended():
                nonlocal sent
                with contextlib.suppress(BlockingIOError):
                    if connection.recv(100) == b"":
                        return True
                connection.send(b"GET /"[sent : sent + 1] or b"x")
                sent += 1

            with contextlib.suppress(ConnectionError):
                until(is_ended)
        return sent

    def test_a_client_that_sends_a_byte_now_and_then(self):
        self.many(1)
        self.site()
        # Where the machine is busy, it may not come to send so many in half a second.
        self.assertTrue(any(self.sent_in(0.5 * 4**trial) > 5 for trial in range(4)))
        self.assertEqual(self.said, [])

    def test_a_client_that_has_gone(self):
        self.many(1)
        self.site()
        connection = self.connect()
        connection.sendall(b"GET / HTTP/1.0\r\n")
        connection.setsockopt(socket.SOL_SOCKET, socket.SO_LINGER, b"\1\0\0\0\0\0\0\0")
        connection.close()
        self.ask("/")
        self.assertEqual(self.said, [])

    def test_what_is_no_request(self):
        self.many(1)
        self.site()
        for line in (b"hello\r\n\r\n", b"GET / HTTP/9\r\n\r\n", b"GET " + b"/" * 70_000 + b" HTTP/1.0\r\n\r\n", b"GET x HTTP/1.0\r\n\r\n"):
            connection = self.connect()
            connection.sendall(line)
            self.assertIn(b"Content-Security-Policy", connection.recv(1 << 16), line[:10])

    def test_something_goes_wrong(self):
        self.many(1)
        site = self.site().site
        with unittest.mock.patch.object(site.library, "answers", side_effect=ZeroDivisionError("secret")):
            self.assertNotIn("secret", self.ask("/?q=x", 500))
            self.assertEqual(len(self.said), 1)


class Sharing(Case):
    def test_it_is_closed_while_nobody_asks(self):
        self.many(1)
        self.site(idle=0.1)
        self.ask("/?q=quick")
        with Index(self.path, patience=PATIENCE) as index:
            index.add("n2", "", "quick")
        self.assertEqual(len(self.names("/?q=quick")[0]), 2)

    def test_somebody_has_it(self):
        self.many(1)
        self.site(idle=0.1)
        with Index(self.path):
            self.assertIn(f"{self.path} is open in ", self.text("/?q=quick", 503))
            self.assertIn("is open in", json.loads(self.ask("/api/status", 503))["fault"])
        self.ask("/?q=quick")

    def test_beside_a_server(self):
        self.many(1)
        server = subprocess.Popen([sys.executable, BUNCO, "serve", self.path], stderr=subprocess.PIPE)
        self.addCleanup(server.stderr.close)
        self.addCleanup(server.wait)
        self.addCleanup(server.kill)
        server.stderr.readline()
        self.site()
        with Index(self.path) as index:
            self.ask("/?q=quick")
            index.add("n2", "", "quick")
            self.assertEqual(len(self.names("/?q=quick")[0]), 2)
        server.kill()
        server.wait()
        # The index is opened without it then.
        self.assertEqual(len(self.names("/?q=quick")[0]), 2)

    def test_many_at_once(self):
        self.many(30)
        self.site()
        faults = []

        def ask():
            try:
                for _ in range(5):
                    self.assertEqual(len(self.names("/?q=quick")[0]), 20)
            except Exception as error:
                faults.append(error)

        threads = [threading.Thread(target=ask) for _ in range(8)]
        for thread in threads:
            thread.start()
        for thread in threads:
            thread.join()
        self.assertEqual(faults, [])

    def test_a_question_that_takes_too_long(self):
        self.many(1)
        do = {"FAKE": json.dumps({"silent": 2})}
        with unittest.mock.patch.dict(os.environ, {"BUNCOCEDAR_PROGRAM": FAKE, **do}):
            if PROGRAM is not FAKE:
                self.skipTest("it needs the fake program")
            questions = Questions(self.path, seconds=0.5)
            self.addCleanup(questions.close)
            with self.assertRaises(Busy) as raised:
                with questions.asked() as index:
                    index.stats()
                    index.stats()
        self.assertIn("more than 0.5 seconds", str(raised.exception))
        questions.seconds = PATIENCE
        with questions.asked() as index:
            self.assertEqual(index.stats().documents, 1)


class Command(Case):
    def start(self, *words):
        command = [sys.executable, "-S", BUNCO, "web", *words]
        process = subprocess.Popen(command, stderr=subprocess.PIPE, text=True)
        self.addCleanup(process.stderr.close)
        self.addCleanup(process.wait)
        self.addCleanup(process.kill)
        return process

    def test_from_begin_to_end(self):
        self.many(1)
        for number, asks in ((signal.SIGINT, True), (signal.SIGTERM, True), (signal.SIGINT, False), (signal.SIGTERM, False)):
            process = self.start(self.path, "--port", "0")
            said = process.stderr.readline()
            self.port = int(re.fullmatch(r"web: the page is at http://127\.0\.0\.1:([0-9]+)/\n", said)[1])
            if asks:
                self.assertIn("1 document, ", self.text("/"))
            process.send_signal(number)
            self.assertEqual((process.wait(PATIENCE), process.stderr.read()), (0, ""))
            Index(self.path, patience=0).close()

    def test_refusals(self):
        self.many(1)
        process = self.start(os.path.join(self.folder, "none"))
        self.assertEqual((process.wait(PATIENCE), "no such file" in process.stderr.read()), (3, True))
        process = self.start(BUNCO)
        self.assertEqual((process.wait(PATIENCE), "holds something else" in process.stderr.read()), (3, True))
        with socket.create_server(("127.0.0.1", 0)) as other:
            process = self.start(self.path, "--port", str(other.getsockname()[1]))
            self.assertEqual((process.wait(PATIENCE), "in use" in process.stderr.read()), (3, True))
        for words, said in (
            (["--port", "70000"], "70000 is no port"),
            (["--port", "x"], "x is no port"),
            (["--url", "example.org"], "example.org is no address"),
            (["--url", "https://x/?q=1"], "is no address"),
        ):
            process = self.start(self.path, *words)
            self.assertEqual((process.wait(PATIENCE), said in process.stderr.read()), (2, True))

    def test_for_others(self):
        self.many(1)
        process = self.start(self.path, "--port", "0", "--listen", "0.0.0.0")
        self.assertEqual(process.stderr.readline(), "web: whoever reaches 0.0.0.0 may read every document\n")
        self.assertIn("the page is at", process.stderr.readline())


@unittest.skipIf(chromium() is None, "chromium is missing")
class InABrowser(Case):
    @classmethod
    def setUpClass(cls):
        cls.browser = Browser()
        cls.browser.__enter__()
        cls.addClassCleanup(cls.browser.__exit__, None, None, None)

    def begin(self, target="/"):
        self.filled()
        server = self.site()
        self.addCleanup(self.browser.leave)
        self.browser.show_as(1000, 700)
        self.browser.open(f"{server.address()[:-1]}{target}")
        return self.browser

    def test_answers_as_one_types(self):
        browser = self.begin()
        browser.until("document.activeElement.id === 'q'")
        browser.type("quick")
        browser.until("document.querySelectorAll('.answer').length === 4")
        browser.until("location.search === '?q=quick'")
        self.assertEqual(browser.value("document.activeElement.id"), "q")
        self.assertEqual(browser.value("document.querySelector('mark').textContent"), "quick")
        # The last one wins: the whole word is answered, and not a front of it.
        browser.type(" brown")
        browser.until("document.querySelectorAll('.answer').length === 1")
        self.assertEqual(browser.value("document.title"), "quick brown - Buncocedar")
        browser.until("location.search === '?q=quick+brown'")
        self.assertEqual(browser.complaints(), [])

    def test_what_is_typed_is_shown_as_what_is_loaded(self):
        browser = self.begin()
        for query in ("quick", "zebra", "quick or zebra", FAULTY if PROGRAM is FAKE else "fox \u65e5)"):
            browser.value("(box.value = '', box.focus())")
            browser.type(query)
            browser.until(f"location.search && asking === null && asked === addressOf({{ q: {json.dumps(query)}, order: 'best' }})")
            typed = browser.value("document.getElementById('main').innerHTML + document.title")
            browser.open(f"http://127.0.0.1:{self.port}/?q={quote(query)}")
            loaded = browser.value("document.getElementById('main').innerHTML + document.title")
            self.assertEqual(typed, loaded)

    def test_keys(self):
        browser = self.begin("/?q=quick&order=newest")
        browser.press("ArrowDown")
        browser.press("ArrowDown")
        second = browser.value("document.activeElement.textContent")
        self.assertEqual(second, browser.value("document.querySelectorAll('.answer h2 a')[1].textContent"))
        browser.press("k")
        browser.press("ArrowUp")
        self.assertEqual(browser.value("document.activeElement.id"), "q")
        browser.press("ArrowDown")
        browser.press("j")
        browser.press("/")
        self.assertEqual(browser.value("document.activeElement.id + document.activeElement.value"), "qquick")
        browser.press("ArrowDown")
        wanted = browser.value("document.activeElement.href")
        browser.press("Enter")
        browser.until(f"location.href === {json.dumps(wanted)}")
        browser.until("document.querySelector('h1') !== null")
        self.assertEqual(browser.complaints(), [])

    def test_a_document(self):
        browser = self.begin("/document?name=a.txt&q=fox#L2")
        self.assertEqual(browser.value("document.querySelector(':target').textContent.trim()"), "the quick brown fox")
        self.assertEqual(browser.value("document.querySelector('.best mark').textContent"), "fox")

    def test_no_text_does_anything(self):
        browser = self.begin("/?q=quick")
        self.assertIn("window.hacked", browser.value("document.body.textContent"))
        browser.press("ArrowDown")
        for number in range(4):
            browser.open(browser.value(f"document.querySelectorAll('.answer h2 a')[{number}].href"))
            self.assertIsNone(browser.value("window.hacked"))
            browser.open(f"http://127.0.0.1:{self.port}/?q=quick")
        self.assertIsNone(browser.value("window.hacked"))
        self.assertEqual(browser.complaints(), [])

    def test_light_and_dark_and_a_phone(self):
        browser = self.begin("/?q=quick")
        colours = set()
        for scheme in ("light", "dark"):
            browser.show_as(360, 640, scheme)
            colours.add(browser.value("getComputedStyle(document.documentElement).backgroundColor"))
            self.assertLessEqual(browser.value("document.documentElement.scrollWidth - innerWidth"), 0)
        self.assertEqual(len(colours), 2)

    def test_a_fault_as_one_types(self):
        browser = self.begin()
        browser.until("document.activeElement.id === 'q'")
        browser.type("fault 8 Paren x)")
        browser.until("document.querySelector('pre.fault') !== null")
        self.assertEqual(browser.value("document.activeElement.id"), "q")

    def test_somebody_has_it_as_one_types(self):
        browser = self.begin()
        until(lambda: self.text("/"))
        with Index(self.path, patience=PATIENCE):
            for query in ("quick", ""):
                browser.value(f"(box.value = {json.dumps(query)}, ask())")
                browser.until(f"asking === null && asked === addressOf({{ q: {json.dumps(query)}, order: 'best' }})")
                self.assertIn("is open in", browser.value("document.querySelector('.fault').textContent"))

    def test_without_scripts(self):
        browser = self.begin()
        browser.call("Emulation.setScriptExecutionDisabled", value=True)
        try:
            browser.call("Page.navigate", url=f"http://127.0.0.1:{self.port}/?order=newest")
            until(lambda: 'value="newest" selected' in browser.html() and browser.has("#q:focus"))
            browser.type("quick")
            browser.press("Enter")
            until(lambda: "The <mark>quick</mark> red fox" in browser.html())
            self.assertIn("?q=quick&order=newest", browser.call("Page.getNavigationHistory")["entries"][-1]["url"])
        finally:
            browser.call("Emulation.setScriptExecutionDisabled", value=False)

    def test_pictures(self):
        folder = os.environ.get("PICTURES")
        if not folder:
            self.skipTest("PICTURES names no folder")
        # Paths are shown from where the page was started.
        before = os.getcwd()
        os.chdir(self.folder)
        self.addCleanup(os.chdir, before)
        self.bunco("mail", self.path, self.write("mail.mbox", PICTURED))
        self.bunco("folder", self.path, os.path.dirname(self.write("notes/garden.txt", "sow peas\nthe fox was at the fence again\n")))
        address, browser = self.site().address(), self.browser
        self.addCleanup(browser.leave)
        browser.show_as(900, 560)
        browser.open(f"{address}?q=fox&order=newest")
        browser.picture(os.path.join(folder, "web-answers.png"))
        browser.open(f"{address}document?name=reply%40example.org&q=fence")
        browser.picture(os.path.join(folder, "web-message.png"))
        browser.open(f"{address}?q={quote(FAULTY)}")
        browser.show_as(400, 560, "dark")
        browser.picture(os.path.join(folder, "web-fault.png"))


def take_program(path):
    global PROGRAM
    PROGRAM = path


if __name__ == "__main__":
    if chromium() is None:
        print("web: without a browser, since chromium is missing: the page is not tested in one", file=sys.stderr)
    run_tests("web", take_program)
