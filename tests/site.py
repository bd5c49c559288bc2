#!/usr/bin/env python3
"""Tests of `bunco site`: the folder that it writes, its searcher in Node, and its page in a browser, headless Chromium.

usage: tests/site.py [--program PATH] [NAME ..]

The replies of the WebAssembly module are compared with those of the program, and the answers of the page with those of `bunco web`. Where
Node, Chromium or the module is missing, what needs it is left out, and that is said. The variable SEED has the seed of the random scripts.
"""

import base64
import contextlib
import functools
import gzip
import hashlib
import http.server
import io
import json
import os
import random
import re
import shutil
import subprocess
import sys
import tempfile
import threading
import unicodedata
import unittest
import unittest.mock

# It lets the others find the client of the checkout.
from support import BUNCO, PATIENCE, run_lines, run_tests  # isort: skip

import demo
import work
from browser import EVIL, LETTER, Browser, chromium
from buncocedar import Index
from buncocedar.copying import copy_into
from buncocedar.site import main, module
from buncocedar.site.documents import FILE_SIZE, KEPT
from buncocedar.web import server as web
from buncocedar.web.answers import Fault, Library
from buncocedar.web.questions import Questions

PROGRAM = None
NODE = shutil.which("node") or shutil.which("nodejs")
MEMORY = "/dev/shm" if os.access("/dev/shm", os.W_OK) else None
LINES = 10_000  # of random scripts, at least
DOCUMENTS = 2_000  # of the generated run
MAIL = LETTER + """From bob@x Tue Jan  2 09:00:00 2024
Message-ID: <a/second@x>
From: Bob <bob@x>
Date: Tue, 2 Jan 2024 09:00:00 +0000
Subject: Re: The red fox

A quick reply.

"""


def module_or_none():
    with contextlib.suppress(module.NoModule):
        return module.module_path()


MODULE = module_or_none()


class Node:
    """The searcher of a site, in Node."""

    def __init__(self):
        script = os.path.join(os.path.dirname(os.path.abspath(__file__)), "in_node.js")
        self.process = subprocess.Popen([NODE, script], stdin=subprocess.PIPE, stdout=subprocess.PIPE, text=True, encoding="utf-8")

    def call(self, call, argument=None):
        self.process.stdin.write(json.dumps({"call": call, "argument": argument}) + "\n")
        self.process.stdin.flush()
        line = self.process.stdout.readline()
        if not line:
            raise AssertionError(f"node has ended in {call}")
        return json.loads(line)

    def close(self):
        self.process.stdin.close()
        self.process.stdout.close()
        self.process.wait(PATIENCE)


class Case(unittest.TestCase):
    def setUp(self):
        folder = tempfile.TemporaryDirectory(dir=MEMORY)
        self.addCleanup(folder.cleanup)
        self.folder = folder.name
        self.path = os.path.join(self.folder, "x.alta")
        self.site = os.path.join(self.folder, "site")
        variables = {"BUNCOCEDAR_PROGRAM": PROGRAM, "BUNCOCEDAR_MODULE": MODULE or self.write("none.wasm", "\0asm\1\0\0\0")}
        # On a busy machine two seconds are none.
        for patched in (unittest.mock.patch.dict(os.environ, variables), unittest.mock.patch("buncocedar.web.answers.SNIPPET_SECONDS", PATIENCE)):
            patched.start()
            self.addCleanup(patched.stop)

    def write(self, name, text):
        path = os.path.join(self.folder, name)
        os.makedirs(os.path.dirname(path), exist_ok=True)
        with open(path, "w", encoding="utf-8", errors="surrogateescape") as file:
            file.write(text)
        return path

    def read(self, name):
        with open(os.path.join(self.site, name), "rb") as file:
            return file.read()

    def bunco(self, *words, status=0):
        """What a command says on its standard error."""
        done = subprocess.run([sys.executable, BUNCO, *words], capture_output=True, text=True, timeout=PATIENCE)
        self.assertEqual(done.returncode, status, done.stderr)
        return done.stderr

    def filled(self):
        """An index with two messages and three files."""
        self.bunco("mail", self.path, self.write("mail.mbox", MAIL))
        self.write("notes/a.txt", "first line\nthe quick brown fox\nlast line\n")
        self.write("notes/sub/b #1.txt", "quick Straße und STRASSE\n")
        self.write(f"notes/{EVIL.replace('/', '')}.txt", f"quick {EVIL}\n")
        self.bunco("folder", self.path, os.path.join(self.folder, "notes"))

    def made(self, *words):
        return self.bunco("site", self.path, self.site, *words)

    def named(self):
        """The names of the table and of the searcher, as the page has them."""
        page = self.read("index.html").decode()
        return [re.search(f'data-{what}="([^"]*)"', page)[1] for what in ("table", "searcher")]

    def table(self):
        return json.loads(self.unpacked(self.named()[0]))

    def unpacked(self, name):
        return gzip.decompress(self.read(f"files/{name}"))

    def unpacked_index(self):
        """The path of the index that the site has."""
        path = os.path.join(self.folder, "unpacked.alta")
        with open(path, "wb") as file:
            file.write(self.unpacked(self.table()["index"]["name"]))
        return path

    def records(self):
        """The records of the site by number."""
        return {record[0]: record for _, name in self.table()["texts"] for record in json.loads(self.unpacked(name))}

    def files(self):
        return {name: self.read(f"files/{name}") for name in os.listdir(os.path.join(self.site, "files"))}


class Folders(Case):
    def test_contents(self):
        self.filled()
        self.assertEqual(self.made("--title", "Mail <us>")[:18], "site: 5 documents;")
        self.assertEqual(sorted(os.listdir(self.site)), ["bunco-site.json", "files", "index.html"])
        page = self.read("index.html").decode()
        self.assertIn("<title>Mail &lt;us&gt;</title>", page)
        self.assertIn("default-src &#x27;none&#x27;", page)
        files = self.files()
        # Each name has the digest of what the file holds, so that none is kept too long.
        for name, data in files.items():
            self.assertRegex(name, r"\A[a-z]+\.[0-9a-f]{16}\.[a-z]+(\.js)?\Z")
            if name.endswith(".bin.js"):
                self.assertIn(name[:-3], files)
            else:
                self.assertEqual(name.split(".")[1], hashlib.sha256(data).hexdigest()[:16])
        for name in re.findall(r'(?:href|src)="(files/[^"]*)"', page):
            self.assertIn(name.partition("/")[2], files)
        # A script brings the same bytes.
        name = self.table()["index"]["name"]
        text = re.fullmatch(r'\(globalThis\.buncoFiles \?\?= \{\}\)\["(.*)"\] = "(.*)";\n', files[f"{name}.js"].decode())
        self.assertEqual((text[1], text[2].encode()), (name, base64.b64encode(files[name])))

    def test_records(self):
        self.filled()
        self.made()
        found = self.records()
        self.assertEqual(found[1][2:6], ["The <red> fox", ["2024-01-01", "Ann <ann@x>"], [["From", "Ann <ann@x>"], ["To", "Bob <bob@x>"], ["Date", "2024-01-01"]], "first%40x"])
        self.assertEqual(found[2][5], "a%2Fsecond%40x")
        self.assertEqual({record[5] for record in found.values() if record[1] == "folder"} >= {"a.txt", "sub/b%20%231.txt"}, True)
        # Where the files stand on this machine is nobody's business.
        for name, data in self.files().items():
            self.assertNotIn(self.folder.encode(), gzip.decompress(data) if name.endswith(".bin") else data)

    def test_again(self):
        self.filled()
        self.made()
        before = self.files()
        self.made()
        self.assertEqual(self.files(), before)
        # What is not the command's is left alone; what is old goes.
        self.write("site/CNAME", "example.org\n")
        self.write("site/files/own.txt", "mine\n")
        self.write("notes/new.txt", "a new file\n")
        self.bunco("folder", self.path, os.path.join(self.folder, "notes"))
        self.made()
        after = self.files()
        self.assertEqual(after.pop("own.txt"), b"mine\n")
        self.assertEqual(self.read("CNAME"), b"example.org\n")
        self.assertEqual(len(after), len(before))
        changed = {name.split(".")[0] for name in set(before) - set(after)}
        self.assertEqual(changed, {"index", "table", "texts"})

    def test_a_stop_leaves_the_site_that_is_there(self):
        self.filled()
        self.made()
        page, before = self.read("index.html"), self.files()
        self.write("notes/new.txt", "a new file\n")
        self.bunco("folder", self.path, os.path.join(self.folder, "notes"))
        os.makedirs(os.path.join(self.site, "index.html.new"))
        self.made_not("index.html.new")
        self.assertEqual(self.read("index.html"), page)
        self.assertLessEqual(before.items(), self.files().items())
        os.rmdir(os.path.join(self.site, "index.html.new"))
        self.made()
        self.assertEqual(len(self.files()), len(before))

    def made_not(self, said):
        self.assertIn(said, self.bunco("site", self.path, self.site, status=3))

    def test_refusals(self):
        self.filled()
        self.write("site/notes.txt", "mine\n")
        self.made_not("holds something else")
        self.assertEqual(os.listdir(self.site), ["notes.txt"])
        self.write("site/bunco-site.json", "{}\n")
        self.made_not("holds something else")
        shutil.rmtree(self.site)
        self.write("site", "mine\n")
        self.made_not("holds something else")
        os.remove(self.site)
        for words in (["--base", "javascript:alert(1)"], ["--base", ""], []):
            self.bunco("site", self.path, *([self.site] if words else []), *words, status=2)
        self.assertIn("no such file", self.bunco("site", self.path + "x", self.site, status=3))
        self.assertIn("is a folder", self.bunco("site", self.folder, self.site, status=3))
        self.assertIn("no index", self.bunco("site", self.write("y.alta", "no index"), self.site, status=3))
        for variable, said in (("/nowhere/at.wasm", "No such file"), (self.path, "is no WebAssembly module")):
            with unittest.mock.patch.dict(os.environ, {"BUNCOCEDAR_MODULE": variable}):
                self.made_not(said)
        at_once = unittest.mock.patch("buncocedar.site.compacted.copy_into", functools.partial(copy_into, patience=0))
        with Index(self.path), at_once, contextlib.redirect_stderr(io.StringIO()) as told:
            self.assertEqual(main.main([self.path, self.site]), 3)
        self.assertIn("is in use", told.getvalue())
        self.assertFalse(os.path.exists(self.site))

    def test_the_module_is_looked_for(self):
        missing = FileNotFoundError(2, "it is not here", module.NAME)
        with unittest.mock.patch.dict(os.environ), unittest.mock.patch.object(module, "released", side_effect=missing):
            del os.environ["BUNCOCEDAR_MODULE"]
            with self.assertRaises(module.NoModule) as raised:
                module.module()
        self.assertIn("it is not here; BUNCOCEDAR_MODULE", str(raised.exception))

    def hides(self, deleted):
        """Makes a site, which has the one document that is there, and nothing of the words of these."""
        with open(self.path, "rb") as file:
            before = file.read()
        self.made()
        with open(self.path, "rb") as file:
            self.assertEqual(file.read(), before)
        data = self.unpacked(self.table()["index"]["name"])
        for word, is_there in ((b"openly", True), *((word, False) for word in deleted)):
            self.assertEqual((word in before, word in data), (True, is_there), word)
        copy = self.unpacked_index()
        self.assertEqual(run_lines(PROGRAM, copy, ["count openly", "stats"])[1][0], "found 1")
        self.bunco("check", copy)

    def test_nothing_of_deleted_documents(self):
        with Index(self.path, create=True) as index:
            index.add("gone", "", "secretly")
            index.flush()
            index.add("gonetoo", "", "hiddenly")
            index.add("here", "", "openly")
            index.delete("gone")
            index.delete("gonetoo")
            index.flush()
        self.hides((b"secretly", b"hiddenly"))

    def test_nothing_of_an_older_journal(self):
        with Index(self.path, create=True) as index:
            index.add("gone", "", "secretly")
            index.delete("gone")
            index.flush()
            index.add("here", "", "openly")
            index.flush()
        # There is one level, and nothing to merge.
        self.hides((b"secretly",))

    def test_texts_that_are_gone(self):
        self.filled()
        os.remove(os.path.join(self.folder, "notes", "a.txt"))
        with Index(self.path) as index:
            index.add("alone", "", "quick")
        self.assertIn("6 documents, 4 of them with their text", self.made())
        gone = next(record for record in self.records().values() if record[2] == "a.txt")
        self.assertEqual(gone[6:], ["", "", False, False])

    def test_a_stamp_of_another_document(self):
        self.filled()
        with Index(self.path) as index:
            number = index.add("a.txt", "", "quick, and not the file of this name")
        self.assertIn("5 documents, 4 of them with their text", self.made())
        self.assertEqual((self.table()["parts"], number in self.records()), ([], False))

    def test_packed_mail_and_long_texts(self):
        with gzip.open(os.path.join(self.folder, "mail.mbox.gz"), "wt") as file:
            file.write(MAIL)
        self.bunco("mail", self.path, os.path.join(self.folder, "mail.mbox.gz"))
        self.write("notes/long.txt", f"{'long ' * KEPT}\n")
        for number in range(4):
            self.write(f"notes/{number}.txt", f"{number} {'x' * (FILE_SIZE // 2)}\n")
        self.bunco("folder", self.path, os.path.join(self.folder, "notes"))
        self.made()
        found = {record[2]: record for record in self.records().values()}
        self.assertEqual(found["Re: The red fox"][7], "A quick reply.\n\n")
        self.assertEqual([(len(record[7]), record[9]) for record in (found["long.txt"], found["1.txt"])], [(KEPT, True), (FILE_SIZE // 2 + 3, False)])
        self.assertEqual(len(self.table()["texts"]), 3)


@unittest.skipIf(NODE is None, "node is missing")
class InNode(Case):
    """The searcher gives the answers that `bunco web` gives; the program stands for the module where that is missing."""

    def opened(self):
        node = Node()
        self.addCleanup(node.close)
        table, searcher = self.named()
        native = {} if MODULE else {"program": PROGRAM, "index": self.unpacked_index()}
        node.call("open", {"folder": os.path.join(self.site, "files"), "table": table, "searcher": searcher, **native})
        return node

    def library(self):
        questions = Questions(self.path, seconds=PATIENCE)
        self.addCleanup(questions.close)
        return Library(questions)

    def compare(self, node, library, query, order, begin=""):
        """The answers of both, which have to be the same; they are those of the site."""
        found = library.answers(query, order, begin)
        said = node.call("ask", {"q": query, "order": order, "begin": begin})
        if isinstance(found, Fault):
            self.assertEqual(said, {"fault": found.why, "place": found.place}, query)
            return said
        self.assertEqual((said["query"], said["order"], said["found"], said["following"]), (query, order, found.found, found.following))
        for mine, row in zip(said["rows"], found.rows):
            wanted = web.row_of(row, query)
            for name in ("number", "name", "score", "kind", "title", "line", "snippet"):
                self.assertEqual(mine[name], wanted[name], f"{query}, {order}: {name}")
        self.assertEqual(len(said["rows"]), len(found.rows))
        return said

    def test_answers(self):
        self.filled()
        self.made()
        node, library = self.opened(), self.library()
        queries = ["quick", "fox", '"red fox"', "qu*", "strasse", "Straße", "STRASSE", "red NEAR/2 fox", "title:red", "quick NOT fox", "quick NOT title:fox", "name:a.txt"]
        queries += ["ann", "from:bob", "zebra", "und OR lazy", '"line the"', "hacked", "value:20240101..20240101", "", "fox AND", "日)", "(", '"', "a*"]
        for query in queries:
            for order in ("best", "newest"):
                self.compare(node, library, query, order)
        self.assertIn("at most 2,000 characters", self.compare(node, library, "a" * 2_001, "best")["fault"])
        self.assertEqual(node.call("stats")["documents"], 5)

    def test_pages_of_answers(self):
        with Index(self.path, create=True) as index:
            index.add_many((f"n{number}", "", "quick " * (number % 7 + 1)) for number in range(1, 46))
        self.made()
        node, library = self.opened(), self.library()
        for order in ("best", "newest"):
            seen, begin = [], ""
            while True:
                said = self.compare(node, library, "quick", order, begin)
                seen += [row["name"] for row in said["rows"]]
                begin = said["following"]
                if not begin:
                    break
            self.assertEqual((len(seen), set(seen)), (45, {f"n{number}" for number in range(1, 46)}))
        # A row that is not there, and what is no number.
        for begin in ("20", "1000", "99999999999999999999", "x", "-1"):
            self.compare(node, library, "quick", "newest", begin)
            self.compare(node, library, "quick", "best", begin)

    def test_documents_in_parts(self):
        self.write("notes/long.txt", "".join(f"word{number} quick\n" for number in range(30_000)))
        self.write("notes/short.txt", "quick\n")
        self.bunco("folder", self.path, os.path.join(self.folder, "notes"))
        with Index(self.path) as index:
            self.assertGreater(index.count("quick"), 2)
        self.made()
        node, library = self.opened(), self.library()
        for query in ("quick", "word29999", "word1 OR word29999"):
            for order in ("best", "newest"):
                found = library.answers(query, order, "")
                said = node.call("ask", {"q": query, "order": order})
                self.assertEqual([(row["number"], row["name"], row["title"]) for row in said["rows"]], [(row.number, row.name, row.title) for row in found.rows])
                self.assertEqual(said["found"], found.found)

    def test_the_line_that_answers_best(self):
        self.write("notes/lines.txt", "red\nblue red\nfox red\nbrown and slow\nthe slow\nbrown dog\n")
        self.bunco("folder", self.path, os.path.join(self.folder, "notes"))
        self.made()
        node, library = self.opened(), self.library()
        # The line with most of the words, that in which a phrase begins that goes on in the next, and one for a part of a word.
        for query, line in (("red fox", 3), ('"slow brown"', 5), ("dog OR lines", 6), ("bro*", 4)):
            self.assertEqual([row["line"] for row in self.compare(node, library, query, "best")["rows"]], [line])

    def test_long_lines(self):
        line = "été 🦊 ß " * 60 + "the red-fox İstanbul " + "ﬁn \u1e9e " * 60
        self.write("notes/line.txt", f"one\n{line}\nred\nfox\n")
        self.bunco("folder", self.path, os.path.join(self.folder, "notes"))
        self.made()
        node, library = self.opened(), self.library()
        for query in ('"red fox"', "fin", "ss", "istanbul", "ÉTÉ", "red", '"fox i̇stanbul"'):
            self.compare(node, library, query, "best")

    def test_links(self):
        self.filled()
        for base, wanted in (
            ("https://example.org/", {"https://example.org/first%40x", "https://example.org/a%2Fsecond%40x", "https://example.org/sub/b%20%231.txt"}),
            ("../{}?raw", {"../first%40x?raw", "../a%2Fsecond%40x?raw", "../sub/b%20%231.txt?raw"}),
        ):
            self.made("--base", base)
            links = {row["link"] for row in self.opened().call("ask", {"q": "quick", "order": "best"})["rows"]}
            self.assertLessEqual(wanted, links)
        self.made()
        node = self.opened()
        rows = node.call("ask", {"q": "brown fox", "order": "best"})["rows"]
        self.assertEqual([row["link"] for row in rows], [f"#document={rows[0]['number']}&q=brown+fox&order=best"])
        shown = node.call("shown", {"document": str(rows[0]["number"]), "q": "brown fox"})
        self.assertEqual((shown["title"], shown["kind"], shown["best"], shown["cut"]), ("a.txt", "folder", 2, False))
        self.assertEqual([piece["text"] for piece in shown["lines"][1] if piece["marked"]], ["brown", "fox"])
        self.assertEqual(len(shown["lines"]), 3)
        for number in ("0", "99", "x", ""):
            self.assertIn("no document", node.call("shown", {"document": number, "q": ""})["fault"])

    def test_folding(self):
        self.filled()
        self.made()
        node = self.opened()
        came = dict(node.call("folded", {"from": 0, "to": 0x20000}))
        # Cherokee folds to its large letters, and a newer Unicode than Python's has more.
        known = [chr(code) for code in range(0x20000) if unicodedata.category(chr(code)) not in ("Cn", "Cs")]
        others = [one for one in known if not unicodedata.name(one, "").startswith("CHEROKEE")]
        odd = [hex(ord(one)) for one in others if came.get(ord(one), one) != one.casefold()]
        self.assertEqual(odd, [])


@unittest.skipIf(NODE is None or MODULE is None, "node or the module is missing")
class Replies(Case):
    """The module gives the replies that the program gives, over the same index."""

    def setUp(self):
        super().setUp()
        with Index(self.path, create=True):
            pass
        self.made()
        self.node = Node()
        self.addCleanup(self.node.close)
        table, searcher = self.named()
        exports = self.node.call("open", {"folder": os.path.join(self.site, "files"), "table": table, "searcher": searcher})
        self.assertEqual(sorted(exports), ["alta_embed_answer", "free", "malloc", "memory"])

    def compare(self, lines):
        """Runs the lines by both; the index is what the program leaves of it."""
        came = self.node.call("replies", {"index": self.path, "lines": lines})
        status, replies, said = run_lines(PROGRAM, self.path, lines)
        self.assertEqual((status, said), (0, ""))
        self.assertEqual(came, {"replies": "".join(f"{reply}\n" for reply in replies)}, lines)

    def test_the_generated_run(self):
        lines = list(demo.lines_of(DOCUMENTS))
        report = [f"{word} {work.spelled(query)}" for word, query in demo.REPORT]
        self.compare(lines[: DOCUMENTS // 2])
        self.compare(lines[DOCUMENTS // 2 :])
        self.compare([*report, *(f"{word} {work.spelled(query)}" for query in work.QUERIES for word in ("search", "top 9", "explain")), "dump", "stats"])

    def test_random_scripts(self):
        seed = int(os.environ.get("SEED", random.randrange(1 << 32)))
        chance, done = random.Random(seed), 0
        while done < LINES:
            os.remove(self.path)
            with Index(self.path, create=True):
                pass
            style = chance.choice(work.STYLES)
            for _ in range(chance.randrange(2, 6)):
                lines = work.script(chance, style)
                with self.subTest(seed=seed, done=done):
                    self.compare(lines)
                done += len(lines)

    def test_what_is_no_line(self):
        self.compare(["", "nothing", "add", "search (", "top 0 x", "fetch 1 1", "x" * 300_000, "count fox", "add a\t\tfox", "\u65e5", "stats"])

    def test_what_is_no_index(self):
        with open(self.path, "rb") as file:
            content = file.read()
        for data, said in (
            (b"", "the file holds no index"),
            (b"no index" * 2_000_000, "the file holds no index"),
            (content[:1] + b"\x09" + content[2:], "the index is damaged at 1"),
        ):
            with open(self.path, "wb") as file:
                file.write(data)
            self.assertEqual(self.node.call("replies", {"index": self.path, "lines": ["stats"]}), {"fault": said})


class Quiet(http.server.SimpleHTTPRequestHandler):
    """Gives a folder out, as any web server does, and says nothing; `asked` has what was asked for."""

    asked: list = []

    def do_GET(self):
        self.asked.append(self.path)
        super().do_GET()

    def log_message(self, *words):
        pass


@unittest.skipIf(chromium() is None or MODULE is None, "chromium or the module is missing")
class InABrowser(Case):
    @classmethod
    def setUpClass(cls):
        cls.browser = Browser()
        cls.browser.__enter__()
        cls.addClassCleanup(cls.browser.__exit__, None, None, None)

    def served(self, *words):
        """The address of a site over the index, which a web server for files gives out."""
        self.made(*words)
        Quiet.asked = []
        handler = functools.partial(Quiet, directory=self.site)
        server = http.server.ThreadingHTTPServer(("127.0.0.1", 0), handler)
        thread = threading.Thread(target=server.serve_forever, kwargs={"poll_interval": 0.02})
        thread.start()
        self.addCleanup(thread.join)
        self.addCleanup(server.server_close)
        self.addCleanup(server.shutdown)
        return f"http://127.0.0.1:{server.server_port}/"

    def begin(self, address, wanted="document.querySelector('.count') && !document.getElementById('progress')"):
        self.browser.leave()
        self.addCleanup(self.browser.leave)
        self.browser.show_as(1000, 700)
        self.browser.open(address)
        self.browser.until(wanted)
        return self.browser

    def names(self):
        return self.browser.value("[...document.querySelectorAll('.answer h2')].map((one) => one.textContent)")

    def search(self, browser):
        """Types a query, and looks at what is answered."""
        self.assertIn("5 documents", browser.value("document.getElementById('main').textContent"))
        browser.until("document.activeElement.id === 'q'")
        browser.type("quick")
        browser.until("document.querySelectorAll('.answer').length === 5")
        browser.until("location.hash === '#q=quick'")
        self.assertEqual(browser.value("document.querySelector('mark').textContent"), "quick")
        self.assertIn("2024-01-02 · Bob <bob@x> · score 1", browser.value("document.body.innerText"))
        browser.type(" brown")
        browser.until("document.querySelectorAll('.answer').length === 1")
        self.assertEqual(browser.value("document.querySelector('.snippet').innerHTML"), '<span class="number">2: </span>the <mark>quick</mark> <mark>brown</mark> fox')
        self.assertEqual(browser.value("document.title"), "quick brown - Buncocedar")

    def test_answers_as_one_types(self):
        self.filled()
        browser = self.begin(self.served())
        self.search(browser)
        self.assertEqual(browser.complaints(), [])
        # A worker searches, and no query has left the browser.
        self.assertEqual(browser.value("typeof buncoSearcher"), "undefined")
        self.assertFalse([path for path in Quiet.asked if "quick" in path or path.endswith(".bin.js")])

    def test_fast_typing(self):
        self.filled()
        browser = self.begin(self.served())
        text = "quick fox OR lazy NOT und "
        script = f"""
            (async () => {{
                for (let at = 1; at <= {len(text)}; at++) {{
                    box.value = {json.dumps(text)}.slice(0, at);
                    ask();
                    if (at % 3) await new Promise((done) => setTimeout(done, at % 5));
                }}
                box.value = "brown";
                ask();
            }})()
        """
        for _ in range(3):
            browser.value(script)
            browser.until("asked === '#q=brown' && asking === null")
            self.assertEqual(self.names(), ["a.txt"])
        self.assertEqual(browser.complaints(), [])

    def test_back_to_what_is_shown(self):
        """What is typed away from an answer and back to it, before another answer has come, shows the first one."""
        self.filled()
        browser = self.begin(self.served() + "#q=brown", "document.querySelectorAll('.answer').length === 1")
        browser.value("box.value = 'quick'; ask(); box.value = 'brown'; ask()")
        browser.until("asking === null")
        self.assertEqual(browser.value("location.hash"), "#q=brown")
        self.assertEqual(self.names(), ["a.txt"])

    def test_links_keys_and_the_way_back(self):
        self.filled()
        browser = self.begin(self.served() + "#q=quick&order=newest", "document.querySelectorAll('.answer').length === 5")
        self.assertEqual(browser.value("box.value + order.value"), "quicknewest")
        browser.press("ArrowDown")
        browser.press("ArrowDown")
        title = browser.value("document.activeElement.textContent")
        self.assertEqual(title, self.names()[1])
        browser.press("k")
        browser.press("/")
        self.assertEqual(browser.value("document.activeElement.id + document.activeElement.value"), "qquick")
        browser.press("ArrowDown")
        title = browser.value("document.activeElement.textContent")
        browser.press("Enter")
        browser.until("document.querySelector('h1') !== null")
        self.assertEqual(browser.value("document.querySelector('h1').textContent"), title)
        self.assertEqual(browser.value("document.querySelector('.best mark').textContent"), "quick")
        browser.value("history.back()")
        browser.until("document.querySelectorAll('.answer').length === 5")
        self.assertEqual(browser.complaints(), [])

    def test_links_to_the_documents(self):
        self.filled()
        browser = self.begin(self.served("--base", "https://example.org/{}/", "--title", EVIL) + "#q=reply", "document.querySelectorAll('.answer').length === 1")
        self.assertEqual(browser.value("document.querySelector('.answer a').href"), "https://example.org/a%2Fsecond%40x/")
        self.assertEqual(browser.value("document.title"), f"reply - {EVIL}")

    def test_pages(self):
        with Index(self.path, create=True) as index:
            index.add_many((f"n{number}", "", "quick") for number in range(1, 46))
        browser = self.begin(self.served() + "#q=quick&order=newest", "document.querySelectorAll('.answer').length === 20")
        seen = self.names()
        for wanted in (20, 5):
            browser.value("document.querySelector('a.next').click()")
            browser.until(f"document.querySelector('.answer h2').textContent === 'n{45 - len(seen)}'")
            seen += self.names()
            self.assertEqual(len(seen) % 20, wanted % 20)
        self.assertEqual(seen, [f"n{number}" for number in range(45, 0, -1)])
        # An index without texts has no links.
        self.assertEqual(browser.value("document.querySelectorAll('.answer a').length"), 0)

    def test_faults(self):
        self.filled()
        browser = self.begin(self.served() + "#q=fox+%E6%97%A5)", "document.querySelector('pre.fault') !== null")
        self.assertEqual(browser.value("document.querySelector('pre.fault').textContent"), f"  fox \u65e5)\n{' ' * 8}^")
        browser.value("(box.value = '', ask())")
        browser.until("document.querySelector('.count') !== null")

    def test_no_text_does_anything(self):
        self.filled()
        address = self.served("--title", EVIL)
        browser = self.begin(f"{address}#q=quick", "document.querySelectorAll('.answer').length === 5")
        self.assertIn("window.hacked", browser.value("document.body.textContent"))
        for link in browser.value("[...document.querySelectorAll('.answer a')].map((one) => one.href)"):
            self.begin(link, "document.querySelector('h1') !== null")
            self.assertIsNone(browser.value("window.hacked"))
        self.begin(f"{address}#q=" + EVIL.replace(" ", "%20"), "document.querySelector('.fault, .answer, .count') !== null")
        self.assertIsNone(browser.value("window.hacked"))

    def test_as_a_file(self):
        self.filled()
        self.made()
        browser = self.begin(f"file://{self.site}/index.html")
        self.search(browser)
        self.assertEqual(browser.complaints(), [])

    def test_what_is_missing_is_said(self):
        self.filled()
        address = self.served()
        index = self.table()["index"]["name"]
        os.remove(os.path.join(self.site, "files", index))
        os.remove(os.path.join(self.site, "files", f"{index}.js"))
        for place in (address, f"file://{self.site}/index.html"):
            browser = self.begin(place, "document.querySelector('.fault') !== null")
            said = browser.value("document.querySelector('.fault').textContent")
            self.assertIn("The search can't be had here", said)
            self.assertIn(index, said)

    def test_light_and_dark_and_a_phone(self):
        self.filled()
        browser = self.begin(self.served() + "#q=quick", "document.querySelectorAll('.answer').length === 5")
        colours = set()
        for scheme in ("light", "dark"):
            browser.show_as(360, 640, scheme)
            colours.add(browser.value("getComputedStyle(document.documentElement).backgroundColor"))
            self.assertLessEqual(browser.value("document.documentElement.scrollWidth - innerWidth"), 0)
        self.assertEqual(len(colours), 2)


def take_program(path):
    global PROGRAM
    PROGRAM = path


if __name__ == "__main__":
    for name, found in (("node", NODE), ("chromium", chromium()), ("the module", MODULE)):
        if not found:
            print(f"site: {name} is missing: what needs it is not tested", file=sys.stderr)
    PROGRAM = os.path.join(os.path.dirname(BUNCO), "alta")
    run_tests("site", take_program)
