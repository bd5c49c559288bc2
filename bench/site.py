#!/usr/bin/env python3
"""Measures sites of `bunco site` in headless Chromium beside the program.

usage: bench/site.py [--program PATH] [--module PATH] --query QUERY [--query QUERY ..] INDEX ..

Of each index the packed bytes that the page loads before it can answer, the time from the page's opening to its first answer, and of each
query the least of a hundred answers with their snippets. Beside that the program, over the index of the site: the time from its start to the
first answer, and the least of a hundred answers to the same lines. Five are asked before. The files come from this machine.
"""

import argparse
import contextlib
import functools
import gzip
import http.server
import json
import os
import re
import shutil
import subprocess
import sys
import tempfile
import threading
import time

TOP = os.path.dirname(os.path.dirname(os.path.abspath(__file__)))
sys.path[1:1] = [os.path.join(TOP, "client"), os.path.join(TOP, "tests")]

from browser import Browser, chromium  # noqa: E402
from buncocedar import Index  # noqa: E402

BEFORE, TURNS = 5, 100
READY = "document.querySelector('.answer') !== null && shown !== null"
# Of a query the times of answers, in milliseconds.
ASKED = """(async () => {
    const spent = [];
    for (let turn = 0; turn < %d; turn++) {
        const begun = performance.now();
        await engine.ask({ q: %s, order: "best" }, new AbortController().signal);
        spent.push(performance.now() - begun);
    }
    return spent;
})()"""


class Quiet(http.server.SimpleHTTPRequestHandler):
    def log_message(self, *words):
        pass


@contextlib.contextmanager
def served(folder):
    """The address of a folder that a web server of this process gives out."""
    server = http.server.ThreadingHTTPServer(("127.0.0.1", 0), functools.partial(Quiet, directory=folder))
    thread = threading.Thread(target=server.serve_forever)
    thread.start()
    try:
        yield f"http://127.0.0.1:{server.server_port}/"
    finally:
        server.shutdown()
        thread.join()
        server.server_close()


def made(index, folder):
    """Makes a site, and answers what is loaded before the first answer, in bytes."""
    done = subprocess.run([sys.executable, os.path.join(TOP, "bunco"), "site", index, folder], stderr=subprocess.PIPE, text=True)
    if done.returncode:
        raise SystemExit(done.stderr)
    print(done.stderr, end="", file=sys.stderr)
    return sum(os.path.getsize(os.path.join(folder, "files", name)) for name in os.listdir(os.path.join(folder, "files")) if is_loaded(name))


def put_index(folder, path):
    """Writes the index of a site to a file."""
    name = next(name for name in os.listdir(os.path.join(folder, "files")) if re.fullmatch(r"index\..*\.bin", name))
    with gzip.open(os.path.join(folder, "files", name)) as source, open(path, "wb") as target:
        shutil.copyfileobj(source, target)


def is_loaded(name):
    return name.partition(".")[0] in ("module", "index", "table") and name.endswith(".bin")


def least(spent):
    return min(spent[BEFORE:])


def in_browser(folder, queries):
    """The time to the first answer, and of each query that of later ones."""
    with served(folder) as address, Browser() as browser:
        begun = time.perf_counter()
        browser.call("Page.navigate", url=f"{address}#q={queries[0]}")
        browser.until(READY)
        first = 1000 * (time.perf_counter() - begun)
        return first, {query: least(browser.value(ASKED % (BEFORE + TURNS, json.dumps(query)))) for query in queries}


def by_program(path, queries):
    """The same of the program, and how many documents each query finds."""
    begun = time.perf_counter()
    with Index(path) as index:
        index.top(queries[0], 1000)
        first, spent, found = 1000 * (time.perf_counter() - begun), {}, {}
        for query in queries:
            turns = []
            for _ in range(BEFORE + TURNS):
                begun = time.perf_counter()
                found[query] = index.top(query, 1000).found
                index.explain(query)
                turns.append(1000 * (time.perf_counter() - begun))
            spent[query] = least(turns)
        return first, spent, found


def main():
    parser = argparse.ArgumentParser(description=__doc__, formatter_class=argparse.RawDescriptionHelpFormatter)
    parser.add_argument("--program", default=os.path.join(TOP, "crates", "alta_cli", "out", "alta_cli"))
    parser.add_argument("--module")
    parser.add_argument("--query", dest="queries", action="append", metavar="QUERY", required=True)
    parser.add_argument("indexes", metavar="INDEX", nargs="+")
    words = parser.parse_args()
    if chromium() is None:
        raise SystemExit("site: chromium is missing")
    os.environ["BUNCOCEDAR_PROGRAM"] = os.path.abspath(words.program)
    if words.module:
        os.environ["BUNCOCEDAR_MODULE"] = os.path.abspath(words.module)
    for path in words.indexes:
        with tempfile.TemporaryDirectory() as room:
            folder = os.path.join(room, "site")
            loaded = made(path, folder)
            first, spent = in_browser(folder, words.queries)
            index = os.path.join(room, "index.alta")
            put_index(folder, index)
            alone, native, found = by_program(index, words.queries)
        print(f"{path}: {loaded:,} bytes loaded; first answer {first:.0f} ms, of the program {alone:.0f}")
        for query in words.queries:
            print(f"  {query}, {found[query]:,} found: {spent[query]:.1f} ms, of the program {native[query]:.1f}")


if __name__ == "__main__":
    main()
