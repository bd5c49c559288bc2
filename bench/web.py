#!/usr/bin/env python3
"""Measures the pages of `bunco web`: bench/web.py [--program PATH] INDEX QUERY ..

INDEX was filled by `bunco mail`, `folder` or `packages`, whose texts still stand. Of each query and order the median of nine pages, from the
request to the last byte, and what of that the program's own answers are: the best twenty, or all rows. Five are asked before.
"""

import argparse
import http.client
import os
import statistics
import sys
import threading
import time
from urllib.parse import urlencode

TOP = os.path.dirname(os.path.dirname(os.path.abspath(__file__)))
sys.path.insert(0, os.path.join(TOP, "client"))

from buncocedar import Index  # noqa: E402
from buncocedar.web.answers import ROWS, Library  # noqa: E402
from buncocedar.web.questions import Questions  # noqa: E402
from buncocedar.web.server import Server, Site  # noqa: E402

BEFORE, TURNS = 5, 9


def milliseconds(call):
    """The median time of a call."""
    spent = []
    for _ in range(BEFORE + TURNS):
        begun = time.perf_counter()
        call()
        spent.append(1000 * (time.perf_counter() - begun))
    return statistics.median(spent[BEFORE:])


def page_of(port, query, order):
    """Asks for a page, and reads it."""
    connection = http.client.HTTPConnection("127.0.0.1", port, timeout=60)
    connection.request("GET", f"/?{urlencode({'q': query, 'order': order})}")
    reply = connection.getresponse()
    reply.read()
    connection.close()
    if reply.status != 200:
        raise SystemExit(f"web: {query} is answered with {reply.status}")


def pages(path, queries):
    """Of each query and order the time of a page."""
    questions = Questions(path)
    with Server(("127.0.0.1", 0), Site(Library(questions)), say=print) as server:
        thread = threading.Thread(target=server.serve_forever)
        thread.start()
        port = server.server_port
        found = {(query, order): milliseconds(lambda: page_of(port, query, order)) for query in queries for order in ("best", "newest")}
        server.shutdown()
        thread.join()
    questions.close()
    return found


def answers(path, queries):
    """Of each query and order the time of the program's answers, and how many there are."""
    with Index(path) as index:
        calls = {"best": lambda query: index.top(query, ROWS), "newest": lambda query: list(index.search(query))}
        found = {(query, order): milliseconds(lambda: call(query)) for query in queries for order, call in calls.items()}
        return found, {query: index.count(query) for query in queries}


def main():
    parser = argparse.ArgumentParser(description=__doc__, formatter_class=argparse.RawDescriptionHelpFormatter)
    parser.add_argument("--program", default=os.path.join(TOP, "crates", "alta_cli", "out", "alta_cli"))
    parser.add_argument("index", metavar="INDEX")
    parser.add_argument("queries", metavar="QUERY", nargs="+")
    words = parser.parse_args()
    os.environ["BUNCOCEDAR_PROGRAM"] = os.path.abspath(words.program)
    shown, (alone, counts) = pages(words.index, words.queries), answers(words.index, words.queries)
    for query, order in shown:
        print(f"{query}, {order} of {counts[query]:,}: page {shown[query, order]:.1f} ms, answers {alone[query, order]:.1f} ms")


if __name__ == "__main__":
    main()
