#!/usr/bin/env python3
"""Measures adds through the server of an index beside those of a client that has the index alone.

usage: bench/server.py [--program PATH] [--folder FOLDER] [--count N] [--clients N]

Adds N documents of some 400 bytes (4,000) into a new index in FOLDER (a new one in the current folder by default), each time into another: by one
client, by a client of a server, and by several clients of a server at once (8), first one document after the other, and then with
many under way. Prints the documents a second, and the microseconds of processor time a document of the client alone or of the server.
"""

import argparse
import os
import signal
import subprocess
import sys
import tempfile
import threading
import time

TOP = os.path.dirname(os.path.dirname(os.path.abspath(__file__)))
sys.path.insert(0, os.path.join(TOP, "client"))

from buncocedar import Index

BODY = "the quick brown fox jumps over the lazy dog " * 9
PATIENCE = 60


def seconds_of(process):
    """The processor seconds of a process that runs."""
    with open(f"/proc/{process}/stat", encoding="ascii") as file:
        fields = file.read().rpartition(")")[2].split()
    return sum(map(int, fields[11:13])) / os.sysconf("SC_CLK_TCK")


def add(options, path, name, count, one_by_one, alone=False):
    """Adds so many documents, by the server if there is one and the index is not wanted alone."""
    documents = ((f"{name}-{number}", "title", BODY) for number in range(count))
    with Index(path, program=options.program, patience=PATIENCE, server=False if alone else None) as index:
        if one_by_one:
            for document in documents:
                index.add(*document)
        else:
            index.add_many(documents)


def tell(what, how, count, seconds, processor):
    print(f"{what}, {how}: {count / seconds:.0f} a second, {processor / count * 1e6:.0f} us", flush=True)


def alone(options, path, how, one_by_one):
    begun, processor = time.perf_counter(), time.process_time()
    add(options, path, "a", options.count, one_by_one, alone=True)
    tell("a client alone", how, options.count, time.perf_counter() - begun, time.process_time() - processor)


def served(options, path, how, one_by_one, clients):
    """The adds of some clients at once, through a server."""
    words = [sys.executable, os.path.join(TOP, "client", "server.py"), path]
    environment = {**os.environ, "BUNCOCEDAR_PROGRAM": options.program}
    with subprocess.Popen(words, env=environment, stderr=subprocess.PIPE, text=True) as server:
        server.stderr.readline()
        begun, processor = time.perf_counter(), seconds_of(server.pid)
        each = options.count // clients
        work = [threading.Thread(target=add, args=(options, path, f"c{number}", each, one_by_one)) for number in range(clients)]
        for thread in work:
            thread.start()
        for thread in work:
            thread.join()
        seconds, spent = time.perf_counter() - begun, seconds_of(server.pid) - processor
        server.send_signal(signal.SIGINT)
    tell(f"{clients} of a server", how, each * clients, seconds, spent)


def main():
    parser = argparse.ArgumentParser(description=__doc__, formatter_class=argparse.RawDescriptionHelpFormatter)
    parser.add_argument("--program", default=os.path.join(TOP, "crates", "alta_cli", "out", "alta_cli"))
    parser.add_argument("--folder", default=".")
    parser.add_argument("--count", type=int, default=4_000)
    parser.add_argument("--clients", type=int, default=8)
    options = parser.parse_args()
    with tempfile.TemporaryDirectory(dir=options.folder) as folder:
        for one_by_one, how in ((True, "one by one"), (False, "many under way")):
            for clients in (0, 1, options.clients):
                path = os.path.join(folder, f"{how} {clients}.alta")
                subprocess.run([options.program, path, "init"], check=True)
                if clients:
                    served(options, path, how, one_by_one, clients)
                else:
                    alone(options, path, how, one_by_one)
    return 0


if __name__ == "__main__":
    sys.exit(main())
