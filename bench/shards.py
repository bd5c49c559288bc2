#!/usr/bin/env python3
"""Measures an index in shards beside one index: imports, counts and tops; or simulates a thousand shards.

usage: bench/shards.py [--program PATH] [--count N] [--shards S,S,..] [--processes P] [--seed N]
       bench/shards.py --simulate [--queries N] [--record PATH]

The texts are made by chance: `--count` documents of some 700 bytes of words by their frequency, one word of fourteen a number. Each way is
a new index on the file system of the folder for temporary files, merged at its end; the ways take turns in three rounds, and the least
time of each is told, in microseconds an add and milliseconds a query. The processor's time is that of this process and of the programs.

With --simulate nothing is asked. A query goes to each machine, whose processors work at its shards one by one; the time of a shard is
lognormal about 20 ms, and one answer in a thousand comes later, by 200 ms in the mean. The client takes 1 ms of its processor for each call
and 2 µs for each of the ten rows of an answer, one call behind the other. Prints a table in Markdown; --record writes its figures for
bench/plot.py.
"""

import argparse
import heapq
import os
import random
import resource
import sys
import tempfile
import time
from typing import NamedTuple

TOP = os.path.dirname(os.path.dirname(os.path.abspath(__file__)))
sys.path.insert(0, os.path.join(TOP, "client"))

from buncocedar import Index  # noqa: E402
from buncocedar.shards import ShardedIndex, make  # noqa: E402
from recorded import record  # noqa: E402

ASKED = ("w3", "w40", "w4000", "w3 w40", '"w3 w5"', "w1*")
ROUNDS = 3
TURNS = 20

# --- What is simulated.

SHARD_MS = 20.0
SPREAD = 0.3  # of the logarithm of a shard's time
LATE_MS = 200.0
CALL_MS = 1.0
ROW_MS = 0.002
NET_MS = 0.5
BEST = 10
PROCESSORS = 20  # of a machine
SPREADS = ((20, 1), (100, 5), (1000, 50))  # shards and machines
# The part of all answers of shards that come late, shards, machines, and calls: one for each machine, and once one for each shard.
CASES = [(late, shards, machines, machines) for late in (0.0, 0.001, 0.01) for shards, machines in SPREADS]
CASES.append((0.001, 1000, 50, 1000))


class Times(NamedTuple):
    """Milliseconds of queries: half of them take less than `half`, and so on; `client` is what each takes of the client's processor."""

    half: float
    most: float  # 99 of 100 take less
    client: float


def machine_ms(chance, shards, late):
    """When a machine has the answers of its shards: each by the first processor that is free."""
    free = [0.0] * PROCESSORS
    for _ in range(shards):
        took = chance.lognormvariate(0, SPREAD) * SHARD_MS
        if chance.random() < late:
            took += chance.expovariate(1 / LATE_MS)
        heapq.heapreplace(free, free[0] + took)
    return max(free)


def simulated(chance, queries, shards, machines, calls, late):
    client = calls * (CALL_MS + BEST * ROW_MS)
    times = sorted(
        max(machine_ms(chance, shards // machines, late) for _ in range(machines)) + NET_MS + client for _ in range(queries)
    )
    return Times(times[queries // 2], times[int(queries * 0.99)], client)


def simulate(options):
    chance = random.Random(options.seed)
    rows = []
    print("| Late | Shards | Machines | Calls | Half | 99 of 100 | Client | Queries a second of a client |")
    print("|---|---|---|---|---|---|---|---|")
    for late, shards, machines, calls in CASES:
        told = simulated(chance, options.queries, shards, machines, calls, late)
        times = " | ".join(f"{time:,.0f} ms" for time in told)
        print(f"| {late:.1%} | {shards:,} | {machines} | {calls:,} | {times} | {1000 / told.client:,.0f} |")
        if calls == machines:
            rows.append([f"{shards:,} shards, {late:.1%} late", round(told.half, 1), round(told.most, 1)])
    if options.record:
        series = ["half of the queries", "99 of 100"]
        panel = {"title": "a query that asks every shard, 20 ms each", "kind": "bars", "unit": "ms", "series": series, "rows": rows}
        record(options.record, "A thousand shards, simulated: late ones rule", [panel])


# --- What is measured.


def texts_of(count, seed):
    """Documents of words by their frequency."""
    chance = random.Random(seed)
    for number in range(count):
        words = [f"w{int(20_000 ** chance.random())}" for _ in range(120)]
        words[::14] = [str(chance.randrange(100_000)) for _ in words[::14]]
        yield f"n{number}", " ".join(words[:6]), " ".join(words)


class Way(NamedTuple):
    """A way to keep the documents: one index where there are no shards."""

    shards: int
    processes: int = 0

    def name(self):
        if not self.shards:
            return "one index"
        return f"{self.shards} shards" + (f", {self.processes} processes" if self.processes else "")

    def opened(self, folder, program):
        if not self.shards:
            return Index(os.path.join(folder, "one.alta"), create=True, program=program)
        place = os.path.join(folder, "a.shards")
        make(place, self.shards, program=program)
        return ShardedIndex.here(place, self.processes, program, patience=600)


class Measured(NamedTuple):
    add: float  # microseconds
    processor: float  # seconds, of adds and merge
    counts: tuple  # milliseconds
    tops: tuple


def least_ms(call):
    times = []
    for _ in range(TURNS):
        begun = time.perf_counter()
        call()
        times.append(time.perf_counter() - begun)
    return min(times) * 1000


def processor():
    return sum(sum(resource.getrusage(who)[:2]) for who in (resource.RUSAGE_SELF, resource.RUSAGE_CHILDREN))


def measured(way, texts, program):
    before = processor()
    with tempfile.TemporaryDirectory() as folder:
        with way.opened(folder, program) as index:
            begun = time.perf_counter()
            added, others = index.add_many(texts)
            seconds = time.perf_counter() - begun
            assert (added, others) == (len(texts), []), others[:1]
            index.merge()
            counts = tuple(least_ms(lambda: index.count(query)) for query in ASKED)
            tops = tuple(least_ms(lambda: index.top(query, 10)) for query in ASKED)
            found = tuple(index.count(query) for query in ASKED)
    return Measured(seconds / len(texts) * 1e6, processor() - before, counts, tops), found


def measure(options):
    texts = list(texts_of(options.count, options.seed))
    size = sum(len(name) + len(title) + len(body) for name, title, body in texts)
    numbers = [int(number) for number in options.shards.split(",")]
    ways = [Way(0), *map(Way, numbers), *([Way(numbers[-1], options.processes)] if options.processes else [])]
    best = {}
    founds = set()
    for _ in range(ROUNDS):
        for way in ways:
            told, found = measured(way, texts, options.program)
            founds.add(found)
            best[way] = told if way not in best else Measured(
                min(told.add, best[way].add),
                min(told.processor, best[way].processor),
                tuple(map(min, told.counts, best[way].counts)),
                tuple(map(min, told.tops, best[way].tops)),
            )
    assert len(founds) == 1, founds
    print(f"{len(texts):,} documents, {size / 1e6:.1f} MB; load {os.getloadavg()[0]:.1f}; found {dict(zip(ASKED, founds.pop()))}")
    print(f"| Way | µs an add | Processor, s | {' | '.join(f'`{query}` count, top' for query in ASKED)} |")
    print("|---|---|---" + "|---" * len(ASKED) + "|")
    for way, told in best.items():
        queries = " | ".join(f"{count:.2f}, {top:.2f}" for count, top in zip(told.counts, told.tops))
        print(f"| {way.name()} | {told.add:.0f} | {told.processor:.1f} | {queries} |")


def main():
    parser = argparse.ArgumentParser(description=__doc__, formatter_class=argparse.RawDescriptionHelpFormatter)
    parser.add_argument("--program")
    parser.add_argument("--count", type=int, default=20_000)
    parser.add_argument("--shards", default="1,4,8")
    parser.add_argument("--processes", type=int, default=0)
    parser.add_argument("--seed", type=int, default=1)
    parser.add_argument("--simulate", action="store_true")
    parser.add_argument("--queries", type=int, default=2000)
    parser.add_argument("--record", metavar="PATH")
    options = parser.parse_args()
    if options.simulate:
        return simulate(options)
    return measure(options)


if __name__ == "__main__":
    sys.exit(main())
