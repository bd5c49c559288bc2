#!/usr/bin/env python3
"""Measures searches by kind beside FTS5, Xapian and Lucene over the same documents, in one run.

usage: bench/searches.py [--program PATH] [--before PATH ..] --lines FILE [--count N] [--gaps N] [--turns N] [--spend MILLISECONDS]
                         [--kinds WORD ..] [--instructions] [--record FILE]

FILE has `add` lines, as `apt-cache dumpavail | ./bunco packages -` writes them. The first N (all) go into two new indexes of the program: one
merged, and one as it is loaded, in sixteen levels and the journal; with --gaps every Nth is added and deleted before the merge of the one.
They also go into an optimized FTS5 table that keeps no texts, and where this machine has it, into a compact database of Xapian
(`apt-get install python3-xapian`, which is for /usr/bin/python3) and an index of Lucene in one segment (`liblucene8-java` and a JDK).

bench/kinds.py chooses the queries of each kind from the documents; --kinds asks only for those with one of these words in their name. Each
is asked again and again for so many milliseconds (20), of all in turn, and of these turns (5) the least processor time for one counts. The program
answers lines in a process that goes on, so its time has reading a line and writing the reply in it, and its lists were read before.
It writes names where the peers have numbers. For an opening each begins a process anew; the program's start without an index is taken off.

Prints for each query what one answer takes in microseconds, and what each found, which differs where words are cut in other ways. Then comes a
table in Markdown: of each kind the geometric mean of the program's times, and of the ratios of each peer's times to them. A ratio over 1 is in the
program's favour. With --before a program is measured in the same turns, and has rows of its own. With --instructions the table has
the instructions of one answer, too, by Valgrind's callgrind: the lists were read before. With --record the times go into a file
of figures, from which bench/plot.py draws a picture.
"""

import argparse
import math
import os
import re
import shutil
import subprocess
import sys
import tempfile
import threading
import time

from kinds import BEST, kinds_of
from peer import peers_of, texts_of
from recorded import machine, record
from rounds import spent

MOST_LEVELS = 16
MOST_TIMES = 5000
LINES = {"count": "count", "all": "search", "best": f"top {BEST}", "opening": "count"}
LAYOUTS = ("merged", "as loaded")
LAST = re.compile(rb"(?:^|\n)found ([0-9]+)\ndocuments [^\n]*\n$")  # the last line of an answer, and the reply of `stats`
TOTALS = re.compile(r"^(?:totals|summary): ([0-9]+)", re.MULTILINE)


def without(lines, each):
    """The lines, those that delete every so manieth document (none by 0), and the lines of the documents that are left."""
    gone = lines[each - 1 :: each] if each else []
    left = [line for place, line in enumerate(lines, 1) if not each or place % each]
    return lines + [b"delete " + line[4:].split(b"\t")[0] + b"\n" for line in gone], left


def in_levels(lines):
    """The lines in seventeen parts, with a `flush` behind each but the last."""
    size = -(-len(lines) // (MOST_LEVELS + 1))
    parts = [b"".join(lines[start : start + size]) for start in range(0, len(lines), size)]
    return b"flush\n".join(parts)


def mean(values):
    """The geometric mean."""
    return math.exp(sum(map(math.log, values)) / len(values))


class Program:
    """A program that answers lines over an index, and a copy of that index, which no process has open."""

    def __init__(self, path, index, before=()):
        self.path, self.copy = path, f"{index} copy"
        shutil.copyfile(index, self.copy)
        self.process = subprocess.Popen([*before, path, index, "run"], stdin=subprocess.PIPE, stdout=subprocess.PIPE)

    def clock(self):
        """The processor seconds of the process: Linux makes the number of another's clock of its own."""
        return time.clock_gettime((~self.process.pid) << 3 | 2)

    def feed(self, data):
        self.process.stdin.write(data)
        self.process.stdin.flush()

    def answer(self, line, count):
        """Asks a line so many times, and answers how many documents were found."""
        feeder = threading.Thread(target=self.feed, args=((line + b"\n") * count + b"stats\n",))
        feeder.start()
        last = b""
        while not (found := LAST.search(last)):
            last = last[-200:] + os.read(self.process.stdout.fileno(), 1 << 20)
        feeder.join()
        return int(found[1])

    def turn(self, order, query, count):
        """The processor seconds of one of so many answers, and how many documents were found."""
        line = f"{LINES[order]} {query}".encode()
        if order == "opening":
            started = spent([self.path], b"", check=False, stderr=subprocess.DEVNULL)[0]
            seconds, printed = spent([self.path, self.copy, "run"], line + b"\n")
            return seconds - started, int(printed.split()[1])
        begun = self.clock()
        found = self.answer(line, count)
        return (self.clock() - begun) / count, found

    def close(self):
        self.process.communicate()


class Counted:
    """A program under callgrind, which tells the instructions since it was asked last."""

    def __init__(self, path, index, folder):
        self.out = os.path.join(folder, f"callgrind {len(os.listdir(folder))}")
        self.program = Program(path, index, ("valgrind", "-q", "--tool=callgrind", f"--callgrind-out-file={self.out}"))
        self.dumps = 0
        self.program.answer(b"count a", 1)
        self.opening = self.since()

    def since(self):
        self.dumps += 1
        subprocess.run(["callgrind_control", "-d", str(self.program.process.pid)], stdout=subprocess.DEVNULL, stderr=subprocess.DEVNULL, check=True)
        with open(f"{self.out}.{self.dumps}", encoding="utf-8", errors="replace") as file:
            return int(TOTALS.search(file.read())[1])

    def instructions(self, order, query):
        """The instructions of one answer, behind another, and without those of a `stats`."""
        if order == "opening":
            return self.opening
        line = f"{LINES[order]} {query}".encode()
        counts = []
        for times in (1, 1, 2):
            self.program.answer(line, times)
            counts.append(self.since())
        return counts[2] - counts[1]


def indexes_of(paths, lines, gaps, folder):
    """The programs over their indexes, by the name of the program and the layout; and the lines of the documents that stand in them."""
    asked, left = without(lines, gaps)
    layouts = {"merged": b"".join(asked) + b"merge\n", "as loaded": in_levels(left)}
    programs = {}
    for name, path in paths.items():
        for layout, data in layouts.items():
            index = os.path.join(folder, f"{name} {layout}")
            subprocess.run([path, index, "init"], check=True)
            spent([path, index, "run"], data)
            programs[name, layout] = Program(path, index)
    return programs, left


def times_of(asked, kind, query, options):
    """The least time of one answer by each, and what each found."""
    counts = []
    for one in asked:
        one.turn(kind.order, query, 1)
        seconds, _ = one.turn(kind.order, query, 1)
        counts.append(max(1, min(MOST_TIMES, round(options.spend / 1e3 / max(seconds, 1e-9)))))
    turns = [[one.turn(kind.order, query, count) for one, count in zip(asked, counts)] for _ in range(options.turns)]
    return [min(column) for column in zip(*turns)]


def measured(kinds, programs, peers, options):
    """Prints the times of each query, and answers those of each kind: a list of the seconds of each program, and then of each peer."""
    names = [f"{name} {layout}" for name, layout in programs] + [peer.name for peer in peers]
    times = {}
    for kind in kinds:
        for query in kind.queries:
            answers = times_of([*programs.values(), *peers], kind, query, options)
            shown = (f"{name} {seconds * 1e6:.1f} ({found})" for name, (seconds, found) in zip(names, answers))
            print(f"{kind.name}: {query}: " + ", ".join(shown), flush=True)
            times.setdefault(kind.name, []).append([seconds for seconds, _ in answers])
    return times


def counted(kinds, programs, folder):
    """The instructions of each kind by each program."""
    instructions = {}
    for key, program in programs.items():
        under = Counted(program.path, program.copy, folder)
        for kind in kinds:
            instructions[key, kind.name] = mean([max(1, under.instructions(kind.order, query)) for query in kind.queries])
        under.program.close()
    return instructions


def tell(times, programs, peers, instructions):
    """Prints the table."""
    columns = ["µs", *(["instructions"] if instructions else []), *(peer.name for peer in peers)]
    print("\n| Kind | program | " + " | ".join(f"{layout}: {columns[0]}" + "".join(f" | {name}" for name in columns[1:]) for layout in LAYOUTS) + " |")
    print("|---" * (2 + len(LAYOUTS) * len(columns)) + "|")
    for kind, rows in times.items():
        for program in dict.fromkeys(name for name, _ in programs):
            cells = [kind, program]
            for layout in LAYOUTS:
                at = list(programs).index((program, layout))
                cells.append(f"{mean([row[at] for row in rows]) * 1e6:.1f}")
                cells += [f"{instructions[(program, layout), kind]:,.0f}"] if instructions else []
                cells += [f"{mean([row[len(programs) + place] / row[at] for row in rows]):.2f}" for place in range(len(peers))]
            print("| " + " | ".join(cells) + " |")
    print()


def tell_counts(kinds, times, programs, peers):
    """Prints from where to where the times of the kinds of counts go, of those of each peer."""
    names = [kind.name for kind in kinds if kind.order == "count"]
    for at, (program, layout) in enumerate(programs):
        shares = [[mean([row[at] / row[len(programs) + place] for row in times[name]]) for name in names] for place in range(len(peers))]
        shown = (f"{min(each):.2f} to {max(each):.2f} of {peer.name}" for each, peer in zip(shares, peers) if each)
        print(f"{len(names)} kinds of counts, {program}, {layout}: " + ", ".join(shown))


def panels_of(times, programs, peers):
    """Panels of the milliseconds of the first program over the merged index and of its peers."""
    series = ["Buncocedar", *(f"SQLite {peer.name}" if peer.name == "FTS5" else peer.name for peer in peers)]
    rows = {kind: [mean(column) * 1e3 for column in zip(*([row[0], *row[len(programs) :]] for row in rows))] for kind, rows in times.items()}
    return [
        {"title": kind, "kind": "bars", "unit": "ms", "series": series, "rows": [[label, *(float(f"{value:.3g}") for value in rows[label])] for label in labels]}
        for kind, labels in groups(rows).items()
    ]


def groups(rows):
    """The kinds in panels of about one length of bars, under their titles."""
    found = {}
    for label, values in rows.items():
        found.setdefault("one answer, where none takes a millisecond" if max(values) < 1 else "one answer, the others", []).append(label)
    return found


def main():
    top = os.path.dirname(os.path.dirname(os.path.abspath(__file__)))
    parser = argparse.ArgumentParser(description=__doc__, formatter_class=argparse.RawDescriptionHelpFormatter)
    parser.add_argument("--program", default=os.path.join(top, "crates", "alta_cli", "out", "alta_cli"))
    parser.add_argument("--before", action="append", default=[])
    parser.add_argument("--lines", required=True)
    parser.add_argument("--count", type=int, default=None)
    parser.add_argument("--gaps", metavar="N", type=int, default=0)
    parser.add_argument("--turns", type=int, default=5)
    parser.add_argument("--spend", metavar="MILLISECONDS", type=float, default=20)
    parser.add_argument("--kinds", metavar="WORD", nargs="*", default=[])
    parser.add_argument("--instructions", action="store_true")
    parser.add_argument("--record", metavar="FILE")
    options = parser.parse_args()
    with open(options.lines, "rb") as file:
        lines = file.readlines()[: options.count]
    paths = {"now": options.program, **{f"before{n or ''}": path for n, path in enumerate(options.before)}}
    memory = "/dev/shm" if os.access("/dev/shm", os.W_OK) else None
    with tempfile.TemporaryDirectory(dir=memory) as folder:
        programs, left = indexes_of(paths, lines, options.gaps, folder)
        texts = texts_of(left)
        peers = peers_of(texts, folder)
        kinds = [kind for kind in kinds_of(texts) if not options.kinds or any(word in kind.name for word in options.kinds)]
        print(f"{len(left)} documents, {sum(map(len, left))} bytes of input; {machine()}")
        times = measured(kinds, programs, peers, options)
        instructions = counted(kinds, programs, folder) if options.instructions else {}
        tell(times, programs, peers, instructions)
        tell_counts(kinds, times, programs, peers)
        print(machine())
        for one in (*programs.values(), *peers):
            one.close()
    if options.record:
        record(options.record, f"Searches over {len(left):,} short descriptions, by kind", panels_of(times, programs, peers))
    return 0


if __name__ == "__main__":
    sys.exit(main())
