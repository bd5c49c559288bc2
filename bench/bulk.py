#!/usr/bin/env python3
"""Measures adding many documents with a merge behind them, beside SQLite's full-text index.

usage: bench/bulk.py [--program PATH] [--lines FILE | --texts FOLDER] [--count N] [--parts N,N,..] [--folder FOLDER] [--fast]
                     [--merge-full | --merge-each BYTES [--merge-share SHARE]]

FILE has `add` lines, as `bunco packages` writes them. Without one, the text files below FOLDER (/usr/share/doc), packed ones
too, are cut at empty lines into documents of 400 bytes or more, in the order of their paths. The first N of the documents
(60,000) are added, and so are a half and a fourth of them (--parts gives other parts), each into a new index in FOLDER (a new one in
the current folder by default), by:

- the program, an add and its commit a line, then by a run that only opens the index, and then by another that merges; with
  --merge-full it also merges whenever there are sixteen levels and one more in the journal, as the importing scripts do, with
  --merge-each whenever so many bytes of lines have gone in, with --merge-share only where they are this share of all that went in
  before, as 0.33 for a third;
- FTS5, which keeps no texts, with a commit for each document, in WAL mode, synced each time; and then optimized (left out with --fast);
- FTS5 in one transaction, and then optimized.

Prints for each the documents a second, the processor time, the bytes that it handed to the system to write for each byte of text, the
peak memory, and the size of the index beside the text: of the program's level, of its file without slots and journal, and of FTS5's
file behind a `vacuum`. The number of documents that each finds for a word may differ by where it cuts words. bench/sizes.py measures
how all this grows.
"""

import argparse
import gzip
import os
import platform
import re
import select
import sqlite3
import subprocess
import sys
import tempfile
import time
from typing import NamedTuple

TOP = os.path.dirname(os.path.dirname(os.path.abspath(__file__)))
sys.path[:0] = [os.path.join(TOP, "tests"), os.path.join(TOP, "client")]

from model.reading import HEAD, read_roots
from support import with_merges_of_levels

LEAST = 400  # bytes of a document that is cut from a file
WORD = "version"

FILL = r"""
import sqlite3, sys
path, lines, how = sys.argv[1:]
base = sqlite3.connect(path, isolation_level=None)
base.execute("pragma journal_mode = wal")
base.execute("pragma synchronous = full")
base.execute("create virtual table mail using fts5(title, body, content='', tokenize = 'unicode61 remove_diacritics 0')")
if how == "bulk":
    base.execute("begin")
with open(lines, encoding="utf-8", newline="\n") as file:
    for line in file:
        base.execute("insert into mail(title, body) values (?, ?)", line[4:].rstrip("\n").split("\t", 2)[1:])
if how == "bulk":
    base.execute("commit")
base.execute("insert into mail(mail) values ('optimize')")
base.execute("pragma wal_checkpoint(truncate)")
base.close()
"""


class Cost(NamedTuple):
    """What a process took: seconds by the clock and of the processor, bytes that it wrote beside its output, and peak memory in
    KiB."""

    seconds: float
    processor: float
    written: int
    memory: int

    def and_then(self, other):
        return Cost(*(a + b for a, b in zip(self[:3], other[:3])), max(self.memory, other.memory))


def peak_until_end(process):
    """Waits for the end of a process, and answers the peak of its memory in KiB, as it was told last."""
    end, peak = os.pidfd_open(process.pid), 0
    while True:
        with open(f"/proc/{process.pid}/status", encoding="ascii") as file:
            peak = next((int(line.split()[1]) for line in file if line.startswith("VmHWM:")), peak)
        if select.select([end], [], [], 0.02)[0]:
            os.close(end)
            return peak


def cost_of(words, source, target):
    """The cost of a command that has to end with status 0, with these files as its input and output."""
    with open(source, "rb") as given, open(target, "wb") as taken:
        begun = time.perf_counter()
        process = subprocess.Popen(words, stdin=given, stdout=taken)
        memory = peak_until_end(process)
        seconds = time.perf_counter() - begun
        with open(f"/proc/{process.pid}/io", encoding="ascii") as file:
            counts = dict(line.split(": ") for line in file.read().splitlines())
        _, status, usage = os.wait4(process.pid, 0)
        process.returncode = status
    if status != 0:
        raise SystemExit(f"bulk: {words[0]} failed")
    written = int(counts["wchar"]) - os.path.getsize(target)
    return Cost(seconds, usage.ru_utime + usage.ru_stime, written, memory)


# ---- the documents


def text_of(path):
    """The text of a file, or none."""
    try:
        with (gzip.open if path.endswith(".gz") else open)(path, "rb") as file:
            return file.read().decode()
    except (OSError, EOFError, UnicodeDecodeError, gzip.BadGzipFile):
        return ""


def paragraphs(text):
    """A text's paragraphs, so many together as make a document; the rest is left out."""
    kept = ""
    for paragraph in re.split(r"\n\s*\n", text):
        kept += " ".join(paragraph.split()) + " "
        if len(kept.encode()) >= LEAST:
            yield kept.strip()[:20000]
            kept = ""


def lines_below(top):
    """An `add` line for each document that is cut from the text files below a folder; of the same text only the first."""
    seen, number = set(), 0
    for folder, folders, names in os.walk(top):
        folders.sort()
        for name in sorted(names):
            if not re.search(r"\.(txt|rst|md|pod|gz)$|^(README|NEWS|changelog|copyright)", name):
                continue
            for body in paragraphs(text_of(os.path.join(folder, name))):
                if "\0" not in body and hash(body) not in seen:
                    seen.add(hash(body))
                    number += 1
                    yield f"add d{number}\t{name}\t{body}\n".encode()


def documents_of(options):
    if options.lines:
        with open(options.lines, "rb") as file:
            return file.readlines()[: options.count]
    found = []
    for line in lines_below(options.texts):
        found.append(line)
        if len(found) == options.count:
            break
    return found


def with_merges(lines, each, share):
    """The lines, with a merge behind each so many bytes of them that are this share of those before; none for no bytes."""
    since = before = 0
    for line in lines:
        yield line
        since += len(line)
        if each and since >= max(each, share * before):
            yield b"merge\n"
            before += since
            since = 0


# ---- the indexes


def load():
    return " ".join(f"{number:.1f}" for number in os.getloadavg())


def tell(name, cost, count, text):
    print(
        f"  {name}: {count / cost.seconds:.0f} documents a second ({cost.seconds:.2f} s), {cost.processor:.2f} s of processor time "
        f"({cost.processor / count * 1e6:.0f} us each), {cost.written / text:.2f} bytes written for each byte of text, "
        f"{cost.memory / 1024:.1f} MiB at most (load {load()})",
        flush=True,
    )


def by_program(program, folder, source, count, text):
    """Adds, opens, and then merges."""
    path, replies, opening, merging = (os.path.join(folder, name) for name in ("x.alta", "replies", "stats", "merge"))
    with open(opening, "wb") as file:
        file.write(b"stats\n")
    with open(merging, "wb") as file:
        file.write(f"merge\ncount {WORD}\nstats\n".encode())
    subprocess.run([program, path, "init"], check=True)
    added = cost_of([program, path, "run"], source, replies)
    with open(replies, "rb") as file:
        if file.read().count(b"added ") != count:
            raise SystemExit("bulk: not every line was answered by its number")
    opened = cost_of([program, path, "run"], opening, replies)
    merged = cost_of([program, path, "run"], merging, replies)
    with open(replies, encoding="ascii") as file:
        given = file.read().splitlines()
    if given[0] != "ok" or not given[2].startswith(f"documents {count} "):
        raise SystemExit(f"bulk: the merge was answered by {given}")
    with open(path, "rb") as file:
        content = file.read()
    tell("adds", added, count, text)
    tell("opening", opened, count, text)
    tell("merge", merged, count, text)
    tell("adds with the merge", added.and_then(merged), count, text)
    levels = read_roots(content)[1].levels
    size = sum(extent.length for extent in levels)
    print(f"  index: {len(levels)} level of {size} bytes, {size / text:.3f} of the text; the file {(len(content) - HEAD) / text:.3f}")
    beside = (merged.memory - opened.memory) * 1024 / size
    print(f"  memory: the merge takes {merged.memory * 1024 / size:.1f} times the level, {beside:.1f} of them beside the open index")
    return given[1]


def by_table(folder, source, count, text, how):
    """FTS5's table, with a commit each or in bulk."""
    path = os.path.join(folder, f"{how}.db")
    cost = cost_of([sys.executable, "-c", FILL, path, source, how], os.devnull, os.path.join(folder, "nothing"))
    tell(f"FTS5, {how}", cost, count, text)
    base = sqlite3.connect(path)
    (found,) = base.execute("select count(*) from mail where mail match ?", (WORD,)).fetchone()
    base.execute("vacuum")
    base.execute("pragma wal_checkpoint(truncate)")
    base.close()
    size = os.path.getsize(path)
    print(f"  its file: {size} bytes, {size / text:.3f} of the text")
    return f"found {found}"


def measure(program, options, lines):
    """All of it over these documents."""
    text = sum(len(part) for line in lines for part in line[4:-1].split(b"\t", 2)[1:])
    print(f"{len(lines)} documents, {text} bytes of text (load {load()})")
    with tempfile.TemporaryDirectory(dir=options.folder) as folder:
        source = os.path.join(folder, "lines")
        with open(source, "wb") as file:
            file.writelines(lines)
        given = os.path.join(folder, "given")
        with open(given, "wb") as file:
            if options.merge_full:
                file.writelines(with_merges_of_levels(lines))
            else:
                file.writelines(with_merges(lines, options.merge_each, options.merge_share))
        found = {"program": by_program(program, folder, given, len(lines), text)}
        for how in ("commits", "bulk")[options.fast :]:
            found[f"FTS5, {how}"] = by_table(folder, source, len(lines), text, how)
    told = ", ".join(f"{name} {given.removeprefix('found ')}" for name, given in found.items())
    print(f"  documents with {WORD!r}: {told}", flush=True)


def main():
    parser = argparse.ArgumentParser(description=__doc__, formatter_class=argparse.RawDescriptionHelpFormatter)
    parser.add_argument("--program", default=os.path.join(TOP, "crates", "alta_cli", "out", "alta_cli"))
    parser.add_argument("--lines")
    parser.add_argument("--texts", default="/usr/share/doc")
    parser.add_argument("--count", type=int, default=60_000)
    parser.add_argument("--parts", type=lambda text: [int(word) for word in text.split(",")], default=[4, 2, 1])
    parser.add_argument("--folder", default=".")
    parser.add_argument("--fast", action="store_true")
    parser.add_argument("--merge-full", action="store_true")
    parser.add_argument("--merge-each", metavar="BYTES", type=int, default=0)
    parser.add_argument("--merge-share", metavar="SHARE", type=float, default=0)
    options = parser.parse_args()
    program = os.path.abspath(options.program)
    if not os.access(program, os.X_OK):
        raise SystemExit("bulk: the program is not built: run ./alta once")
    print(f"SQLite {sqlite3.sqlite_version}, Python {platform.python_version()}, {platform.system()} {platform.release()}, {os.cpu_count()} processors")
    lines = documents_of(options)
    for part in options.parts:
        measure(program, options, lines[: len(lines) // part])
    return 0


if __name__ == "__main__":
    sys.exit(main())
