"""The rows of an answer: those of the parts of a document as one, and the orders in which they are shown.

All rows are taken from the index before the first is shown, so that nobody waits for it while somebody reads.
"""

# The newest answers are shown first wherever there is no score. Many rows wait in a file meanwhile.

from __future__ import annotations

import collections
import itertools
import os
import tempfile

from ..replies import MOST_BEST

BLOCK = 1 << 16
KEPT_IN_MEMORY = 1 << 24  # bytes of rows
THREADS_AT_ONCE = 64  # that one query asks for


def whole_documents(rows, places):
    """The rows of documents: those of the parts of one as one row with its name, where the first of them stands."""
    given = set()
    for number, name in rows:
        name = places.document(name)
        if name in given:
            continue
        # Between two parts may stand what another client has added meanwhile.
        if places.is_in_parts(name):
            given.add(name)
        yield number, name


def lines_backwards(file):
    """The lines of a file, each behind a newline, the last one first."""
    file.seek(0, os.SEEK_END)
    end, rest = file.tell(), b""
    while end:
        begin = max(0, end - BLOCK)
        file.seek(begin)
        rest, *lines = (file.read(end - begin) + rest).split(b"\n")
        yield from reversed(lines)
        end = begin


def lines_forwards(file):
    """The lines of a file, each behind a newline, the first one first."""
    file.seek(0)
    file.readline()
    for line in file:
        yield line.rstrip(b"\n")


class Kept:
    """Rows in a file, or in memory where they are few: to be read once, in their order or the last one first."""

    def __init__(self, rows, backwards):
        self._backwards = backwards
        self._file = tempfile.SpooledTemporaryFile(KEPT_IN_MEMORY)
        for number, name in rows:
            self._file.write(f"\n{number} {name}".encode())

    def __iter__(self):
        with self._file as file:
            for line in (lines_backwards if self._backwards else lines_forwards)(file):
                number, name = line.decode().split(" ")
                yield int(number), name


class Rows:
    """The rows of an answer, `limit` at most, the newest first or the oldest; `total` is how many there are."""

    def __init__(self, rows, limit, oldest):
        self.total = 0
        counted = self._counted(rows)
        if limit is None:
            self._rows = Kept(counted, not oldest)
        elif oldest:
            self._rows = list(itertools.islice(counted, limit))
            collections.deque(counted, maxlen=0)
        else:
            self._rows = list(collections.deque(counted, maxlen=limit))[::-1]

    def _counted(self, rows):
        for row in rows:
            self.total += 1
            yield row

    def __iter__(self):
        return iter(self._rows)


class ByDate:
    """The rows of an answer by the dates of the documents, `limit` at most, the newest first or the oldest.

    What has no date comes last.
    """

    def __init__(self, rows, limit, oldest, places):
        self._all = Rows(rows, None, True)
        self.total = self._all.total
        self._limit = limit
        self._sign = 1 if oldest else -1
        self._places = places

    def __iter__(self):
        return itertools.islice(iter(sorted(self._all, key=self._key)), self._limit)

    def _key(self, row):
        moment = self._places.moment(row[1])
        return (moment is None, self._sign * (moment or 0), self._sign * row[0])


class Best:
    """The best rows of an answer, so many at most, each with its score, the best first; `total` is how many documents there are.

    Of one score the newest comes first, among the thousand best.
    """

    def __init__(self, index, query, count, places):
        top = index.top(query, MOST_BEST)
        self._rows = best_parts(top.answers, places)[:count]
        self.total = sum(1 for _ in whole_documents(index.search(query), places)) if places.has_parts() else top.found

    def __iter__(self):
        return iter(self._rows)


def best_parts(answers, places):
    """The rows of documents by falling score, and of one score by falling number: of the parts of one the best."""
    rows, seen = [], set()
    for number, name, score in sorted(answers, key=lambda row: (-row.score, -row.number)):
        name = places.document(name)
        if name not in seen:
            seen.add(name)
            rows.append((number, name, score))
    return rows


class Threads:
    """The rows of the whole threads of which an answer has messages: thread by thread, that of the newest message first.

    A message of no thread is alone. `total` is how many messages there are.
    """

    def __init__(self, index, rows, limit, places):
        threads = {}  # the word of a thread, or a name, to its rows
        for number, name in rows:
            threads.setdefault(places.thread(name) or name, []).append((number, name))
        words = [word for word in threads if word.startswith("thread:")]
        for at in range(0, len(words), THREADS_AT_ONCE):
            whole_threads(index, words[at : at + THREADS_AT_ONCE], threads, places)
        newest_first = sorted(threads.values(), key=lambda thread: -thread[-1][0])
        self._threads = newest_first[:limit]
        self.total = sum(map(len, newest_first))

    def __iter__(self):
        return itertools.chain.from_iterable(self._threads)


def whole_threads(index, words, threads, places):
    """Puts all messages of the threads of these words in the place of those that are there."""
    rows = whole_documents(index.search(" OR ".join(words)), places)
    found = collections.defaultdict(list)
    for number, name in rows:
        found[places.thread(name)].append((number, name))
    threads.update((word, found[word]) for word in words if found[word])
