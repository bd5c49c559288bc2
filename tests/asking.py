"""Documents of the repository's own texts, queries of every kind over them by chance, and two indexes that have to answer alike."""

import glob
import os
import random
import re
from collections import Counter
from typing import NamedTuple

from support import TOP

from buncocedar import QueryFault
from buncocedar.shards import own_number

BEST = (1, 10, 100, 1000)  # answers of a top that are compared


def documents_of_texts():
    """The paragraphs of the documents in docs/, each (name, title, body)."""
    found = []
    for path in sorted(glob.glob(os.path.join(TOP, "docs", "*.md"))):
        with open(path, encoding="utf-8") as file:
            paragraphs = [" ".join(paragraph.split()) for paragraph in file.read().split("\n\n")]
        stem = os.path.basename(path)[:-3]
        for number, paragraph in enumerate(filter(None, paragraphs)):
            found.append((f"{stem}-{number}", " ".join(paragraph.split()[:6]), f"{paragraph} {number * 37 % 2000}"))
    return found


class Asking:
    """Queries over documents, by chance from their own words."""

    def __init__(self, documents, seed):
        self.chance = random.Random(seed)
        self.documents = documents
        words = Counter(word for _, title, body in documents for word in set(re.findall("[a-z]{2,}", f"{title} {body}".lower())))
        self.by_rank = [word for word, _ in words.most_common()]
        self.names = [name for name, _, _ in documents]
        self.spellings = sorted({word for _, _, body in documents for word in re.findall(r"\b[A-Z][a-z]+\b", body)})

    def word(self):
        # A rank by its logarithm, so that common words come as often as rare ones.
        return self.by_rank[min(len(self.by_rank) - 1, int(len(self.by_rank) ** self.chance.random()))]

    def together(self, count):
        """Words that stand in one document, mostly."""
        words = re.findall("[a-z]{2,}", self.chance.choice(self.documents)[2].lower())
        return self.chance.sample(words, count) if len(words) >= count and self.chance.random() < 0.8 else [self.word() for _ in range(count)]

    def run(self, count):
        words = re.findall("[a-z]{2,}", self.chance.choice(self.documents)[2].lower())
        begin = self.chance.randrange(max(1, len(words) - count))
        return " ".join(words[begin : begin + count]) or "the"

    def prefix(self):
        text = self.word()
        return text[: self.chance.randint(2, len(text))] + "*"

    def nested(self, depth=0):
        kind = self.chance.random()
        if depth > 2 or kind < 0.4:
            return self.chance.choice([self.word, self.prefix, lambda: f'"{self.run(2)}"', lambda: f"title:{self.word()}"])()
        joined = self.chance.choice([" OR ", " ", " NOT "])
        return f"({self.nested(depth + 1)}{joined}{self.nested(depth + 1)})"

    def value(self):
        low, high = sorted(self.chance.choices(range(2000), k=2))
        return f"value:{low}..{high}"

    def kinds(self):
        """A maker of queries of each kind."""
        pick = self.chance.choice
        return {
            "word": self.word,
            "two": lambda: pick([" ", " AND "]).join(self.together(2)),
            "or": lambda: " OR ".join(self.word() for _ in range(self.chance.randint(2, 5))),
            "not": lambda: f"{self.word()} NOT {self.word()}",
            "phrase": lambda: f'"{self.run(self.chance.randint(2, 4))}"',
            "near": lambda: f" NEAR/{pick([1, 2, 5, 20, 1000])} ".join(self.together(2)) + pick(["", "*"]),
            "prefix": self.prefix,
            "title": lambda: "title:" + pick([self.word, self.prefix, lambda: f'"{self.run(2)}"'])(),
            "name": lambda: f"name:{pick([lambda: pick(self.names), self.word])()}",
            "value": self.value,
            "spelling": lambda: pick(self.spellings),
            "nested": self.nested,
            "every": lambda: "NOT name:! OR name:!",
            "nowhere": lambda: f"{self.word()}qqq",
            "fault": lambda: pick([f"({self.word()}", f"{self.word()} OR", f"{self.word()} NEAR/0 {self.word()}", '"', "", "NOT", "x*"]),
        }


def queries(documents, count, seed):
    """So many queries, of each kind about as many."""
    makers = list(Asking(documents, seed).kinds().values())
    return [makers[at % len(makers)]() for at in range(count)]


class Told(NamedTuple):
    """How many queries found something, and how many had a fault."""

    found: int
    faults: int


def compared(test, one, sharded, asked):
    """Compares the answers of one index and of one in shards to queries, and answers what they were."""
    found = faults = 0
    for query in asked:
        with test.subTest(query=query):
            fault = fault_of(one, query)
            if fault is not None:
                faults += 1
                compare_faults(test, sharded, query, fault)
            else:
                found += one.count(query) > 0
                compare_rows(test, one, sharded, query)
    return Told(found, faults)


def fault_of(index, query):
    try:
        index.count(query)
        return None
    except QueryFault as fault:
        return fault


def compare_faults(test, sharded, query, fault):
    for ask in (sharded.count, sharded.search, sharded.explain, sharded.cursor, lambda query: sharded.top(query, 3)):
        with test.assertRaises(QueryFault) as raised:
            ask(query)
        test.assertEqual((raised.exception.place, raised.exception.cause), (fault.place, fault.cause))


def compare_rows(test, one, sharded, query):
    """The same documents, each once, of each shard by rising number; the same count and plan, and the same best."""
    rows, found = list(sharded.search(query)), one.count(query)
    numbers = {name: number for number, name in rows}
    test.assertEqual((sharded.count(query), len(rows), len(numbers)), (found, found, found))
    test.assertEqual(numbers.keys(), {name for _, name in one.search(query)})
    last = {}
    for own, shard in (own_number(number) for number, _ in rows):
        test.assertGreater(own, last.get(shard, 0))
        last[shard] = own
    with sharded.cursor(query) as cursor:
        test.assertEqual([row for page in cursor.pages(100) for row in page.rows], rows)
    test.assertEqual(sharded.explain(query), one.explain(query))
    for count in BEST:
        compare_best(test, one.top(query, count), sharded.top(query, count), numbers)
    if found <= max(BEST):
        compare_whole_top(test, one.top(query, max(BEST)), sharded, query, rows)


def compare_best(test, theirs, ours, numbers):
    """The same scores in their order, and above the last score the same documents."""
    test.assertEqual((ours.found, [row.score for row in ours.answers]), (theirs.found, [row.score for row in theirs.answers]))
    test.assertTrue(all(numbers[row.name] == row.number for row in ours.answers))
    least = ours.answers[-1].score if ours.answers else 0
    test.assertEqual(*({row.name for row in each.answers if row.score > least} for each in (ours, theirs)))


def compare_whole_top(test, every, sharded, query, rows):
    """Where one index lists all that match, the best are those by falling score, and of one score in the order of the search."""
    place = {name: at for at, (_, name) in enumerate(rows)}
    wanted = sorted((-row.score, place[row.name], row.name) for row in every.answers)
    for count in BEST:
        answers = sharded.top(query, count).answers
        test.assertEqual([(-row.score, place[row.name], row.name) for row in answers], wanted[:count])
