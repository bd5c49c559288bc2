"""Kinds of queries, each of several that are chosen from a corpus by how many documents have them, and how program and peers are asked.

Words are runs of letters. No query is written down here, so that no figure depends on the words of one corpus.
"""

import math
import re
from collections import Counter
from itertools import combinations
from typing import NamedTuple
from zlib import crc32

WORD = re.compile(r"[^\W\d_]+")
NEAR = 5  # the most places apart
PREFIX = 3  # letters of a prefix
BEST = 10  # how many of the best are asked for

# How the program and FTS5 spell each form. FTS5 counts the words between two, where the program counts steps.
OURS = {
    "word": "{0}",
    "and": "{0} AND {1}",
    "not": "{0} NOT {1}",
    "or": "{0} OR {1}",
    "phrase": '"{all}"',
    "near": f"{{0}} NEAR/{NEAR} {{1}}",
    "title": "title:{0}",
    "prefix": "{0}*",
}
TABLE = {**OURS, "near": f"NEAR({{0}} {{1}}, {NEAR - 1})", "title": "title: {0}"}


class Query(NamedTuple):
    """A query: its form, and its words."""

    form: str
    words: tuple

    def spelled(self, spellings):
        return spellings[self.form].format(*self.words, all=" ".join(self.words))

    def __str__(self):
        return self.spelled(OURS)


class Kind(NamedTuple):
    """A kind of query: its name, what is asked for (`count`, `all`, `best`, or a count behind an `opening`), and its queries."""

    name: str
    order: str
    queries: list


def words_of(item):
    """The words of one word or of several."""
    return item if isinstance(item, tuple) else (item,)


def pairs_in(words):
    """Each two of the words that stand near."""
    return (pair for at in range(len(words)) for pair in zip(words[at : at + 1] * NEAR, words[at + 1 : at + NEAR + 1]))


class Corpus:
    """How many documents have each word, two and three words in a row, two that stand near, and a word that begins so."""

    def __init__(self, texts):
        self.size = len(texts)
        self.words, self.twos, self.threes, self.pairs, self.prefixes = (Counter() for _ in range(5))
        for parts in texts:
            lists = [WORD.findall(part.lower()) for part in parts]
            self.words.update({word for words in lists for word in words})
            self.twos.update({two for words in lists for two in zip(words, words[1:])})
            self.threes.update({three for words in lists for three in zip(words, words[1:], words[2:])})
            self.pairs.update({tuple(sorted(pair)) for words in lists for pair in pairs_in(words) if pair[0] != pair[1]})
            self.prefixes.update({word[:PREFIX] for words in lists for word in words if len(word) > PREFIX})

    def nearest(self, counts, *shares):
        """For each share of the documents what the number nearest to it have, by ratio; none twice, and none of a single letter."""
        left, chosen = {item: count for item, count in counts.items() if all(len(word) > 1 for word in words_of(item))}, []
        for share in shares:
            # Of two that are as near a digest chooses, so that they are no neighbours in the alphabet.
            distance = lambda item: (abs(math.log(left[item] / self.size / share)), crc32(" ".join(words_of(item)).encode()))
            chosen.append(min(left, key=distance))
            del left[chosen[-1]]
        return chosen


def kinds_of(texts):
    """The kinds for a corpus, of the texts of its documents. In short descriptions a common word is in 15 % of the documents and more."""
    corpus = Corpus(texts)
    common = [word for word, _ in corpus.words.most_common(3)]
    middling = corpus.nearest(corpus.words, 0.01, 0.01, 0.01)
    rare = corpus.nearest(corpus.words, 0.0005, 0.0005, 0.0005)
    absent = [next(f"{word}{end}" for end in ("q", "qz", "qzq") if f"{word}{end}" not in corpus.words) for word in middling]
    prefixes = corpus.nearest(corpus.prefixes, 0.2, 0.05, 0.01)
    each = lambda form, items: [Query(form, words_of(item)) for item in items]
    both = each("and", combinations(common, 2))
    twos = each("phrase", corpus.nearest(corpus.twos, 0.01, 0.003, 0.001))
    either = each("or", [(common[1], common[2]), (middling[0], middling[1]), (rare[0], middling[2])])
    return [
        Kind("common word", "count", each("word", common)),
        Kind("middling word", "count", each("word", middling)),
        Kind("rare word", "count", each("word", rare)),
        Kind("absent word", "count", each("word", absent)),
        Kind("two common words", "count", both),
        Kind("a rare one and a common one", "count", each("and", [*zip(rare, common), (common[1], rare[0])])),
        Kind("one without another", "count", each("not", [(common[0], common[1]), (common[1], middling[0]), (middling[1], common[0])])),
        Kind("either of two", "count", either),
        Kind("phrase of two", "count", twos),
        Kind("phrase of three", "count", each("phrase", corpus.nearest(corpus.threes, 0.005, 0.002, 0.0005))),
        Kind(f"two within {NEAR} places", "count", each("near", corpus.nearest(corpus.pairs, 0.01, 0.003, 0.001))),
        Kind("word of the title", "count", each("title", [common[1], middling[0], rare[0]])),
        Kind("prefix", "count", each("prefix", prefixes)),
        Kind("all names", "all", [*each("word", [common[1], middling[0], rare[0]]), both[0], twos[0]]),
        Kind(f"the best {BEST}", "best", [*each("word", [common[0], middling[0], rare[0]]), both[0], either[1], twos[0]]),
        Kind("opening and one answer", "opening", each("word", [middling[0]])),
    ]
