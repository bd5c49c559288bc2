"""Random changes of an index, the queries that are asked of it, and the index that has some of the changes in levels."""

from .answers import cells_of
from .writing import entry_of_add, entry_of_delete, entry_of_replace, index, level

WORDS = ["red", "Fox", "quick", "brown", "dog", "lazy", "Over", "jumps", "7", "1996", "4294967295", "4294967296"]
ASKED = [
    "red",
    "fox",
    "Fox",
    "nothing",
    "qui*",
    "*",
    '"red fox"',
    '"quick brown" OR lazy',
    "red NEAR/3 dog",
    "title:fox",
    "title:over AND jumps",
    "name:d3",
    "NOT fox",
    "brown NOT dog",
    "(red OR over) AND NOT name:d1*",
    "value:1990..1999",
    "value:0..4294967295",
    "value:1997..4294967294 OR value:7..7",
    "NOT value:0..1996 red",
]


def asking(pages):
    lines = ["stats"]
    for query in ASKED:
        lines += [f"search {query}", f"count {query}", f"open {query}"] + [f"fetch 1 {pages}"] * 3 + ["close 1"]
    return lines


def made(chance, count):
    """Changes, as (name, title, body) of an add and the name of a delete; a name is used again once it is free, and now and then before."""
    changes, live, free = [], [], []
    for i in range(count):
        name = free.pop() if free and chance.random() < 0.5 else f"d{i}"
        if live and chance.random() < 0.2:
            name = live.pop(chance.randrange(len(live)))
        texts = [" ".join(chance.choice(WORDS) for _ in range(chance.randrange(n))) for n in (4, 60)]
        changes.append((name, *texts))
        live.append(name)
        if chance.random() < 0.3:
            gone = live.pop(chance.randrange(len(live)))
            free.append(gone)
            changes.append(gone)
    return changes


def split(chance, changes, count):
    """The index after these changes, the first `count` of them in levels or in the deletion list, the others in the journal. Under a
    root of version 1 a delete and an add stand for a replace."""
    version = chance.choice([1, 2])
    documents, numbers, deleted, entries = [], {}, [], []
    location = 1
    for i, change in enumerate(changes):
        before = numbers.pop(change if isinstance(change, str) else change[0], None)
        replaces = before is not None and i >= count and version == 2 and not isinstance(change, str)
        if before is not None and i < count:
            first, *texts = next(d[1:] for d in documents if d[0] == before)
            deleted.append(first + len(cells_of(*texts)) - 1)
        elif before is not None and not replaces:
            entries.append(entry_of_delete(before))
        if isinstance(change, str):
            continue
        number = sum(not isinstance(c, str) for c in changes[: i + 1])
        numbers[change[0]] = number
        if i < count:
            documents.append((number, location, *change))
            location += len(cells_of(*change))
        else:
            entries.append(entry_of_replace(before, *change) if replaces else entry_of_add(*change))
    cuts = sorted(chance.sample(range(1, len(documents)), min(chance.choice([0, 1, 2, 4, 15]), len(documents) - 1)))
    groups = [documents[a:b] for a, b in zip([0] + cuts, cuts + [len(documents)])]
    # a deleted document may have been left out when its level was written
    left_out = {end for end in deleted if chance.random() < 0.3}
    kept = [[d for d in group if d[1] + len(cells_of(*d[2:])) - 1 not in left_out] for group in groups]
    levels = [level(group) for group in kept if group]
    ends = sorted(set(deleted) - left_out)
    slot, sequence = chance.randrange(2), chance.randrange(256)
    gaps = [chance.randrange(3) * 7 for _ in range(len(levels) + 1)]
    return index(version, slot, sequence, len(documents) + 1, location, ends, levels, entries, gaps) + (levels,)
