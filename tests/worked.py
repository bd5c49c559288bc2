#!/usr/bin/env python3
"""Compares answers and files with worked rows: tests/worked.py [--program PATH]

The rows were worked out by hand. First come the answers of queries over two documents, of which some are deleted, whole, in pages and
the best first, and those of words that stand in one document or in all of a thousand and one, and how often lines read the file. Then come the bytes that lines leave in
the file: a record, a level, the join of levels, and the root of an index that an earlier program wrote. The levels that are wanted are
spelled by tests/model, which uses nothing of the program's.
"""

import argparse
import os
import subprocess
import tempfile

from model.segments import segment
from model.writing import index, level

HEAD = 2_105_344
SLOT_B = 4_096
HALVES = (8_192, 1_056_768)
OPEN = 0xA5


def compare(row, found, want):
    if found != want:
        raise SystemExit(f"worked: {found!r} in place of {want!r}: {row}")


class Index:
    """A file with an index, and the program over it."""

    def __init__(self, program, folder, content=None):
        self.program, self.path = program, os.path.join(folder, "index")
        if os.path.exists(self.path):
            os.remove(self.path)
        if content is None:
            subprocess.run([program, self.path, "init"], check=True)
        else:
            with open(self.path, "wb") as file:
                file.write(content)

    def run(self, *lines):
        """The replies to these lines, which are answered whole."""
        done = subprocess.run([self.program, self.path, "run"], input="".join(f"{line}\n" for line in lines).encode(), capture_output=True)
        if done.returncode or done.stderr:
            raise SystemExit(f"worked: status {done.returncode}: {done.stderr.decode()} at {lines}")
        return done.stdout.decode().split("\n")[:-1]

    def bytes_at(self, place, count):
        with open(self.path, "rb") as file:
            file.seek(place)
            return file.read(count)

    def root(self):
        """The slot that counts, of two that are open that whose sequence is one past the other's, and the extents of its levels."""
        slots = [self.bytes_at(place, 296) for place in (0, SLOT_B)]
        is_b = slots[1][0] == OPEN and (slots[0][0] != OPEN or (slots[0][2] + 1) % 256 == slots[1][2])
        slot = slots[is_b]
        extents = [int.from_bytes(slot[at : at + 8], "big") for at in range(40, 40 + 16 * slot[3], 8)]
        return slot, list(zip(extents[::2], extents[1::2]))

    def levels(self):
        return [self.bytes_at(place, length) for place, length in self.root()[1]]


# ---- answers

TWO = ("add a\tRed Fox\tquiet quick red fox", "flush", "add b\tFox\tquick brown dog")
DELETED = ([], ["delete a"], ["delete b"], ["delete a", "delete b"])

# Which documents are deleted, a query, and the answers. `qui* NEAR/1 red` has two terms, one in both the level and the journal. Nine
# words are more than a count walks over together.
ANSWERS = """\
0 fox => ab
0 "fox quick" => none
0 "red fox" NOT brown => a
0 red-fox NOT brown => a
0 NOT zebra => ab
0 qui* OR dog => ab
0 title:quick => none
0 title:fox => ab
0 name:b => b
0 red NEAR/1 red => a
0 Red => a
0 RED => none
1 quick NOT red => b
1 quick => b
2 quick => a
1 red OR brown => b
0 qui* NEAR/1 red => a
0 qui* NEAR/2 fox => ab
0 qui* NOT qui* => none
3 NOT zebra => none
0 red OR brown OR zebra => ab
2 fox OR fox => a
2 brown OR zebra => none
0 a OR b OR c OR d OR e OR f OR g OR h OR red => a
0 title:red => a
1 title:fox => b
0 qui* => ab
1 qui* => b
0 zeb* => none
0 zebra => none
"""

# What a search tells, then three pages of one answer, and three of two.
TOLD = {
    "ab": ["ab", "a+", "b", "", "ab", "", ""],
    "a": ["a", "a", "", "", "a", "", ""],
    "b": ["b", "b", "", "", "b", "", ""],
    "none": ["", "", "", "", "", "", ""],
}


def paged(replies):
    """The names of each page or search, with a `+` where more are left."""
    told = [""]
    for reply in replies:
        if reply in ("more", "end") or reply.startswith("found "):
            told[-1] += "+" if reply == "more" else ""
            told.append("")
        else:
            told[-1] += reply.split(" ")[1]
    return told[:-1]


def answers(index):
    for row in ANSWERS.splitlines():
        asked, want = row.split(" => ")
        gone, query = asked.split(" ", 1)
        two = index()
        two.run(*TWO, *DELETED[int(gone)])
        replies = two.run(f"search {query}", f"open {query}", *["fetch 1 1"] * 3, "close 1", f"open {query}", *["fetch 1 2"] * 3, f"count {query}")
        count = replies.pop()
        replies = [reply for reply in replies if not reply.startswith(("cursor", "closed"))]
        compare(row, (paged(replies), count), (TOLD[want], f"found {len(TOLD[want][0])}"))


# How many answers are asked for, which documents are deleted, a query, and the best answers.
#
# Of the same score the lower number comes first, and no more come than there are. A name counts once, a NEAR each of its sides,
# and a word in the title only there. What stands under a NOT counts nothing, and a deleted document is no answer.
BEST = """\
1 0 fox => 1 a 5, found 2
2 0 quick OR fox => 1 a 6, 2 b 5, found 2
5 0 quick NOT red => 2 b 1, found 1
2 0 quick => 1 a 1, 2 b 1, found 2
1 0 quick => 1 a 1, found 2
1000 0 fox => 1 a 5, 2 b 4, found 2
2 0 name:b => 2 b 4, found 1
2 0 red NEAR/1 fox => 1 a 10, found 1
2 0 title:fox => 1 a 4, 2 b 4, found 2
2 0 title:"Red Fox" => 1 a 8, found 1
2 0 NOT brown => 1 a 0, found 1
2 0 fox NOT zebra => 1 a 5, 2 b 4, found 2
2 0 qui* OR dog => 1 a 2, 2 b 2, found 2
2 1 fox => 2 b 4, found 1
2 3 fox => found 0
3 0 zebra => found 0
"""


def best(index):
    for row in BEST.splitlines():
        asked, want = row.split(" => ")
        count, gone, query = asked.split(" ", 2)
        two = index()
        two.run(*TWO, *DELETED[int(gone)])
        compare(row, ", ".join(two.run(f"top {count} {query}")), want)


# Of a thousand and one documents with the word `common`, of which the last has `rare` too: how many a query finds, the number of the
# first of them, and whether more are left behind it.
OF_MANY = """\
common => 1001 1 more
rare common => 1 1001 all
common rare => 1 1001 all
common NOT rare => 1000 1 more
rare NOT common => 0 0 all
common absent => 0 0 all
common NOT absent => 1001 1 more
rare NOT absent => 1 1001 all
rare OR common => 1001 1 more
absent OR rare => 1 1001 all
absent OR missing => 0 0 all
"""


def many(index):
    all_ = index()
    all_.run(*[f"add d{number}\t\tcommon" for number in range(1, 1_001)], "add d1001\t\trare common", "flush")
    for row in OF_MANY.splitlines():
        query, want = row.split(" => ")
        found, first, left = want.split(" ")
        page = [f"{first} d{first}"] if first != "0" else []
        replies = all_.run(f"count {query}", f"open {query}", "fetch 1 1")
        compare(row, replies, [f"found {found}", "cursor 1", *page, {"more": "more", "all": "end"}[left]])


# Queries over two levels and a newest document, `a`, `b` and `c`, the second being deleted, and the names of the documents that answer.
LEVELS = (
    (1, 1, "a", "Red Fox", "the quick red fox"),
    (2, 10, "b", "Fox", "quick brown dog"),
)
OVER_LEVELS = """\
fox => a
red => ac
dog => c
quick fox => a
bro* => none
re* => ac
"red fox" => a
"red dog" => c
the NEAR/1 red => c
title:dog => c
red NOT barks => a
quick OR barks => ac
name:b => none
zebra => none
"""


def over_levels(index):
    file = index(content_of([[LEVELS[0]], [LEVELS[1]]], [16], 3, 17))
    compare("the third document", file.run("add c\tRed Dog\tthe red dog barks"), ["added 3"])
    for row in OVER_LEVELS.splitlines():
        query, want = row.split(" => ")
        compare(row, paged(file.run(f"search {query}")), ["" if want == "none" else want])


# Lines over a level with the document `a`, and how many times each reads the file. The list of all ends is read once until a line changes
# the levels, and so is a long list; a short one is read each time it is asked.
READS = """\
count zebra: 1, count zebra: 0, search owl: 0
count fox: 2, count fox: 1
count elk: 2, count elk: 0, search elk: 0
count elk: 2, add b\tx\ty: some, count elk: 0, flush: some, count elk: 3
count elk: 2, merge: 0, count elk: 0
open zebra: 1, count (: 0, top 1 fox: 2, count zebra: 0
count zebra: 1, add b\tx\ty: some, count zebra: 0, flush: some, count zebra: 2
count zebra: 1, delete a: some, count zebra: 0
count zebra: 1, delete b: 0, count zebra: 0
stats: 0, flush: 0, merge: 0, step 1: 0, stats: 0
"""
OFTEN = 300  # times a word stands whose list is long


def calls_of_read(process):
    with open(f"/proc/{process}/io", encoding="ascii") as file:
        return next(int(line.split()[1]) for line in file if line.startswith("syscr:"))


def times_read(program, path, lines):
    """How many times the program reads the file for each line, beside the one time that it reads the line."""
    with subprocess.Popen([program, path, "run"], stdin=subprocess.PIPE, stdout=subprocess.PIPE) as ran:
        last = None
        for line in ["stats", *lines]:
            ran.stdin.write(f"{line}\n".encode())
            ran.stdin.flush()
            # The last line of a reply is the one that is no answer.
            while ran.stdout.readline()[:1].isdigit():
                pass
            now = calls_of_read(ran.pid)
            if last is not None:
                yield now - last - 1
            last = now
        ran.stdin.close()


def reads(index):
    for row in READS.splitlines():
        file = index()
        file.run(TWO[0] + " elk" * OFTEN, "flush")
        lines, want = zip(*[part.rsplit(": ", 1) for part in row.split(", ")])
        found = [number if word != "some" else word for number, word in zip(map(str, times_read(file.program, file.path, lines)), want)]
        compare(row, found, list(want))


# ---- bytes

# The level of the document `a` with the title `Red Fox` and the body `the quick red fox`, of number 1 and at the locations 1 to 9.
SEGMENT = (
    b"\x00\x00\x00\x00\x00\x00\x00\x01\x00\x00\x00\x00\x00\x00\x00\x0a\x00\x00\x00\x00\x00\x00\x00\x05"
    b"\x00\x00\x00\x00\x00\x00\x00M\x01\x01\x09\x01a\x00\x01D\x01\x01\x00\x00\x02Na\x01\x01\x00\x00"
    b"\x01S\x01\x01\x00\x00\x01T\x01\x01\x00\x00\x04Wfox\x02\x02\x00\x01\x05quick\x01\x01\x00\x01\x03r"
    b"ed\x02\x02\x00\x01\x03the\x01\x01\x00\x00\x04XFox\x01\x01\x00\x01\x03Red\x01\x01\x00\x09\x01\x01"
    b"\x04\x03\x05\x06\x02\x05\x05\x03\x02"
)

# The record that adds it, and the next gate.
RECORD = b"\xa5\x00\x00\x00\x23\x01\x01a\x00\x00\x00\x07Red Fox\x00\x00\x00\x11the quick red fox\x00"

FIRST = "add a\tRed Fox\tthe quick red fox"
SECOND = "add b\tFox\tquick brown dog"


def content_of(levels, ends, next_number, next_location, entries=(), version=2):
    """A file whose slot A counts, with levels of these documents, the ends that are deleted, and entries of its journal."""
    return index(version, 0, 1, next_number, next_location, ends, [level(documents) for documents in levels], list(entries), [0] * 17)[0]


def one_document(index):
    """An index without documents, the record of the first, and its level."""
    file = index()
    root = b"\xa5\x02" + b"\x00" * 13 + b"\x01" + b"\x00" * 7 + b"\x01"
    compare("an empty index", file.bytes_at(0, HEAD + 1), root.ljust(HEAD, b"\x00"))
    file.run(FIRST)
    compare("a record", file.bytes_at(HALVES[0], len(RECORD)), RECORD)
    file.run("flush")
    compare("a level", file.levels(), [SEGMENT])
    compare("the level as the model spells it", level([LEVELS[0]]), SEGMENT)
    compare("where it stands", file.root()[1], [(HEAD, 126)])
    compare("its dump", file.run("dump"), ["add a\tred fox\tthe quick red fox", "dumped 1"])


# Each term of the first two documents with its list.
LISTS = """\
D 9 16
Na 1
Nb 10
S 1 10
T 4 12
Wbrown 14
Wdog 15
Wfox 3 8 11
Wquick 6 13
Wred 2 7
Wthe 5
XFox 3 11
XRed 2
"""

# The same of the second alone, where the first was deleted before the flush.
WITHOUT_FIRST = """\
D 16
Nb 10
S 10
T 12
Wbrown 14
Wdog 15
Wfox 11
Wquick 13
XFox 11
"""


def flushes(index):
    for lines, want in (([], LISTS), (["delete a"], WITHOUT_FIRST)):
        file = index()
        file.run(FIRST, SECOND, *lines, "flush")
        rows = [row.split(" ") for row in want.splitlines()]
        documents = [(1, 1, 9, b"a"), (2, 10, 7, b"b")][bool(lines) :]
        terms = [(term.encode(), [int(location) for location in list_]) for term, *list_ in rows]
        compare(lines, file.levels(), [segment(documents, terms)])


# Documents of two levels, each by its name, title and body; the ends that are deleted; and the names that their join has, in how many
# steps of one term, which is how many terms there are in both.
JOINS = (
    ("ab|cd", [], "abcd", 17),
    ("ab|cd", [16, 22], "ad", 17),
    ("ab|cd", [27], "abc", 17),
    ("ab|cd", [9, 16, 27], "c", 17),
    ("ab|cd", [9, 16, 22, 27], "", 17),
    ("c|d", [], "cd", 10),
    ("a|b", [], "ab", 13),
    ("a|b", [9], "b", 13),
    ("a|b", [16], "a", 13),
    ("a|b", [9, 16], "", 13),
    ("a|e", [], "ae", 11),
    ("a|e", [9], "e", 11),
    ("a|e", [12], "a", 11),
    ("a|e", [9, 12], "", 11),
)

DOCUMENTS = {
    "a": (1, 1, "a", "Red Fox", "the quick red fox"),
    "b": (2, 10, "b", "Fox", "quick brown dog"),
    "c": (3, 17, "c", "Dog", "red dog"),
    "d": (4, 23, "d", "", "quick zebra"),
    "e": (2, 10, "e", "", ""),
}


def joins(index):
    for row in JOINS:
        levels, ends, names, terms = row
        content = content_of([[DOCUMENTS[name] for name in names_] for names_ in levels.split("|")], ends, 5, 28)
        want = [level([DOCUMENTS[name] for name in names])] if names else []
        merged = index(content)
        compare(row, merged.run("merge"), ["ok"])
        compare(row, merged.levels(), want)
        for n in (1, 5, 1_000_000):
            stepped = index(content)
            steps = -(-terms // n)
            stepped.run(*[f"step {n}"] * (steps - 1))
            compare((row, n), len(stepped.levels()), 2)
            compare((row, n), stepped.run(*[f"step {n}"] * steps), ["ok"] * steps)
            compare((row, n), stepped.levels(), want)


# ---- an index of an earlier program, under a root of version 1

# The record that puts `a` with the body `blue` in the place of document 1, and the next gate.
BLUE = b"\xa5\x00\x00\x00\x17\x03\x00\x00\x00\x00\x00\x00\x00\x01\x01a\x00\x00\x00\x00\x00\x00\x00\x04blue\x00"


def raised(index):
    """A replacement raises the root of version 1, and an add does not."""
    content = bytearray(HEAD)
    content[:24] = b"\xa5\x01" + b"\x00" * 13 + b"\x01" + b"\x00" * 7 + b"\x01"
    content[HALVES[0] : HALVES[0] + len(RECORD)] = RECORD
    file = index(content)
    compare("an add", file.run(SECOND), ["added 2"])
    compare("its gate", file.bytes_at(SLOT_B, 1), b"\x00")
    file = index(content)
    compare("a replacement", file.run("add a\t\tblue"), ["replaced 1 by 2"])
    compare("its version", file.bytes_at(SLOT_B, 3), b"\xa5\x02\x01")
    compare("its record", file.bytes_at(HALVES[1], len(BLUE)), BLUE)


# The slot that counts, with two levels and a deletion list, and the slot before it; their halves of the journal, of which the first has
# an add, a delete and a closed gate, and what is left of a longer half; and both levels, with the list behind them. Documents 1 and 2
# were flushed and deleted, 3 was flushed, and 4 stands in the journal.
EARLIER = {
    0: (
        b"\xa5\x01\x02\x02\x00\x00\x00\x00\x00\x00\x00\x00\x00\x00\x00\x04\x00\x00\x00\x00\x00\x00\x00\x17"
        b"\x00\x00\x00\x00\x00 !\x14\x00\x00\x00\x00\x00\x00\x00\x01\x00\x00\x00\x00\x00  \x00\x00\x00\x00"
        b"\x00\x00\x00\x00\xab\x00\x00\x00\x00\x00  \xab\x00\x00\x00\x00\x00\x00\x00i"
    ),
    SLOT_B: (
        b"\xa5\x01\x01\x01\x00\x00\x00\x00\x00\x00\x00\x00\x00\x00\x00\x03\x00\x00\x00\x00\x00\x00\x00\x10"
        b"\x00\x00\x00\x00\x00\x00\x00\x00\x00\x00\x00\x00\x00\x00\x00\x00\x00\x00\x00\x00\x00  \x00\x00"
        b"\x00\x00\x00\x00\x00\x00\xab"
    ),
    HALVES[0]: (
        b"\xa5\x00\x00\x00\x13\x01\x01d\x00\x00\x00\x00\x00\x00\x00\x08new moon\xa5\x00\x00\x00\x09\x02"
        b"\x00\x00\x00\x00\x00\x00\x00\x02\x00x\xa5\x00\x00\x00\x17\x01\x01b\x00\x00\x00\x04Blue\x00\x00"
        b"\x00\x08blue sea"
    ),
    HALVES[1]: (
        b"\xa5\x00\x00\x00\x19\x01\x01c\x00\x00\x00\x03Old\x00\x00\x00\x0ban old tale\xa5\x00\x00\x00\x09"
        b"\x02\x00\x00\x00\x00\x00\x00\x00\x01\x00"
    ),
    HEAD: (
        b"\x00\x00\x00\x00\x00\x00\x00\x02\x00\x00\x00\x00\x00\x00\x00\x0e\x00\x00\x00\x00\x00\x00\x00\x0a"
        b"\x00\x00\x00\x00\x00\x00\x00m\x01\x01\x09\x01a\x01\x01\x06\x01b\x00\x01D\x02\x02\x00\x00\x02Na"
        b"\x01\x01\x00\x01\x01b\x01\x01\x00\x00\x01S\x02\x02\x00\x00\x01T\x02\x02\x00\x00\x05Wblue\x02\x02"
        b"\x00\x01\x03fox\x02\x02\x00\x01\x05quick\x01\x01\x00\x01\x03red\x02\x02\x00\x01\x03sea\x01\x01"
        b"\x00\x01\x03the\x01\x01\x00\x00\x05XBlue\x01\x01\x00\x01\x03Fox\x01\x01\x00\x01\x03Red\x01\x01"
        b"\x00\x09\x06\x01\x0a\x01\x09\x04\x08\x0b\x02\x03\x05\x06\x02\x05\x0e\x05\x0b\x03\x02\x00\x00\x00"
        b"\x00\x00\x00\x00\x01\x00\x00\x00\x00\x00\x00\x00\x08\x00\x00\x00\x00\x00\x00\x00\x05\x00\x00\x00"
        b"\x00\x00\x00\x00;\x03\x10\x07\x01c\x00\x01D\x01\x01\x00\x00\x02Nc\x01\x01\x00\x00\x01S\x01\x01"
        b"\x00\x00\x01T\x01\x01\x00\x00\x03Wan\x01\x01\x00\x01\x03old\x02\x02\x00\x01\x04tale\x01\x01\x00"
        b"\x00\x04XOld\x01\x01\x00\x16\x10\x10\x12\x13\x11\x03\x15\x11\x09"
    ),
}

# What is done, and the counts then.
RAISES = """\
flush => 2 6 5
merge => 2 6 5
replace c => 2 3 6
add e, replace d, delete c, flush, merge => 2 7 7
"""
ACTS = {"flush": "flush", "merge": "merge", "add": "add {}\tRed Fox\tthe quick red fox", "replace": "add {}\t\tblue", "delete": "delete {}"}


def earlier(index):
    content = bytearray(HEAD + len(EARLIER[HEAD]))
    for place, part in EARLIER.items():
        content[place : place + len(part)] = part
    file = index(content)
    compare("its documents", file.run("delete c", "delete d", "delete a"), ["deleted 3", "deleted 4", "! no such document"])
    file = index(content)
    compare("an add", file.run("add e\tRed Fox\tthe quick red fox", "stats"), ["added 5", "documents 3 words 12 next 6"])
    compare("its versions", (file.bytes_at(1, 1), file.bytes_at(SLOT_B + 1, 1)), (b"\x01", b"\x01"))
    for row in RAISES.splitlines():
        acts, want = row.split(" => ")
        file = index(content)
        file.run(*[ACTS[act.split(" ")[0]].format(act.split(" ")[-1]) for act in acts.split(", ")])
        compare(row, file.bytes_at(SLOT_B + 1, 1), b"\x02")
        documents, words, number = want.split(" ")
        compare(row, file.run("stats"), [f"documents {documents} words {words} next {number}"])


# Names that have one hash in the program's table of names, by FoldHasher of the kit: which of them came first is found by the hash, and
# the other by its text.
ONE_HASH = (("obibhlbbdjfdeeoe", "gchcbilndmmgbplg"), ("lhcaphbohlkckfam", "njojhhhphnjemccn"))

# What comes behind the adds of both as documents 1 and 2, and the numbers of the first and the second then, 0 where it is gone.
SHARED = """\
stats => 1 2
flush => 1 2
delete 1 => 0 2
flush, delete 1 => 0 2
delete 2 => 1 0
flush, delete 2 => 1 0
delete 1, add 1 => 3 2
flush, delete 1, flush, add 1 => 3 2
delete 2, add 2 => 1 3
flush, delete 2, add 2, merge => 1 3
add 1 => 3 2
flush, add 2, merge => 1 3
delete 1, delete 2, add 2, add 1 => 4 3
flush, delete 1, add 2, merge, add 1 => 4 3
"""


def one_hash(index):
    for pair in ONE_HASH:
        for row in SHARED.splitlines():
            acts, want = row.split(" => ")
            file = index()
            lines = [f"add {name}\ttitle\ttext" for name in pair]
            for act in acts.split(", "):
                word, name = act.split(" ")[0], pair[int(act[-1]) - 1] if act[-1].isdigit() else ""
                lines.append({"add": f"add {name}\ttitle\ttext", "delete": f"delete {name}"}.get(word, word))
            numbers = dict(zip(pair, map(int, want.split(" "))))
            found = [f"{number} {name}" for number, name in sorted((number, name) for name, number in numbers.items() if number)]
            compare(row, file.run(*lines, "search text")[-len(found) - 1 : -1], found)
            compare(row, file.run("search text")[:-1], found)
            again = file.run(*[f"add {name}\ttitle\ttext" for name in pair])
            compare(row, [reply.rsplit(" ", 1)[0] for reply in again], [f"replaced {numbers[name]} by" if numbers[name] else "added" for name in pair])


def main():
    parser = argparse.ArgumentParser()
    parser.add_argument("--program", default="./alta")
    program = os.path.abspath(parser.parse_args().program)
    with tempfile.TemporaryDirectory() as folder:
        make = lambda content=None: Index(program, folder, content)
        for part in (answers, best, many, over_levels, reads, one_document, flushes, joins, raised, earlier, one_hash):
            part(make)
    tables = (ANSWERS.splitlines(), BEST.splitlines(), OF_MANY.splitlines(), OVER_LEVELS.splitlines(), READS.splitlines(), JOINS, RAISES.splitlines(), SHARED.splitlines())
    print(f"worked: {sum(map(len, tables))} rows")


if __name__ == "__main__":
    main()
