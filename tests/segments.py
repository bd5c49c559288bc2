#!/usr/bin/env python3
"""Makes the segments and the expected places of crates/check_damages, by a reading of the format of its own.

usage: tests/segments.py [--check] [--random N] [--seed N] [--program PATH]

Writes crates/check_damages/data, args and stdout; with --check it only compares them with what stands there, and ends
with status 1 where they differ. Nothing of the program is used: `first_broken` reads a segment field by field as
docs/FORMAT.md describes it, and `segment` writes one (tests/model/segments.py). With --random it runs the program of crates/check_damages, which
`rt run` builds there, on N segments with random faults, and ends with status 1 where a place differs from its own.

The program prints the same from its own reading: for each segment its name and the place inside it of the first field
that breaks a rule, `.` where none does. A whole segment of at most LIMIT bytes is then damaged: for each byte a line
with the places that come where the byte has each of VALUES, and at the end of the line the place that comes where the
segment is cut before that byte; and a last line with the place that comes where one byte more stands at the end.
"""

import argparse
import os
import random
import subprocess
import sys
import tempfile

from model.faults import SMALL, VALUES, damaged
from model.segments import TOP, blocks, first_broken, segment, spelled, stream, summary

LIMIT = 1024

# ---- the segments

SMALL_DOCUMENTS = [(1, 1, 9, b"a")]
SMALL_TERMS = [
    (b"D", [9]),
    (b"Na", [1]),
    (b"S", [1]),
    (b"T", [4]),
    (b"Wfox", [3, 8]),
    (b"Wquick", [6]),
    (b"Wred", [2, 7]),
    (b"Wthe", [5]),
    (b"XFox", [3]),
    (b"XRed", [2]),
]

# Two documents with room between them, and numbers of two bytes.
DOCUMENTS = [(300, 130, 200, b"first"), (301, 500, 9, b"second")]
MANY = [x for x in range(130, 330) if x % 5 != 0][:80] + [500, 507]
TERMS = [
    (b"D", [329, 508]),
    (b"Nfirst", [130]),
    (b"Nsecond", [500]),
    (b"S", [130, 500]),
    (b"T", [133, 503]),
    (b"Wboth", [131, 132, 502]),
    (b"Wbother", MANY),
    (b"Wrare", [505]),
    (b"XRare", [505]),
]


def with_list(term, list_):
    """The large segment, with this list of a term."""
    return segment(DOCUMENTS, [(t, list_ if t == term else l) for t, l in TERMS])


def with_documents(documents):
    return segment(documents, TERMS)


def with_terms(terms):
    return segment(DOCUMENTS, sorted(terms))


def changed(list_, *rows):
    """A list with other rows in its summary: (row, field, value)."""
    own = [list(row) for row in blocks(list_)]
    for row, field, value in rows:
        own[row][field] = value
    return (len(list_), stream(list_), summary(own))


def segments():
    """Each segment by name: two that are whole, others that are whole at a bound, and damaged ones."""
    many, coded, rows = len(MANY), stream(MANY), summary(blocks(MANY))
    top = spelled(TOP)
    wide_documents = [(1, 1, 5000, b"w")]
    wide = [(b"D", [5000]), (b"Wall", list(range(1, 4164)))]
    wide_rows = summary(blocks(wide[1][1]))
    long_term = b"W" + b"x" * 128
    made = {
        "small": SMALL,
        "large": with_list(None, None),
        # the fields of rows and groups
        "first_of_a_row": with_list(b"Wbother", changed(MANY, (1, 0, blocks(MANY)[1][0] + 1))),
        "last_of_a_row": with_list(b"Wbother", changed(MANY, (0, 1, blocks(MANY)[0][1] - 1))),
        "place_of_a_row": with_list(b"Wbother", changed(MANY, (1, 2, blocks(MANY)[1][2] + 1))),
        "first_behind_last": with_list(b"Wbother", changed(MANY, (0, 0, 400), (1, 0, 1))),
        "place_not_zero": with_list(b"Wbother", changed(MANY, (0, 2, 1))),
        "rows_that_meet": with_list(b"Wbother", changed(MANY, (1, 0, blocks(MANY)[0][1]))),
        "group": with_list(b"Wbother", (many, coded, rows[:-1] + bytes([rows[-1] ^ 1]))),
        "summary_one_byte_short": with_list(b"Wbother", (many, coded, rows[:-1])),
        "summary_of_one_row": with_list(b"Wbother", (many, coded, summary(blocks(MANY)[:1]))),
        "no_summary": with_list(b"Wbother", (many, coded, b"")),
        "row_too_many": with_list(b"Wbother", (many, coded, summary(blocks(MANY) + [(600, 601, 200)]))),
        "rows_of_a_short_list": with_list(b"Wboth", (3, stream([131, 132, 502]), summary([(131, 132, 0), (502, 502, 2)]))),
        "row_behind_the_one_block": segment([(1, 1, 4, b"a")], [(b"D", [4]), (b"Wa", (2, stream([1, 2]), summary([(1, 2, 0), (3, 4, 1)])))]),
        "row_missing": segment(wide_documents, [wide[0], (b"Wall", (4163, stream(wide[1][1]), summary(blocks(wide[1][1])[:-1])))]),
        # groups of more than 64 rows
        "two_groups": segment(wide_documents, wide),
        "second_group": segment(wide_documents, [wide[0], (b"Wall", (4163, stream(wide[1][1]), wide_rows[:-1] + b"\0"))]),
        "first_group": segment(wide_documents, [wide[0], (b"Wall", (4163, stream(wide[1][1]), wide_rows[:-9] + b"\1" + wide_rows[-8:]))]),
        # the streams by themselves, before their summaries
        "stream_of_zeros": with_list(b"Wrare", (2, b"\x01\x00", b"")),
        "long_number": with_list(b"Wbother", (many, coded[:-1] + bytes([coded[-1] | 128, 0]), rows[:-1])),
        "number_cut": with_list(b"Wbother", (many, coded + b"\x81", rows[:-1])),
        "location_at_top": with_list(b"Wrare", (1, top, b"")),
        "empty_stream": with_list(b"Wrare", (1, b"", b"")),
        # the streams against their rows and the documents
        "one_too_few": with_list(b"Wboth", (4, stream([131, 132, 502]), b"")),
        "one_too_many": with_list(b"Wboth", (2, stream([131, 132, 502]), b"")),
        "before_all": with_list(b"Wboth", [129, 131]),
        "between": with_list(b"Wboth", [329, 330]),
        "up_to_the_next": with_list(b"Wboth", [499, 500]),
        "behind_all": with_list(b"Wbother", MANY + [509]),
        "row_before_range": with_list(b"Wbother", changed(MANY + [509], (1, 0, blocks(MANY)[1][0] + 1))),
        "other_ends": with_list(b"D", [328, 508]),
        "end_missing": with_list(b"D", [329]),
        "list_after_list": segment(DOCUMENTS, [(t, (len(l), stream(l), b"\0") if t in (b"T", b"S") else l) for t, l in TERMS]),
        # the documents
        "number_at_top": with_documents([(TOP, 130, 200, b"first"), (301, 500, 9, b"second")][:1]),
        "number_below_top": segment([(TOP - 1, 1, 3, b"n")], [(b"D", [3])]),
        "first_at_top": segment([(1, TOP, 3, b"n")], [(b"D", [3])]),
        "end_at_top": segment([(1, TOP - 3, 4, b"n")], [(b"D", [3])]),
        "end_below_top": segment([(1, TOP - 3, 3, b"n")], [(b"D", [TOP - 1])]),
        "most_cells": segment([(1, 1, 262146, b"n")], [(b"D", [262146])]),
        "cells_too_many": segment([(1, 1, 262147, b"n")], [(b"D", [262147])]),
        "cells_too_few": segment([(1, 1, 2, b"n")], [(b"D", [2])]),
        "longest_name": segment([(1, 1, 3, b"n" * 64)], [(b"D", [3])]),
        "name_too_long": segment([(1, 1, 3, b"n" * 65)], [(b"D", [3])]),
        # the terms
        "no_end_term": with_terms([(t, l) for t, l in TERMS if t != b"D"]),
        "no_end_term_and_a_byte_more": with_terms([(t, l) for t, l in TERMS if t != b"D"]) + b"\0",
        "no_end_term_and_a_bad_list": with_terms([(t, [400] if t == b"Wrare" else l) for t, l in TERMS if t != b"D"]),
        "no_terms": segment(DOCUMENTS, []),
        "longest_term": segment([(1, 1, 3, b"n")], [(b"D", [3]), (long_term, [2])]),
        "term_too_long": segment([(1, 1, 3, b"n")], [(b"D", [3]), (long_term + b"x", [2])]),
        "rest_too_long": segment([(1, 1, 3, b"n")], [(b"D", [3]), (long_term, [2]), (long_term + b"x", [2])]),
        "other_kind": segment([(1, 1, 3, b"n")], [(b"D", [3]), (b"Ea", [2])]),
        "terms_out_of_order": segment([(1, 1, 3, b"n")], [(b"S", [1]), (b"D", [3])]),
        "term_twice": segment([(1, 1, 3, b"n")], [(b"D", [3]), (b"D", [3])]),
        "no_locations": with_list(b"Wrare", (0, b"", b"")),
        "no_documents": segment([], [(b"D", [3])]),
    }
    return made


def shown(content):
    place = first_broken(content)
    return "." if place is None else str(place)


def damages(content):
    """The lines of a whole segment: each byte changed, and cut."""
    for index in range(len(content)):
        row = [shown(content[:index] + bytes([value]) + content[index + 1 :]) for value in VALUES]
        yield " ".join([*row, shown(content[:index])])
    yield shown(content + b"\0")


def lines(made):
    for name, content in made.items():
        yield f"{name} {shown(content)}"
        if first_broken(content) is None and len(content) <= LIMIT:
            yield from damages(content)


# ---- segments with random faults


def invented_list(chance, ranges):
    """A list inside the ranges, now and then with a fault: stated number, stream, summary."""
    inside = [x for first, last in ranges for x in range(first, last + 1 + (chance.random() < 0.05))]
    count = min(chance.choice([1, 2, 3, 64, 65, 128, 129, 200]), len(inside))
    locations = sorted(set(chance.sample(inside, count)))
    stated, coded, rows = len(locations), stream(locations), [list(row) for row in blocks(locations)]
    fault = chance.choice(["none"] * 7 + ["stated", "row", "rows", "stream", "summary"])
    if fault == "stated":
        stated += chance.choice([1, -1])
    if fault == "row" and rows:
        row = chance.choice(rows)
        field = chance.randrange(3)
        row[field] = max(0, row[field] + chance.choice([1, -1, 5, -5, 100]))
    if fault == "rows":
        rows = rows[:-1] or [(1, 2, 0), (3, 4, 1)]
    if fault == "stream":
        at = chance.randrange(len(coded))
        coded = coded[:at] + bytes([chance.choice([0, 1, 127, 128, 255])]) + coded[at + 1 :]
    rows_coded = summary(rows)
    if fault == "summary":
        rows_coded = rows_coded[: -chance.choice([1, 8, 24, 32])]
    return stated, coded, rows_coded


def invented(chance):
    """A segment of a few documents and terms, now and then with a fault in a row."""
    documents = []
    number_ = last = 0
    for _ in range(chance.choice([1, 1, 2, 3, 5])):
        number_ += chance.choice([1] * 10 + [2, 200, 0])
        first = last + chance.choice([1] * 10 + [2, 50, 0])
        cells = chance.choice([3, 4, 9, 100, 200, 300, 2])
        name = bytes(chance.choices(b"abc!~", k=chance.choice([1, 2, 3, 5, 63, 64, 65])))
        documents.append((number_, first, cells, name))
        last = first + cells - 1
    ranges = [(first, first + cells - 1) for _, first, cells, _ in documents]
    terms = {b"D": [last for _, last in ranges]} if chance.random() < 0.97 else {}
    for _ in range(chance.choice([0, 1, 2, 4])):
        kind = chance.choice(b"NSTXWWWWWW" if chance.random() < 0.95 else b"DEz")
        term = bytes([kind, *chance.choices(b"ab\xff\0", k=chance.choice([0, 1, 2, 3, 128]))])
        terms[term] = invented_list(chance, ranges)
    content = segment(documents, sorted(terms.items()))
    return damaged(chance, content) if chance.random() < 0.3 else content


def try_random(program, count, seed):
    """Runs the program on segments with random faults."""
    chance = random.Random(seed)
    made = segments()
    differing = whole = 0
    with tempfile.TemporaryDirectory() as folder:
        want = {}
        for index in range(count):
            base = made[chance.choice(["small", "large", "large", "most_cells"])]
            content = damaged(chance, base) if chance.random() < 0.5 else invented(chance)
            name = f"{index}"
            with open(os.path.join(folder, name), "wb") as file:
                file.write(content)
            want[name] = shown(content)
        answer = subprocess.run([program, *want], cwd=folder, check=True, stdout=subprocess.PIPE).stdout.decode()
        lines_of = iter(answer.splitlines())
        for name, place in want.items():
            got = next((line for line in lines_of if line.startswith(f"{name} ") and line.count(" ") == 1), "").split(" ")[-1]
            whole += place == "."
            if got != place:
                differing += 1
                print(f"segment {name}: the program answers {got}, the reading {place}")
    print(f"{count} segments, {whole} whole, {differing} differ")
    return differing == 0


def main():
    parser = argparse.ArgumentParser(description=__doc__, formatter_class=argparse.RawDescriptionHelpFormatter)
    crate = os.path.join(os.path.dirname(os.path.dirname(os.path.abspath(__file__))), "crates/check_damages")
    parser.add_argument("--check", action="store_true")
    parser.add_argument("--random", type=int, metavar="N")
    parser.add_argument("--seed", type=int, default=1)
    parser.add_argument("--program", default=os.path.join(crate, "out/check_damages"))
    options = parser.parse_args()
    if options.random:
        sys.exit(0 if try_random(os.path.abspath(options.program), options.random, options.seed) else 1)
    if segment(SMALL_DOCUMENTS, SMALL_TERMS) != SMALL:
        sys.exit("segments: the writer does not write the segment of docs/FORMAT.md")
    made = segments()
    files = {f"data/{name}": content for name, content in made.items()}
    files["args"] = "".join(f"{name}\n" for name in made).encode()
    files["stdout"] = "".join(f"{line}\n" for line in lines(made)).encode()
    others = set(os.listdir(os.path.join(crate, "data"))) - set(made)
    differing = sorted(f"data/{name}" for name in others)
    for path, content in files.items():
        full = os.path.join(crate, path)
        if options.check:
            if not os.path.exists(full) or open(full, "rb").read() != content:
                differing.append(path)
            continue
        with open(full, "wb") as file:
            file.write(content)
    if differing:
        sys.exit("segments: not what this script makes: " + ", ".join(differing))


if __name__ == "__main__":
    main()
