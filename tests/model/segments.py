"""A segment, as docs/FORMAT.md has it: read field by field up to the first that breaks a rule, and written. Nothing of the program is used."""

import os
from bisect import bisect_left
from typing import NamedTuple

TOP = 2**62
BLOCK = 64


class Broken(Exception):
    """A field breaks a rule: the place of the fault inside the segment."""

    def __init__(self, place):
        self.place = place


def rule(holds, place):
    if not holds:
        raise Broken(place)


# ---- the reading


def number(content, at, end):
    """The LEB128 number at a place, and the place behind it. Only the shortest spelling of a u64 that ends before `end`
    is read; the fault of any other is at its first byte."""
    value = 0
    for index in range(10):
        rule(at + index < end, at)
        byte = content[at + index]
        if index == 9:
            rule(byte == 1, at)
        value += (byte & 127) << 7 * index
        if byte < 128:
            rule(index == 0 or byte != 0, at)
            return value, at + index + 1
    raise AssertionError("the tenth byte decides")


def read_head(content):
    """The four numbers of the head."""
    total = len(content)
    fields = []
    for at in (0, 8, 16, 24):
        rule(at + 8 <= total, at)
        fields.append(int.from_bytes(content[at : at + 8], "big"))
        if at == 0:
            rule(fields[0] >= 1, at)
        if at == 16:
            rule(32 + fields[2] <= total, at)
        if at == 24:
            rule(32 + fields[2] + fields[3] <= total, at)
    return fields


class Row(NamedTuple):
    """A document of a segment: its number, its first and its last location, its name, and where the name stands."""

    number: int
    first: int
    last: int
    name: bytes
    place: int


def read_documents(content, at, end, count):
    """The rows of the documents."""
    rows = []
    before = last = 0
    for _ in range(count):
        difference, then = number(content, at, end)
        rule(difference >= 1 and before + difference < TOP, at)
        before += difference
        at = then
        difference, then = number(content, at, end)
        first = last + difference
        rule(difference >= 1 and first < TOP, at)
        at = then
        cells, then = number(content, at, end)
        last = first + cells - 1
        rule(3 <= cells <= 262146 and last < TOP, at)
        at = then
        rule(at < end and 1 <= content[at] <= 64, at)
        length = content[at]
        at += 1
        rule(at + length <= end, at)
        rule(all(0x21 <= byte <= 0x7E for byte in content[at : at + length]), at)
        rows.append(Row(before, first, last, bytes(content[at : at + length]), at))
        at += length
    rule(at == end, at)
    return rows


def read_terms(content, at, end, count):
    """Per term: its bytes, its stated number of locations, and the places where stream and summary begin and end."""
    terms = []
    term = b""
    place = end
    total = len(content)
    for index in range(count):
        prefix, then = number(content, at, end)
        rule(prefix <= len(term), at)
        at = then
        length, then = number(content, at, end)
        rule(length >= 1 and prefix + length <= 129, at)
        at = then
        rule(at + length <= end, at)
        rest = bytes(content[at : at + length])
        new = term[:prefix] + rest
        rule(prefix == len(term) or rest[0] != term[prefix], at)
        rule(index == 0 or new > term, at)
        rule(new[:1] in (b"W", b"X", b"N", b"S", b"T", b"D"), at)
        term = new
        at += length
        stated, then = number(content, at, end)
        rule(stated >= 1, at)
        at = then
        bounds = [place]
        for _ in range(2):
            length, then = number(content, at, end)
            rule(place + length <= total, at)
            place += length
            bounds.append(place)
            at = then
        terms.append((term, stated, bounds))
    rule(at == end, at)
    rule(place == total, place)
    rule(any(term == b"D" for term, _, _ in terms), 8)
    return terms


def read_tables(content):
    """The documents and the terms of a segment, whose lists are not looked at."""
    documents, terms, document_bytes, term_bytes = read_head(content)
    middle = 32 + document_bytes
    return read_documents(content, 32, middle, documents), read_terms(content, middle, middle + term_bytes, terms)


def read_stream(content, at, end):
    """The locations of a stream, and for each the place of its number."""
    locations, places = [], []
    before = 0
    while at < end:
        difference, then = number(content, at, end)
        rule(difference >= 1 and before + difference < TOP, at)
        before += difference
        locations.append(before)
        places.append(at)
        at = then
    return locations, places


def read_summary(content, at, end):
    """The rows of a summary: first location, last location, place."""
    if at == end:
        return []
    length = end - at
    count = next((b for b in range(2, length // 24 + 1) if 24 * b + 8 * -(-b // 64) == length), None)
    rule(count is not None, end)
    fields = [int.from_bytes(content[place : place + 8], "big") for place in range(at, end, 8)]
    rows = []
    for index in range(count):
        first, last, place = fields[3 * index : 3 * index + 3]
        if index > 0:
            rule(rows[-1][1] < first, at + 24 * index)
        rule(first <= last, at + 24 * index + 8)
        rule(place > rows[-1][2] if index > 0 else place == 0, at + 24 * index + 16)
        rows.append((first, last, place))
    for group, last in enumerate(fields[3 * count :]):
        rule(last == rows[min(64 * group + 63, count - 1)][1], at + 24 * count + 8 * group)
    return rows


def blocks_of(locations, places):
    """The blocks of a stream, of 64 locations each: the first location, the last, and the place of the first number."""
    starts = range(0, len(locations), BLOCK)
    return [(locations[i], locations[i : i + BLOCK][-1], places[i] - places[0]) for i in starts]


def is_inside(location, documents):
    """Whether a location is one of a document."""
    at = bisect_left(documents, location, key=lambda row: row.last)
    return at < len(documents) and documents[at].first <= location


def read_list(content, documents, term, stated, bounds):
    """Tests the stream and the summary of a term, and answers its locations."""
    start, middle, end = bounds
    locations, places = read_stream(content, start, middle)
    rows = read_summary(content, middle, end)
    want = blocks_of(locations, places)
    # one block alone has no table; beside a table it is its block 0
    if rows or len(want) > 1:
        for index in range(max(len(rows), len(want))):
            rule(rows[index : index + 1] == want[index : index + 1], middle + 24 * index)
    rule(len(locations) == stated, start)
    rule(all(is_inside(location, documents) for location in locations), start)
    rule(term != b"D" or locations == [row.last for row in documents], start)
    return locations


def first_broken(content):
    """The place of the first field that breaks a rule, None where none does."""
    try:
        documents, terms = read_tables(content)
        for term, stated, bounds in terms:
            read_list(content, documents, term, stated, bounds)
    except Broken as fault:
        return fault.place
    return None


# ---- the writing


def spelled(value):
    """The LEB128 spelling of a number."""
    out = bytearray()
    while value >= 128:
        out.append(128 + value % 128)
        value //= 128
    out.append(value)
    return bytes(out)


def stream(locations):
    return b"".join(spelled(x - before) for before, x in zip([0] + locations, locations))


def summary(rows):
    """The summary of these rows."""
    fields = [field for row in rows for field in row]
    fields += [rows[min(first + 64, len(rows)) - 1][1] for first in range(0, len(rows), 64)]
    return b"".join(field.to_bytes(8, "big") for field in fields)


def blocks(locations):
    """The rows of a list, by where the numbers stand in its stream."""
    places = [0]
    for before, x in zip([0] + locations, locations):
        places.append(places[-1] + len(spelled(x - before)))
    return blocks_of(locations, places) if len(locations) > BLOCK else []


def segment(documents, terms):
    """The segment of documents (number, first location, cells, name) and of terms. A term has its locations, or what is
    written of it: stated number of locations, stream, summary."""
    rows, table, lists = b"", b"", b""
    number_before = last_before = 0
    for number_, first, cells, name in documents:
        rows += spelled(number_ - number_before) + spelled(first - last_before) + spelled(cells)
        rows += bytes([len(name)]) + name
        number_before, last_before = number_, first + cells - 1
    before = b""
    for term, list_ in terms:
        if isinstance(list_, list):
            list_ = (len(list_), stream(list_), summary(blocks(list_)))
        count, coded, rows_coded = list_
        prefix = len(os.path.commonprefix([before, term]))
        rest = term[prefix:]
        table += spelled(prefix) + spelled(len(rest)) + rest + spelled(count)
        table += spelled(len(coded)) + spelled(len(rows_coded))
        lists += coded + rows_coded
        before = term
    head = [len(documents), len(terms), len(rows), len(table)]
    return b"".join(field.to_bytes(8, "big") for field in head) + rows + table + lists
