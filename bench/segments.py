#!/usr/bin/env python3
"""Measures the opening, the reading and the building of a segment beside plain C that does the same, in the same run.

usage: bench/segments.py [--program PATH] [--terms N] [--documents N] [--rounds N] [--turns N] [--make PATH]

Makes a segment of N terms (100,000) over some documents (2,000): a few locations a word, and a long list for one word of
a thousand. With --make it only writes that segment: crates/bench_segments/data/segment is the one of 1,000 terms and 20
documents. PATH is the program of crates/bench_segments, which `rt run` builds there (crates/bench_segments/out/bench_segments
by default). The C program is compiled by `gcc -O2` in a temporary folder. It tests the same rules, field by field:

open    reads head, documents and terms, and keeps the rows, with the names and the terms in one buffer each
read    does that, tests each stream, its summary and its locations, and keeps all locations in one array
build   does that, and writes the segment of what it read

Prints for each how many million bytes a second of processor time are read or written (of `open` the bytes of head and
tables, else of the whole), for both. The time is that of ROUNDS rounds more: the least of some turns, less the least of one round.
"""

import argparse
import os
import random
import subprocess
import sys
import tempfile

TOP = os.path.dirname(os.path.dirname(os.path.abspath(__file__)))
sys.path.insert(0, os.path.join(TOP, "tests"))

from model import segments
from rounds import speed

PLAIN = r"""
#include <stdint.h>
#include <stdio.h>
#include <stdlib.h>
#include <string.h>

#define TOP ((uint64_t)1 << 62)

typedef struct { uint64_t number, first, cells, name; uint8_t length; } row;
typedef struct { uint64_t term, length, count, stream, stream_bytes, summary_bytes, list; } entry;
typedef struct {
    const uint8_t *bytes;
    uint64_t total, documents, terms, document_bytes, term_bytes;
    row *rows;
    uint8_t *names, *text;
    entry *entries;
    uint64_t *locations;
} segment;

/* The number at a place, and the place behind it: 0 where it is cut, long or wide. */
static inline uint64_t number(const uint8_t *bytes, uint64_t at, uint64_t end, uint64_t *value) {
    uint64_t read = 0;
    for (unsigned index = 0; index < 10; index++) {
        if (at + index >= end) return 0;
        uint8_t byte = bytes[at + index];
        if (index == 9 && byte != 1) return 0;
        read |= (uint64_t)(byte & 127) << 7 * index;
        if (byte < 128) {
            if (index > 0 && byte == 0) return 0;
            *value = read;
            return at + index + 1;
        }
    }
    return 0;
}

static inline uint64_t fixed(const uint8_t *bytes) {
    uint64_t value;
    memcpy(&value, bytes, 8);
    return __builtin_bswap64(value);
}

/* The tables of a segment: the place of the first field that breaks a rule, -1 where none does. */
static int64_t open_tables(segment *s) {
    const uint8_t *bytes = s->bytes;
    if (s->total < 32) return 0;
    s->documents = fixed(bytes), s->terms = fixed(bytes + 8);
    s->document_bytes = fixed(bytes + 16), s->term_bytes = fixed(bytes + 24);
    if (s->documents < 1) return 0;
    if (s->document_bytes > s->total - 32) return 16;
    if (s->term_bytes > s->total - 32 - s->document_bytes) return 24;
    uint64_t at = 32, end = 32 + s->document_bytes, then, value;
    uint64_t before = 0, last = 0, names = 0;
    s->rows = malloc((s->document_bytes / 5 + 1) * sizeof(row));
    s->names = malloc(s->document_bytes + 1);
    for (uint64_t index = 0; index < s->documents; index++) {
        if (!(then = number(bytes, at, end, &value)) || value < 1 || value >= TOP - before) return at;
        row *r = &s->rows[index];
        r->number = before = before + value;
        at = then;
        if (!(then = number(bytes, at, end, &value)) || value < 1 || value >= TOP - last) return at;
        r->first = last + value;
        at = then;
        if (!(then = number(bytes, at, end, &value)) || value < 3 || value > 262146) return at;
        last = r->first + value - 1;
        if (last >= TOP) return at;
        r->cells = value;
        at = then;
        if (at >= end || bytes[at] < 1 || bytes[at] > 64) return at;
        r->length = bytes[at++];
        if (r->length > end - at) return at;
        for (unsigned k = 0; k < r->length; k++)
            if (bytes[at + k] < 0x21 || bytes[at + k] > 0x7e) return at;
        r->name = names;
        memcpy(s->names + names, bytes + at, r->length);
        names += r->length;
        at += r->length;
    }
    if (at != end) return at;
    end += s->term_bytes;
    uint64_t place = end, used = 0, room = 2 * s->term_bytes + 256;
    int found = 0;
    s->entries = malloc((s->term_bytes / 6 + 1) * sizeof(entry));
    s->text = malloc(room);
    entry none = {0}, *previous = &none;
    for (uint64_t index = 0; index < s->terms; index++) {
        uint64_t prefix, length;
        if (!(then = number(bytes, at, end, &prefix)) || prefix > previous->length) return at;
        at = then;
        if (!(then = number(bytes, at, end, &length)) || length < 1 || prefix + length > 129) return at;
        at = then;
        if (length > end - at) return at;
        entry *e = &s->entries[index];
        if (used + 129 > room) s->text = realloc(s->text, room *= 2);
        memcpy(s->text + used, s->text + previous->term, prefix);
        memcpy(s->text + used + prefix, bytes + at, length);
        uint8_t *term = s->text + used, kind = term[0];
        if (prefix < previous->length && bytes[at] <= s->text[previous->term + prefix]) return at;
        if (kind != 'W' && kind != 'X' && kind != 'N' && kind != 'S' && kind != 'T' && kind != 'D') return at;
        e->term = used, e->length = prefix + length, used += prefix + length;
        found |= e->length == 1 && kind == 'D';
        at += length;
        if (!(then = number(bytes, at, end, &e->count)) || e->count < 1) return at;
        at = then;
        e->stream = place;
        if (!(then = number(bytes, at, end, &e->stream_bytes)) || e->stream_bytes > s->total - place) return at;
        place += e->stream_bytes;
        at = then;
        if (!(then = number(bytes, at, end, &e->summary_bytes)) || e->summary_bytes > s->total - place) return at;
        place += e->summary_bytes;
        at = then;
        previous = e;
    }
    if (at != end) return at;
    if (place != s->total) return place;
    return found ? -1 : 8;
}

/* The summary of a list: each row, then each group. */
static int64_t check_summary(const segment *s, const entry *e, const uint64_t *list, const uint64_t *places, uint64_t count) {
    uint64_t at = e->stream + e->stream_bytes;
    uint64_t blocks = count > 64 ? (count + 63) / 64 : 0, groups = (blocks + 63) / 64;
    if (e->summary_bytes != 24 * blocks + 8 * groups) return at + e->summary_bytes;
    for (uint64_t block = 0; block < blocks; block++) {
        uint64_t behind = 64 * block + 64 < count ? 64 * block + 64 : count;
        const uint8_t *field = s->bytes + at + 24 * block;
        if (fixed(field) != list[64 * block] || fixed(field + 8) != list[behind - 1] || fixed(field + 16) != places[block]) return at + 24 * block;
    }
    for (uint64_t group = 0; group < groups; group++) {
        uint64_t behind = 64 * (64 * group + 64) < count ? 64 * (64 * group + 64) : count;
        if (fixed(s->bytes + at + 24 * blocks + 8 * group) != list[behind - 1]) return at + 24 * blocks + 8 * group;
    }
    return -1;
}

/* The first document at or behind one of the rows that ends at or behind a location: by steps that double, then halve. */
static inline uint64_t document_at(const segment *s, uint64_t from, uint64_t location) {
    uint64_t step = 1;
    while (step <= s->documents - from && s->rows[from + step - 1].first + s->rows[from + step - 1].cells <= location) from += step, step *= 2;
    uint64_t end = step <= s->documents - from ? from + step - 1 : s->documents;
    while (from < end) {
        uint64_t middle = from + (end - from) / 2;
        if (s->rows[middle].first + s->rows[middle].cells <= location) from = middle + 1;
        else end = middle;
    }
    return from;
}

/* Each list of a segment, all locations in one array. */
static int64_t read_lists(segment *s) {
    uint64_t all = 0;
    for (uint64_t index = 0; index < s->terms; index++) all += s->entries[index].stream_bytes;
    s->locations = malloc((all + 1) * 8);
    uint64_t *places = malloc((all / 64 + 1) * 8), used = 0;
    for (uint64_t index = 0; index < s->terms; index++) {
        entry *e = &s->entries[index];
        uint64_t at = e->stream, end = at + e->stream_bytes, count = 0, location = 0, document = 0, value, then;
        uint64_t *list = s->locations + used;
        int inside = 1;
        e->list = used;
        while (at < end) {
            if (!(then = number(s->bytes, at, end, &value)) || value < 1 || value >= TOP - location) return at;
            location += value;
            if (count % 64 == 0) places[count / 64] = at - e->stream;
            if (document < s->documents && s->rows[document].first + s->rows[document].cells <= location)
                document = document_at(s, document + 1, location);
            inside &= document < s->documents && s->rows[document].first <= location;
            list[count++] = location;
            at = then;
        }
        int64_t fault = check_summary(s, e, list, places, count);
        if (fault >= 0) return fault;
        if (count != e->count || !inside) return e->stream;
        if (e->length == 1 && s->text[e->term] == 'D') {
            if (count != s->documents) return e->stream;
            for (uint64_t k = 0; k < count; k++)
                if (list[k] != s->rows[k].first + s->rows[k].cells - 1) return e->stream;
        }
        used += count;
    }
    free(places);
    return -1;
}

static uint8_t *put(uint8_t *out, uint64_t value) {
    while (value >= 128) *out++ = 128 | value, value >>= 7;
    *out++ = value;
    return out;
}

static uint8_t *put_fixed(uint8_t *out, uint64_t value) {
    value = __builtin_bswap64(value);
    memcpy(out, &value, 8);
    return out + 8;
}

/* The segment of what was read: how many bytes. */
static uint64_t build(const segment *s) {
    uint64_t locations = 0;
    for (uint64_t index = 0; index < s->terms; index++) locations += s->entries[index].count;
    uint8_t *rows = malloc(s->documents * 95 + 1), *row_end = rows;
    uint64_t number_before = 0, last = 0;
    for (uint64_t index = 0; index < s->documents; index++) {
        const row *r = &s->rows[index];
        row_end = put(row_end, r->number - number_before);
        row_end = put(row_end, r->first - last);
        row_end = put(row_end, r->cells);
        *row_end++ = r->length;
        memcpy(row_end, s->names + r->name, r->length);
        row_end += r->length;
        number_before = r->number, last = r->first + r->cells - 1;
    }
    uint8_t *terms = malloc(s->terms * 180 + 1), *term_end = terms;
    uint8_t *streams = malloc(locations * 10 + 1), *stream_end = streams;
    uint64_t *places = malloc((locations / 64 + 1) * 8);
    entry none = {0}, *previous = &none;
    for (uint64_t index = 0; index < s->terms; index++) {
        entry *e = &s->entries[index];
        const uint64_t *list = s->locations + e->list;
        uint8_t *start = stream_end;
        uint64_t before = 0, prefix = 0;
        for (uint64_t k = 0; k < e->count; k++) {
            if (k % 64 == 0) places[k / 64] = stream_end - start;
            stream_end = put(stream_end, list[k] - before);
            before = list[k];
        }
        uint8_t *middle = stream_end;
        uint64_t blocks = e->count > 64 ? (e->count + 63) / 64 : 0;
        for (uint64_t block = 0; block < blocks; block++) {
            uint64_t behind = 64 * block + 64 < e->count ? 64 * block + 64 : e->count;
            stream_end = put_fixed(stream_end, list[64 * block]);
            stream_end = put_fixed(stream_end, list[behind - 1]);
            stream_end = put_fixed(stream_end, places[block]);
        }
        for (uint64_t group = 0; 64 * group < blocks; group++) {
            uint64_t behind = 64 * (64 * group + 64) < e->count ? 64 * (64 * group + 64) : e->count;
            stream_end = put_fixed(stream_end, list[behind - 1]);
        }
        while (prefix < previous->length && prefix < e->length && s->text[e->term + prefix] == s->text[previous->term + prefix]) prefix++;
        term_end = put(term_end, prefix);
        term_end = put(term_end, e->length - prefix);
        memcpy(term_end, s->text + e->term + prefix, e->length - prefix);
        term_end += e->length - prefix;
        term_end = put(term_end, e->count);
        term_end = put(term_end, middle - start);
        term_end = put(term_end, stream_end - middle);
        previous = e;
    }
    uint64_t total = 32 + (row_end - rows) + (term_end - terms) + (stream_end - streams);
    uint8_t *bytes = malloc(total), *out = bytes;
    out = put_fixed(out, s->documents), out = put_fixed(out, s->terms);
    out = put_fixed(out, row_end - rows), out = put_fixed(out, term_end - terms);
    memcpy(out, rows, row_end - rows), out += row_end - rows;
    memcpy(out, terms, term_end - terms), out += term_end - terms;
    memcpy(out, streams, stream_end - streams), out += stream_end - streams;
    uint64_t built = out - bytes;
    if (built != s->total || memcmp(bytes, s->bytes, built)) built = 0;
    free(rows), free(terms), free(streams), free(places), free(bytes);
    return built;
}

static void drop(segment *s) {
    free(s->rows), free(s->names), free(s->text), free(s->entries), free(s->locations);
}

int main(int count, char **words) {
    long rounds = atol(words[1]);
    FILE *file = fopen(words[2], "rb");
    fseek(file, 0, SEEK_END);
    uint64_t total = ftell(file), sum = 0;
    rewind(file);
    uint8_t *bytes = malloc(total);
    if (fread(bytes, 1, total, file) != total) return 1;
    int lists = words[3][0] != 'o';
    for (long round = 0; round < rounds; round++) {
        segment s = {.bytes = bytes, .total = total};
        if (open_tables(&s) >= 0 || (lists && read_lists(&s) >= 0)) return 1;
        sum += words[3][0] == 'b' ? build(&s) : s.documents + s.terms;
        drop(&s);
    }
    printf("%lu\n", sum);
    return 0;
}
"""


def made(documents, terms):
    """A segment of so many documents of a hundred cells, and so many terms."""
    chance = random.Random(7)
    rows = [(number, 1 + 100 * (number - 1), 100, b"document-%d" % number) for number in range(1, documents + 1)]
    ends = [first + cells - 1 for _, first, cells, _ in rows]
    firsts = [first for _, first, _, _ in rows]
    lists = {b"D": ends, b"S": firsts, b"T": [first + 10 for first in firsts]}
    for (_, first, _, name) in rows:
        lists[b"N" + name] = [first]
    letters = b"etaoinshrdlucmfwypvbgkjqxz"
    while len(lists) < terms:
        word = bytes(chance.choices(letters, range(26, 0, -1), k=3 + int(chance.expovariate(1 / 4)))[:60])
        if b"W" + word in lists:
            continue
        count = 5000 if len(lists) % 1000 == 500 else 1 + int(chance.expovariate(1 / 2))
        lists[b"W" + word] = sorted(chance.sample(range(1, 100 * documents + 1), min(count, 50 * documents)))
    return segments.segment(rows, sorted(lists.items()))


def main():
    parser = argparse.ArgumentParser(description=__doc__, formatter_class=argparse.RawDescriptionHelpFormatter)
    parser.add_argument("--program", default=os.path.join(TOP, "crates/bench_segments/out/bench_segments"))
    parser.add_argument("--terms", type=int, default=100_000)
    parser.add_argument("--documents", type=int, default=2_000)
    parser.add_argument("--rounds", type=int, default=20)
    parser.add_argument("--turns", type=int, default=5)
    parser.add_argument("--make", metavar="PATH")
    options = parser.parse_args()
    if options.make:
        with open(options.make, "wb") as file:
            file.write(made(options.documents, options.terms))
        return
    with tempfile.TemporaryDirectory() as folder:
        source, plain, path = (os.path.join(folder, name) for name in ("plain.c", "plain", "segment"))
        with open(source, "w") as file:
            file.write(PLAIN)
        subprocess.run(["gcc", "-O2", "-o", plain, source], check=True)
        content = made(options.documents, options.terms)
        with open(path, "wb") as file:
            file.write(content)
        tables = 32 + int.from_bytes(content[16:24], "big") + int.from_bytes(content[24:32], "big")
        print(f"{options.terms} terms, {options.documents} documents, {len(content)} bytes, {tables} of them head and tables")
        print("         MB/s    of C       C")
        rows = options.terms + options.documents
        for mode, length, want in [("open", tables, rows), ("read", len(content), rows), ("build", len(content), len(content))]:
            measured = lambda program: speed(
                lambda rounds: [program, rounds, path, mode], length, options.rounds, options.turns, [want]
            )
            bare, own = measured(plain), measured(options.program)
            print(f"{mode:5}  {own:6.1f}  {own / bare:6.2f}  {bare:6.1f}", flush=True)


if __name__ == "__main__":
    main()
