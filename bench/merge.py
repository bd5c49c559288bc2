#!/usr/bin/env python3
"""Measures the join of two levels beside plain C that does the same, in the same run, and counts its allocations.

usage: bench/merge.py [--program PATH] [--other PATH] [--terms N] [--documents N] [--counted N] [--rounds N] [--turns N]
                      [--make FOLDER]

Makes two segments of one document each with N terms (50,000), of which two in three are in both, with 20 locations each, and
measures how many million locations a second of processor time a join of the two takes: the time of ROUNDS rounds that read the
two and join them, less that of rounds that only read them. The C program is compiled by `gcc -O2` in a temporary folder; its
rounds make the same lists, each in a block of its own, and join them: a list of one level alone is moved, one of both is copied
into a new block. Then the same with many dead documents: two segments of N documents each (--documents, 20,000), of which
every second is dead, once with as many terms of 4 locations each, and once with N/100 terms of 2,000 locations each. With
--other another build of the program is measured beside it, in the same turns. Then it counts allocations: it makes two segments with the same terms (--counted, 1,000), runs the program
again and again with all allocations refused from some number on, and finds the least number at which the run still passes. It
ends with 1 where the beginning of a join, its first step of one term, or its last one meets more than 64. PATH is the program
of crates/bench_merge, which `rt run` builds there. With --make it only writes two segments of 20 terms for that crate's data.
"""

import argparse
import os
import subprocess
import sys
import tempfile

TOP = os.path.dirname(os.path.dirname(os.path.abspath(__file__)))
sys.path.insert(0, os.path.join(TOP, "tests"))

from model import segments
from rounds import seconds

PLAIN = r"""
#include <stdint.h>
#include <stdio.h>
#include <stdlib.h>
#include <string.h>

typedef struct { uint8_t *term; uint64_t length, count; uint64_t *locations; } list;
typedef struct { list *lists; uint64_t count; } content;
typedef struct { uint64_t first, last; } span;
typedef struct { span *spans; uint64_t count; } spans;

static const uint8_t *number(const uint8_t *at, uint64_t *value) {
    memcpy(value, at, 8);
    return at + 8;
}

/* The lists of a file, each term and each list in a block of its own. */
static content made(const uint8_t *at) {
    content c;
    at = number(at, &c.count);
    c.lists = malloc(c.count * sizeof(list));
    for (uint64_t index = 0; index < c.count; index++) {
        list *l = &c.lists[index];
        at = number(at, &l->length);
        l->term = malloc(l->length);
        memcpy(l->term, at, l->length), at += l->length;
        at = number(at, &l->count);
        l->locations = malloc(8 * l->count);
        memcpy(l->locations, at, 8 * l->count), at += 8 * l->count;
    }
    return c;
}

static void drop(content c) {
    for (uint64_t index = 0; index < c.count; index++) free(c.lists[index].term), free(c.lists[index].locations);
    free(c.lists);
}

static int order(const list *a, const list *b) {
    int found = memcmp(a->term, b->term, a->length < b->length ? a->length : b->length);
    return found ? found : (a->length > b->length) - (a->length < b->length);
}

static int number_order(const void *a, const void *b) {
    uint64_t x = *(const uint64_t *)a, y = *(const uint64_t *)b;
    return (x > y) - (x < y);
}

/* The spans of the rows whose end is dead. The file has the ends and the rows. */
static spans dead_spans(const uint8_t *at) {
    uint64_t ends_count, rows_count;
    at = number(at, &ends_count);
    uint64_t *ends = malloc(8 * ends_count + 8);
    memcpy(ends, at, 8 * ends_count), at += 8 * ends_count;
    qsort(ends, ends_count, 8, number_order);
    at = number(at, &rows_count);
    spans dead = {malloc(ends_count * sizeof(span) + 8), 0};
    for (uint64_t row = 0; row < rows_count; row++) {
        span s;
        at = number(number(at, &s.first), &s.last);
        if (bsearch(&s.last, ends, ends_count, 8, number_order)) dead.spans[dead.count++] = s;
    }
    free(ends);
    return dead;
}

/* Copies the locations outside of the spans, by a walk beside them, and answers how many there are. */
static uint64_t keep(uint64_t *to, const uint64_t *from, uint64_t count, spans dead) {
    if (!dead.count) {
        if (to != from) memcpy(to, from, 8 * count);
        return count;
    }
    uint64_t kept = 0, at = 0;
    for (uint64_t k = 0; k < count; k++) {
        uint64_t x = from[k], step = 1, high = at;
        while (high < dead.count && dead.spans[high].last < x) at = high + 1, high = at + step, step *= 2;
        if (high > dead.count) high = dead.count;
        while (at < high) {
            uint64_t middle = at + (high - at) / 2;
            if (dead.spans[middle].last < x) at = middle + 1; else high = middle;
        }
        if (at == dead.count || x < dead.spans[at].first) to[kept++] = x;
    }
    return kept;
}

/* Adds a list, unless it has no location. */
static void put(content *all, list l) {
    if (l.count) all->lists[all->count++] = l; else free(l.term), free(l.locations);
}

static void put_alone(content *all, list l, spans dead) {
    l.count = keep(l.locations, l.locations, l.count, dead);
    put(all, l);
}

/* The join of two contents, which it takes. */
static content joined(content a, content b, spans dead) {
    content all = {malloc((a.count + b.count) * sizeof(list)), 0};
    uint64_t i = 0, j = 0;
    while (i < a.count || j < b.count) {
        int which = i == a.count ? 1 : j == b.count ? -1 : order(&a.lists[i], &b.lists[j]);
        if (which < 0) { put_alone(&all, a.lists[i++], dead); continue; }
        if (which > 0) { put_alone(&all, b.lists[j++], dead); continue; }
        list x = a.lists[i++], y = b.lists[j++];
        uint64_t *locations = malloc(8 * (x.count + y.count));
        uint64_t count = keep(locations, x.locations, x.count, dead);
        count += keep(locations + count, y.locations, y.count, dead);
        free(x.locations), free(y.locations), free(y.term);
        put(&all, (list){x.term, x.length, count, locations});
    }
    free(a.lists), free(b.lists);
    return all;
}

static uint8_t *file_of(const char *path) {
    FILE *file = fopen(path, "rb");
    fseek(file, 0, SEEK_END);
    long total = ftell(file);
    rewind(file);
    uint8_t *bytes = malloc(total);
    if (fread(bytes, 1, total, file) != (size_t)total) exit(1);
    fclose(file);
    return bytes;
}

int main(int count, char **words) {
    const uint8_t *older = file_of(words[1]), *newer = file_of(words[2]);
    const uint8_t *rows = file_of(words[5]);
    long rounds = atol(words[4]);
    uint64_t sum = 0;
    for (long round = 0; round < rounds; round++) {
        content a = made(older), b = made(newer);
        if (words[3][0] == 'j') {
            spans dead = dead_spans(rows);
            content all = joined(a, b, dead);
            free(dead.spans);
            sum += all.count;
            drop(all);
        } else {
            sum += a.count + b.count;
            drop(a), drop(b);
        }
    }
    printf("%lu\n", sum);
    return 0;
}
"""

REFUSING = r"""
#define _GNU_SOURCE
#include <dlfcn.h>
#include <stdlib.h>

static unsigned long met, least;
static void *(*first)(size_t);
static void *(*again)(void *, size_t);

static int refused(void)
{
    if (!first) {
        const char *number = getenv("REFUSED_FROM");
        least = number ? strtoul(number, 0, 10) : 0;
        first = dlsym(RTLD_NEXT, "malloc");
        again = dlsym(RTLD_NEXT, "realloc");
    }
    return least && ++met >= least;
}

void *malloc(size_t size)
{
    return refused() ? 0 : first(size);
}

void *realloc(void *old, size_t size)
{
    return refused() ? 0 : again(old, size);
}
"""

CELLS = 1001
MOST = 64
EVERY = 2


def word(index):
    """A word of its own."""
    return b"W" + bytes(97 + index // 26**k % 26 for k in (3, 2, 1, 0))


def terms_of(first, indices, locations):
    """`D` and so many words, in collating order, for a document at a location."""
    terms = [(b"D", [first + CELLS - 1])]
    gap = (CELLS - 8) // locations
    for index in indices:
        terms.append((word(index), [first + index % 7 + gap * k for k in range(locations)]))
    return sorted(terms)


def write(path, rows, terms):
    """A segment of these rows and terms."""
    with open(path, "wb") as file:
        file.write(segments.segment(rows, terms))


def wide(number):
    return number.to_bytes(8, "little")


def write_plain(path, terms):
    """The same for the C program."""
    with open(path, "wb") as file:
        file.write(wide(len(terms)))
        for term, locations in terms:
            file.write(wide(len(term)) + term + wide(len(locations)) + b"".join(map(wide, locations)))


def write_rows(path, rows, dead):
    """The dead ends and the rows for the C program."""
    with open(path, "wb") as file:
        file.write(wide(len(dead)) + b"".join(map(wide, dead)))
        file.write(wide(len(rows)) + b"".join(wide(first) + wide(first + cells - 1) for _, first, cells, _ in rows))


def make(folder, count, step, locations):
    """Two contents of one document and so many terms, the second beginning so far behind the first."""
    older = terms_of(1, range(count - 1), locations)
    newer = terms_of(1 + CELLS, range(step, step + count - 1), locations)
    for number, name, terms in ((1, "older", older), (2, "newer", newer)):
        write(os.path.join(folder, name), [(number, 1 + CELLS * (number - 1), CELLS, b"document-%d" % number)], terms)
    return older, newer


def make_many(folder, documents, count, locations):
    """Two contents of so many documents of 40 cells and so many terms, of which two in three are in both, each with so many
    locations in as many documents. Answers their terms, their rows and the ends of every second document."""
    stride = (documents // locations - 1) | 1
    parts, rows, dead = [], [], []
    for name, before, begin in (("older", 0, 0), ("newer", documents, count // 3)):
        own = [(1 + before + d, 1 + 40 * (before + d), 40, b"d%d" % (before + d)) for d in range(documents)]
        ends = [first + cells - 1 for _, first, cells, _ in own]
        terms = [(b"D", ends)]
        for index in range(begin, begin + count - 1):
            at = [own[index % stride + stride * k][1] + 3 + index % 30 for k in range(locations)]
            terms.append((word(index), at))
        write(os.path.join(folder, name), own, sorted(terms))
        parts.append(sorted(terms))
        rows += own
        dead += ends[EVERY - 1 :: EVERY]
    return parts, rows, dead


def left_of(parts, dead):
    """How many terms keep a location, where a document has 40 cells."""
    gone = {(end - 1) // 40 for end in dead}
    return len({term for terms in parts for term, at in terms if any((x - 1) // 40 not in gone for x in at)})


def joins(commands, rounds, turns):
    """The seconds that the joins take by each command: the best of some turns, less the best that only read."""
    best = {}
    for _ in range(turns):
        for name, command in commands.items():
            for mode in ("read", "join"):
                took, _ = seconds(command(mode, rounds))
                best[name, mode] = min(best.get((name, mode), took), took)
    return {name: best[name, "join"] - best[name, "read"] for name in commands}


def compare(options, folder, parts, rows, dead, wanted, rounds, title):
    """Prints how many million locations a second the joins take."""
    path = lambda name: os.path.join(folder, name)
    write_plain(path("older.plain"), parts[0])
    write_plain(path("newer.plain"), parts[1])
    write_rows(path("rows.plain"), rows, dead)
    every = [str(EVERY)] if dead else []
    commands = {}
    for name, program in (("own", options.program), ("other", options.other)):
        if program:
            commands[name] = lambda mode, rounds, program=program: [program, path("older"), path("newer"), mode, str(rounds)] + every
    plain = [path("plain"), path("older.plain"), path("newer.plain")]
    commands["C"] = lambda mode, rounds: plain + [mode, str(rounds), path("rows.plain")]
    for name, command in commands.items():
        _, answer = seconds(command("join", 1))
        if answer[-1] != wanted:
            sys.exit(f"the join of {name} has {answer[-1]} terms in place of {wanted}")
    locations = sum(len(list_) for part in parts for _, list_ in part)
    speed = {name: locations * rounds / max(took, 1e-9) / 1e6 for name, took in joins(commands, rounds, options.turns).items()}
    print(f"{title}, {locations} locations")
    shown = ", ".join(f"{name} {value:.1f}" for name, value in speed.items())
    print(f"million locations a second: {shown}; own of C {speed['own'] / speed['C']:.2f}", flush=True)


def measure(options, folder):
    source, plain = os.path.join(folder, "plain.c"), os.path.join(folder, "plain")
    with open(source, "w") as file:
        file.write(PLAIN)
    subprocess.run(["gcc", "-O2", "-o", plain, source], check=True)
    parts = make(folder, options.terms, options.terms // 3, 20)
    terms = len({term for part in parts for term, _ in part})
    compare(options, folder, parts, [], [], terms, options.rounds, f"{options.terms} terms in each of two levels")
    shapes = [(options.terms, 4), (options.documents // 100, 2000)]
    for count, locations in shapes:
        locations = min(locations, options.documents // 3)
        parts, rows, dead = make_many(folder, options.documents, count, locations)
        title = f"{options.documents} documents and {count} terms of {locations} locations in each of two levels, every second document dead"
        compare(options, folder, parts, rows, dead, left_of(parts, dead), options.rounds, title)


def passes(program, folder, words, refused):
    """Whether the run passes where all allocations from a number on are refused."""
    refusing = {"LD_PRELOAD": os.path.join(folder, "refusing.so"), "REFUSED_FROM": str(refused)}
    run = subprocess.run([program] + words, cwd=folder, env={**os.environ, **refusing}, capture_output=True)
    return run.returncode == 0


def allocations(program, folder, words):
    """How many allocations the run meets."""
    low, high = 1, 2
    while not passes(program, folder, words, high):
        low, high = high, 2 * high
    while low < high:
        middle = (low + high) // 2
        if passes(program, folder, words, middle):
            high = middle
        else:
            low = middle + 1
    return low - 1


def count(options, folder):
    """Counts allocations; answers whether one of the pairs meets too many."""
    make(folder, options.counted, 0, 100)
    source = os.path.join(folder, "refusing.c")
    with open(source, "w") as file:
        file.write(REFUSING)
    library = os.path.join(folder, "refusing.so")
    subprocess.run(["gcc", "-O1", "-shared", "-fPIC", "-o", library, source, "-ldl"], check=True)
    last = str(options.counted - 1)
    runs = {
        "contents": [],
        "begun": ["begin"],
        "one term": ["begin", "1"],
        "all but one": ["begin", last],
        "all": ["begin", last, "1"],
    }
    met = {}
    for name, words in runs.items():
        met[name] = allocations(options.program, folder, ["older", "newer"] + words)
        print(f"{name}: {met[name]} allocations", flush=True)
    over = False
    for first, second in (("contents", "begun"), ("begun", "one term"), ("all but one", "all")):
        more = met[second] - met[first]
        print(f"from {first} to {second}: {more}")
        over |= more > MOST
    return over


def main():
    parser = argparse.ArgumentParser(description=__doc__, formatter_class=argparse.RawDescriptionHelpFormatter)
    parser.add_argument("--program", default=os.path.join(TOP, "crates/bench_merge/out/bench_merge"))
    parser.add_argument("--other", default=None)
    parser.add_argument("--terms", type=int, default=50_000)
    parser.add_argument("--documents", type=int, default=20_000)
    parser.add_argument("--counted", type=int, default=1_000)
    parser.add_argument("--rounds", type=int, default=5)
    parser.add_argument("--turns", type=int, default=10)
    parser.add_argument("--make", metavar="FOLDER")
    options = parser.parse_args()
    options.program = os.path.abspath(options.program)
    options.other = options.other and os.path.abspath(options.other)
    if options.make:
        make(options.make, 20, 0, 100)
        return 0
    with tempfile.TemporaryDirectory() as folder:
        measure(options, folder)
        return 1 if count(options, folder) else 0


if __name__ == "__main__":
    sys.exit(main())
