#!/usr/bin/env python3
"""Measures the decoding of coded lists beside a plain C loop that decodes LEB128, in the same run.

usage: bench/decode.py [--program PATH] [--count N] [--gaps MEAN..] [--rounds N] [--turns N]

Makes lists of COUNT locations (10 million) whose gaps are those of a word that is one of MEAN words of a text (an
exponential distribution), with their streams and summaries. PATH is the program of crates/bench_decode, which `rt run` builds
there (crates/bench_decode/out/bench_decode by default). The C loop is compiled by `gcc -O2` in a temporary folder.

Prints for each list its bytes a location and how many million locations a second of processor time are decoded: by the
check of the stream and its summary, by a walk with `next`, and by the C loop, which adds the
locations up and tests nothing but the end. The time is that of ROUNDS rounds more: the least of some turns, less the least of one round.
"""

import argparse
import os
import random
import subprocess
import tempfile

from rounds import speed

BLOCK = 64

LOOP = r"""
#include <stdint.h>
#include <stdio.h>
#include <stdlib.h>

int main(int count, char **words) {
    long rounds = atol(words[1]);
    FILE *file = fopen(words[2], "rb");
    fseek(file, 0, SEEK_END);
    size_t length = ftell(file);
    rewind(file);
    uint8_t *bytes = malloc(length);
    if (fread(bytes, 1, length, file) != length) return 1;
    uint64_t locations = 0, sum = 0;
    for (long round = 0; round < rounds; round++) {
        uint64_t location = 0;
        size_t at = 0;
        while (at < length) {
            uint64_t gap = 0;
            unsigned shift = 0;
            uint8_t byte;
            do {
                byte = bytes[at++];
                gap |= (uint64_t)(byte & 127) << shift;
                shift += 7;
            } while (byte & 128 && at < length);
            location += gap;
            sum += location;
            locations++;
        }
        __asm__ volatile("" : "+r"(sum) : : "memory");
    }
    printf("%lu %lu\n", locations, sum);
    return 0;
}
"""


def number(n):
    """The LEB128 spelling of a number."""
    spelled = bytearray()
    while n >= 128:
        spelled.append(128 + n % 128)
        n //= 128
    spelled.append(n)
    return spelled


def coded(count, mean):
    """The stream and the summary of a list, and the sum of its locations."""
    chance = random.Random(mean)
    stream, rows = bytearray(), []
    location = total = 0
    for index in range(count):
        gap = 1 + int(chance.expovariate(1 / mean))
        if index % BLOCK == 0:
            rows.append([location + gap, 0, len(stream)])
        if gap < 128:
            stream.append(gap)
        else:
            stream += number(gap)
        location += gap
        total += location
        rows[-1][1] = location
    if len(rows) < 2:
        return stream, b"", total
    fields = [field for row in rows for field in row]
    fields += [rows[min(first + BLOCK, len(rows)) - 1][1] for first in range(0, len(rows), BLOCK)]
    return stream, b"".join(field.to_bytes(8, "big") for field in fields), total


def main():
    top = os.path.dirname(os.path.dirname(os.path.abspath(__file__)))
    parser = argparse.ArgumentParser(description=__doc__, formatter_class=argparse.RawDescriptionHelpFormatter)
    parser.add_argument("--program", default=os.path.join(top, "crates/bench_decode/out/bench_decode"))
    parser.add_argument("--count", type=int, default=10_000_000)
    parser.add_argument("--gaps", type=int, nargs="+", default=[20, 100, 1000])
    parser.add_argument("--rounds", type=int, default=5)
    parser.add_argument("--turns", type=int, default=5)
    options = parser.parse_args()
    with tempfile.TemporaryDirectory() as folder:
        source, loop = os.path.join(folder, "loop.c"), os.path.join(folder, "loop")
        with open(source, "w") as file:
            file.write(LOOP)
        subprocess.run(["gcc", "-O2", "-o", loop, source], check=True)
        stream, summary = os.path.join(folder, "stream"), os.path.join(folder, "summary")
        print("mean gap  bytes each   check  of C    walk  of C       C")
        for mean in options.gaps:
            spelled, rows, total = coded(options.count, mean)
            for path, content in [(stream, spelled), (summary, rows)]:
                with open(path, "wb") as file:
                    file.write(content)
            measured = lambda command, want: speed(command, options.count, options.rounds, options.turns, want)
            bare = measured(lambda rounds: [loop, rounds, stream], [options.count, total % 2**64])
            check = measured(lambda rounds: [options.program, "check", rounds, stream, summary], [options.count])
            walk = measured(lambda rounds: [options.program, "walk", rounds, stream, summary], [options.count, total % 2**64])
            print(f"{mean:8}  {len(spelled) / options.count:10.2f}  {check:6.1f}  {check / bare:4.2f}  {walk:6.1f}  {walk / bare:4.2f}  {bare:6.1f}", flush=True)


if __name__ == "__main__":
    main()
