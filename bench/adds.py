#!/usr/bin/env python3
"""Measures durable adds beside a bare loop that writes records of the same sizes, in the same run.

usage: bench/adds.py [--program PATH] [--before PATH] [--lines FILE] [--count N] [--folder FOLDER]

FILE has `add` lines, as `bunco packages - /var/lib/dpkg/status` writes them; without one, lines of about 400 bytes are made. Both the
program and the loop write to files in FOLDER (a new one in the current folder by default, so that both are on the same
file system): the first record behind its gate and a data sync, and then for each the next one behind its gate, the gate, a data sync.

Prints documents a second of both and their ratio, the program's processor time a byte of input and its peak memory, and,
where strace is there, the system calls of each kind a document. With --before the processor time and the memory of a program of before
are printed too, the least of some turns of both.
"""

import argparse
import itertools
import os
import random
import shutil
import subprocess
import sys
import tempfile
import time

JOURNAL_BYTES = 1_048_576
TURNS = 5


def made_lines(count):
    chance = random.Random(1)
    words = ["w" + str(chance.randrange(5000)) for _ in range(20000)]
    for number in range(count):
        body = " ".join(chance.choices(words, k=62))
        yield f"add d{number}\titem {number} of the bench\t{body}\n".encode()


def record_of(line):
    """The bytes of a line's record behind its gate."""
    name, title, body = line[4:].rstrip(b"\n").split(b"\t", 2)
    payload = b"\1" + bytes([len(name)]) + name + len(title).to_bytes(4, "big") + title + len(body).to_bytes(4, "big") + body
    return len(payload).to_bytes(4, "big") + payload + b"\0"


def bare_loop(path, records):
    """The seconds that the writes and syncs alone take."""
    file = os.open(path, os.O_RDWR | os.O_CREAT, 0o666)
    os.pwrite(file, bytes(2 * JOURNAL_BYTES), 0)
    os.fsync(file)
    begun = time.perf_counter()
    at = 0
    os.pwrite(file, records[0], 1)
    os.fdatasync(file)
    for record, coming in zip(records, [*records[1:], b""]):
        os.pwrite(file, coming, at + len(record) + 1)
        os.pwrite(file, b"\xa5", at)
        os.fdatasync(file)
        at += len(record)
    seconds = time.perf_counter() - begun
    os.close(file)
    return seconds


def run(command, data):
    """The seconds of a command that has to end with status 0, and what it printed."""
    begun = time.perf_counter()
    process = subprocess.Popen(command, stdin=subprocess.PIPE, stdout=subprocess.PIPE)
    out, _ = process.communicate(data)
    seconds = time.perf_counter() - begun
    if process.returncode != 0:
        raise SystemExit(f"adds: {command[0]} ended with status {process.returncode}")
    return seconds, out


def usage_of(program, data, folder, turn):
    """Processor seconds and peak memory in KiB of these lines in a new index, by a child that waits for the program alone."""
    path = os.path.join(folder, f"{os.path.basename(program)} {turn}.alta")
    subprocess.run([program, path, "init"], check=True)
    command = [program, path, "run"]
    source = os.path.join(folder, "input")
    with open(source, "wb") as file:
        file.write(data)
    pid = os.fork()
    if pid == 0:
        null = os.open(os.devnull, os.O_WRONLY)
        os.dup2(os.open(source, os.O_RDONLY), 0)
        os.dup2(null, 1)
        os.execv(command[0], command)
    _, status, usage = os.wait4(pid, 0)
    if status != 0:
        raise SystemExit("adds: the program failed")
    return usage.ru_utime, usage.ru_stime, usage.ru_maxrss


def main():
    top = os.path.dirname(os.path.dirname(os.path.abspath(__file__)))
    parser = argparse.ArgumentParser(description=__doc__, formatter_class=argparse.RawDescriptionHelpFormatter)
    parser.add_argument("--program", default=os.path.join(top, "crates", "alta_cli", "out", "alta_cli"))
    parser.add_argument("--before")
    parser.add_argument("--lines")
    parser.add_argument("--count", type=int, default=1000)
    parser.add_argument("--folder", default=".")
    options = parser.parse_args()
    if not os.access(options.program, os.X_OK):
        raise SystemExit("adds: the program is not built: run ./alta once")
    if options.lines:
        with open(options.lines, "rb") as file:
            lines = file.readlines()[: options.count]
    else:
        lines = list(made_lines(options.count))
    records = [record_of(line) for line in lines]
    fitting = [end for end in itertools.accumulate(map(len, records)) if end < JOURNAL_BYTES]
    lines, records = lines[: len(fitting)], records[: len(fitting)]
    data = b"".join(lines)
    print(f"{len(lines)} documents, {len(data)} bytes of input")
    with tempfile.TemporaryDirectory(dir=options.folder) as folder:
        rates = {}
        for turn in range(3):
            path = os.path.join(folder, f"{turn}.alta")
            subprocess.run([options.program, path, "init"], check=True)
            seconds, out = run([options.program, path, "run"], data)
            if out.count(b"added ") != len(lines):
                raise SystemExit("adds: not every line was answered by its number")
            bare = bare_loop(os.path.join(folder, f"{turn}.bare"), records)
            rates[turn] = (len(lines) / seconds, len(lines) / bare)
            print(f"program {rates[turn][0]:.0f} a second, bare loop {rates[turn][1]:.0f} a second, ratio {bare / seconds:.2f}")
        programs = [("program", options.program)] + ([("before", options.before)] if options.before else [])
        usages = [[usage_of(program, data, folder, f"{called} {turn}") for called, program in programs] for turn in range(TURNS)]
        for (called, _), of_one in zip(programs, zip(*usages)):
            user, system, memory = map(min, zip(*of_one))
            print(f"{called}: user {user * 1e9 / len(data):.0f} ns and system {system * 1e9 / len(data):.0f} ns a byte of input, peak memory {memory} KiB")
        if not shutil.which("strace"):
            print("strace is missing, so system calls are not counted")
            return 0
        path = os.path.join(folder, "calls.alta")
        subprocess.run([options.program, path, "init"], check=True)
        report = os.path.join(folder, "calls")
        run(["strace", "-f", "-c", "-o", report, options.program, path, "run"], data)
        with open(report, encoding="utf-8") as file:
            for line in file:
                parts = line.split()
                if len(parts) >= 5 and parts[3].isdigit() and int(parts[3]) >= len(lines) // 2:
                    print(f"{parts[-1]}: {int(parts[3]) / len(lines):.2f} a document")
    return 0


if __name__ == "__main__":
    sys.exit(main())
