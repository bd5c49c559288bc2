#!/usr/bin/env python3
"""Lets each call on the index, or on a standard stream, fail in turn: tests/faults.py --program PATH [--seed N]

strace records which calls the program makes while it answers lines, and then lets it answer them again with one of these calls failing,
or with each from one on. The run has to end with the status of that fault, and what it gave has to be the front of all replies. What a
stop may leave then is opened: the file as it is, and the images of `power.py` at that moment, among which a write that failed may be
whole, missing or junk. Each is answered as the lines whose replies were given leave it, or one line more.

The input comes in pieces of seven bytes where a stream is to fail, so that takes fail inside of lines. It needs strace.
"""

import argparse
import hashlib
import os
import random
import re
import socket
import subprocess
import tempfile
import time
from concurrent.futures import ThreadPoolExecutor
from typing import NamedTuple

from power import DESCRIPTOR, Call, Kind, Moment, changing, images, must_trace, text_of, unescaped, write_of, written
from support import PATIENCE

# Lines, each with its replies and the stats behind it: adds; flushes, a join in slices with deletes between them, a document in the
# place of another, and a merge; cursors over levels that are joined below them.
SCRIPTS = """
add a\tx\ty | added 1 | documents 1 words 2 next 2
add b\tx\ty | added 2 | documents 2 words 4 next 3
add c\tx\ty | added 3 | documents 3 words 6 next 4

add a\tRed Fox\tthe quick red fox | added 1 | documents 1 words 6 next 2
add b\tFox\tquick brown dog | added 2 | documents 2 words 10 next 3
flush | ok | documents 2 words 10 next 3
delete a | deleted 1 | documents 1 words 4 next 3
add c\t\tred dog | added 3 | documents 2 words 6 next 4
flush | ok | documents 2 words 6 next 4
step 1 | ok | documents 2 words 6 next 4
delete b | deleted 2 | documents 1 words 2 next 4
step 1000000 | ok | documents 1 words 2 next 4
add c\t\tblue dog | replaced 3 by 4 | documents 1 words 2 next 5
add e\tx\ty | added 5 | documents 2 words 4 next 6
merge | ok | documents 2 words 4 next 6
count dog | found 1 | documents 2 words 4 next 6

add a\t\tred fox | added 1 | documents 1 words 2 next 2
flush | ok | documents 1 words 2 next 2
add b\tFox\tdog | added 2 | documents 2 words 4 next 3
open fox | cursor 1 | documents 2 words 4 next 3
flush | ok | documents 2 words 4 next 3
delete a | deleted 1 | documents 1 words 2 next 3
fetch 1 1 | 1 a / more | documents 1 words 2 next 3
merge | ok | documents 1 words 2 next 3
add a\t\tfox | added 3 | documents 2 words 3 next 4
fetch 1 5 | 2 b / end | documents 2 words 3 next 4
close 1 | closed 1 | documents 2 words 3 next 4
search fox | 2 b / 3 a / found 2 | documents 2 words 3 next 4
"""
EMPTY = "documents 0 words 0 next 1"
ON_INDEX = ("openat", "flock", "statx", "pread64", "pwrite64", "fdatasync")
ON_STREAMS = {"read": "0", "write": "1"}
PIECE = 7
SHOWN = 1 << 14  # bytes of a call that strace shows; no write of these lines has more
CALL = re.compile(r"(?:\d+ +)?(\w+)\((.*)\) += (-?\d+)")
DISK_FAULT, TAKE_FAULT, GIVE_FAULT = 2, 3, 4
FAULT_OF = {**{name: DISK_FAULT for name in ON_INDEX}, "read": TAKE_FAULT, "write": GIVE_FAULT}


class Row(NamedTuple):
    line: str
    reply: bytes
    stats: str


class Seen(NamedTuple):
    """A call that was seen: its name, the how manieth of that name it is, whether it is one that may fail here, and what it does."""

    name: str
    number: int
    may_fail: bool
    does: Call | None


class Fault(NamedTuple):
    """What fails, as words for strace, with the status that has to come, and the moment."""

    words: list[str]
    status: int
    moment: Moment


def rows_of(script):
    rows = (row.split(" | ") for row in script.strip().split("\n"))
    return [Row(line, text_of(replies.split(" / ")), stats) for line, replies, stats in rows]


def words_for(name, when):
    return ["-e", f"inject={name}:error=EIO:when={when}"]


# ---- runs


class Player:
    """Answers the lines of a script over an index without documents."""

    def __init__(self, program, folder, made, rows, piece=None):
        self.program, self.folder, self.made, self.rows = program, folder, made, rows
        self.text, self.piece = text_of(row.line for row in rows), piece

    def input(self):
        """A stream with the lines, of which each read takes one piece."""
        ours, theirs = socket.socketpair(socket.AF_UNIX, socket.SOCK_SEQPACKET)
        with ours:
            step = self.piece or len(self.text)
            for at in range(0, len(self.text), step):
                ours.sendall(self.text[at : at + step])
        return theirs

    def play(self, path, words):
        """The status and the replies, where strace is given these words."""
        with open(path, "wb") as file:
            file.write(self.made)
        with self.input() as lines:
            run = subprocess.run(["strace", "-f", *words, self.program, path, "run"], stdin=lines, capture_output=True, timeout=PATIENCE)
        return run.returncode, run.stdout

    def record(self):
        """The calls of a run in which none fails."""
        path, log = os.path.join(self.folder, "recorded"), os.path.join(self.folder, "log")
        names = ",".join([*ON_INDEX, *ON_STREAMS])
        status, given = self.play(path, ["-y", "-xx", "-s", str(SHOWN), "-e", f"trace={names}", "-o", log])
        if status != 0 or given != b"".join(row.reply for row in self.rows):
            raise SystemExit(f"faults: with no fault the program ended with status {status}, and gave {given!r}")
        with open(log, encoding="latin-1") as lines:
            return seen_in(lines, path)


def seen_in(lines, path):
    """The calls of a log of strace's, in their order."""
    numbers, found = {}, []
    for match in filter(None, map(CALL.match, lines)):
        name, words, done = match[1], match[2], int(match[3])
        numbers[name] = numbers.get(name, 0) + 1
        files = [unescaped(file) for _, file in DESCRIPTOR.findall(match[0] + match.string[match.end() :]) if file.startswith("\\x")]
        is_index = os.fsencode(path) in files
        may_fail = is_index if name in ON_INDEX else words.startswith(ON_STREAMS[name] + "<")
        found.append(Seen(name, numbers[name], may_fail, done_by(name, words, done) if may_fail else None))
    return found


def done_by(name, words, done):
    """What a call does to the index or to the replies."""
    if name == "pwrite64":
        write = write_of(words, done)
        if len(write.content) != done:
            raise SystemExit(f"faults: a write of {done} bytes is longer than strace shows")
        return write
    return Call(Kind.SYNC) if name == "fdatasync" else None


# ---- what fails


def moments_before(made, calls):
    """What is firm before each call and what is pending, with the bytes of a write that fails there."""
    firm, writes = made, ()
    for seen in calls:
        is_write = seen.does is not None and seen.does.kind is Kind.WRITE
        changed = tuple(changing(Moment(firm, writes, 0), [seen.does])) if is_write else ()
        yield Moment(firm, writes + changed, 0)
        is_sync = seen.does is not None and seen.does.kind is Kind.SYNC
        firm, writes = (written(firm, writes), ()) if is_sync else (firm, writes + changed)


def faults_of(made, calls, names):
    """Each call of these names that fails alone, and where it is one on the index, with all behind it."""
    before = dict.fromkeys(ON_INDEX, 0)
    for seen, moment in zip(calls, moments_before(made, calls)):
        if seen.may_fail and seen.name in names:
            yield Fault(words_for(seen.name, seen.number), FAULT_OF[seen.name], moment)
            if seen.name in ON_INDEX:
                behind = [word for name in ON_INDEX for word in words_for(name, f"{before[name] + 1}+")]
                yield Fault(behind, DISK_FAULT, moment)
        if seen.name in before:
            before[seen.name] += 1


# ---- what is left


class Opener:
    """Opens images by the program, each of them once."""

    def __init__(self, program, folder):
        self.program, self.folder, self.found = program, folder, {}

    def stats(self, image):
        digest = hashlib.sha1(image).hexdigest()
        if digest not in self.found:
            with tempfile.NamedTemporaryFile(dir=self.folder) as file:
                file.write(image)
                file.flush()
                run = subprocess.run([self.program, file.name, "run"], input=b"stats\n", capture_output=True, timeout=PATIENCE)
            self.found[digest] = run.stdout.decode().strip() if run.returncode == 0 else run.stderr.decode()
        return self.found[digest]


def answered(rows, given):
    """How many rows were answered whole."""
    whole, count = b"", 0
    for row in rows:
        whole += row.reply
        count += given.startswith(whole)
    if not whole.startswith(given):
        raise SystemExit(f"faults: other replies were given: {given!r}")
    return count


def check(player, opener, seed, fault):
    """Plays a script with a fault, and opens what may be left."""
    with tempfile.NamedTemporaryFile(dir=player.folder) as file:
        status, given = player.play(file.name, ["-o", os.devnull, *fault.words])
        with open(file.name, "rb") as left:
            image = left.read()
    count = answered(player.rows, given)
    told = " ".join(fault.words)
    if status != fault.status:
        raise SystemExit(f"faults: status {status} in place of {fault.status} behind {count} lines: {told}")
    allowed = [EMPTY, *(row.stats for row in player.rows)][count : count + 2]
    for each in [image, *images(random.Random(seed), fault.moment, 1)]:
        stats = opener.stats(each)
        if stats not in allowed:
            raise SystemExit(f"faults: {stats!r} behind {count} lines: {told}")


def try_script(player, opener, names, seed, pool):
    """Tries each fault of these names over a script, and answers how many there are of each status."""
    faults = list(faults_of(player.made, player.record(), names))
    for _ in pool.map(lambda fault: check(player, opener, seed, fault), faults):
        pass
    return [sum(fault.status == status for fault in faults) for status in (DISK_FAULT, TAKE_FAULT, GIVE_FAULT)]


def main():
    parser = argparse.ArgumentParser(description=__doc__, formatter_class=argparse.RawDescriptionHelpFormatter)
    parser.add_argument("--program", required=True)
    parser.add_argument("--seed", type=int, default=1)
    options = parser.parse_args()
    must_trace()
    program, begun = os.path.abspath(options.program), time.monotonic()
    with tempfile.TemporaryDirectory() as folder, ThreadPoolExecutor(os.cpu_count()) as pool:
        folder = os.path.realpath(folder)
        opener, path = Opener(program, folder), os.path.join(folder, "made")
        subprocess.run([program, path, "init"], check=True)
        with open(path, "rb") as file:
            made = file.read()
        for rows in map(rows_of, SCRIPTS.strip().split("\n\n")):
            disk, _, _ = try_script(Player(program, folder, made, rows), opener, ON_INDEX, options.seed, pool)
            _, takes, gives = try_script(Player(program, folder, made, rows, PIECE), opener, ON_STREAMS, options.seed, pool)
            if gives != len(rows) or takes <= len(rows):
                raise SystemExit(f"faults: {gives} gives and {takes} takes for {len(rows)} lines")
            print(f"faults: {len(rows)} lines: {disk} faults of the disk, {takes} of takes, {gives} of gives; nothing lost")
    print(f"faults: {len(opener.found)} images opened in {time.monotonic() - begun:.0f} seconds")


if __name__ == "__main__":
    main()
