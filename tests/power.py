#!/usr/bin/env python3
"""Cuts the power: makes what a disk may hold at each moment of a run, and opens it by the program.

usage: tests/power.py --program PATH [--seed N] [--images N]
       tests/power.py --can-trace

strace records what the program writes and syncs while it makes an index and answers lines that add, replace, delete, flush, step and
merge. Behind each call images are made: what the last sync made firm, and of each write since then none, all, or some sectors, each
of them whole, cut short or overwritten by junk, in any order. The program opens each image. It has to answer `stats` and `dump` as
`model/answers.py` does behind the lines whose reply was given, or behind one line more.

A program is also killed before it syncs the gate of a record, or of a root, and another one goes on over what is written and not synced.
What that one answers has to be kept in the same way. And a document takes the place of another in an index that an earlier program
wrote, at each moment of which one of the two is there, and not both.

Then each sync is left out in turn, and the images up to the next sync are tried in the same way. One of them has to lose something.
A sync may change nothing only for one of three reasons (`Reason`), which are read off the writes around it by docs/FORMAT.md; those
syncs are listed. Ends with status 0 where no image loses anything, and each other sync is missed where it is left out.

It needs strace, and leave to trace a program. Where it has neither, nothing is tried, and it ends with status 1.
"""

import argparse
import enum
import hashlib
import os
import random
import re
import shutil
import signal
import subprocess
import tempfile
import time
from concurrent.futures import ThreadPoolExecutor
from typing import NamedTuple

from model.answers import Machine
from model.reading import HALVES, OPEN, SLOT, SLOTS, Extent, NoIndex, opened
from model.writing import entry_of_add, index
from support import PATIENCE

LINES = [
    "add a\tRed Fox\tthe quick red fox",
    "add b\tFox\tquick brown dog",
    "flush",
    "delete a",
    "add c\t\tred dog " + "pad " * 3000,
    "flush",
    "step 1",
    "delete b",
    "add d\t\t" + "w1 w2 w3 " * 2000,
    "step 1000000",
    "add c\t\tblue dog",
    "add e\tx\ty",
    "add f\t\tone",
    "flush",
    "add g\t\ttwo",
    "flush",
    "delete f",
    "add g\t\tthree",
    "flush",
    "merge",
    "flush",
    "add h\t\tfour",
    "merge",
    "count dog",
]
GOING_ON = ["stats", "add z\t\tlast dog", "flush", "delete z", "count dog"]  # what the program behind a killed one is asked
QUERIES = [("word", "dog")]
ASKING = ["stats", "dump"]
SECTOR = 512


# ---- what the program was seen to do


class Kind(enum.Enum):
    """What a call does: it writes to the index, syncs it, or gives replies."""

    WRITE = "write"
    SYNC = "sync"
    REPLY = "reply"


class Call(NamedTuple):
    """A call that the program made, and of a write the place of its bytes."""

    kind: Kind
    place: int = 0
    content: bytes = b""


class Said(NamedTuple):
    """How a run of the program ended, and what it gave."""

    status: int
    output: bytes
    error: bytes


class Moment(NamedTuple):
    """What is firm behind a call, the writes that no sync has made firm, and how many bytes of replies were given."""

    firm: bytes
    pending: tuple[Call, ...]
    given: int


class Recording(NamedTuple):
    """The calls of one run from a moment on, the reply to each of its lines, and what an image has to be opened as behind so many
    lines. Of `init` the one line is its end."""

    name: str
    start: Moment
    calls: list[Call]
    lines: list[str]
    replies: list[bytes]
    wanted: list[Said]


TRACED = ["write", "pwrite64", "fsync", "fdatasync"]
# Calls that change a file in a way that is not tried here. One of them on the index ends the test.
UNTRIED = ["writev", "pwritev", "pwritev2", "ftruncate", "fallocate", "copy_file_range", "sendfile", "splice", "sync_file_range", "mmap"]
TRACED_CALL = re.compile(r"(?:\d+ +)?(\w+)\((.*)\) += (-?\d+)")
DESCRIPTOR = re.compile(r"(\d+)<([^>]*)>")


def unescaped(text):
    """The bytes that strace spells as \\x2f\\x74."""
    return bytes.fromhex(text.replace("\\x", ""))


def write_of(words, done):
    """The write whose words strace gives as `descriptor, "content", length, place`."""
    _, content, rest = words.split('"')
    written = unescaped(content)
    place = int(rest.rsplit(", ", 1)[1])
    return Call(Kind.WRITE, place, written[:done])


def call_of(line, path):
    """The call of a line of strace's, where it is one of the three kinds and did not fail."""
    traced = TRACED_CALL.match(line)
    if traced is None:
        if "unfinished" in line:
            raise SystemExit(f"power: two calls of the program overlap, which this test can't put in order: {line[:100]}")
        return None
    name, words, done = traced[1], traced[2], int(traced[3])
    descriptors = {unescaped(file): number for number, file in DESCRIPTOR.findall(words) if file.startswith("\\x")}
    is_index = os.fsencode(path) in descriptors
    if is_index and name not in TRACED[1:]:
        raise SystemExit(f"power: the program changes its index by {name}, which this test can't cut short")
    if done < 0 or not (is_index or words.startswith("1<")):
        return None
    if name == "pwrite64":
        return write_of(words, done)
    if name == "write":
        return Call(Kind.REPLY, 0, unescaped(words.split('"')[1])[:done])
    return Call(Kind.SYNC)


def traced_calls(program, path, words, lines=(), killed_at=None):
    """The calls of a run of the program, in their order. It has to end with status 0, or is killed at its so manieth sync, before that is
    made."""
    log = path + ".log"
    tracing = ["strace", "-f", "-y", "-xx", "-s", "99999999", "-e", "trace=" + ",".join(TRACED + UNTRIED), "-o", log]
    if killed_at is not None:
        tracing += ["-e", f"inject=fdatasync:signal=SIGKILL:when={killed_at}"]
    run = subprocess.run([*tracing, program, path, *words], input=text_of(lines), capture_output=True, timeout=PATIENCE)
    if run.returncode != (0 if killed_at is None else -signal.SIGKILL):
        raise SystemExit(f"power: a traced run of {' '.join(words)} ended with status {run.returncode}: {run.stderr.decode().strip()}")
    with open(log, encoding="latin-1") as lines:
        calls = [call_of(line, path) for line in lines]
    return [call for call in calls if call is not None]


def text_of(lines):
    return "".join(line + "\n" for line in lines).encode()


def said_by(program, path):
    """What the program says of the documents of an index."""
    run = subprocess.run([program, path, "run"], input=text_of(ASKING), capture_output=True, timeout=PATIENCE)
    return Said(run.returncode, run.stdout, run.stderr)


def said_of(machine):
    """What the program has to say of these documents."""
    return Said(0, "".join(map(machine.reply, ASKING)).encode(), b"")


def changing(start, calls):
    """These calls without those that write again what stands there, as the program does with the head. A device leaves bytes that do not
    change as they are. A gate that is written as it stands counts all the same."""
    content, found = bytearray(written(start.firm, start.pending)), []
    for call in calls:
        if call.kind is Kind.WRITE:
            if len(call.content) > 1 and content[call.place : call.place + len(call.content)] == call.content:
                continue
            put(content, call.place, call.content)
        found.append(call)
    return found


def recording_of_init(program, path):
    """The making of an index: up to its end there is none, or one without documents."""
    end, start = b"end", Moment(b"", (), 0)
    calls = changing(start, traced_calls(program, path, ["init"])) + [Call(Kind.REPLY, 0, end)]
    wanted = [Said(7, b"", b"alta: no index\n"), said_of(Machine([]))]
    return Recording("init", start, calls, ["init"], [end], wanted)


def recording_of_run(program, path, name, start, machine, lines):
    """The answering of these lines over the index at a path, which is at a moment, by documents of the machine."""
    replies, wanted = [], [said_of(machine)]
    for line in lines:
        replies.append(machine.reply(line).encode())
        wanted.append(said_of(machine))
    calls = changing(start, traced_calls(program, path, ["run"], lines))
    given = b"".join(call.content for call in calls if call.kind is Kind.REPLY)
    if given != b"".join(replies):
        raise SystemExit(f"power: the traced {name} answered {given!r}")
    return Recording(name, start, calls, lines, replies, wanted)


def recording_behind_a_kill(program, path, recording, sync):
    """A run over an index whose last program was killed as it came to its so manieth sync."""
    with open(path, "wb") as file:
        file.write(recording.start.firm)
    calls = changing(recording.start, traced_calls(program, path, ["run"], recording.lines, sync))
    before = moments(recording.start, calls)[-1]
    machine = Machine(QUERIES)
    # The gate stands open in the file, so the line that it belongs to is done, and not answered.
    for line in recording.lines[: answered(recording, before.given) + 1]:
        machine.reply(line)
    return recording_of_run(program, path, f"run behind a kill at sync {sync}", before._replace(given=0), machine, GOING_ON)


def recording_over_version_1(program, path):
    """A document that takes the place of another in an index that an earlier program wrote, whose root is raised before."""
    firm, _ = index(1, 0, 1, 1, 1, [], [], [entry_of_add("a", "Red Fox", "the quick red fox")], [0])
    with open(path, "wb") as file:
        file.write(firm)
    machine = Machine(QUERIES)
    machine.reply(LINES[0])
    return recording_of_run(program, path, "run over version 1", Moment(firm, (), 0), machine, ["add a\t\tblue dog"])


def syncs_of_gates(recording):
    """The first sync of a record's gate and that of a root's, as the how manieth sync of the run."""
    found, writes, syncs = {}, [], 0
    for call in recording.calls:
        if call.kind is Kind.WRITE:
            writes.append(call)
        elif call.kind is Kind.SYNC:
            syncs += 1
            if writes and writes[-1].content == bytes([OPEN]):
                found.setdefault(writes[-1].place in SLOTS, syncs)
            writes = []
    return sorted(found.values())


def answered(recording, given):
    """How many lines were answered whole where so many bytes were given."""
    count, left = 0, given
    while count < len(recording.replies) and left >= len(recording.replies[count]):
        left -= len(recording.replies[count])
        count += 1
    return count


# ---- moments, and what a stop may leave there


def put(content, place, part):
    """Writes a part, and zeros up to it where the content is shorter."""
    if len(content) < place:
        content.extend(bytes(place - len(content)))
    content[place : place + len(part)] = part


def written(firm, writes):
    """The content with these writes in it."""
    content = bytearray(firm)
    for write in writes:
        put(content, write.place, write.content)
    return bytes(content)


def moments(start, calls):
    """The moment behind each of these calls."""
    firm, pending, given = start
    found = []
    for call in calls:
        if call.kind is Kind.WRITE:
            pending += (call,)
        elif call.kind is Kind.SYNC:
            firm, pending = written(firm, pending), ()
        else:
            given += len(call.content)
        found.append(Moment(firm, pending, given))
    return found


def sectors(write):
    """The parts of a write, each in one sector, with their places."""
    end = write.place + len(write.content)
    for start in range(write.place // SECTOR * SECTOR, end, SECTOR):
        low, high = max(start, write.place), min(start + SECTOR, end)
        yield low, write.content[low - write.place : high - write.place]


def torn(chance, part):
    """What is written of a part: all, a front, or junk in its place."""
    how = chance.choice(["all", "all", "front", "junk"])
    if how == "front":
        return part[: chance.randrange(len(part) + 1)]
    return chance.randbytes(len(part)) if how == "junk" else part


def mixed(chance, firm, writes):
    """The content with some sectors of these writes in it, in this order."""
    content = bytearray(firm)
    for write in writes:
        for place, part in sectors(write):
            if chance.random() < 0.8:
                put(content, place, torn(chance, part))
    return bytes(content)


def filled(firm, writes, byte):
    """The content with this byte wherever one of these writes puts one."""
    return written(firm, [Call(Kind.WRITE, write.place, bytes([byte]) * len(write.content)) for write in writes])


def images(chance, moment, many):
    """What a stop may leave at a moment: some images that always are tried, and so many at random, one with its writes in another order."""
    firm, pending, _ = moment
    yield firm
    if not pending:
        return
    yield written(firm, pending)
    yield written(firm, pending[-1:])
    yield filled(firm, pending, OPEN)
    yield filled(firm, pending, 0)
    for _ in range(many):
        yield mixed(chance, firm, pending)
    yield mixed(chance, firm, chance.sample(pending, len(pending)))


# ---- why a sync may change nothing


class Reason(enum.Enum):
    """Why a sync can be left out. What counts is what opening reads: the root in force, all that it names, its half of the journal up to
    the first closed gate, and of the other slot its fields, or its gate where that is closed."""

    IDLE = "nothing has changed since the sync before"
    UNNAMED = "up to the next sync nothing is written where something counts"
    SAME = "a new root says what the one before says, and up to the next sync nothing is written where something counts under either"


def counting(content):
    """The extents of what counts in an image."""
    gates = [Extent(start, 1) for start in SLOTS]
    try:
        found = opened(content)
    except NoIndex:
        return gates
    other = SLOTS[1 - found.slot]
    is_open = content[other] == OPEN
    beside = Extent(other + 1, SLOT - 1) if is_open else Extent(other, 1)
    half = HALVES[found.slot]
    return [Extent(SLOTS[found.slot], SLOT), beside, Extent(half, found.tail + 1 - half), found.root.deletions, *found.root.levels]


def touch(writes, extents):
    """Whether one of the writes meets one of the extents."""
    return any(
        write.place < extent.place + extent.length and extent.place < write.place + len(write.content)
        for write in writes
        for extent in extents
    )


def follows_a_root(writes, firm):
    """Whether the one write opens the gate of a root, and there is one before it."""
    has_root = any(firm[slot : slot + 1] == bytes([OPEN]) for slot in SLOTS)
    return has_root and len(writes) == 1 and writes[0].place in SLOTS and writes[0].content == bytes([OPEN])


def reason_of(moment, following):
    """Why the sync at a moment can be left out, where there is a reason, by the writes up to the next sync."""
    firm, pending, _ = moment
    if not pending:
        return Reason.IDLE
    if not touch([*pending, *following], counting(firm)):
        return Reason.UNNAMED
    both = counting(firm) + counting(written(firm, pending))
    if follows_a_root(pending, firm) and not touch(following, both):
        return Reason.SAME
    return None


# ---- the tests


class Opener:
    """Opens images by the program, each of them once."""

    def __init__(self, program, folder):
        self.program, self.folder = program, folder
        self.found = {}

    def said(self, image):
        """What the program says of an image."""
        digest = hashlib.sha1(image).hexdigest()
        if digest not in self.found:
            path = os.path.join(self.folder, digest)
            with open(path, "wb") as file:
                file.write(image)
            self.found[digest] = said_by(self.program, path)
            os.unlink(path)
        return self.found[digest]


class Check:
    """The moments of a recording, and what is tried of them."""

    def __init__(self, recording, opener, chance, many):
        self.recording, self.opener, self.chance, self.many = recording, opener, chance, many
        self.moments = moments(recording.start, recording.calls)
        self.syncs = [number for number, call in enumerate(recording.calls) if call.kind is Kind.SYNC]
        if not self.syncs:
            raise SystemExit(f"power: {recording.name}: the program synced nothing")
        self.tried = 0

    def lost(self, moment, pool):
        """What the program says of an image in which something is lost, if there is one."""
        count = answered(self.recording, moment.given)
        allowed = self.recording.wanted[count : count + 2]
        tried = list(dict.fromkeys(images(self.chance, moment, self.many)))
        self.tried += len(tried)
        return next((said for said in pool.map(self.opener.said, tried) if said not in allowed), None)

    def line(self, number):
        """The line that is answered at a call, in short."""
        lines = self.recording.lines
        return lines[min(answered(self.recording, self.moments[number].given), len(lines) - 1)].split("\t")[0]

    def nothing_is_lost(self, pool):
        """Tries each moment behind the first sync, where the run begins to promise something."""
        for number in range(self.syncs[0] + 1, len(self.moments)):
            said = self.lost(self.moments[number], pool)
            if said is not None:
                call = self.recording.calls[number]
                raise SystemExit(
                    f"power: a stop behind call {number + 1} of {self.recording.name}, a {call.kind.value} of {len(call.content)} bytes at "
                    f"{call.place}, for {self.line(number)!r}, loses something: {said}"
                )

    def before(self, sync):
        """The moment before a sync."""
        return self.moments[sync - 1] if sync else self.recording.start

    def following(self, sync):
        """The calls from a sync up to the next one."""
        later = [number for number in self.syncs if number > sync]
        return self.recording.calls[sync + 1 : later[0] if later else None]

    def is_missed(self, sync, pool):
        """Whether an image loses something where this sync is left out."""
        return any(self.lost(moment, pool) for moment in moments(self.before(sync), self.following(sync)))

    def each_sync_is_missed(self, pool):
        """Leaves each sync out in turn, and answers those that change nothing, each with its reason."""
        unmissed = {}
        for sync in self.syncs:
            reason = reason_of(self.before(sync), [call for call in self.following(sync) if call.kind is Kind.WRITE])
            if self.is_missed(sync, pool) == (reason is not None):
                what = f"has a reason to change nothing ({reason.value}), and changes something" if reason else "is left out, and no image tells"
                raise SystemExit(f"power: sync {sync + 1} of {self.recording.name}, for {self.line(sync)!r}, {what}")
            if reason is not None:
                unmissed[sync] = reason
        return unmissed


def test(recording, opener, options, pool):
    """Tests a recording, and says what was seen."""
    check = Check(recording, opener, random.Random(options.seed), options.images)
    check.nothing_is_lost(pool)
    name, stops = recording.name, len(check.moments) - check.syncs[0] - 1
    print(f"power: {name}: {stops} moments, {check.tried} images, nothing lost (seed {options.seed})")
    unmissed = check.each_sync_is_missed(pool)
    print(f"power: {name}: {len(check.syncs) - len(unmissed)} of {len(check.syncs)} syncs are missed where they are left out")
    for reason in Reason:
        lines = [check.line(sync) for sync in unmissed if unmissed[sync] is reason]
        if lines:
            print(f"power: {name}: not missed: {len(lines)}, since {reason.value}: at {', '.join(lines)}")


def must_trace():
    """Ends the test where no program can be traced."""
    if shutil.which("strace") is None:
        raise SystemExit("power: NOT RUN: strace is missing (Debian: apt-get install strace), so that the power was never cut")
    run = subprocess.run(["strace", "-o", os.devnull, "true"], capture_output=True, text=True)
    if run.returncode != 0:
        raise SystemExit(f"power: NOT RUN: strace may not trace a program here, so that the power was never cut: {run.stderr.strip()}")


def main():
    parser = argparse.ArgumentParser(description=__doc__, formatter_class=argparse.RawDescriptionHelpFormatter)
    needed = parser.add_mutually_exclusive_group(required=True)
    needed.add_argument("--program")
    needed.add_argument("--can-trace", action="store_true", help="only tell whether a program can be traced")
    parser.add_argument("--seed", type=int, default=1)
    parser.add_argument("--images", type=int, default=4, help="images at random of each moment")
    options = parser.parse_args()
    must_trace()
    if options.can_trace:
        return
    program = os.path.abspath(options.program)
    begun = time.monotonic()
    with tempfile.TemporaryDirectory() as folder, ThreadPoolExecutor(os.cpu_count()) as pool:
        path = os.path.join(os.path.realpath(folder), "x.alta")
        opener = Opener(program, folder)
        making = recording_of_init(program, path)
        test(making, opener, options, pool)
        made = moments(making.start, making.calls)[-1]._replace(given=0)
        run = recording_of_run(program, path, "run", made, Machine(QUERIES), LINES)
        test(run, opener, options, pool)
        for sync in syncs_of_gates(run):
            test(recording_behind_a_kill(program, path, run, sync), opener, options, pool)
        test(recording_over_version_1(program, path), opener, options, pool)
    print(f"power: {len(opener.found)} images opened in {time.monotonic() - begun:.0f} seconds")


if __name__ == "__main__":
    main()
