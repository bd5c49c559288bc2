#!/usr/bin/env python3
"""Tests of `bunco compact` and `bunco check` over the real program, with indexes that tests/model spells.

usage: tests/upkeep.py [--program PATH] [--rounds N] [--seed N]

Each round spells an index with levels, deleted documents and free room between them. Its copy has to have the same root with its
extents one behind the other, by the reading of tests/model/reading.py, the same records of the journal, and no byte more; the program
answers the same lines over both, through a merge and a new start. A copy without what is deleted has no byte of it. What breaks a rule on the root, is locked, or would write
over a file is refused, and nothing is written. Then bytes are broken: the check finds what the program finds, and changes nothing.
Ends with status 0 where all of that holds.
"""

import argparse
import fcntl
import os
import random
import shutil
import signal
import subprocess
import sys
import tempfile
import time

from model import reading
from model.changes import asking, made, split
from model.segments import Broken, read_head, read_terms
from support import BUNCO, PATIENCE, TOP, answered



def fail(message):
    raise SystemExit(f"upkeep: {message}")


def expect(holds, message):
    if not holds:
        fail(message)


def contents(path):
    with open(path, "rb") as file:
        return file.read()


def put(path, content):
    with open(path, "wb") as file:
        file.write(content)
    return path


class Scripts:
    """The commands of `bunco` over one program, and a folder for their files."""

    def __init__(self, program, folder):
        self.program = program
        self.folder = folder

    def at(self, name):
        return os.path.join(self.folder, name)

    def start(self, script, *words):
        return subprocess.Popen(
            [sys.executable, "-S", BUNCO, script, *words],
            env={**os.environ, "BUNCOCEDAR_PROGRAM": self.program},
            stdin=subprocess.DEVNULL,
            stdout=subprocess.PIPE,
            stderr=subprocess.STDOUT,
            text=True,
        )

    def run(self, script, *words):
        """The status and what is said."""
        process = self.start(script, *words)
        said = process.communicate(timeout=PATIENCE)[0]
        return process.returncode, said


# ---- copies


def same_index(old, new):
    """Whether the second content is the first index without its holes."""
    (slot, root), (new_slot, new_root) = reading.read_roots(old), reading.read_roots(new)
    expect((slot, root[:3]) == (new_slot, new_root[:3]), "the copy's root says something else")
    place = reading.HEAD
    before = [root.deletions, *root.levels]
    expect(len(root.levels) == len(new_root.levels), "the copy has other levels")
    for extent, copied in zip(before, [new_root.deletions, *new_root.levels]):
        expect(extent.length == copied.length, "an extent has another length")
        if extent.length:
            expect(copied.place == place, f"an extent stands at {copied.place} in place of {place}")
            expect(old[extent.place :][: extent.length] == new[place:][: extent.length], "an extent has other bytes")
            place += extent.length
    expect(len(new) == place, f"the copy has {len(new)} bytes in place of {place}")
    half, other = reading.HALVES[slot], reading.HALVES[1 - slot]
    tail = reading.opened(old).tail
    expect(old[half:tail] == new[half:tail], "the journal has other bytes")
    expect(not any(new[tail : half + reading.HALF]), "something stands behind the journal")
    expect(not any(new[other : other + reading.HALF]), "something stands in the other half")
    expect(not any(new[reading.SLOTS[1 - slot] :][: reading.SLOT]), "something stands in the other slot")


def is_going(entry):
    """Whether a document is deleted or replaced by an entry of a journal."""
    return not isinstance(entry, reading.Add)


def copies(scripts, chance):
    """An index that is spelled, its copies, and the same replies over all."""
    changes = made(chance, 40)
    content, _, _ = split(chance, changes, chance.randrange(20, len(changes) + 1))
    old, new = put(scripts.at("old.alta"), content), scripts.at("new.alta")
    put(scripts.at("old.alta.stamps"), b"some stamps\n")
    os.chmod(old + ".stamps", 0o600)
    status, said = scripts.run("compact", "--keep-deleted", old, new)
    expect(status == 0, f"compact ended with {status}: {said}")
    expect(os.stat(new + ".stamps").st_mode & 0o777 == 0o600, "the stamps have other rights")
    expect(contents(old) == content, "the index was changed")
    expect(contents(new + ".stamps") == b"some stamps\n", "the stamps were not copied")
    same_index(content, contents(new))
    living = scripts.at("living.alta")
    expect(scripts.run("compact", old, living)[0] == 0, "it was not copied without what is deleted")
    root = reading.read_roots(contents(living))[1]
    expect(not root.deletions.length and not any(map(is_going, reading.opened(contents(living)).entries)), "something deleted is left")
    expect(answered(scripts.program, old, asking(8)) == answered(scripts.program, living, asking(8)), "without what is deleted")
    os.remove(living)
    os.remove(living + ".stamps")
    for lines in (asking(7), ["add new\tred\tfox", "step 5", *asking(5)], ["merge", *asking(3)], asking(9)):
        over_old, over_new = (answered(scripts.program, path, lines) for path in (old, new))
        expect(over_old == over_new, "the copy answers something else")
    # What the merge has left free goes.
    os.remove(new)
    expect(scripts.run("compact", old, new)[0] == 0, "the merged index was not copied")
    same_index(contents(old), contents(new))
    expect(answered(scripts.program, old, asking(4)) == answered(scripts.program, new, asking(4)), "merged")
    for path in (old, new, old + ".stamps", new + ".stamps"):
        os.remove(path)


def program_made(scripts):
    """An index that the program has flushed, joined and merged."""
    path, new = scripts.at("made.alta"), scripts.at("less.alta")
    subprocess.run([scripts.program, path, "init"], check=True)
    lines = [line for i in range(20) for line in (f"add d{i}\tt\tred fox {'brown ' * (i * 50)}", "flush")]
    answered(scripts.program, path, [*lines, "delete d3", "delete d17", "merge", "delete d5", "add last\t\tfox"])
    expect(scripts.run("compact", "--keep-deleted", path, new)[0] == 0, "it was not copied")
    same_index(contents(path), contents(new))
    expect(os.path.getsize(new) < os.path.getsize(path), "the copy is not smaller")
    expect(answered(scripts.program, path, asking(9)) == answered(scripts.program, new, asking(9)), "made")
    os.remove(new)
    os.remove(path)


def forgotten(scripts):
    """Wherever what was deleted is left in an index, its copy has nothing of it, and all that stands."""
    path, new = scripts.at("known.alta"), scripts.at("forgotten.alta")
    told = "add secret\tPassphrase\tthe word is xylophonic"
    stays = ["add a\tRed Fox\tthe quick red fox", "add b\t\tbrown dog"]
    for lines in (
        [told, *stays, "delete secret"],
        [told, "delete secret", *stays, "flush"],
        [*stays, told, "flush", "delete secret"],
        [*stays, told, "flush", "delete secret", "flush"],
        [told, "flush", "delete secret", *stays, "merge"],
        [told, *stays, "flush", "merge", "delete secret", "merge", "add c\t\tx", "flush"],
        [told, *stays, "add secret\t\tanother", "delete secret"],
        [told, "flush", *stays, "add secret\t\tanother"],
        [told, *stays, "add secret\t\tanother"],
    ):
        subprocess.run([scripts.program, path, "init"], check=True)
        answered(scripts.program, path, lines)
        expect(b"xylophonic" in contents(path), f"nothing is left behind {lines}")
        status, said = scripts.run("compact", path, new)
        expect(status == 0, f"compact ended with {status}: {said}")
        expect(b"xylophonic" not in contents(new).lower() and b"passphrase" not in contents(new).lower(), f"something is left behind {lines}")
        expect(answered(scripts.program, path, asking(9)) == answered(scripts.program, new, asking(9)), f"forgotten behind {lines}")
        for name in (path, new):
            os.remove(name)


def refusals(scripts, chance):
    """What is not copied: nothing is written then."""
    changes = made(chance, 40)
    content, _, _ = split(chance, changes, len(changes))
    old, new = put(scripts.at("old.alta"), content), scripts.at("new.alta")

    def refused(why):
        before = sorted(os.listdir(scripts.folder))
        status, said = scripts.run("compact", old, new)
        expect(status == 3 and why in said, f"compact ended with {status} and said {said!r} in place of {why!r}")
        expect(sorted(os.listdir(scripts.folder)) == before, "something was written")

    put(new, b"a file")
    put(new + ".stamps", b"of it")
    put(old + ".stamps", b"some stamps\n")
    refused("is there already")
    expect((contents(new), contents(new + ".stamps")) == (b"a file", b"of it"), "a file was written over")
    for path in (new, new + ".stamps", old + ".stamps"):
        os.remove(path)
    # Where the stamps can't be copied, the index is not either.
    os.mkdir(old + ".stamps")
    refused("Is a directory")
    os.rmdir(old + ".stamps")
    with open(old, "rb") as file:
        fcntl.flock(file, fcntl.LOCK_EX)
        refused("is in use")
    for short in (0, 100, 9000):
        put(old, content[:short])
        refused("no index" if short < 2 * reading.SLOT else f"damaged at {short}")
    slot, root = reading.read_roots(content)
    begin = reading.SLOTS[slot]
    extents = [24] * bool(root.deletions.length) + [40 + 16 * number for number in range(len(root.levels))]
    for at in (1, 2, 3, 5, 8, 16, *extents, *(at + 8 for at in extents)):
        broken = bytearray(content)
        broken[begin + at] ^= 0x40
        try:
            reading.read_roots(bytes(broken))
            continue
        except Broken as fault:
            put(old, bytes(broken))
            refused(f"damaged at {fault.place}" if at != 1 else "its version is 66")
    put(old, bytes(content))
    os.remove(old)
    refused("No such file")


def killed(scripts, chance):
    """A copy that is killed at any moment is whole or not there."""
    old, new = scripts.at("big.alta"), scripts.at("copy.alta")
    changes = made(chance, 40)
    content, _, _ = split(chance, changes, len(changes))
    put(old, content)
    for _ in range(10):
        process = scripts.start("compact", "--keep-deleted", old, new)
        time.sleep(chance.uniform(0, 0.3))
        process.send_signal(signal.SIGKILL)
        process.communicate()
        expect(contents(old) == content, "the index was changed")
        if os.path.exists(new):
            same_index(content, contents(new))
            os.remove(new)
    for name in os.listdir(scripts.folder):
        if name.startswith(".making-"):
            shutil.rmtree(scripts.at(name))
    os.remove(old)


# ---- checks


def checked(scripts, path, status, *texts):
    before = contents(path)
    given, said = scripts.run("check", path)
    expect(given == status, f"check ended with {given} in place of {status}: {said}")
    for text in texts:
        expect(text in said, f"check said {said!r} in place of {text!r}")
    expect(contents(path) == before, "the check has changed the index")


def list_of(level, wanted):
    """Where in a level the list of a term begins."""
    _, count, document_bytes, term_bytes = read_head(level)
    terms = read_terms(level, 32 + document_bytes, 32 + document_bytes + term_bytes, count)
    return next(bounds[0] for term, _, bounds in terms if term == wanted)


def checks(scripts):
    """Whole indexes and broken ones."""
    changes = [f"d{i}" if delete else (f"d{i}", "red fox", "the lazy dog " * 30) for i in range(12) for delete in ([0, 1] if i == 4 else [0])]
    content, places, found = split(random.Random(3), changes, len(changes))
    path = put(scripts.at("x.alta"), content)
    checked(scripts, path, 0, "no damage found: 11 documents", "free room")
    number, (level, place) = max(enumerate(zip(found, places), 1), key=lambda pair: len(pair[1][0]))
    at = place + list_of(level, b"Wlazy")
    slot, root = reading.read_roots(content)
    for bad, value, where in (
        (at, 0, f"in level {number} of {len(root.levels)}"),
        (place + 16, 255, f"in level {number} of {len(root.levels)}"),
        (reading.SLOTS[slot] + 4, 1, f"damaged at {reading.SLOTS[slot] + 4}"),
    ):
        broken = bytearray(content)
        broken[bad] = value
        put(path, bytes(broken))
        checked(scripts, path, 1, "damaged at ", where, "After a damaged disk")
    # One level with nothing behind it: a merge alone would not look at its lists.
    subprocess.run([scripts.program, scripts.at("one.alta"), "init"], check=True)
    one = scripts.at("one.alta")
    answered(scripts.program, one, [*(f"add d{i}\t\tred fox" for i in range(99)), "merge"])
    checked(scripts, one, 0, "no damage found: 99 documents", "levels: 1")
    content = bytearray(contents(one))
    place, length = reading.read_roots(content)[1].levels[0]
    content[place + list_of(bytes(content[place : place + length]), b"Wred")] = 0
    put(one, content)
    checked(scripts, one, 1, "in level 1 of 1")
    put(one, content[: reading.HEAD - 1])
    checked(scripts, one, 1, f"damaged at {reading.HEAD - 1}")
    put(one, b"a file of another kind")
    checked(scripts, one, 1, "it is no index: is this the right path?")
    expect(scripts.run("check", scripts.at("none"))[0] == 3, "what is not there was checked")


def digested(scripts, chance):
    """A bit of a level that was flipped behind a check is found by the next one, wherever it is; a merge is no damage."""
    path = scripts.at("kept.alta")
    subprocess.run([scripts.program, path, "init"], check=True)
    answered(scripts.program, path, [*(f"add d{i}\tthe title {i}\tred fox {i * 37}" for i in range(60)), "flush"])
    answered(scripts.program, path, [*(f"add e{i}\t\tbrown dog {i * 41}" for i in range(60)), "flush", "add last\t\tfox"])
    checked(scripts, path, 0, "no damage found: 121 documents")
    checked(scripts, path, 0, "2 of 2 levels have the bytes")
    content = contents(path)
    for place, length in reading.read_roots(content)[1].levels:
        for _ in range(6):
            broken = bytearray(content)
            broken[place + chance.randrange(length)] ^= 1 << chance.randrange(8)
            put(path, bytes(broken))
            checked(scripts, path, 1, "damaged")
    put(path, content)
    answered(scripts.program, path, ["delete d7", "merge"])
    checked(scripts, path, 0, "no damage found: 120 documents")
    checked(scripts, path, 0, "1 of 1 levels have the bytes")
    checked_quickly(scripts, path)
    for name in (path, path + ".digests"):
        os.remove(name)


def checked_quickly(scripts, path):
    """The root alone is read, also where somebody has the index."""
    with open(path, "rb") as file:
        fcntl.flock(file, fcntl.LOCK_EX)
        status, said = scripts.run("check", "--quick", path)
        expect(status == 0 and "its root keeps all rules" in said, f"check --quick ended with {status} and said {said!r}")
    for odd in ("/dev/zero", scripts.folder):
        status, said = scripts.run("check", odd)
        expect(status == 3 and "Traceback" not in said, f"check of {odd} ended with {status} and said {said!r}")


def lost(scripts):
    """An older copy in the place of an index: the check and the next import say what is lost, and the import heals it."""
    notes, path = scripts.at("notes"), scripts.at("notes.alta")
    os.mkdir(notes)
    for number in range(5):
        put(os.path.join(notes, f"{number}.txt"), b"text")
    expect(scripts.run("folder", path, notes)[0] == 0, "the import failed")
    older = contents(path)
    put(os.path.join(notes, "5.txt"), b"text")
    put(os.path.join(notes, "6.txt"), b"text")
    scripts.run("folder", path, notes)
    checked(scripts, path, 0, "its 7 documents are in the index")
    put(path, older)
    checked(scripts, path, 1, "of 7 documents 2 are not in the index")
    said = scripts.run("folder", path, notes)[1]
    expect("the index has lost the documents 6 to 7" in said and "2 added, 5 unchanged" in said, f"the import said {said!r}")
    checked(scripts, path, 0, "its 7 documents are in the index")


def main():
    parser = argparse.ArgumentParser(description=__doc__, formatter_class=argparse.RawDescriptionHelpFormatter)
    parser.add_argument("--program", default=os.path.join(TOP, "crates", "alta_cli", "out", "alta_cli"))
    parser.add_argument("--rounds", type=int, default=5)
    parser.add_argument("--seed", type=int, default=1)
    options = parser.parse_args()
    chance = random.Random(options.seed)
    with tempfile.TemporaryDirectory() as folder:
        scripts = Scripts(os.path.abspath(options.program), folder)
        for _ in range(options.rounds):
            copies(scripts, chance)
        program_made(scripts)
        forgotten(scripts)
        refusals(scripts, chance)
        killed(scripts, chance)
        checks(scripts)
        digested(scripts, chance)
        lost(scripts)
    print(f"upkeep: {options.rounds} rounds of copies, and what is refused, killed, damaged and lost")


if __name__ == "__main__":
    sys.exit(main())
