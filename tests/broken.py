#!/usr/bin/env python3
"""Breaks files byte by byte by worked rows, and compares what the program says: tests/broken.py [--program PATH]

Each row is a file, as text, and where it is damaged: the first field that breaks a rule of docs/FORMAT.md, in the order of reading.
The rows were worked out by hand. First come the slots of the root, then the halves of the journal, then levels and deletion lists,
whose tables are read as an index is opened, and last lists, which a search or a merge reads. Nothing of tests/model is used.
"""

import argparse
import os
import subprocess
import tempfile

HEAD = 2_105_344
SLOTS = {"A": 0, "B": 4_096}
HALVES = {"A": 8_192, "B": 1_056_768}
OPEN = 0xA5

# ---- files as text: places with the bytes that stand there, and a comma between two of them

NAMED = {
    # What `init` writes into a slot.
    "INIT": b"\xa5\x02\0\0\0\0\0\0\0\0\0\0\0\0\0\x01\0\0\0\0\0\0\0\x01",
    # Ranges of 40 bytes behind the head, each a place and its bytes, at offset 0, 40, 80 and 160.
    "FIRST_40": b"\0\0\0\0\0\x20\x20\0\0\0\0\0\0\0\0\x28",
    "NEXT_40": b"\0\0\0\0\0\x20\x20\x28\0\0\0\0\0\0\0\x28",
    "THIRD_40": b"\0\0\0\0\0\x20\x20\x50\0\0\0\0\0\0\0\x28",
    "LAST_40": b"\0\0\0\0\0\x20\x20\xa0\0\0\0\0\0\0\0\x28",
    # Records, each with its gate and the closed gate of the next: adds, deletes, and a document in the place of document 1.
    "RED_FOX": b"\xa5\0\0\0\x23\x01\x01a\0\0\0\x07Red Fox\0\0\0\x11the quick red fox\0",
    "ADD_B": b"\xa5\0\0\0\x0b\x01\x01B\0\0\0\0\0\0\0\0\0",
    "ADD_AA": b"\xa5\0\0\0\x0c\x01\x02aa\0\0\0\0\0\0\0\0\0",
    "DELETE_1": b"\xa5\0\0\0\x09\x02\0\0\0\0\0\0\0\x01\0",
    "DELETE_2": b"\xa5\0\0\0\x09\x02\0\0\0\0\0\0\0\x02\0",
    "REPLACE_1": b"\xa5\0\0\0\x17\x03\0\0\0\0\0\0\0\x01\x01a\0\0\0\0\0\0\0\x04blue\0",
}
NAMED["ADD_A"] = NAMED["RED_FOX"]
RECORDS = {"RED_FOX", "ADD_A", "ADD_B", "ADD_AA", "DELETE_1", "DELETE_2", "REPLACE_1"}


def put(content, place, data):
    """Puts bytes over those that are there; what would stand behind the end is left out."""
    data = data[: max(0, len(content) - place)]
    content[place : place + len(data)] = data


def put_all(content, text):
    """Puts what a text says: behind each place bytes of two digits, `78*64` for as many equal ones, or names. A record ends where the
    next one begins, which is at the closed gate behind it."""
    for part in text.split(", "):
        place, *words = part.split(" ")
        at = int(place)
        for word in words:
            digits, _, times = word.partition("*")
            data = NAMED[digits] if digits in NAMED else bytes([int(digits, 16)]) * int(times or 1)
            put(content, at, data)
            at += len(data) - (digits in RECORDS)


class Files:
    """The program over files of one folder."""

    def __init__(self, program, folder):
        self.program, self.path = program, os.path.join(folder, "index")

    def run(self, content, lines):
        """The status, the replies and what is said of the damage, over this content."""
        with open(self.path, "wb") as file:
            file.write(content)
        return self.again(lines)

    def again(self, lines):
        """The same over what stands in the file."""
        done = subprocess.run([self.program, self.path, "run"], input="".join(f"{line}\n" for line in lines).encode(), capture_output=True)
        return done.returncode, done.stdout.decode().split("\n")[:-1], done.stderr.decode()

    def byte(self, place):
        with open(self.path, "rb") as file:
            file.seek(place)
            return file.read(1)[0]


def told(ended, said):
    """In words: that an index was opened, that there is none, or where it is damaged."""
    if ended == 0:
        return "opened"
    if (ended, said) == (7, "alta: no index\n"):
        return "no root"
    if ended == 6 and said.startswith("alta: damaged at "):
        return f"damaged {said[17:-1]}"
    raise SystemExit(f"broken: status {ended}: {said}")


def compare(row, found, want):
    if found != want:
        raise SystemExit(f"broken: {found} in place of {want}: {row}")


def rows(table):
    """The rows of a table: what is asked, and what is wanted."""
    return [(row, *row.split(" => ")) for row in table.splitlines()]


# ---- roots

# The length of a file, what is written over its zeros, and the slot that counts, its sequence and how many levels it has: first the
# length, the gates and the sequences, and then one rule broken in slot A, or none.
ROOTS = """\
no bytes | 0 => no root
8,191 bytes | 8191, 0 INIT => no root
8,192 bytes | 8192, 0 INIT => damaged 8192
8,192 zeros | 8192 => no root
short, and damaged | 9000, 0 a5 09 => damaged 9000
a byte too short | 2105343, 4096 INIT => damaged 2105343
a head | 2105344, 0 INIT => A 0 0
closed by another byte | 2105544, 0 INIT, 0 a4 => no root
slot B | 2105544, 4096 INIT => B 0 0
slot B, and A closed | 2105544, 0 00 09 09 99, 4096 INIT => B 0 0
0 and 1 | 2105544, 0 INIT, 4096 INIT, 4098 01 => B 1 0
1 and 0 | 2105544, 0 INIT, 2 01, 4096 INIT => A 1 0
255 and 0 | 2105544, 0 INIT, 2 ff, 4096 INIT => B 0 0
0 and 255 | 2105544, 0 INIT, 4096 INIT, 4098 ff => A 0 0
5 and 5 | 2105544, 0 INIT, 2 05, 4096 INIT, 4098 05 => damaged 4098
5 and 7 | 2105544, 0 INIT, 2 05, 4096 INIT, 4098 07 => damaged 4098
1 and 255 | 2105544, 0 INIT, 2 01, 4096 INIT, 4098 ff => damaged 4098
A and B damaged | 2105544, 0 INIT, 3 11, 4096 INIT, 4097 03 => damaged 3
B damaged, the sequences too | 2105544, 0 INIT, 4096 INIT, 4100 01 => damaged 4100
version 0 | 2105544, 0 INIT, 1 00 => damaged 1
version 1 | 2105544, 0 INIT, 1 01 => A 0 0
version 3 | 2105544, 0 INIT, 1 03 => damaged 1
17 levels | 2105544, 0 INIT, 3 11 => damaged 3
first zero | 2105544, 0 INIT, 4 01 => damaged 4
last zero | 2105544, 0 INIT, 7 01 => damaged 4
number 0 | 2105544, 0 INIT, 15 00 => damaged 8
number 2^32 | 2105544, 0 INIT, 11 01 00 00 00 00 => A 0 0
number 2^32 + 1 | 2105544, 0 INIT, 11 01 00 00 00 01 => damaged 8
location 0 | 2105544, 0 INIT, 23 00 => damaged 16
location 2 | 2105544, 0 INIT, 23 02 => damaged 16
the last location | 2105544, 0 INIT, 15 02, 21 04 00 03 => A 0 0
a location more | 2105544, 0 INIT, 15 02, 21 04 00 04 => damaged 16
a list | 2105544, 0 INIT, 24 FIRST_40 => A 0 0
a list of a byte at the end | 2105544, 0 INIT, 24 00 00 00 00 00 20 20 c7 00 00 00 00 00 00 00 01 => A 0 0
a list past the end | 2105544, 0 INIT, 24 00 00 00 00 00 20 20 c7 00 00 00 00 00 00 00 02 => damaged 24
a list in the head | 2105544, 0 INIT, 24 00 00 00 00 00 20 1f ff 00 00 00 00 00 00 00 28 => damaged 24
a list of no bytes | 2105544, 0 INIT, 24 00 00 00 00 00 20 20 00 => damaged 24
a list at 0 | 2105544, 0 INIT, 39 01 => damaged 24
a list past all | 2105544, 0 INIT, 24 ff ff ff ff ff ff ff ff 00 00 00 00 00 00 00 01 => damaged 24
a level | 2105544, 0 INIT, 3 01, 40 FIRST_40 => A 0 1
a level at the end | 2105544, 0 INIT, 3 01, 40 LAST_40 => A 0 1
a level past the end | 2105544, 0 INIT, 3 01, 40 LAST_40, 55 29 => damaged 40
a level of 32 bytes | 2105544, 0 INIT, 3 01, 40 FIRST_40, 55 20 => A 0 1
a level of 31 bytes | 2105544, 0 INIT, 3 01, 40 FIRST_40, 55 1f => damaged 40
no level | 2105544, 0 INIT, 3 01 => damaged 40
one behind the other | 2105544, 0 INIT, 3 02, 24 NEXT_40, 40 FIRST_40, 56 THIRD_40 => A 0 2
a level on the list | 2105544, 0 INIT, 3 02, 24 NEXT_40, 40 NEXT_40, 56 THIRD_40 => damaged 40
a byte of the list | 2105544, 0 INIT, 3 02, 24 NEXT_40, 40 FIRST_40, 55 29, 56 THIRD_40 => damaged 40
the second on the list | 2105544, 0 INIT, 3 02, 24 NEXT_40, 40 FIRST_40, 56 THIRD_40, 63 4f => damaged 56
the second in the first | 2105544, 0 INIT, 3 02, 40 FIRST_40, 56 00 00 00 00 00 20 20 01 00 00 00 00 00 00 00 20 => damaged 56
behind the last row | 2105544, 0 INIT, 3 01, 40 FIRST_40, 56 ff ff ff ff ff => A 0 1
"""


def roots(files):
    for row, asked, want in rows(ROOTS):
        size, _, text = asked.split(" | ")[1].partition(", ")
        content = bytearray(int(size))
        if text:
            put_all(content, text)
        ended, replies, said = files.run(content, ["add a\tx\ty", "flush"])
        if want == "no root" or want.startswith("damaged"):
            compare(row, told(ended, said), want)
            continue
        slot, sequence, levels = want.split(" ")
        # A level or a list of zeros is itself damaged, which its slot is not.
        counts = ended == 0 or int(said[17:-1]) >= HEAD
        compare(row, (counts, content[SLOTS[slot] + 3]), (True, int(levels)))
        if replies[:1] == ["added 1"]:
            other = SLOTS["B" if slot == "A" else "A"]
            compare(row, (files.byte(HALVES[slot]), files.byte(other + 2)), (OPEN, (int(sequence) + 1) % 256))


# ---- halves of the journal

# A half with the version of its root, what stands in the file, and how many entries are read with the place of the last gate, or the
# place of the damage. In the last of half A the last gate stands 6, 5, 4 and 1 bytes before the end of the half.
HALF_ROWS = """\
closed | A1 | 8192 00 00 00 00 23 01 01 61 => 0 8192
closed by another byte | A1 | 8192 a4 ff ff ff ff => 0 8192
one | A1 | 8192 RED_FOX => 1 8232
no room | A1 | 8192 a5 ff ff ff ff => damaged 8193
just no room | A1 | 8192 a5 00 0f ff fb => damaged 8193
just room | A1 | 8192 a5 00 0f ff fa => damaged 8197
kind 4 | A1 | 8192 a5 00 00 00 01 04 => damaged 8197
kind 0 | A1 | 8192 a5 00 00 00 09 00 00 00 00 00 00 00 00 01 => damaged 8197
kind 3 | A1 | 8192 a5 00 00 00 09 03 00 00 00 00 00 00 00 01 => damaged 8197
no kind | A1 | 8192 a5 00 00 00 00 => damaged 8197
delete cut | A1 | 8192 a5 00 00 00 08 02 00 00 00 00 00 00 00 => damaged 8197
delete and a byte | A1 | 8192 a5 00 00 00 0a 02 00 00 00 00 00 00 00 01 00 => damaged 8197
add cut | A1 | 8192 a5 00 00 00 0b 01 01 61 00 00 00 00 00 00 00 01 => damaged 8197
add and a byte | A1 | 8192 a5 00 00 00 0c 01 01 61 00 00 00 00 00 00 00 00 00 => damaged 8197
title cut | A1 | 8192 a5 00 00 00 07 01 01 61 00 00 00 01 => damaged 8197
name of 0 bytes | A1 | 8192 a5 00 00 00 0a 01 00 00 00 00 00 00 00 00 00 => damaged 8197
name of 64 bytes | A1 | 8192 a5 00 00 00 4a 01 40 78*64 => 1 8271
name of 65 bytes | A1 | 8192 a5 00 00 00 4b 01 41 78*65 => damaged 8197
name with a blank | A1 | 8192 a5 00 00 00 0b 01 01 20 00 00 00 00 00 00 00 00 => damaged 8197
tab in the title | A1 | 8192 a5 00 00 00 0c 01 01 61 00 00 00 01 09 00 00 00 00 => damaged 8197
newline in the title | A1 | 8192 a5 00 00 00 0c 01 01 61 00 00 00 01 0a 00 00 00 00 => damaged 8197
title that is no UTF-8 | A1 | 8192 a5 00 00 00 0c 01 01 61 00 00 00 01 c3 00 00 00 00 => damaged 8197
tab in the body | A1 | 8192 a5 00 00 00 0c 01 01 61 00 00 00 00 00 00 00 01 09 => 1 8209
newline in the body | A1 | 8192 a5 00 00 00 0c 01 01 61 00 00 00 00 00 00 00 01 0a => damaged 8197
body that is no UTF-8 | A1 | 8192 a5 00 00 00 0e 01 01 61 00 00 00 00 00 00 00 03 ed a0 80 => damaged 8197
body beyond ASCII | A1 | 8192 a5 00 00 00 0d 01 01 61 00 00 00 00 00 00 00 02 c3 9f => 1 8210
the second, no room | A1 | 8192 a5 00 00 00 09 02 00 00 00 00 00 00 00 01 a5 ff ff ff ff => damaged 8207
the second, kind 4 | A1 | 8192 a5 00 00 00 09 02 00 00 00 00 00 00 00 01 a5 00 00 00 01 04 => damaged 8211
slot B | A1 | 1056768 a5 ff ff ff ff => 0 8192
in front of the slot | A1 | 8191 a5 00 => 0 8192
the other slot | B1 | 1056768 a5 ff ff ff ff => damaged 1056769
the longest | A1 | 8192 a5 00 01 00 40 01 01 61 00 00 00 00 00 01 00 35 => 1 73797
a byte longer | A1 | 8192 a5 00 01 00 41 01 01 61 00 00 00 00 00 01 00 36 => damaged 8197
full but for a body of 64479 | A1 | full, 992267 a5 00 00 fb ea 01 01 61 00 00 00 00 00 00 fb df, 1056762 a5 => damaged 1056767
full but for a body of 64480 | A1 | full, 992267 a5 00 00 fb eb 01 01 61 00 00 00 00 00 00 fb e0, 1056763 a5 => damaged 1056764
full but for a body of 64481 | A1 | full, 992267 a5 00 00 fb ec 01 01 61 00 00 00 00 00 00 fb e1, 1056764 a5 => damaged 1056765
full but for a body of 64484 | A1 | full, 992267 a5 00 00 fb ef 01 01 61 00 00 00 00 00 00 fb e4, 1056767 a5 => damaged 1056768
full but for a body of 64484 | A1 | full, 992267 a5 00 00 fb ef 01 01 61 00 00 00 00 00 00 fb e4, 1056767 00 => 16 1056767
full but for a body of 64485 | A1 | full, 992267 a5 00 00 fb f0 01 01 61 00 00 00 00 00 00 fb e5, 1056768 00 => damaged 992268
a replace | B1 | 1056768 REPLACE_1 => damaged 1056773
version 2, a body of 65590 | A2 | 8192 a5 00 01 00 41 01 01 61 00 00 00 00 00 01 00 36 => 1 73798
version 2, a body of 262136 | A2 | 8192 a5 00 04 00 03 01 01 61 00 00 00 00 00 03 ff f8 => 1 270344
version 2, a body of 262137 | A2 | 8192 a5 00 04 00 04 01 01 61 00 00 00 00 00 03 ff f9 => damaged 8197
"""

# The longest record of a root of version 1, up to its body.
LONGEST = b"\xa5\0\x01\0\x40\x01\x01a\0\0\0\0\0\x01\0\x35"


def head_with(slot, version, text):
    """A head of zeros with a root in this slot, and what a text says; `full` puts fifteen of the longest records, of bodies of zeros,
    into half A."""
    content = bytearray(HEAD)
    put(content, SLOTS[slot], NAMED["INIT"])
    content[SLOTS[slot] + 1] = version
    if text.startswith("full, "):
        text = text[6:]
        for i in range(15):
            put(content, HALVES["A"] + i * 65_605, LONGEST)
            content[HALVES["A"] + i * 65_605 + 7] += i + 1
    put_all(content, text)
    return content


def halves(files):
    for row, asked, want in rows(HALF_ROWS):
        _, half, text = asked.split(" | ")
        ended, replies, said = files.run(head_with(half[0], int(half[1]), text), ["add zz\t\t"])
        if want.startswith("damaged"):
            compare(row, told(ended, said), want)
            continue
        entries, place = want.split(" ")
        compare(row, replies, [f"added {int(entries) + 1}"])
        # The record stands where the last gate was, unless the half is full and a flush came first.
        if int(place) + 20 < HALVES["B"]:
            compare(row, files.byte(int(place)), OPEN)


# ---- an index without levels

# What is put over one: each rule broken; and entries that are not allowed, in records of 40 and 14 bytes, one behind the other.
RULES = """\
0 a5 => opened
0 00 => no root
1 00 => damaged 1
1 01 => opened
1 03 => damaged 1
2 07 => opened
3 01 => damaged 40
8 00 00 00 00 00 00 00 00 => damaged 8
8 00 00 00 01 00 00 00 00 => opened
8 00 00 00 01 00 00 00 01 => damaged 8
23 02 => damaged 16
39 01 => damaged 24
4096 a5 => damaged 4097
8192 a5 ff ff ff ff => damaged 8193
8192 a5 00 00 00 01 04 => damaged 8197
8192 ADD_A => opened
8192 DELETE_1 => damaged 8197
8192 ADD_A DELETE_1 => opened
8192 ADD_A DELETE_2 => damaged 8237
8192 ADD_A ADD_A => damaged 8237
8192 ADD_A DELETE_1 DELETE_1 => damaged 8251
8192 ADD_A DELETE_1 ADD_A => opened
8192 ADD_A DELETE_1 ADD_A ADD_A => damaged 8291
8192 ADD_A DELETE_1 ADD_A DELETE_2 => opened
8192 REPLACE_1 => damaged 8197
8192 ADD_A REPLACE_1 DELETE_2 => opened
8192 ADD_A REPLACE_1 REPLACE_1 => damaged 8265
8192 ADD_B ADD_A REPLACE_1 => damaged 8253
8 00 00 00 01 00 00 00 00, 8192 ADD_A => damaged 8197
8192 ADD_A REPLACE_1 => opened
8192 ADD_A REPLACE_1, 1 01 => damaged 8237
"""

# To how many bytes it is cut.
CUTS = """\
2105344 => opened
2105343 => damaged 2105343
8192 => damaged 8192
8191 => no root
0 => no root
"""

# Slot B with the fields of slot A, and the sequence that comes next, is the later one.
LATER = "8192 ADD_A, 4096 a5 02 01, 4111 01 00 00 00 00 00 00 00 01, 1056768 ADD_B ADD_AA"

# Where no slot comes next, and where slot A does; and a deletion list that begins with a location of 0, which no list has.
LATER_RULES = """\
4098 02 => damaged 4098
2 02 => opened
1056773 04 => damaged 1056773
"""


def stores(files):
    fresh = bytearray(HEAD)
    put(fresh, 0, NAMED["INIT"])
    later = bytearray(fresh)
    put_all(later, LATER)
    for content, table in ((fresh, RULES), (later, LATER_RULES)):
        for row, text, want in rows(table):
            changed = bytearray(content)
            put_all(changed, text)
            ended, _, said = files.run(changed, ["stats"])
            compare(row, told(ended, said), want)
    for row, length, want in rows(CUTS):
        ended, _, said = files.run(fresh[: int(length)], ["stats"])
        compare(row, told(ended, said), want)
    listed = later + b"\x01"
    put_all(listed, "4120 00 00 00 00 00 20 20 00 00 00 00 00 00 00 00 01")
    ended, _, said = files.run(listed, ["stats"])
    compare("a list of 0", told(ended, said), "damaged 2105344")
    _, replies, _ = files.run(later, ["search B OR NOT B", "search name:B", "search name:aa"])
    compare("the later slot", replies[-4:], ["1 B", "found 1", "2 aa", "found 1"])


# ---- levels

# The segment of one document, of number 1, at the locations 1 to 9, with the name `a`, the title `Red Fox` and the body `the quick red
# fox`. Its rows begin at 32, its terms at 37, and its lists at 114.
SEGMENT = (
    b"\0\0\0\0\0\0\0\x01\0\0\0\0\0\0\0\x0a\0\0\0\0\0\0\0\x05\0\0\0\0\0\0\0\x4d"
    b"\x01\x01\x09\x01a"
    b"\x00\x01D\x01\x01\x00\x00\x02Na\x01\x01\x00\x00\x01S\x01\x01\x00\x00\x01T\x01\x01\x00\x00\x04Wfox\x02\x02\x00\x01\x05quick\x01\x01\x00"
    b"\x01\x03red\x02\x02\x00\x01\x03the\x01\x01\x00\x00\x04XFox\x01\x01\x00\x01\x03Red\x01\x01\x00"
    b"\x09\x01\x01\x04\x03\x05\x06\x02\x05\x05\x03\x02"
)

# That of the document `b` at the locations 10 to 16, with the title `Fox` and the body `quick brown dog`.
NEXT = (
    b"\0\0\0\0\0\0\0\x01\0\0\0\0\0\0\0\x09\0\0\0\0\0\0\0\x05\0\0\0\0\0\0\0\x47\x02\x0a\x07\x01b"
    b"\0\x01D\x01\x01\0\0\x02Nb\x01\x01\0\0\x01S\x01\x01\0\0\x01T\x01\x01\0\0\x06Wbrown\x01\x01\0\x01\x03dog\x01\x01\0"
    b"\x01\x03fox\x01\x01\0\x01\x05quick\x01\x01\0\0\x04XFox\x01\x01\0\x10\x0a\x0a\x0c\x0e\x0f\x0b\x0d\x0b"
)

# The segment of one document of 100 cells with the term `Wa` in the first 65 of them, a list of two blocks, whose summary begins at 116.
LONG = (
    b"\0\0\0\0\0\0\0\x01\0\0\0\0\0\0\0\x02\0\0\0\0\0\0\0\x05\0\0\0\0\0\0\0\x0d\x01\x01d\x01a\0\x01D\x01\x01\0\0\x02WaAA8d"
    + b"\x01" * 65
    + b"".join(number.to_bytes(8, "big") for number in (1, 64, 0, 65, 65, 64, 65))
)


def index_of(levels, ends, next_number, next_location, version=1):
    """A file whose slot A counts, with these levels one behind the other and behind them this deletion list, and its entry."""
    content = bytearray(HEAD)
    extents, body = [], b""
    for part in [*levels, ends]:
        extents.append((HEAD + len(body), len(part)) if part else (0, 0))
        body += part
    fields = bytes([OPEN, version, 0, len(levels), 0, 0, 0, 0]) + next_number.to_bytes(8, "big") + next_location.to_bytes(8, "big")
    fields += b"".join(number.to_bytes(8, "big") for extent in [extents[-1], *extents[:-1]] for number in extent)
    put(content, 0, fields)
    return content + body


# An index in a level, the byte that is there then, and the first broken field.
FIELDS = """\
114 0 => whole
7 0 => 0
23 95 => 16
31 90 => 24
15 9 => 106
15 11 => 114
23 4 => 36
23 6 => 37
32 0 => 32
33 0 => 33
34 2 => 34
35 0 => 35
35 2 => 36
36 32 => 36
37 1 => 37
38 0 => 38
39 77 => 39
40 0 => 40
41 0 => 125
42 1 => 112
43 128 => 43
73 97 => 73
73 102 => 73
113 1 => 113
"""


def fields(files):
    content = index_of([SEGMENT], b"", 2, 10)
    for row, text, want in rows(FIELDS):
        at, value = map(int, text.split(" "))
        changed = bytearray(content)
        changed[HEAD + at] = value
        ended, _, said = files.run(changed, ["stats"])
        compare(row, told(ended, said), "opened" if want == "whole" else f"damaged {HEAD + int(want)}")


# The number of levels, the list, what is put over the file, and what is opened or the first broken place: how many levels and deleted
# ends there are, and the numbers of `a` and of `b`, with 0 for none.
LEVELS = """\
no level | 0 | - | - => 0 0 0 0
a level | 1 | - | - => 1 0 1 0
two levels | 2 | - | - => 2 0 1 2
the first deleted | 2 | 09 | - => 2 1 0 2
the second deleted | 2 | 12 | - => 2 1 1 0
both deleted | 2 | 09 09 | - => 2 2 0 0
a name again | 2 | 09 | second+36 61 => 2 1 2 0
a stream that opening does not read | 1 | - | first+114 00 => 1 0 1 0
a list of zero | 0 | 00 | - => damaged list+0
a list that is cut | 2 | 09 89 | - => damaged list+1
the list before the levels | 1 | 00 | first+7 00 => damaged list+0
no documents | 1 | - | first+7 00 => damaged first+0
a name with a space | 1 | - | first+36 20 => damaged first+36
a term of no kind | 1 | - | first+39 45 => damaged first+39
the number of before | 2 | - | second+32 01 => damaged second+0
the end of before | 2 | - | second+33 09 => damaged second+0
the next number | 2 | - | 15 02 => damaged second+0
the next location | 2 | - | 23 12 => damaged second+0
the tables of a level before the order of the one behind it | 2 | - | first+36 20, second+32 01 => damaged first+36
a second name | 2 | - | second+36 61 => damaged second+36
the order before a second name | 2 | - | second+32 01, second+36 61 => damaged second+0
an end of no row | 2 | 08 | - => damaged list+0
an end behind all rows | 2 | 09 0a | - => damaged list+0
a second name before an end of no row | 2 | 08 | second+36 61 => damaged second+36
"""


def levels(files):
    other = bytearray(SEGMENT)
    put(other, 32, b"\x02\x0a\x09\x01b")
    places = {"first": HEAD, "second": HEAD + 126, "list": HEAD + 252}
    for row, asked, want in rows(LEVELS):
        _, count, ends, over = asked.split(" | ")
        ends = bytes.fromhex(ends) if ends != "-" else b""
        content = index_of([SEGMENT, bytes(other)], ends, 3, 19)
        content[3] = int(count)
        for part in over.split(", ") if over != "-" else []:
            place, value = part.split(" ")
            name, _, offset = place.rpartition("+")
            content[places.get(name, 0) + int(offset)] = int(value, 16)
        ended, replies, said = files.run(content, ["delete a", "delete b"])
        if want.startswith("damaged"):
            name, _, offset = want[8:].rpartition("+")
            compare(row, told(ended, said), f"damaged {places.get(name, 0) + int(offset)}")
            continue
        numbers = map(int, want.split(" ")[2:])
        compare(row, (ended, replies), (0, [f"deleted {number}" if number else "! no such document" for number in numbers]))


# ---- lists

# A query, the bytes that are changed in two levels that follow one another, and the first fault. The document ends come first, in the
# older level and then in the newer; then the terms of the query, each in the older level first. A prefix loads each term that begins
# so, in their order. What is not loaded is not looked at.
SEARCHES = """\
fox | 118:00 234:00 => damaged 234
fox | 234:00 114:00 => damaged 114
fox | 240:00 118:00 => damaged 118
fox | 240:00 => damaged 240
qu* OR re* | 121:00 241:00 => damaged 241
re* | 121:00 118:00 => damaged 121
dog | 118:00 121:00 240:00 => loaded
"""

# The number of documents, a term's kind, two locations for one, an end that is none, a location outside, a difference of 0: an index
# in a level, the byte that is there then, and the place. It shows in a merge at the latest, which reads all.
SHORT = """\
7 0 0
39 69 39
68 1 118
114 8 114
115 10 115
125 0 125
"""

# A row's last location, a row's place, a group.
SUMMARY = """\
131 63 116
163 65 140
171 64 164
"""

# Two levels that a merge reads: the bytes that are changed in the first and the second, and the first fault.
MERGES = """\
first+114 00 => first+114
first+117 0a => first+117
second+116 00 => second+116
second+116 00, first+125 00 => first+125
"""


def searches(files):
    content = index_of([SEGMENT, NEXT], b"\x10", 3, 17)
    for row, asked, want in rows(SEARCHES):
        text, changes = asked.split(" | ")
        changed = bytearray(content)
        for change in changes.split(" "):
            at, value = change.split(":")
            changed[HEAD + int(at)] = int(value, 16)
        ended, _, said = files.run(changed, [f"search {text}"])
        compare(row, told(ended, said), "opened" if want == "loaded" else f"damaged {HEAD + int(want[8:])}")


def merges(files):
    for segment, table, last in ((SEGMENT, SHORT, 9), (LONG, SUMMARY, 100)):
        content = index_of([segment], b"", 2, last + 1)
        for row in table.splitlines():
            at, value, want = map(int, row.split(" "))
            changed = bytearray(content)
            changed[HEAD + at] = value
            ended, _, said = files.run(changed, ["add b\t\t", "merge"])
            compare(row, told(ended, said), f"damaged {HEAD + want}")
    content = index_of([SEGMENT, NEXT], b"", 3, 17)
    places = {"first": HEAD, "second": HEAD + 126}
    place = lambda text: places[text.split("+")[0]] + int(text.split("+")[1])
    for row, text, want in rows(MERGES):
        changed = bytearray(content)
        for part in text.split(", "):
            at, value = part.split(" ")
            changed[place(at)] = int(value, 16)
        ended, _, said = files.run(changed, ["merge"])
        compare(row, told(ended, said), f"damaged {place(want)}")


def main():
    parser = argparse.ArgumentParser()
    parser.add_argument("--program", default="./alta")
    program = os.path.abspath(parser.parse_args().program)
    with tempfile.TemporaryDirectory() as folder:
        files = Files(program, folder)
        for part in (roots, halves, stores, fields, levels, searches, merges):
            part(files)
    tables = (ROOTS, HALF_ROWS, RULES, CUTS, LATER_RULES, FIELDS, LEVELS, SEARCHES, SHORT, SUMMARY, MERGES)
    print(f"broken: {sum(len(table.splitlines()) for table in tables)} rows")


if __name__ == "__main__":
    main()
