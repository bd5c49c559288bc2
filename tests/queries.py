#!/usr/bin/env python3
r"""Compares what is read of texts, queries and lines with rows from outside: tests/queries.py [--program PATH]

Each row is a text and what is read of it, each by itself. Of a document these are the terms of its cells, which a flush writes; of a
query its canonical spelling, or the place and the cause of its first fault, its plan, and whether documents match; of a line its reply.
The rows follow from docs/QUERIES.md and from Unicode's tables of words and case foldings, and nothing of tests/model answers them.

In a row `{3 x}` stands for `xxx`.
"""

import argparse
import os
import re
import subprocess
import tempfile

from model.reading import opened

# A name, a title and a body, and the terms of each cell, with a cross for each range term. A word of more than 128 bytes has an empty cell;
# U+0390 has 2 bytes and its folding has 6, the sharp s has 2 and its folding has 2.
CELLS = """\
e |  |  => Ne S|T|D
e |  ---  | ...\t! => Ne S|T|D
a | Red Fox | the quick red fox => Na S|Wred XRed|Wfox XFox|T|Wthe|Wquick|Wred|Wfox|D
s |  | Straße strasse => Ns S|T|Wstrasse XStraße|Wstrasse|D
home | AltaVista: Main Page | Don't miss version 2.0, released in 1996! => Nhome S|Waltavista XAltaVista|Wmain XMain|Wpage XPage|T|Wdon't XDon't|Wmiss|Wversion|W2.0|Wreleased|Win|W1996{33 #}|D
z | 007 | 2.0 0 4294967296 + => Nz S|W007|T|W2.0|W0{33 #}|W4294967296|D
g | ὅσος | cafe\u0301 => Ng S|Wὅσοσ Xὅσος|T|Wcafe\u0301|D
l | {128 x} |  => Nl S|W{128 x}|T|D
l | {129 x} |  => Nl S||T|D
l | {128 X} |  => Nl S|W{128 x} X{128 X}|T|D
l | {129 X} |  => Nl S||T|D
l | {64 ß} |  => Nl S|W{128 s} X{64 ß}|T|D
l | {65 ß} |  => Nl S||T|D
l | {21 \u0390} |  => Nl S|W{21 \u03b9\u0308\u0301} X{21 \u0390}|T|D
l | {22 \u0390} |  => Nl S||T|D
 | x | y => ! bad name
a b | x | y => ! bad name
é | x | y => ! bad name
\u007f | x | y => ! bad name
w |  |  \t... -- !? \u3000 => Nw S|T|D
w |  | red-fox => Nw S|T|Wred|Wfox|D
w |  | ὅσος ΌΣΟΣ => Nw S|T|Wὅσοσ Xὅσος|Wόσοσ XΌΣΟΣ|D
w |  | CAFE\u0301 CAFÉ => Nw S|T|Wcafe\u0301 XCAFE\u0301|Wcafé XCAFÉ|D
w |  | \u1e9e ﬃ => Nw S|T|Wss X\u1e9e|Wffi Xﬃ|D
w |  | I\u0307 İ => Nw S|T|Wi\u0307 XI\u0307|Wi\u0307 Xİ|D
w |  | a\rb_c\u00add => Nw S|T|Wa|Wb_c\u00add|D
n |  | 0 7 1996 4294967295 +7 => Nn S|T|W0{33 #}|W7{33 #}|W1996{33 #}|W4294967295{33 #}|W7{33 #}|D
n |  | 4294967296 99999999999999999999 007 00 2.0 7a => Nn S|T|W4294967296|W99999999999999999999|W007|W00|W2.0|W7a|D
{64 x} |  |  => N{64 x} S|T|D
{65 x} |  |  => ! bad name
"""

# A range, and how many ranges of the least number cover it.
COVERS = """\
0..4294967295 => 1
1..4294967294 => 62
0..4294967294 => 32
4294967295..4294967295 => 1
5..5 => 1
1990..1999 => 2
"""

# A cell of the numbers 1996 and 4294967295, and the bytes of one of its terms: the level, and how often that power of two is in the number.
RANGE_TERMS = """\
2 => 58 ff 00 00 00 07 cc
2 => 58 ff 03 00 00 00 f9
2 => 58 ff 20 00 00 00 00
3 => 58 ff 00 ff ff ff ff
3 => 58 ff 20 00 00 00 00
"""

# A query, and its canonical spelling, or the place and the cause of its first fault; at the end the deepest and the longest ones.
SPELLINGS = """\
 => ! query 0 Empty
  => ! query 0 Empty
 \t  => ! query 0 Empty
fox !! => ! query 4 Word
äöü \u3000 => ! query 7 Word
"" => ! query 0 Word
ß title:"…" => ! query 3 Word
q* => ! query 0 Prefix
ä* => ! query 0 Prefix
größe * => ! query 8 Prefix
é red-fo* => ! query 3 Prefix
é re!* => ! query 3 Prefix
red NEAR/0 fox => ! query 4 Near
ü NEAR/1001 fox => ! query 3 Near
ü NEAR/01 fox => ! query 3 Near
ü NEAR/ fox => ! query 3 Near
"red fox" NEAR/2 a => ! query 10 Near
a NEAR/2 "ré fox" => ! query 9 Near
a NEAR/2 title:b => ! query 9 Near
title:ß NEAR/2 b => ! query 9 Near
a NEAR/2 b NEAR/2 c => ! query 11 Near
(é) NEAR/2 b => ! query 5 Near
é NEAR/2 => ! query 9 Near
é NEAR/2 (b) => ! query 10 Near
é NEAR/2 NOT b => ! query 10 Near
é NEAR/2 OR b => ! query 10 Near
NEAR/2 b => ! query 0 Operand
name: => ! query 0 Name
é name:ü => ! query 3 Name
(é OR name: x) => ! query 7 Name
ü name:\u007f => ! query 3 Name
value:5..4 => ! query 0 Value
é value: => ! query 3 Value
é value:1..4294967296 => ! query 3 Value
é value:01..2 => ! query 3 Value
é value:1...2 => ! query 3 Value
é value:1..2* => ! query 3 Value
(value:1..2é => ! query 1 Value
a NEAR/2 value:1..2 => ! query 9 Near
value:1..2 NEAR/2 a => ! query 11 Near
red "fox => ! query 4 Quote
é title:"fox => ! query 3 Quote
é "ü" " => ! query 8 Quote
ß a"b => ! query 4 Quote
red) => ! query 3 Paren
é) !! => ! query 2 Paren
(é => ! query 3 Paren
(é name:x) => ! query 11 Paren
() => ! query 1 Operand
é AND => ! query 6 Operand
é OR OR b => ! query 6 Operand
é NOT => ! query 6 Operand
AND é => ! query 0 Operand
!! ) => ! query 0 Word
red fox => "red" "fox"
red-fox => "red-fox"
red and fox => "red" "and" "fox"
NEAR => "NEAR"
a NEAR/1000 b => "a" NEAR/1000 "b"
NOT re* NEAR/1 ﬁn* => NOT re* NEAR/1 ﬁn*
title:"Red fox"title:gr* => title:"Red fox" title:gr*
title:AND title:NEAR/2 => title:"AND" title:"NEAR/2"
name:a(b"c) d => name:a(b"c) "d"
(value:0..4294967295)value:7..7 => value:0..4294967295 value:7..7
title:value:1 "value:5..4" => title:"value:1" "value:5..4"
((a) AND b) OR c d => "a" "b" OR "c" "d"
(a OR b) c => ( "a" OR "b" ) "c"
(a b) c => ( "a" "b" ) "c"
a OR (b OR c) => "a" OR ( "b" OR "c" )
NOT (a OR b) NOT NOT c => NOT ( "a" OR "b" ) NOT NOT "c"
{32 NOT }a => {32 NOT }"a"
{33 NOT }a => ! query 128 Deep
é {33 (}a => ! query 35 Deep
é {31 (}NOT NOT a => ! query 38 Deep
{64 a } => {63 "a" }"a"
{65 a } => ! query 128 Many
é {62 b }"c ü" => ! query 127 Many
é {64 name:b } => ! query 444 Many
{64 é} => "{64 é}"
é {65 é} => ! query 3 Word
{64 é}* => {64 é}*
é {65 é}* => ! query 3 Prefix
é {22 \u0390} => ! query 3 Word
ß {33 NOT }a => ! query 131 Deep
é {64 re* } => ! query 255 Many
{64 value:1..2 }a => ! query 704 Many
"""

# The plan of a query. The first stands in the rules of plans; the others follow from the rules word by word.
PLANS = """\
"red fox" NOT brown
all 2
  found D Wred Wfox
    x1 <= x0
    p0 <= x1-1
    x2 <= x0
    p0 <= x2-1
    x1 <= x2-1
    x2 <= x1+1
  not
    found D Wbrown
      x1 <= x0
      p0 <= x1-1
---
fox OR
none
---
fox
found D Wfox
  x1 <= x0
  p0 <= x1-1
---
Red
found D XRed
  x1 <= x0
  p0 <= x1-1
---
qui*
found D Wqui*
  x1 <= x0
  p0 <= x1-1
---
name:b
found D Nb
  x1 <= x0
  p0 <= x1-1
---
title:fox
found D Wfox T
  x1 <= x0
  p0 <= x1-1
  x2 <= x0
  p0 <= x2-1
  x1 <= x2-1
---
title:"red fox"
found D Wred Wfox T
  x1 <= x0
  p0 <= x1-1
  x2 <= x0
  p0 <= x2-1
  x3 <= x0
  p0 <= x3-1
  x1 <= x2-1
  x2 <= x1+1
  x1 <= x3-1
  x2 <= x3-1
---
red NEAR/12 fo*
found D Wred Wfo*
  x1 <= x0
  p0 <= x1-1
  x2 <= x0
  p0 <= x2-1
  x1 <= x2+12
  x2 <= x1+12
---
red fox
found D Wred Wfox
  x1 <= x0
  p0 <= x1-1
  x2 <= x0
  p0 <= x2-1
---
a (b OR NOT c) "d e"
all 2
  found D Wa Wd We
    x1 <= x0
    p0 <= x1-1
    x2 <= x0
    p0 <= x2-1
    x3 <= x0
    p0 <= x3-1
    x2 <= x3-1
    x3 <= x2+1
  any 2
    found D Wb
      x1 <= x0
      p0 <= x1-1
    not
      found D Wc
        x1 <= x0
        p0 <= x1-1
---
value:1990..1999
any 2
  found D #1:995
    x1 <= x0
    p0 <= x1-1
  found D #3:249
    x1 <= x0
    p0 <= x1-1
---
value:0..4294967295
found D #32:0
  x1 <= x0
  p0 <= x1-1
---
a value:7..7 b
all 2
  found D Wa Wb
    x1 <= x0
    p0 <= x1-1
    x2 <= x0
    p0 <= x2-1
  found D #0:7
    x1 <= x0
    p0 <= x1-1
---
NOT a NOT b
all 2
  not
    found D Wa
      x1 <= x0
      p0 <= x1-1
  not
    found D Wb
      x1 <= x0
      p0 <= x1-1
"""

# A query, and which of two documents match it.
MATCHES = """\
fox => ab
quick => ab
dog => b
zebra => neither
"fox quick" => neither
"fox the" => neither
"red fox" NOT brown => a
red-fox => a
NOT zebra => ab
NOT (red fox) => b
qui* OR dog => ab
br* OR the => ab
zeb* OR dog => b
title:quick => neither
title:fox => ab
title:"red fox" => a
title:qu* => neither
title:re* => a
title:"fox quick" => neither
name:b => b
name:fox => neither
red NEAR/1 red => a
the NEAR/3 fox => a
the NEAR/2 quick => a
dog NEAR/1 quick => neither
dog NEAR/2 quick => b
Red => a
RED => neither
quick NOT red => b
fox AND (dog OR quick) AND NOT brown => a
"""

# A title, a body and a query, and whether they match.
DOCUMENTS = """\
 | Straße | strasse => yes
 | Straße | Straße => yes
 | STRASSE | Straße => no
AltaVista: Main Page | Don't miss version 2.0, released in 1996! | altavista "version 2.0" => yes
AltaVista: Main Page | Don't miss version 2.0, released in 1996! | don't => yes
AltaVista: Main Page | Don't miss version 2.0, released in 1996! | "page don't" => no
 | Don't miss version 2.0, released in 1996! | value:1990..1999 => yes
 | Don't miss version 2.0, released in 1996! | value:1997..2000 => no
 | Don't miss version 2.0, released in 1996! | "value 5" => no
007 | 2.0 | value:0..9 => no
0 | 4294967295 | value:0..0 value:4294967295..4294967295 => yes
 | 4294967296 7a b7 7,5 00 | value:0..4294967295 => no
 | x-7 | value:7..7 NOT value:8..4294967295 => yes
 |  | NOT x => yes
 | x | title:x => no
x y | x z x y y | "x y y" => yes
x y | x z x y y | "x y z" => no
x | y x x y | "x x" title:x => yes
x | y z z y | x NEAR/2 y => yes
x | y z z y | x NEAR/1 y => no
 | y {31 x y }x y z | "{31 x y }x y" => yes
 | y {31 x y }x y z | "y {31 x y }z" => yes
 | y {31 x y }x y z | "{31 x y }y x" => no
"""

# Lines, one after the other, and their replies.
LINES = """\
add a\tRed Fox\tthe quick => added 1
add a\t\tx\ty => replaced 1 by 2
add a\tx => ! bad line
add => ! bad line
add a b\tx\ty => ! bad name
delete zz => ! no such document
delete => ! bad line
search x  => 2 a / found 1
search  => ! query 0 Empty
search => ! bad line
search \udcff => ! not UTF-8
count fox => found 0
explain fox => "fox" / found D Wfox /   x1 <= x0 /   p0 <= x1-1
open fox => cursor 1
fetch 65 1 => ! no such cursor
fetch 1 => ! bad line
fetch 0 1 => ! bad line
fetch 1 07 => ! bad line
fetch 1 1 => end
close 1000000 => ! no such cursor
close 1000001 => ! bad line
close 1 => closed 1
step 01 => ! bad line
step 0 => ! bad line
step 1 => ok
top 1 fox => found 0
top 1000 x y  => 2 a 2 / found 1
top 1  => ! query 0 Empty
top 0 fox => ! bad line
top 1001 fox => ! bad line
top 01 fox => ! bad line
top +1 fox => ! bad line
top fox => ! bad line
top 1 => ! bad line
tops 1 fox => ! unknown command
dump => add a\t\tx y / dumped 1
dump  => ! bad line
flush => ok
flush now => ! bad line
find fox => ! unknown command
 => ! unknown command
add a\t\t{262137 x} => ! line too long
"""


def spelled(text):
    return re.sub(r"{(\d+) ([^}]*)}", lambda match: match[2] * int(match[1]), text)


def compare(row, found, want):
    if found != want:
        raise SystemExit(f"queries: {found!r:.300} in place of {want!r:.300}: {row:.300}")


def rows(table):
    """The rows of a table: what is asked, and what is wanted."""
    return [(row, *map(spelled, row.split(" => ", 1))) for row in table.removesuffix("\n").split("\n")]


class Index:
    """An index in a new file, and the program over it."""

    def __init__(self, program, path):
        self.program, self.path = program, path
        if os.path.exists(path):
            os.remove(path)
        subprocess.run([program, path, "init"], check=True)

    def run(self, lines):
        given = "".join(f"{line}\n" for line in lines).encode(errors="surrogateescape")
        done = subprocess.run([self.program, self.path, "run"], input=given, capture_output=True)
        if done.returncode or done.stderr:
            raise SystemExit(f"queries: status {done.returncode}: {done.stderr.decode()}")
        return done.stdout.decode().split("\n")[:-1]

    def replies(self, lines):
        """The reply to each of these lines that change nothing."""
        (stats,) = self.run(["stats"])
        told = "\n".join(self.run([both for line in lines for both in (line, "stats")]))
        return told.removesuffix("\n" + stats).split(f"\n{stats}\n")


# ---- texts


def cells(level, first, count):
    """The terms of so many locations of a level, in their order."""
    of_cells = [[] for _ in range(count)]
    for term in sorted(level.terms):
        for location in level.load(term):
            if first <= location < first + count:
                of_cells[location - first].append(term)
    return of_cells


def cells_of(index, texts):
    """The cells of a document of this name, title and body, or why there is none."""
    name, title, body = texts
    (reply,) = index.run([f"add {name}\t{title}\t{body}"])
    if not reply.startswith(("added", "replaced")):
        return reply
    index.run(["merge"])
    with open(index.path, "rb") as file:
        (level,) = opened(file.read()).levels
    (row,) = level.rows
    return cells(level, row.first, row.last - row.first + 1)


def told(term):
    """A term as in a row: a cross for a range term."""
    return "#" if term.startswith(b"X\xff") else term.decode()


def texts(make):
    for row, asked, want in rows(CELLS):
        found = cells_of(make(), asked.split(" | "))
        if isinstance(found, list):
            found = "|".join(" ".join(map(told, terms)).replace(" #", "#") for terms in found)
        compare(row, found, want)
    found = cells_of(make(), ("n", "", "1996 4294967295"))
    for row in RANGE_TERMS.splitlines():
        cell, digits = row.split(" => ")
        compare(row, bytes.fromhex(digits) in found[int(cell)], True)


# ---- queries


def queries(make):
    asked = rows(SPELLINGS)
    for (row, _, want), reply in zip(asked, make().replies([f"explain {text}" for _, text, _ in asked])):
        compare(row, reply.split("\n")[0], want)
    plans = [plan.split("\n", 1) for plan in PLANS.removesuffix("\n").split("\n---\n")]
    for (text, want), reply in zip(plans, make().replies([f"explain {text}" for text, _ in plans])):
        compare(text, reply.partition("\n")[2] or "none", want)
    for row, text, want in rows(COVERS):
        compare(row, make().replies([f"explain value:{text}"])[0].count("found D #"), int(want))


def matches(make):
    two = make()
    two.run(["add a\tRed Fox\tthe quick red fox", "add b\tFox\tquick brown dog"])
    asked = rows(MATCHES)
    for (row, _, want), reply in zip(asked, two.replies([f"search {text}" for _, text, _ in asked])):
        compare(row, "".join(line.split(" ")[1] for line in reply.split("\n")[:-1]) or "neither", want)
    for row, text, want in rows(DOCUMENTS):
        title, body, query = text.split(" | ")
        replies = make().run([f"add d\t{title}\t{body}", f"count {query}"])
        compare(row, replies, ["added 1", "found 1" if want == "yes" else "found 0"])


# ---- lines


def lines(make):
    asked = rows(LINES)
    want = [reply for _, _, replies in asked for reply in replies.split(" / ")]
    compare("lines", make().run([line for _, line, _ in asked]), want)


def main():
    parser = argparse.ArgumentParser()
    parser.add_argument("--program", default="./alta")
    program = os.path.abspath(parser.parse_args().program)
    # Each record costs two syncs, and of a folder in memory these are cheap.
    place = "/dev/shm" if os.access("/dev/shm", os.W_OK) else None
    with tempfile.TemporaryDirectory(dir=place) as folder:
        for part in (texts, queries, matches, lines):
            part(lambda: Index(program, os.path.join(folder, "index")))
    tables = (CELLS, RANGE_TERMS, SPELLINGS, COVERS, MATCHES, DOCUMENTS, LINES)
    print(f"queries: {sum(len(table.splitlines()) for table in tables)} rows, {PLANS.count('---') + 1} plans")


if __name__ == "__main__":
    main()
