"""What an import keeps beside an index: of each document a stamp, and where it was found.

The stamps are a database of SQLite. A row of `stamps` is a document that the index has answered:

- `numbers` are those of its parts, with commas between; `stamp` is a digest that changes when the document does;
- `source` is the digest of what it came from, and `place` where in it: a path below it, and `@BEGIN+LENGTH` where it is a piece
  of a file, spelled as in URLs;
- `content` is the digest of its text, where `stamp` is of the size and time of a file;
- `mark` is the form of the import with the size and time of the document's own file, and `notes` what its archive notes of it;
- `moment` is when it was written, in seconds since 1970, where a message says that.

`sources` says what a source is, `repeats` where else a document stands, and `files` which files of many documents were read to their end.
An older version had a text of lines, which is read, and replaced by the next import.

Who writes the file holds its lock (`flock`), from before it is read: of two imports into one index the second waits.
"""

# A stamp counts only beside the document that it is of: an import asks for all names and numbers of the index as it begins
# (`NOT name:! OR name:!` finds every document), and believes a stamp where name and number agree. So an index that was made
# anew, a copy, or a lost file of stamps costs time and loses nothing.
#
# A stamp says where its document was found, so that `bunco find` walks over no archive to show it, and an archive that has
# moved is one row. A piece of an mbox is a place and a length. The next run corrects it where a mail program has taken
# messages out before it; until then another text may be shown.
#
# `FORM` is part of each stamp: when an import begins to make other lines of the same document, all documents count as changed
# once. Each kind has one more of its own, so that files and packages are not brought in anew with messages.
#
# Rows are written some times a second, and at the end: a process that is killed leaves some documents without a stamp, which
# the next run stores again. The file is read by others meanwhile, so it has a journal beside it only while rows are written.
#
# The lock is that of the stamps and not of the index: behind a server two imports would give one name to two documents, and
# write each over the other's. No file is made for it, and an import that is killed leaves no lock. SQLite's own locks are of
# another kind (`fcntl`). A process loses those where it closes any handle of the file, so the handle of the lock is closed last.

import contextlib
import functools
import os
import re
import sqlite3
import threading
import time
from typing import NamedTuple, Optional

from ..beside import give_rights, is_at, lock
from ..errors import InUse
from ..texts import Regular
from .stampfile import MAGIC, has_none_in_parts, number_to_note

NAME_LIMIT = 64
STEM_LIMIT = 58  # characters of a name before the end of a part, as `~p2`
FRONT_LIMIT = 56  # characters with which all names of documents begin that want the same one
SECONDS_OF_SILENCE = 1.0  # in a wait for another import
SECONDS_BETWEEN_WRITES = 0.3
SECONDS_FOR_ROWS = 60.0  # how long rows wait for who reads the file
TABLES = """
CREATE TABLE IF NOT EXISTS sources (source TEXT PRIMARY KEY, kind TEXT NOT NULL, path TEXT NOT NULL) WITHOUT ROWID;
CREATE TABLE IF NOT EXISTS stamps (name TEXT PRIMARY KEY, numbers TEXT NOT NULL, stamp TEXT NOT NULL, source TEXT NOT NULL,
    place TEXT NOT NULL, content TEXT NOT NULL, mark TEXT NOT NULL, notes TEXT NOT NULL, moment INTEGER) WITHOUT ROWID;
CREATE INDEX IF NOT EXISTS in_parts ON stamps (name) WHERE instr(numbers, ',') > 0;
CREATE TABLE IF NOT EXISTS repeats (source TEXT, place TEXT, name TEXT NOT NULL, mark TEXT NOT NULL, PRIMARY KEY (source, place)) WITHOUT ROWID;
CREATE INDEX IF NOT EXISTS repeated ON repeats (name);
CREATE TABLE IF NOT EXISTS files (source TEXT, path TEXT, form TEXT NOT NULL, size INTEGER NOT NULL, mtime INTEGER NOT NULL,
    front INTEGER NOT NULL, digest TEXT NOT NULL, before INTEGER NOT NULL, count INTEGER NOT NULL, PRIMARY KEY (source, path)) WITHOUT ROWID;
"""
COLUMNS = "numbers, stamp, source, place, content, mark, notes"
MOMENT = "moment"  # the column behind these, which an older version had not

_NAME = "[!-~]{1,64}"
PART = "~p"  # what stands before the number in the name of a part behind the first
_PART = Regular(f"(.+){PART}([1-9][0-9]*)", re.DOTALL)
_NUMBERED = Regular(".+~([1-9][0-9]*)", re.DOTALL)
_QUOTED = Regular(rb"[^A-Za-z0-9_.~/-]")
_SPELLED = [letter if letter.isalnum() or letter in "_.~/-" else f"%{ord(letter):02X}" for letter in map(chr, range(128))]
_PLACE = Regular(r"([^@]*)(?:@([0-9]+)\+([0-9]+))?")
# The lines of an older version.
_STAMP = Regular(f"({_NAME}) ([1-9][0-9]*(?:,[1-9][0-9]*)*) ([0-9a-f]{{32}}) ([0-9a-f]{{8}})(?: (?=[!-~])([!-?A-~]*(?:@[0-9]+\\+[0-9]+)?)(?: ([0-9a-f]{{32}}))?)?".encode())
_SOURCE = Regular(b"= ([0-9a-f]{8}) ([a-z]+) ([!-~]+)")
_GONE = Regular(f"- ({_NAME})".encode())


def digest(data, size=16):
    import hashlib

    return hashlib.blake2b(data, digest_size=size).hexdigest()


# --- Names.


def name_of(wanted):
    """The wanted name where it keeps the rule on names, and else one near it, with an end that is its own."""
    if re.fullmatch(_NAME, wanted) and not _PART.fullmatch(wanted):
        return wanted
    end = "~" + digest(wanted.encode(errors="surrogatepass"), 4)
    return re.sub("[^!-~]+", "-", wanted)[: NAME_LIMIT - len(end)].strip("-") + end


def numbered(name, number):
    """The name of the document that wants this name as the first, the second, .."""
    end = f"~{number}" if number > 1 else ""
    return name[: NAME_LIMIT - len(end)] + end


def is_numbered(name, wanted):
    """Whether a name is that of the first, the second, .. document that wants this one."""
    match = _NUMBERED.fullmatch(name)
    return name == wanted or match is not None and name == numbered(wanted, int(match[1]))


def stem_of(name):
    """What the names of a document's further parts begin with: its name, or one near it that leaves room for their ends."""
    if len(name) <= STEM_LIMIT:
        return name
    end = "~" + digest(name.encode(), 4)
    return name[: STEM_LIMIT - len(end)] + end


def part_name(name, number):
    """The name of a part of a document, counted from 1: the first has the document's own."""
    return name if number == 1 else f"{stem_of(name)}{PART}{number}"


def part_of(name):
    """The stem and the number of a part behind the first, None for any other name."""
    match = _PART.fullmatch(name)
    return (match[1], int(match[2])) if match else None


# --- Stamps.


class Place(NamedTuple):
    """Where a document stands in its source: a path below it, and a piece of that file where it is not all of it."""

    path: str = ""
    begin: Optional[int] = None
    length: int = 0

    def spelled(self):
        piece = "" if self.begin is None else f"@{self.begin}+{self.length}"
        return spelled_path(self.path) + piece


def spelled_path(path):
    """A path as in URLs: what `quote` of the standard library gives, which looks at each byte where one is no letter."""
    if path.isascii():
        return path.translate(_SPELLED)
    return _QUOTED.sub(lambda byte: b"%%%02X" % ord(byte[0]), os.fsencode(path)).decode()


def place_of(text):
    """The place that is spelled so."""
    path, begin, length = _PLACE.fullmatch(text).groups()
    return Place(spoken(path), *((int(begin), int(length)) if begin else ()))


def below(top, place):
    """The path of the file in which a place of a source is."""
    return os.path.join(top, place.path) if place.path else top


class Stamp(NamedTuple):
    """Of a document: the numbers of its parts, the digest of what it was made of, its source, and its place there.

    `content` is the digest of its text, where the other one says nothing of that; empty where it is not known. `mark` is empty
    where the document has no file of its own. `moment` is when the document was written, in seconds since 1970.
    """

    numbers: tuple
    stamp: str
    source: str
    place: str = ""
    content: str = ""
    mark: str = ""
    notes: str = ""
    moment: Optional[int] = None


class Source(NamedTuple):
    """What documents came from: `kind` is the script that reads it."""

    kind: str
    path: str


class Found(NamedTuple):
    """Where a document was found: the file, the piece of it where it is not all of it, and its digest then."""

    kind: str
    path: str
    begin: Optional[int]
    length: int
    stamp: str
    notes: str = ""


class FileMark(NamedTuple):
    """By what a file of many documents is known again: its size and time, and the digest of its front, up to the last document.

    `before` is how many documents stood before that, and `documents` how many in all.
    """

    size: int
    mtime: int
    front: int
    digest: str
    before: int
    documents: int

    def has(self, found):
        """Whether the file that has this `os.stat_result` is as it was."""
        return (self.size, self.mtime) == (found.st_size, found.st_mtime_ns)


def mark_of(found):
    """By what a file of one document is known again: its size and time."""
    return f"{found.st_size} {found.st_mtime_ns}"


NOT_THERE = (None, "")  # in place of a name and a mark


class Known:
    """What of a source need not be read again; `noted` has the marks of the files that this run has read to their end.

    `places` says of each place the name of the document that was found there, and its mark.
    """

    def __init__(self, form="", places=None, marks=None):
        self.form = form
        self.places = places or {}
        self.marks = marks or {}
        self.noted = {}

    def marked(self, mark):
        """A mark as it is kept: behind the form in which an import makes its documents."""
        return f"{self.form} {mark}" if mark else ""

    def name_at(self, place, found):
        """The name of the document at a place whose file, of this `os.stat_result`, is as it was; None where it is not."""
        name, mark = self.places.get(place, NOT_THERE)
        return name if mark and mark == f"{self.form} {mark_of(found)}" else None

    def file(self, path):
        """The mark of a file of many documents, None where it was not read to its end in this form."""
        return self.marks.get(path)

    @functools.cached_property
    def _pieces(self):
        found = {}
        for place, (name, _) in self.places.items():
            path, begin, _ = place_of(place)
            if begin is not None:
                found.setdefault(path, []).append((begin, place, name))
        return found

    def pieces(self, path):
        """Of each document in a file where it begins, its place and its name, in their order."""
        return sorted(self._pieces.get(path, ()))

    def note(self, path, mark):
        self.noted[path] = mark


class Records:
    """What the stamps beside an index say; `sources` are the sources by their digests.

    Raises `OSError` where the file cannot be read.
    """

    def __init__(self, path):
        self.path = path
        self._turn = threading.RLock()
        with self._said():
            self.base = self._opened(path)
            self.columns = f"{COLUMNS}, {MOMENT if has_moments(self.base) else 'NULL'}"
            self.sources = {source: Source(kind, spoken(at)) for source, kind, at in self.base.execute("SELECT * FROM sources")}

    def _opened(self, path):
        try:
            with open(path, "rb") as file:
                is_base = file.read(len(MAGIC)) == MAGIC
        except FileNotFoundError:
            is_base = None
        if is_base:
            return sqlite3.connect(f"file:{spelled_path(path)}?mode=ro", uri=True, timeout=SECONDS_FOR_ROWS, check_same_thread=False)
        base = sqlite3.connect(":memory:", check_same_thread=False)
        base.executescript(TABLES)
        if is_base is False:
            take_lines(base, path)
        return base

    def __del__(self):
        if hasattr(self, "base"):
            self.base.close()

    @contextlib.contextmanager
    def _said(self):
        """Lets one thread ask at a time, and says what SQLite says as an `OSError`."""
        try:
            with self._turn:
                yield
        except sqlite3.Error as error:
            raise OSError(f"the stamps {self.path} can't be read: {error}; without them the next import brings in everything again") from None

    @functools.cached_property
    def of(self):
        """Of each name its stamp."""
        with self._said():
            return {name: stamp_of(row) for name, *row in self.base.execute(f"SELECT name, {self.columns} FROM stamps")}

    def stamp(self, name):
        """The stamp of a name, None where it has none; without the others being read."""
        with self._said():
            row = self.base.execute(f"SELECT {self.columns} FROM stamps WHERE name = ?", (name,)).fetchone()
        return row and stamp_of(row)

    def found(self, name, moved=None):
        """Where the document of this name was found, or None; `moved` is the path of its source today."""
        stamp = self.stamp(name)
        source = self.sources.get(stamp.source) if stamp else None
        if source is None or not stamp.place:
            return None
        place = place_of(stamp.place)
        return Found(source.kind, below(moved or source.path, place), place.begin, place.length, stamp.stamp, stamp.notes)

    def in_parts(self):
        """The names of the documents that are stored in parts."""
        with self._said():
            return [name for name, in self.base.execute("SELECT name FROM stamps WHERE instr(numbers, ',') > 0")]

    def name_of_number(self, number):
        """The name of the document that has this number, or a part with it; None where none has."""
        with self._said():
            row = self.base.execute("SELECT name FROM stamps WHERE instr(',' || numbers || ',', ?) > 0", (f",{number},",)).fetchone()
        return row and row[0]

    def archive(self, stamp):
        """The path of what a document came from, None where it is not known: a file or folder that was brought in."""
        source = self.sources.get(stamp.source)
        if source is None or os.path.isabs(source.path):
            return source and source.path
        # One source of many files, each of which was brought in alone.
        return below(source.path, place_of(stamp.place))

    def repeats(self, sources):
        """Where else documents of these sources stand: of each place the name and the mark."""
        rows = self.base.execute("SELECT source, place, name, mark FROM repeats")
        return [(place, name, mark) for source, place, name, mark in rows if source in sources]

    def elsewhere(self, name):
        """Where else a document stands: the source, the place in it, and the mark."""
        with self._said():
            rows = self.base.execute("SELECT source, place, mark FROM repeats WHERE name = ?", (name,)).fetchall()
        return [row for row in rows if row[0] in self.sources]

    def marks(self, sources, form):
        """The marks of the files of these sources that were read to their end in this form."""
        rows = self.base.execute("SELECT source, path, size, mtime, front, digest, before, count FROM files WHERE form = ?", (form,))
        return {spoken(path): FileMark(*mark) for source, path, *mark in rows if source in sources}

    def copy(self, path):
        """Writes the stamps to a new file, to the disk."""
        with self._said(), contextlib.closing(sqlite3.connect(path)) as target:
            self.base.backup(target)
            # The copy counts its changes anew.
            target.execute("PRAGMA user_version = 0")


class Stamps(Records):
    """The stamps beside an index, to be added to, locked until they are closed.

    Where another import has them, `patience` says how many seconds to wait before `InUse`, and `on_wait` is called once, with
    the reason, when that takes more than a moment. `fault` says why they can't be written, from then on: what is stored without
    a stamp is added again by the next run.
    """

    def __init__(self, path, patience=10.0, on_wait=lambda why: None):
        self.file = locked_file(path, patience, on_wait)
        self.fault = None
        self.waiting = []  # of (statement, row)
        self.written = time.monotonic()
        super().__init__(path)

    def _opened(self, path):
        if os.path.getsize(path) and not self._is_base():
            self._take_over(path)
        base = sqlite3.connect(path, isolation_level=None, timeout=SECONDS_FOR_ROWS)
        base.execute("PRAGMA synchronous = NORMAL")
        base.executescript(TABLES)
        if not has_moments(base):
            base.execute(f"ALTER TABLE stamps ADD COLUMN {MOMENT} INTEGER")
        return base

    def _is_base(self):
        return os.pread(self.file, len(MAGIC), 0) == MAGIC

    def _take_over(self, path):
        """Puts a database in the place of an older version's lines, locked before it has that name."""
        fresh = f"{path}.new"
        with contextlib.suppress(FileNotFoundError):
            os.remove(fresh)
        make_alike(fresh, os.fstat(self.file))
        with contextlib.closing(super()._opened(path)) as lines, contextlib.closing(sqlite3.connect(fresh)) as base:
            lines.backup(base)
        before, self.file = self.file, locked_file(fresh)
        os.replace(fresh, path)
        os.close(before)

    def source(self, kind, path):
        """Notes a source, and answers its digest, which no other one has."""
        wanted = Source(kind, path)
        known = digest(path.encode(errors="surrogatepass"), 4)
        while self.sources.get(known, wanted) != wanted:
            known = digest(f"{known} {kind} {path}".encode(errors="surrogatepass"), 4)
        if known not in self.sources:
            self.sources[known] = wanted
            self._write("INSERT INTO sources VALUES (?, ?, ?)", [(known, kind, spelled_path(path))])
        return known

    def put(self, stamps):
        """Writes the stamps of some names."""
        self.of.update(stamps)
        self._write("INSERT OR REPLACE INTO stamps VALUES (?, ?, ?, ?, ?, ?, ?, ?, ?)", [(name, *row_of(stamp)) for name, stamp in stamps.items()])

    def put_repeat(self, source, place, name, mark):
        """Writes where else a document stands."""
        self._write("INSERT OR REPLACE INTO repeats VALUES (?, ?, ?, ?)", [(source, place, name, mark)])

    def drop_repeats(self, source, places):
        """Writes that no other document stands at these places any more."""
        self._write("DELETE FROM repeats WHERE source = ? AND place = ?", [(source, place) for place in places])

    def put_marks(self, source, form, marks):
        """Writes the marks of files that were read to their end."""
        rows = [(source, spelled_path(path), form, *mark) for path, mark in marks.items()]
        self._write("INSERT OR REPLACE INTO files VALUES (?, ?, ?, ?, ?, ?, ?, ?, ?)", rows)

    def drop(self, names):
        """Writes that these names are gone."""
        for name in names:
            del self.of[name]
        self._write("DELETE FROM stamps WHERE name = ?", [(name,) for name in names])

    def _write(self, statement, rows):
        self.waiting += [(statement, row) for row in rows]
        if time.monotonic() - self.written > SECONDS_BETWEEN_WRITES:
            self.flush()

    def flush(self):
        """Writes what waits."""
        rows, self.waiting = self.waiting, []
        try:
            if rows and self.fault is None:
                self.base.execute("BEGIN IMMEDIATE")
                for statement, row in rows:
                    self.base.execute(statement, row)
                self.base.execute("COMMIT")
        except sqlite3.Error as error:
            self.fault = f"the stamps could not be written to {self.path}: {error}"
            with contextlib.suppress(sqlite3.Error):
                self.base.execute("ROLLBACK")
        self.written = time.monotonic()

    def _note_parts(self):
        """Notes in the first bytes of the file that no document is in parts, where that is so and not noted yet."""
        with contextlib.suppress(sqlite3.Error, OSError):
            if self.fault is None and not has_none_in_parts(self.path) and not self.in_parts():
                self.base.execute(f"PRAGMA user_version = {number_to_note(self.path)}")

    def close(self):
        self.flush()
        self._note_parts()
        self.base.close()
        os.close(self.file)


def has_moments(base):
    return any(name == MOMENT for _, name, *_ in base.execute("PRAGMA table_info(stamps)"))


def stamp_of(row):
    numbers, *rest = row
    return Stamp._make((tuple(map(int, numbers.split(","))) if "," in numbers else (int(numbers),), *rest))


def row_of(stamp):
    return (",".join(map(str, stamp.numbers)), *stamp[1:-2], stamp.notes.encode(errors="replace").decode(), stamp.moment)


def spoken(path):
    """The path that is spelled as in URLs."""
    from urllib.parse import unquote_to_bytes

    return os.fsdecode(unquote_to_bytes(path))


def take_lines(base, path):
    """Takes the lines of an older version: of a name or a source the last counts, and one that a stop has torn is passed over."""
    with open(path, "rb") as file:
        lines = file.read().split(b"\n")[:-1]
    stamps = {}
    for line in lines:
        match = _STAMP.fullmatch(line)
        if match:
            name, *rest = (part.decode() if part else "" for part in match.groups())
            stamps[name] = (*rest, "", "", None)
        elif _SOURCE.fullmatch(line):
            base.execute("INSERT OR REPLACE INTO sources VALUES (?, ?, ?)", line[2:].decode().split(" "))
        elif _GONE.fullmatch(line):
            stamps.pop(line[2:].decode(), None)
    base.executemany("INSERT INTO stamps VALUES (?, ?, ?, ?, ?, ?, ?, ?, ?)", ((name, *row) for name, row in stamps.items()))
    base.commit()


def locked_file(path, patience=0.0, on_wait=lambda why: None):
    """The handle of a file of stamps, made where there is none, which is written at its end and locked until it is closed.

    Waits for who has it, as `Stamps` says.
    """
    why = "another import into it is at work"
    begun = time.monotonic()
    is_said = False
    while True:
        handle = os.open(path, os.O_RDWR | os.O_CREAT, 0o666)
        # Who had it before may have written it anew.
        if lock(handle) and is_at(handle, path):
            return handle
        os.close(handle)
        waited = time.monotonic() - begun
        # What is told hangs on the patience alone, and not on how long a look takes.
        if min(waited, patience) >= SECONDS_OF_SILENCE and not is_said:
            is_said = True
            on_wait(why)
        if waited >= patience:
            raise InUse(why)
        time.sleep(0.05)


def make_alike(path, like):
    """Makes an empty file with the rights of another one, before anything is in it."""
    os.close(os.open(path, os.O_WRONLY | os.O_CREAT | os.O_EXCL, 0o600))
    give_rights(path, like)
